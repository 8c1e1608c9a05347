//! The loop over random calls, and one call again.
use crate::call::Call;
use crate::judge::{Input, Judge};
use crate::make::{self, Maker, lengths};
use crate::rng::Rng;
use crate::strict::is_strict;
use crate::tally::Tally;
use crate::{show, shrink};
use dt_parser_layout::{ACCEPTED, Lengths, ROW_TOKEN, SETTING_OLD};

pub struct Plan {
    pub seed: u64,
    pub cases: u64,
    /// The number of the first case.
    pub first: u64,
    /// In one of so many cases the unchanged Rust runs too; 0: never.
    pub unchanged: u64,
}

/// True if no call differed. The first difference is made small and printed.
pub fn run(plan: &Plan) -> bool {
    println!("seed {}, {} cases from number {}", plan.seed, plan.cases, plan.first);
    let (mut maker, mut judge) = (Maker::new(), Judge::default());
    let mut tally = Tally::new("cases", make::ways().collect());
    let mut call = Call::default();
    for i in plan.first..plan.first + plan.cases {
        let mut r = Rng::of_case(plan.seed, i);
        let way = maker.call(&mut r, &mut call);
        let also = plan.unchanged > 0 && i % plan.unchanged == 0;
        call.setting = SETTING_OLD;
        let good = judge.input(&call, also).is_ok_and(|(input, unchanged)| {
            tally.case(way, &call, unchanged, judge.repeats);
            [SETTING_OLD, make::strict_setting(&mut r)].into_iter().all(|setting| {
                call.setting = setting;
                one(&mut r, &mut judge, &mut tally, input, &mut call)
            })
        });
        if !good {
            return differs(plan, i, &mut judge, call);
        }
        tally.progress(plan.cases)
    }
    tally.write();
    println!("{} cases, no difference", plan.cases);
    true
}

/// The call in its setting, over buffers that are drawn for it.
fn one(r: &mut Rng, judge: &mut Judge, tally: &mut Tally, input: Input, call: &mut Call) -> bool {
    call.lengths = chosen(r, judge, input, call);
    let verdict = judge.call(call, input, r.next() as u32);
    tally.call(call, verdict.expected, judge.broken.len());
    if verdict.expected.number == ACCEPTED {
        tally.seen.add(judge.rows(call.setting))
    }
    verdict.wrong.is_none()
}

pub fn chosen(r: &mut Rng, judge: &Judge, input: Input, call: &Call) -> Lengths {
    match input {
        Input::Bad(..) => lengths::small(r),
        Input::Parsed => {
            let labels = if is_strict(call.setting) { judge.broken.len() } else { 0 };
            let needs = judge.needs(call.setting);
            if labels > 0 && r.p(40) {
                lengths::short_of_labels(r, needs, labels)
            } else {
                lengths::around(r, needs, call.tokens.len() / ROW_TOKEN)
            }
        }
    }
}

fn differs(plan: &Plan, number: u64, judge: &mut Judge, call: Call) -> bool {
    let rows = call.tokens.len() / ROW_TOKEN;
    println!("case {number} of seed {} differs ({rows} token rows)", plan.seed);
    let small = shrink::shrink(judge, call);
    show::both(judge, &small);
    println!("\nto repeat it:\n    tests/fuzz/run.sh repeat {}", show::quoted(&small.line()));
    println!("the case as it was drawn:\n    tests/fuzz/run.sh run --seed {} --first {number} --cases 1", plan.seed);
    false
}

/// None if the line is not a call over token rows.
pub fn repeat(line: &str) -> Option<bool> {
    let call = Call::read(line)?;
    Some(show::both(&mut Judge::default(), &call))
}
