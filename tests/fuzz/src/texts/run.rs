//! The loop over random texts, and one call again.
use super::call::TextCall;
use super::judge::TextJudge;
use super::{show, shrink};
use crate::judge::Input;
use crate::make::texts::{self, TextMaker};
use crate::make::{lengths, strict_setting};
use crate::rng::Rng;
use crate::run::{Plan, chosen};
use crate::tally::Tally;
use dt_parser_layout::{ACCEPTED, SETTING_OLD};

/// True if no call differed. The first difference is made small and printed.
pub fn run(plan: &Plan) -> bool {
    println!("seed {}, {} texts from number {}", plan.seed, plan.cases, plan.first);
    let (mut maker, mut judge) = (TextMaker::new(), TextJudge::default());
    let mut tally = Tally::new("texts", texts::ways().collect());
    let mut call = TextCall::default();
    for i in plan.first..plan.first + plan.cases {
        let mut r = Rng::of_case(plan.seed, i);
        let way = maker.call(&mut r, &mut call.entry, &mut call.bytes);
        let also = plan.unchanged > 0 && i % plan.unchanged == 0;
        call.setting = SETTING_OLD;
        let good = judge.input(&call, also).is_ok_and(|unchanged| {
            tally.case(way, &judge.of_tokens, unchanged, judge.repeats());
            [SETTING_OLD, strict_setting(&mut r)].into_iter().all(|setting| {
                call.setting = setting;
                one(&mut r, &mut judge, &mut tally, &mut call)
            })
        });
        if !good {
            return differs(plan, i, &mut judge, call);
        }
        tally.progress(plan.cases)
    }
    tally.write();
    println!("{} texts, no difference", plan.cases);
    true
}

/// The call in its setting, over buffers that are drawn for it.
fn one(r: &mut Rng, judge: &mut TextJudge, tally: &mut Tally, call: &mut TextCall) -> bool {
    lend(r, judge, call);
    let verdict = judge.call(call, r.next() as u32);
    judge.of_tokens.setting = call.setting;
    let labels = if judge.is_parsed() { judge.parse.broken.len() } else { 0 };
    tally.call(&judge.of_tokens, verdict.expected.answer, labels);
    if verdict.expected.answer.number == ACCEPTED {
        tally.seen.add(judge.parse.rows(call.setting))
    }
    verdict.wrong.is_none()
}

/// Draws the lengths of all buffers.
pub fn lend(r: &mut Rng, judge: &mut TextJudge, call: &mut TextCall) {
    call.room = lengths::room(r, judge.token_numbers());
    judge.of_tokens.setting = call.setting;
    call.lengths =
        if judge.is_parsed() { chosen(r, &judge.parse, Input::Parsed, &judge.of_tokens) } else { lengths::small(r) }
}

fn differs(plan: &Plan, number: u64, judge: &mut TextJudge, call: TextCall) -> bool {
    println!("text {number} of seed {} differs ({} bytes)", plan.seed, call.bytes.len());
    let small = shrink::shrink(judge, call);
    show::both(judge, &small);
    println!("\nto repeat it:\n    tests/fuzz/run.sh repeat {}", crate::show::quoted(&show::line(&small)));
    println!("the text as it was drawn:\n    tests/fuzz/run.sh text --seed {} --first {number} --cases 1", plan.seed);
    false
}

/// A call of a line; none if it is not one over a text.
pub fn repeat(line: &str) -> Option<bool> {
    let call = TextCall::read(line)?;
    Some(show::both(&mut TextJudge::default(), &call))
}
