//! For valgrind: queries of files, allocated for themselves too, over exact, unwritten buffers.
use super::asked;
use super::call::QueryCall;
use super::judge::QueryJudge;
use crate::judge::{Input, is_early};
use crate::make::{self, Maker, lengths};
use crate::rng::Rng;
use crate::run::chosen;
use crate::strict::is_strict;
use crate::unwritten::Unwritten;
use dt_parser_ffi::{self as ffi, Query};
use dt_parser_layout::{ACCEPTED, ANSWERS, SETTING_OLD};

/// Queries of a file in each setting.
const FEW: usize = 2;

/// True if each answer and each written buffer was right; valgrind says whether memory was used rightly.
pub fn run(seed: u64, cases: u64) -> bool {
    let (mut maker, mut judge) = (Maker::new(), QueryJudge::default());
    let mut call = QueryCall::new(Query::Caret(0));
    let mut by_number = [[0u64; ANSWERS]; 2];
    for i in 0..cases {
        let mut r = Rng::of_case(seed, i);
        maker.file(&mut r, &mut call.parse);
        let Ok((input, _)) = judge.input(&call.parse, false) else { return wrong(&call) };
        for setting in [SETTING_OLD, make::strict_setting(&mut r)] {
            call.parse.setting = setting;
            for query in asked::some(&mut r, call.parse.bytes.len() as u64, FEW) {
                call.query = query;
                lend(&mut r, &judge, input, &mut call);
                let number = judge.expected(input, &call).answer.answer.number;
                by_number[is_strict(setting) as usize][number as usize] += 1;
                if !one(&judge, &call, input) {
                    return wrong(&call);
                }
            }
        }
    }
    let [old, strict] = by_number;
    println!("{cases} files over exact, unwritten buffers, {FEW} queries of each in both settings; none wrong");
    println!("by number, old setting {old:?}, strict {strict:?}");
    true
}

fn wrong(call: &QueryCall) -> bool {
    println!("wrong: {}", call.line());
    false
}

/// Draws the lengths of all buffers; in half of the draws the parse's fit.
fn lend(r: &mut Rng, judge: &QueryJudge, input: Input, call: &mut QueryCall) {
    call.room = lengths::list(r, judge.listed(call.query).len());
    call.parse.lengths = match input {
        Input::Parsed if r.p(50) => lengths::fitting(r, judge.parse.needs(call.parse.setting)),
        _ => chosen(r, &judge.parse, input, &call.parse),
    }
}

fn one(judge: &QueryJudge, call: &QueryCall, input: Input) -> bool {
    let (expected, parse) = (judge.expected(input, call), &call.parse);
    let (tokens, bytes) = (parse.tokens.clone().into_boxed_slice(), parse.bytes.clone().into_boxed_slice());
    let (mut list, mut store) = (Unwritten::new(call.room), parse.lengths.map(Unwritten::new));
    let lent = store.each_mut().map(Unwritten::lend);
    // Safety: six allocations of those lengths
    let given = unsafe { ffi::query_lent(call.query, parse.setting, &bytes, &tokens, lent, list.lend()) };
    if given != expected.answer {
        return false;
    }
    if is_early(given.answer.number) {
        return true; // every buffer as it was: not written
    }
    let accepted = given.answer.number == ACCEPTED;
    // Safety: the call writes every number of each buffer
    let holds = |buffer: &mut Unwritten, rows: &[u32]| unsafe { buffer.holds(if accepted { rows } else { &[] }) };
    let parsed = judge.parse.rows(parse.setting);
    holds(&mut list, &expected.rows) && store.iter_mut().zip(parsed).all(|(buffer, rows)| holds(buffer, rows))
}
