//! For valgrind: calls with texts, allocated for themselves too, over exact, unwritten buffers.
use super::call::TextCall;
use super::judge::TextJudge;
use super::run::lend;
use crate::judge::is_early;
use crate::make::strict_setting;
use crate::make::texts::TextMaker;
use crate::rng::Rng;
use crate::strict::is_strict;
use crate::unwritten::Unwritten;
use dt_parser_ffi as ffi;
use dt_parser_layout::{ACCEPTED, ANSWERS, SETTING_OLD};

/// True if each answer and each written buffer was right; valgrind says whether memory was used rightly.
pub fn run(seed: u64, cases: u64) -> bool {
    let (mut maker, mut judge, mut call) = (TextMaker::new(), TextJudge::default(), TextCall::default());
    let mut by_number = [[0u64; ANSWERS]; 2];
    for i in 0..cases {
        let mut r = Rng::of_case(seed, i);
        maker.call(&mut r, &mut call.entry, &mut call.bytes);
        let Ok(_) = judge.input(&call, false) else { return wrong(&call) };
        for setting in [SETTING_OLD, strict_setting(&mut r)] {
            call.setting = setting;
            lend(&mut r, &mut judge, &mut call);
            by_number[is_strict(setting) as usize][judge.expected(&call).answer.number as usize] += 1;
            if !one(&mut judge, &call) {
                return wrong(&call);
            }
        }
    }
    let [old, strict] = by_number;
    println!("{cases} texts over exact, unwritten buffers, each in both settings; none wrong");
    println!("by number, old setting {old:?}, strict {strict:?}");
    true
}

fn wrong(call: &TextCall) -> bool {
    println!("wrong: {}", call.line());
    false
}

fn one(judge: &mut TextJudge, call: &TextCall) -> bool {
    let expected = judge.expected(call);
    let bytes = call.bytes.clone().into_boxed_slice();
    let (mut tokens, mut store) = (Unwritten::new(call.room), call.lengths.map(Unwritten::new));
    let lent = store.each_mut().map(Unwritten::lend);
    // Safety: six allocations of those lengths
    let given = unsafe { ffi::parse_text_lent(call.entry, call.setting, &bytes, tokens.lend(), lent) };
    if given != expected {
        return false;
    }
    if is_early(given.answer.number) {
        return true; // every buffer as it was: not written
    }
    let accepted = given.answer.number == ACCEPTED;
    // Safety: the call writes every number of each buffer
    let holds = |buffer: &mut Unwritten, rows: &[u32]| unsafe { buffer.holds(if accepted { rows } else { &[] }) };
    let parsed = judge.parse.rows(call.setting);
    holds(&mut tokens, &judge.of_tokens.tokens)
        && store.iter_mut().zip(parsed).all(|(buffer, rows)| holds(buffer, rows))
}
