//! For valgrind: calls with token rows over exact, unwritten buffers.
use crate::call::Call;
use crate::judge::{Input, Judge, is_early};
use crate::make::{self, Maker};
use crate::rng::Rng;
use crate::run::chosen;
use crate::strict::is_strict;
use crate::unwritten::Unwritten;
use dt_parser_ffi as ffi;
use dt_parser_layout::{ACCEPTED, ANSWERS, SETTING_OLD};

/// True if each answer and each written buffer was right; valgrind says whether memory was used rightly.
pub fn run(seed: u64, cases: u64) -> bool {
    let (mut maker, mut judge) = (Maker::new(), Judge::default());
    let mut call = Call::default();
    let mut by_number = [[0u64; ANSWERS]; 2];
    for i in 0..cases {
        let mut r = Rng::of_case(seed, i);
        maker.call(&mut r, &mut call);
        let Ok((input, _)) = judge.input(&call, false) else { return wrong(&call) };
        for setting in [SETTING_OLD, make::strict_setting(&mut r)] {
            call.setting = setting;
            call.lengths = chosen(&mut r, &judge, input, &call);
            by_number[is_strict(setting) as usize][judge.expected(input, &call).number as usize] += 1;
            if !one(&judge, &call, input) {
                return wrong(&call);
            }
        }
    }
    let [old, strict] = by_number;
    println!("{cases} cases over exact, unwritten buffers, each in both settings; none wrong");
    println!("by number, old setting {old:?}, strict {strict:?}");
    true
}

fn wrong(call: &Call) -> bool {
    println!("wrong: {}", call.line());
    false
}

fn one(judge: &Judge, call: &Call, input: Input) -> bool {
    let expected = judge.expected(input, call);
    let (tokens, bytes) = (call.tokens.clone().into_boxed_slice(), call.bytes.clone().into_boxed_slice());
    let mut store = call.lengths.map(Unwritten::new);
    let lent = store.each_mut().map(Unwritten::lend);
    // Safety: five allocations of those lengths
    let given = unsafe { ffi::parse_lent(call.entry, call.setting, &bytes, &tokens, lent) };
    if given != expected {
        return false;
    }
    if is_early(given.number) {
        return true; // every buffer as it was: not written
    }
    store.iter_mut().zip(judge.rows(call.setting)).all(|(buffer, rows)| {
        let written = if given.number == ACCEPTED { &rows[..] } else { &[] };
        // Safety: the call writes every number of each buffer
        unsafe { buffer.holds(written) }
    })
}
