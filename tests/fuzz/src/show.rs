//! Both answers to a call, for a reader.
use crate::buffers::Held;
use crate::call::Call;
use crate::judge::{Judge, Wrong};
use dt_parser_ffi::Answer;
use dt_parser_layout::{BUFFERS, EVENTS, POOL, ROW};

const NAMES: [&str; BUFFERS] = ["events", "tree", "lexical errors", "reports", "pool"];
/// A line of the pool has so many numbers.
const POOL_LINE: usize = 16;

pub fn quoted(line: &str) -> String {
    format!("'{}'", line.replace('\'', r"'\''"))
}

pub fn answer(a: &Answer) -> String {
    let Answer { number, place, tree_count, error_count, report_count, expectation_count } = a;
    format!(
        "number {number}, place {place}, tree rows {tree_count}, lexical errors {error_count}, \
         reports {report_count}, expectations {expectation_count}"
    )
}

/// A buffer's numbers, so many on a line.
pub fn numbers(name: &str, all: &[u32], size: usize) {
    println!("  {name}: {} numbers", all.len());
    for (row, r) in all.chunks(size).enumerate() {
        let line: Vec<_> = r.iter().map(u32::to_string).collect();
        println!("    {row}: {}", line.join(" "))
    }
}

pub fn rows(i: usize, all: &[u32]) {
    numbers(NAMES[i], all, if i == POOL { POOL_LINE } else { ROW[i] })
}

pub fn expected_buffer(judge: &Judge, setting: u32, expected: Answer, i: usize) {
    match judge.held(setting, expected) {
        Held::AsItWas => println!("  {}: as it was", NAMES[i]),
        Held::Rows(all) if i != EVENTS => rows(i, &all[i]),
        _ => println!("  {}: all zero", NAMES[i]),
    }
}

/// Both answers, and what differs. None: the buffers are to follow; else whether the two are the same.
pub fn answers(wrong: &Option<Wrong>, expected: &str, given: &str) -> Option<bool> {
    let Some(wrong) = wrong else {
        println!("both: {given}");
        return Some(true);
    };
    if let Some(said) = wrong.before_call() {
        println!("{said}");
        return Some(false);
    }
    println!("expected: {expected}\nlibrary:  {given}");
    let differs = |name: &str| println!("the buffer that differs, or a number around it: {name}");
    match wrong {
        Wrong::Buffer(i) => differs(NAMES[*i]),
        Wrong::Tokens => differs("tokens"),
        Wrong::List => differs("list"),
        Wrong::Input => println!("the library wrote to its input"),
        Wrong::Parents(what) => println!("the tree rows are not as request 7/14 has them: {what}"),
        _ => {}
    }
    None
}

/// True if the two are the same.
pub fn both(judge: &mut Judge, call: &Call) -> bool {
    println!("call: {}", call.line());
    let v = judge.whole(call, true);
    if let Some(same) = answers(&v.wrong, &answer(&v.expected), &answer(&v.given)) {
        return same;
    }
    println!("expected buffers:");
    (0..BUFFERS).for_each(|i| expected_buffer(judge, call.setting, v.expected, i));
    println!("the library's buffers, whole:");
    (0..BUFFERS).for_each(|i| rows(i, judge.buffers.get(i)));
    false
}
