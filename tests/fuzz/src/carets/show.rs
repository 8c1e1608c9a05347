//! Both answers to a query, for a reader.
use super::call::QueryCall;
use super::judge::QueryJudge;
use crate::buffers::Held;
use crate::show::{answer, answers, expected_buffer, numbers, rows};
use dt_parser_ffi::{ListAnswer, Query};
use dt_parser_layout::BUFFERS;

/// Numbers of the list on a line.
const LINE: usize = 16;
/// Of a longer file nothing is printed but the answers.
const MOST: usize = 2000;

fn list_answer(a: &ListAnswer) -> String {
    format!("{}, listed {}", answer(&a.answer), a.list_count)
}

fn list(all: &[u32]) {
    numbers("list", all, LINE)
}

/// A call as a line, or only how long its file is.
pub fn line(call: &QueryCall) -> String {
    let length = call.parse.bytes.len();
    if length <= MOST {
        return call.line();
    }
    match call.query {
        Query::Caret(offset) => format!("at {offset}, a file of {length} bytes"),
        Query::Parts(start, end) => format!("from {start} to {end}, a file of {length} bytes"),
    }
}

/// True if the two are the same.
pub fn both(judge: &mut QueryJudge, call: &QueryCall) -> bool {
    println!("call: {}", line(call));
    let v = judge.whole(call, true);
    if let Some(same) = answers(&v.wrong, &list_answer(&v.expected.answer), &list_answer(&v.given)) {
        return same;
    }
    if call.parse.bytes.len() > MOST {
        return false;
    }
    println!("expected buffers:");
    match judge.held_list(&v.expected) {
        Held::AsItWas => println!("  list: as it was"),
        Held::Rows(all) => list(all),
        Held::Zero => println!("  list: all zero"),
    }
    let answer = v.expected.answer.answer;
    (0..BUFFERS).for_each(|i| expected_buffer(&judge.parse, call.parse.setting, answer, i));
    println!("the library's buffers, whole:");
    list(judge.list.get());
    (0..BUFFERS).for_each(|i| rows(i, judge.parse.buffers.get(i)));
    false
}
