//! Both answers to a call over a text, for a reader.
use super::call::TextCall;
use super::judge::TextJudge;
use crate::buffers::Held;
use crate::show::{answer, answers, expected_buffer, numbers, rows};
use dt_parser_ffi::TextAnswer;
use dt_parser_layout::{BUFFERS, ROW_TOKEN};

fn text_answer(a: &TextAnswer) -> String {
    format!("{}, tokens {}", answer(&a.answer), a.token_count)
}

fn token_rows(all: &[u32]) {
    numbers("tokens", all, ROW_TOKEN)
}

/// Of a longer text nothing is printed but the answers.
const MOST: usize = 2000;

/// A call as a line, or only how long its text is.
pub fn line(call: &TextCall) -> String {
    let length = call.bytes.len();
    if length <= MOST { call.line() } else { format!("entry {}, a text of {length} bytes", call.entry) }
}

/// True if the two are the same.
pub fn both(judge: &mut TextJudge, call: &TextCall) -> bool {
    println!("call: {}", line(call));
    let v = judge.whole(call, true);
    if let Some(same) = answers(&v.wrong, &text_answer(&v.expected), &text_answer(&v.given)) {
        return same;
    }
    if call.bytes.len() > MOST {
        return false;
    }
    println!("expected buffers:");
    match judge.held_tokens(v.expected) {
        Held::AsItWas => println!("  tokens: as it was"),
        Held::Rows(all) => token_rows(all),
        Held::Zero => println!("  tokens: all zero"),
    }
    (0..BUFFERS).for_each(|i| expected_buffer(&judge.parse, call.setting, v.expected.answer, i));
    println!("the library's buffers, whole:");
    token_rows(judge.token_buffer.get());
    (0..BUFFERS).for_each(|i| rows(i, judge.parse.buffers.get(i)));
    false
}
