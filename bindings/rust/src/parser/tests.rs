//! What comes of answers that a library could give.

use super::*;
use crate::{Token, TokenKind};

fn blank() -> Input<'static> {
    Input::new(b" ", vec![Token::new(TokenKind::Whitespace, 1)])
}

fn answer(number: u32, tree_count: usize) -> Answer {
    Answer { number, place: 0, tree_count, error_count: 0, report_count: 0, expectation_count: 0 }
}

/// What comes of a library that always gives this answer, and how often it is called.
fn parse_by(number: u32, tree_count: usize) -> (Error, usize) {
    let mut calls = 0;
    let call = |_: u32, _: u32, _: &[u8], _: &[u32], _: &mut Buffers| {
        calls += 1;
        answer(number, tree_count)
    };
    let error = Parser::new().parse_by(call, Setting::Strict, Entrypoint::SourceFile, &blank()).unwrap_err();
    (error, calls)
}

#[test]
fn room_is_tried_up_to_the_limit_and_then_reported() {
    for number in 6..=8 {
        let (error, calls) = parse_by(number, 0);
        let refusal = Refusal::from_number(number, 0).unwrap();
        assert_eq!(error, Error::LimitPassed { refusal, tokens: 1 });
        assert!(calls < 20, "{calls}");
        assert!(
            error
                .to_string()
                .ends_with("with room for all that 1 token can give: the linked library is not the proved one")
        );
    }
}

#[test]
fn other_refusals_are_reported_at_once() {
    for number in [1, 2, 4, 5] {
        let refusal = Refusal::from_number(number, 0).unwrap();
        assert_eq!(parse_by(number, 0), (Error::Refused(refusal), 1));
        assert_eq!((refusal.number(), refusal.place()), (number, 0));
    }
}

/// What comes of a library that always gives this answer to these rows over one byte.
fn parse_rows_by(number: u32, place: usize, rows: &[u32]) -> Result<(), Error> {
    let call = |_: u32, _: u32, _: &[u8], _: &[u32], _: &mut Buffers| Answer { place, ..answer(number, 1) };
    Parser::new().parse_rows_by(call, Setting::Old, Entrypoint::SourceFile, b"a", rows).map(|_| ())
}

#[test]
fn the_cause_of_bad_rows_is_the_answers_own() {
    // all causes are in these rows: which of them is given is the library's to say
    let rows = [99, 0, 27, 1, 29, 2, 0];
    for (number, place) in [(3, 3), (11, 0), (12, 0), (13, 2)] {
        let refusal = Refusal::from_number(number, place).unwrap();
        let error = parse_rows_by(number, place, &rows).unwrap_err();
        assert!(matches!(error, Error::BadRows(why) if why.refusal() == refusal && why.row() == place), "{error}");
        assert_eq!(error.refusal(), Some(refusal));
        assert!(error.to_string().starts_with(&format!("refusal {number}: row {place}, counted from 0, ")));
    }
}

#[test]
fn an_answer_that_the_rows_contradict_is_reported() {
    let not_the_proved_one = |number, place, rows: &[u32], text: &str| {
        let error = parse_rows_by(number, place, rows).unwrap_err();
        assert_eq!(error.to_string(), format!("{text}: the linked library is not the proved one"));
    };
    for number in [3, 11, 12, 13] {
        let text = "the place of the answer is not that of what is refused";
        not_the_proved_one(number, 0, &[27, 1], text);
        not_the_proved_one(number, 2, &[27, 1], text);
    }
    // accepted, and no tokens
    for rows in [[99, 1].as_slice(), &[27, 1, 27], &[26, 1]] {
        not_the_proved_one(0, 0, rows, "the number of the answer is not a refusal of these rows");
    }
    for number in [9, 10] {
        not_the_proved_one(number, 0, &[27, 1], "the number of the answer is not 0 or a refusal of token rows");
    }
    not_the_proved_one(14, 0, &[27, 1], "the number of the answer is not 0 or a refusal from 1 to 13");
}

#[test]
fn an_answer_that_cannot_be_is_reported() {
    let is_not = |what: &str| format!("{what}: the linked library is not the proved one");
    for (number, trees, text) in [
        (9, 0, "the number of the answer is not 0 or a refusal of token rows"),
        (10, 0, "the number of the answer is not 0 or a refusal of token rows"),
        (14, 0, "the number of the answer is not 0 or a refusal from 1 to 13"),
        // one token that is good
        (3, 0, "the place of the answer is not that of what is refused"),
        (11, 0, "the place of the answer is not that of what is refused"),
        (12, 0, "the place of the answer is not that of what is refused"),
        (13, 0, "the place of the answer is not that of what is refused"),
        (0, 0, "the tree of the answer is not one over all tokens"),
        // rows of zeros: a file without text, and another in it, which it does not count
        (0, 1, "the tree of the answer is not one over all tokens"),
        (0, 2, "tree row 0 of the answer is not a node of as many children as name it"),
        (0, 1 << 40, "the count of tree rows of the answer is not at most what fits the lent buffer"),
    ] {
        let (error, calls) = parse_by(number, trees);
        assert_eq!(error.to_string(), is_not(text));
        assert_eq!(calls, 1);
    }
}

/// What comes of a library that always gives this answer to a text of 100 bytes, and how often it is called.
fn parse_text_by(number: u32, tree_count: usize, token_count: usize) -> (Error, usize) {
    let mut calls = 0;
    let call = |_: u32, _: u32, _: &[u8], _: &mut Buffers| {
        calls += 1;
        TextAnswer { answer: answer(number, tree_count), token_count }
    };
    let text = b" ".repeat(100);
    let error = Parser::new().parse_text_by(call, Setting::Old, Entrypoint::Cells, &text).unwrap_err();
    (error, calls)
}

#[test]
fn room_for_a_text_is_tried_up_to_the_limit_and_then_reported() {
    for number in 6..=8 {
        let (error, calls) = parse_text_by(number, 0, 0);
        let refusal = Refusal::from_number(number, 0).unwrap();
        assert_eq!(error, Error::LimitPassed { refusal, tokens: 100 });
        assert!(calls < 20, "{calls}");
    }
    let (error, calls) = parse_text_by(2, 0, 0);
    assert_eq!(error, Error::Refused(Refusal::TooLong));
    assert_eq!(calls, 2, "with room for 66 tokens, and for a token a byte");
    for number in [5, 9, 10] {
        let refusal = Refusal::from_number(number, 0).unwrap();
        assert_eq!(parse_text_by(number, 0, 0), (Error::Refused(refusal), 1));
    }
}

#[test]
fn an_answer_that_a_text_cannot_have_is_reported() {
    for (number, trees, tokens, text) in [
        (1, 0, 0, "the number of the answer is not 0 or a refusal of a text"),
        (3, 0, 0, "the number of the answer is not 0 or a refusal of a text"),
        (4, 0, 0, "the number of the answer is not 0 or a refusal of a text"),
        (11, 0, 0, "the number of the answer is not 0 or a refusal of a text"),
        (12, 0, 0, "the number of the answer is not 0 or a refusal of a text"),
        (13, 0, 0, "the number of the answer is not 0 or a refusal of a text"),
        (14, 0, 0, "the number of the answer is not 0 or a refusal from 1 to 13"),
        (0, 1, 1 << 40, "the count of token rows of the answer is not at most what fits the lent buffer"),
        // rows of zeros: a blank of no bytes, and a tree without it
        (0, 1, 1, "the tree of the answer is not one over all tokens"),
    ] {
        let (error, calls) = parse_text_by(number, trees, tokens);
        assert_eq!(error.to_string(), format!("{text}: the linked library is not the proved one"));
        assert_eq!(calls, 1);
    }
}
