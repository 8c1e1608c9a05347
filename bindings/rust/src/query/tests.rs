//! What comes of answers that a library could give to a query.

use super::*;
use crate::raw::Answer;
use crate::{Refusal, RowErrorKind};

const ROWS: [u32; 4] = [27, 1, 29, 1];

/// What comes of a library that always gives this answer to two tokens, with these numbers in the list, and how often
/// it is called.
fn query_by(number: u32, tree_count: usize, list_count: usize, list: &[u32]) -> (Result<Vec<usize>, Error>, usize) {
    let mut calls = 0;
    let call = |_: Query, _: u32, _: &[u8], _: &[u32], lent: &mut Buffers| {
        calls += 1;
        assert_eq!(lent.list.len(), lent.trees.len() / 5, "room for as many numbers as tree rows");
        lent.list[..list.len()].copy_from_slice(list);
        let answer = Answer { number, place: 0, tree_count, error_count: 0, report_count: 0, expectation_count: 0 };
        ListAnswer { answer, list_count }
    };
    let list = Parser::new().query_by(call, Query::Caret(0), b"a;", &ROWS);
    (list, calls)
}

#[test]
fn the_numbers_that_are_counted_are_the_list() {
    assert_eq!(query_by(0, 4, 3, &[0, 1, 3, 7]).0, Ok(vec![0, 1, 3]));
    assert_eq!(query_by(0, 4, 0, &[9]).0, Ok(vec![]));
}

#[test]
fn room_is_tried_up_to_the_limit_and_then_reported() {
    for number in 6..=8 {
        let (error, calls) = query_by(number, 0, 0, &[]);
        let refusal = Refusal::from_number(number, 0).unwrap();
        assert_eq!(error, Err(Error::LimitPassed { refusal, tokens: 2 }));
        assert!(calls < 20, "{calls}");
    }
}

#[test]
fn an_answer_that_cannot_be_is_reported() {
    for (number, trees, count, text) in [
        (0, 4, 1 << 40, "the count of row numbers of the answer is not at most what fits the lent buffer"),
        (0, 2, 3, "list number 2 of the answer is not a row of the tree"),
        (9, 0, 0, "the number of the answer is not 0 or a refusal of token rows"),
        (11, 0, 0, "the place of the answer is not that of what is refused"),
        (14, 0, 0, "the number of the answer is not 0 or a refusal from 1 to 13"),
    ] {
        let (error, calls) = query_by(number, trees, count, &[0, 1, 2]);
        assert_eq!(error.unwrap_err().to_string(), format!("{text}: the linked library is not the proved one"));
        assert_eq!(calls, 1);
    }
}

#[test]
fn refusals_of_the_input_are_reported() {
    let asked = |text: &[u8], rows: &[u32]| Parser::new().query_rows(Query::Caret(0), text, rows).unwrap_err();
    assert_eq!(asked(b"ab", &[27, 1, 29, 1]), Error::Refused(Refusal::BadText(1)));
    let Error::BadRows(why) = asked(b"a", &[27, 1, 26, 1]) else { panic!("not bad rows") };
    assert_eq!((why.row(), why.kind()), (1, RowErrorKind::BadKind { kind: 26 }));
    assert_eq!(asked(b"a", &[0, 1].repeat(65_537)), Error::Refused(Refusal::TooLong));
}
