//! What is said of bad rows, and which answers the rows contradict; tests/rows.rs has what the library answers.

use super::*;
use crate::LexError;

/// What a refusal of these rows over so many bytes comes to.
fn read(number: u32, place: usize, bytes: usize, numbers: &[u32]) -> Option<RowErrorKind> {
    let refusal = Refusal::from_number(number, place).unwrap();
    let read = RowError::read(refusal, bytes, numbers);
    if let Some(error) = read {
        assert_eq!((error.refusal(), error.row()), (refusal, place));
    }
    read.map(|error| error.kind())
}

fn said(number: u32, place: usize, bytes: usize, numbers: &[u32]) -> String {
    let refusal = Refusal::from_number(number, place).unwrap();
    RowError::read(refusal, bytes, numbers).unwrap().to_string()
}

#[test]
fn the_numbers_in_question_are_read_off_the_rows() {
    assert_eq!(read(3, 1, 1, &[99, 0, 27]), Some(RowErrorKind::OddCount { numbers: 3 }));
    assert_eq!(read(11, 1, 2, &[27, 1, 26, 1]), Some(RowErrorKind::BadKind { kind: 26 }));
    assert_eq!(read(12, 1, 2, &[27, 2, 27, 0]), Some(RowErrorKind::ZeroLength));
    let past = RowErrorKind::PastInput { start: 1, length: 2, bytes: 2 };
    assert_eq!(read(13, 1, 2, &[27, 1, 27, 2]), Some(past));
    assert_eq!(read(13, 1, 2, &[27, 1]), Some(RowErrorKind::ShortTotal { covered: 1, bytes: 2 }));
    assert_eq!(read(13, 0, 1, &[]), Some(RowErrorKind::ShortTotal { covered: 0, bytes: 1 }));
}

#[test]
fn sums_are_exact() {
    let numbers = [27, 1, 27, u32::MAX, 27, 2];
    let past = RowErrorKind::PastInput { start: 1, length: u32::MAX, bytes: 2 };
    assert_eq!(read(13, 1, 2, &numbers), Some(past));
    // in 32 bits the third token would end at byte 2, and the total would be the input
    assert_eq!(read(13, 2, 2, &numbers), None);
    assert_eq!(read(13, 3, 2, &numbers), None);
    let (many, bytes) = ([27, u32::MAX].repeat(9), 9 * u32::MAX as usize + 1);
    let short = RowErrorKind::ShortTotal { covered: bytes - 1, bytes };
    assert_eq!(read(13, 9, bytes, &many), Some(short));
    let past = RowErrorKind::PastInput { start: bytes - 1 - u32::MAX as usize, length: u32::MAX, bytes: bytes - 2 };
    assert_eq!(read(13, 8, bytes - 2, &many), Some(past));
}

#[test]
fn an_answer_that_the_rows_contradict_is_noticed() {
    let good = [27, 1, 29, 1];
    for (number, place, bytes) in [(11, 0, 2), (12, 1, 2), (13, 0, 2), (13, 1, 2), (13, 2, 2)] {
        assert_eq!(read(number, place, bytes, &good), None, "{number} at {place}");
    }
    // a row that is not there
    for (number, place) in [(11, 2), (12, 2), (13, 3), (13, usize::MAX)] {
        assert_eq!(read(number, place, 9, &good), None, "{number} at {place}");
    }
    // an even count, and another place than that of the last row
    assert_eq!(read(3, 2, 2, &good), None);
    assert_eq!(read(3, 0, 2, &[27, 1, 29]), None);
    assert_eq!(read(3, 2, 2, &[27, 1, 29]), None);
    // a total that is not short, and one that is too long
    assert_eq!(read(13, 2, 1, &good), None);
    // a row before it ends past the input already
    assert_eq!(read(13, 1, 0, &good), None);
    // other causes
    for number in [1, 2, 4, 5, 6, 7, 8, 9, 10] {
        assert_eq!(read(number, 0, 1, &good), None, "{number}");
    }
}

#[test]
fn each_cause_has_a_text() {
    assert_eq!(
        said(3, 1, 1, &[99, 0, 27]),
        "refusal 3: row 1, counted from 0, has a kind and no length: the count of numbers, 3, is odd; \
         a row is two numbers, a kind and a length"
    );
    assert_eq!(
        said(11, 4, 5, &[27, 1, 27, 1, 27, 1, 27, 1, 26, 1]),
        "refusal 11: row 4, counted from 0, has kind 26 (Name), which only the parser makes; \
         a row's kind is 0 to 24, 27 to 60 or 64 to 74"
    );
    assert!(said(11, 0, 1, &[25, 1]).contains(" has kind 25 (Unrecognized), which only the parser makes; "));
    assert!(said(11, 0, 1, &[63, 1]).contains(" has kind 63, which no token has; "));
    assert_eq!(
        said(12, 1, 1, &[27, 1, 29, 0]),
        "refusal 12: row 1, counted from 0, has length 0; a row's length is at least 1"
    );
    assert_eq!(
        said(13, 1, 3, &[27, 1, 27, u32::MAX]),
        "refusal 13: row 1, counted from 0, starts at byte 1 and has length 4294967295, and the input has 3 bytes; \
         its length is at most 2"
    );
    assert_eq!(
        said(13, 1, 1, &[27, 1, 27, 1]),
        "refusal 13: row 1, counted from 0, starts at byte 1 and has length 1, and the input has 1 byte; \
         no row may follow those before it, which are the whole input"
    );
    assert_eq!(
        said(13, 1, 3, &[27, 1]),
        "refusal 13: the total is short: the lengths of 1 row add up to 1, and the input has 3 bytes; \
         all rows together are the whole input"
    );
}

#[test]
fn the_kinds_of_a_row_are_those_that_are_listed() {
    let numbers = TokenKind::ALL.iter().filter(|kind| kind.is_input()).map(|kind| kind.number());
    let errors = LexError::ALL.iter().map(|error| error.number());
    let listed = (0..=24).chain(27..=60).chain(64..=74);
    assert!(numbers.chain(errors).eq(listed));
    assert_eq!(KINDS, "0 to 24, 27 to 60 or 64 to 74");
    for kind in (0..200).chain([u32::MAX]) {
        let is_listed = matches!(kind, 0..=24 | 27..=60 | 64..=74);
        assert_eq!(Token::from_row(TokenRow { kind, length: 1 }).is_some(), is_listed, "{kind}");
    }
}
