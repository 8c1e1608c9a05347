//! Token rows as plain numbers: what is refused, with its number, its row, what is wrong and what is said. The answers
//! follow from document 02's words: 3 right after 2; then 11, 12 and 13 at the first bad row, in this order within it;
//! 13 for a short total last; and all of these before 4.

use dt_parser::{Entrypoint, Error, Input, Parser, Refusal, RowErrorKind, Setting, Token, TokenKind};

use RowErrorKind::{BadKind, OddCount, PastInput, ShortTotal, ZeroLength};

const IDENT: u32 = 27;
const SEMICOLON: u32 = 29;
const NAME: u32 = 26;

/// Why rows over so many bytes `a` are refused.
#[track_caller]
fn refused(bytes: usize, rows: &[u32]) -> Error {
    let text = b"a".repeat(bytes);
    let error = Entrypoint::SourceFile.parse_rows(&text, rows).unwrap_err();
    for entry in Entrypoint::ALL {
        for setting in Setting::ALL {
            assert_eq!(entry.parse_rows_in(*setting, &text, rows).unwrap_err(), error, "{entry:?} {setting:?}");
        }
    }
    error
}

/// The refusal's number, the row, what is wrong with it, and what is said of it.
#[track_caller]
fn bad_rows(bytes: usize, rows: &[u32]) -> (u32, usize, RowErrorKind, String) {
    let error = refused(bytes, rows);
    let Error::BadRows(why) = error else { panic!("{error}") };
    let refusal = why.refusal();
    assert_eq!((error.refusal(), refusal.place()), (Some(refusal), why.row()));
    let said = format!("refusal {}: {}; {}", refusal.number(), why.message(), why.allowed());
    assert_eq!((error.to_string(), why.to_string()), (said.clone(), said));
    (refusal.number(), why.row(), why.kind(), why.message())
}

#[track_caller]
fn is_bad(bytes: usize, rows: &[u32], number: u32, row: usize, kind: RowErrorKind, message: &str) {
    let expected = (number, row, kind, message.to_string());
    assert_eq!(bad_rows(bytes, rows), expected, "{rows:?} over {bytes} bytes");
}

/// The same without what is said.
#[track_caller]
fn has(bytes: usize, rows: &[u32], number: u32, row: usize, kind: RowErrorKind) {
    let (n, r, k, _) = bad_rows(bytes, rows);
    assert_eq!((n, r, k), (number, row, kind), "{rows:?} over {bytes} bytes");
}

#[test]
fn each_cause_alone() {
    let odd = "row 1, counted from 0, has a kind and no length: the count of numbers, 3, is odd";
    is_bad(1, &[IDENT, 1, IDENT], 3, 1, OddCount { numbers: 3 }, odd);
    let kind = "row 1, counted from 0, has kind 26 (Name), which only the parser makes";
    is_bad(2, &[IDENT, 1, NAME, 1], 11, 1, BadKind { kind: 26 }, kind);
    is_bad(2, &[IDENT, 2, IDENT, 0], 12, 1, ZeroLength, "row 1, counted from 0, has length 0");
    let past = "row 1, counted from 0, starts at byte 1 and has length 2, and the input has 2 bytes";
    is_bad(2, &[IDENT, 1, IDENT, 2], 13, 1, PastInput { start: 1, length: 2, bytes: 2 }, past);
    let short = "the total is short: the lengths of 2 rows add up to 2, and the input has 3 bytes";
    is_bad(3, &[IDENT, 1, IDENT, 1], 13, 2, ShortTotal { covered: 2, bytes: 3 }, short);
}

#[test]
fn the_smallest_inputs() {
    has(0, &[IDENT], 3, 0, OddCount { numbers: 1 });
    has(0, &[IDENT, 1], 13, 0, PastInput { start: 0, length: 1, bytes: 0 });
    has(0, &[IDENT, 0], 12, 0, ZeroLength);
    has(1, &[], 13, 0, ShortTotal { covered: 0, bytes: 1 });
    assert!(Entrypoint::SourceFile.parse_rows(b"", &[]).is_ok());
    assert!(Entrypoint::SourceFile.parse_rows(b"a", &[IDENT, 1]).is_ok());
}

#[test]
fn every_kind_is_a_rows_or_is_refused() {
    for kind in (0..300).chain([1 << 16, 1 << 31, u32::MAX - 1, u32::MAX]) {
        let text = TokenKind::from_number(kind).and_then(TokenKind::static_text).unwrap_or("a").as_bytes();
        let rows = [kind, text.len() as u32];
        match (Entrypoint::SourceFile.parse_rows(text, &rows), matches!(kind, 0..=24 | 27..=60 | 64..=74)) {
            (Ok(read), true) => assert_eq!((read.input.rows(), read.input.text), (rows.to_vec(), text)),
            (Err(Error::BadRows(why)), false) => {
                assert_eq!((why.row(), why.kind(), why.refusal()), (0, BadKind { kind }, Refusal::BadKind(0)));
                assert_eq!(why.allowed(), "a row's kind is 0 to 24, 27 to 60 or 64 to 74");
            }
            (answer, _) => panic!("{kind}: {answer:?}"),
        }
    }
}

/// Of two causes in one row the first in the order 11, 12, 13 is given. 12 and 13 are never both in a row: a token of
/// no bytes ends where the one before it ends.
#[test]
fn two_causes_in_one_row() {
    let kind = BadKind { kind: NAME };
    has(1, &[NAME, 0, IDENT, 1], 11, 0, kind);
    has(1, &[IDENT, 1, NAME, 0], 11, 1, kind);
    has(1, &[NAME, 2], 11, 0, kind);
    has(1, &[IDENT, 1, NAME, u32::MAX], 11, 1, kind);
    has(1, &[IDENT, 1, IDENT, 0], 12, 1, ZeroLength);
}

/// Of two rows the first one is given, whatever is wrong with the other; and a short total only where no row is bad.
#[test]
fn two_causes_in_two_rows() {
    const BYTES: usize = 4;
    let rows: [(u32, u32, u32, RowErrorKind); 3] = [
        (NAME, 1, 11, BadKind { kind: NAME }),
        (IDENT, 0, 12, ZeroLength),
        (IDENT, 9, 13, PastInput { start: 1, length: 9, bytes: BYTES }),
    ];
    for (kind, length, number, what) in rows {
        for (second_kind, second_length, ..) in rows {
            // one good row, the two, and another after them
            let numbers = [IDENT, 1, kind, length, second_kind, second_length, IDENT, 1];
            has(BYTES, &numbers, number, 1, what);
        }
        // a short total alone would be at row 2; these rows are over one byte more than they cover
        has(BYTES, &[IDENT, 1, kind, length], number, 1, what);
    }
    has(BYTES, &[IDENT, 1, IDENT, 1], 13, 2, ShortTotal { covered: 2, bytes: BYTES });
}

#[test]
fn an_odd_count_comes_before_every_bad_row() {
    has(1, &[99, 0, IDENT], 3, 1, OddCount { numbers: 3 });
    for row in [[NAME, 1], [IDENT, 0], [IDENT, 9], [u32::MAX, u32::MAX]] {
        has(1, &[row[0], row[1], IDENT], 3, 1, OddCount { numbers: 3 });
        has(1, &[IDENT, 1, row[0], row[1], 0], 3, 2, OddCount { numbers: 5 });
    }
    // a total that is short, a last kind that is bad, and a text that is not there
    has(9, &[IDENT, 1, IDENT], 3, 1, OddCount { numbers: 3 });
    has(1, &[IDENT, 1, 99], 3, 1, OddCount { numbers: 3 });
    has(1, &[SEMICOLON, 1, IDENT], 3, 1, OddCount { numbers: 3 });
}

#[test]
fn sums_are_exact_beyond_32_bits() {
    const MOST: u32 = u32::MAX;
    let past = |start: usize, bytes: usize| PastInput { start, length: MOST, bytes };
    // in 32 bits the third row would end at byte 2, where the input does
    let message = "row 1, counted from 0, starts at byte 1 and has length 4294967295, and the input has 2 bytes";
    is_bad(2, &[IDENT, 1, IDENT, MOST, IDENT, 2], 13, 1, past(1, 2), message);
    // in 32 bits the second row would end at byte 0, 1 or 2
    has(1, &[IDENT, 1, IDENT, MOST], 13, 1, past(1, 1));
    has(2, &[IDENT, 2, IDENT, MOST], 13, 1, past(2, 2));
    has(3, &[IDENT, 3, IDENT, MOST], 13, 1, past(3, 3));
    has(0, &[IDENT, MOST, IDENT, 1], 13, 0, past(0, 0));
    let half = 1 << 31;
    has(4, &[IDENT, half, IDENT, half, IDENT, 4], 13, 0, PastInput { start: 0, length: half, bytes: 4 });
}

#[test]
fn a_fixed_text_is_looked_at_last() {
    let text = |rows: &[u32], bytes| refused(bytes, rows);
    // the text of row 0 is not `;`
    assert_eq!(text(&[SEMICOLON, 1], 1), Error::Refused(Refusal::BadText(0)));
    assert_eq!(text(&[IDENT, 1, SEMICOLON, 1], 2), Error::Refused(Refusal::BadText(1)));
    has(2, &[SEMICOLON, 1, NAME, 1], 11, 1, BadKind { kind: NAME });
    has(1, &[SEMICOLON, 1, IDENT, 0], 12, 1, ZeroLength);
    has(2, &[SEMICOLON, 1, IDENT, 2], 13, 1, PastInput { start: 1, length: 2, bytes: 2 });
    has(2, &[SEMICOLON, 1], 13, 1, ShortTotal { covered: 1, bytes: 2 });
}

/// Rows of one byte each, as many as a call takes.
fn most_rows() -> Vec<u32> {
    [IDENT, 1].repeat(Input::MAX_TOKENS)
}

#[test]
fn causes_at_the_most_rows() {
    const LAST: usize = Input::MAX_TOKENS - 1;
    let (most, bytes) = (most_rows(), Input::MAX_TOKENS);
    assert!(Entrypoint::ReferenceNoamp.parse_rows(&b"a".repeat(bytes), &most).is_ok());
    let with_last = |kind: u32, length: u32| [&most[..2 * LAST], &[kind, length]].concat();
    has(bytes, &with_last(NAME, 1), 11, 65_535, BadKind { kind: NAME });
    has(bytes, &with_last(IDENT, 0), 12, 65_535, ZeroLength);
    has(bytes, &with_last(IDENT, 2), 13, 65_535, PastInput { start: 65_535, length: 2, bytes });
    has(bytes + 1, &most, 13, 65_536, ShortTotal { covered: 65_536, bytes: bytes + 1 });
}

#[test]
fn an_odd_count_at_the_most_numbers() {
    let (most, bytes) = (most_rows(), Input::MAX_TOKENS);
    assert_eq!(most.len(), 131_072);
    has(bytes, &most[..131_071], 3, 65_535, OddCount { numbers: 131_071 });
    // one more number is too many, and its count is not looked at
    let over = [most.as_slice(), &[IDENT]].concat();
    assert_eq!(refused(bytes, &over), Error::Refused(Refusal::TooLong));
    assert_eq!(refused(Input::MAX_BYTES + 1, &[99, 0, IDENT]), Error::Refused(Refusal::TooLong));
    has(Input::MAX_BYTES, &[99, 0, IDENT], 3, 1, OddCount { numbers: 3 });
    has(Input::MAX_BYTES, &[IDENT, 1_048_575], 13, 1, ShortTotal { covered: 1_048_575, bytes: 1_048_576 });
    has(Input::MAX_BYTES, &[IDENT, 1_048_577], 13, 0, PastInput { start: 0, length: 1_048_577, bytes: 1_048_576 });
}

#[test]
fn typed_tokens_are_refused_alike() {
    let refused = |tokens: Vec<Token>| match Entrypoint::SourceFile.parse(&Input::new(b"a,", tokens)) {
        Err(Error::BadRows(why)) => (why.refusal(), why.kind()),
        other => panic!("{other:?}"),
    };
    let (token, ident) = (Token::new, Token::new(TokenKind::Ident, 1));
    assert_eq!(refused(vec![ident, token(TokenKind::Name, 1)]), (Refusal::BadKind(1), BadKind { kind: 26 }));
    assert_eq!(refused(vec![token(TokenKind::Unrecognized, 2)]), (Refusal::BadKind(0), BadKind { kind: 25 }));
    assert_eq!(refused(vec![ident, token(TokenKind::Comma, 0)]), (Refusal::ZeroLength(1), ZeroLength));
    let past = PastInput { start: 1, length: 2, bytes: 2 };
    assert_eq!(refused(vec![ident, token(TokenKind::Ident, 2)]), (Refusal::BadEnd(1), past));
    assert_eq!(refused(vec![ident]), (Refusal::BadEnd(1), ShortTotal { covered: 1, bytes: 2 }));
    let bad_text = Entrypoint::SourceFile.parse(&Input::new(b"a,", vec![ident, token(TokenKind::Semicolon, 1)]));
    assert_eq!(bad_text.unwrap_err(), Error::Refused(Refusal::BadText(1)));
}

/// `a = <1 2> ;` with an error token: Ident, Whitespace, Equals, Whitespace, LAngle, Number, Default error, Number, RAngle,
/// Semicolon.
#[test]
fn good_rows_are_parsed_as_their_tokens_are() {
    let text = b"a = <1\\2>;";
    let rows = [27, 1, 0, 1, 28, 1, 0, 1, 39, 1, 35, 1, 74, 1, 35, 1, 40, 1, 29, 1];
    let mut parser = Parser::new();
    for setting in Setting::ALL {
        let read = parser.parse_rows_in(*setting, Entrypoint::SourceFile, text, &rows).unwrap();
        let typed = Input::from_rows(text, &rows).unwrap();
        let parse = Parser::new().parse_in(*setting, Entrypoint::SourceFile, &typed).unwrap();
        assert_eq!((&read.input, read.input.rows().as_slice()), (&typed, rows.as_slice()));
        assert_eq!(read.parse.tree.to_string(), parse.tree.to_string());
        assert_eq!(read.parse.lexical_errors, parse.lexical_errors);
        assert_eq!(read.parse.reports, parse.reports);
        assert_eq!(read.parse.lexical_errors.len(), 1);
    }
}

#[test]
fn a_parser_is_used_again_after_bad_rows() {
    let mut parser = Parser::new();
    for _ in 0..2 {
        for rows in [[NAME, 1].as_slice(), &[IDENT, 0], &[IDENT, 2], &[], &[IDENT]] {
            assert!(matches!(parser.parse_rows(Entrypoint::Cells, b"1", rows), Err(Error::BadRows(_))), "{rows:?}");
        }
        let read = parser.parse_rows(Entrypoint::Cells, b"1", &[35, 1]).unwrap();
        assert!(read.parse.is_clean());
    }
}
