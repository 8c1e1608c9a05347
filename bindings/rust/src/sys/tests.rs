//! The call with a text in token buffers of every length, and what each buffer holds after it and after refused rows.
//! Queries are in tests/queries.rs, tree rows with their parents in tests/parents.rs.

mod parents;
mod queries;

use super::*;

/// What a buffer holds before a call. No row has it.
const LENT: u32 = 4_042_322_160;

const SOURCE_FILE: u32 = 1;
const CELLS: u32 = 4;
const OLD: u32 = 0;

/// Room for each of the five buffers, more than any text here needs.
const ROOM: usize = 4000;

fn lent(tokens: usize, others: usize) -> Buffers {
    let other = || vec![LENT; others];
    let tokens = vec![LENT; tokens];
    let list = Vec::new();
    Buffers { tokens, events: other(), trees: other(), errors: other(), reports: other(), pool: other(), list }
}

impl Buffers {
    fn all_hold(&self, number: u32) -> bool {
        let Self { tokens, events, trees, errors, reports, pool, list } = self;
        [tokens, events, trees, errors, reports, pool, list].iter().all(|buffer| buffer.iter().all(|n| *n == number))
    }
}

/// `a = 1;`: Ident, Whitespace, Equals, Whitespace, Number, Semicolon.
const TEXT: &[u8] = b"a = 1;";
const ROWS: [u32; 12] = [27, 1, 0, 1, 28, 1, 0, 1, 35, 1, 29, 1];

#[test]
fn a_token_buffer_that_just_fits_holds_the_rows() {
    let mut buffers = lent(ROWS.len(), ROOM);
    let answer = call_text(SOURCE_FILE, OLD, TEXT, &mut buffers);
    assert_eq!((answer.answer.number, answer.answer.place, answer.token_count), (0, 0, 6));
    assert_eq!(buffers.tokens, ROWS);
}

#[test]
fn a_longer_token_buffer_ends_in_zeros_also_where_its_length_is_odd() {
    for more in 1..=5 {
        let mut buffers = lent(ROWS.len() + more, ROOM);
        let answer = call_text(SOURCE_FILE, OLD, TEXT, &mut buffers);
        assert_eq!((answer.answer.number, answer.token_count), (0, 6));
        assert_eq!(buffers.tokens, [ROWS.as_slice(), &vec![0; more]].concat());
    }
}

#[test]
fn a_shorter_token_buffer_is_refused_and_nothing_is_written() {
    for length in 0..ROWS.len() {
        let mut buffers = lent(length, ROOM);
        let answer = call_text(SOURCE_FILE, OLD, TEXT, &mut buffers);
        assert_eq!((answer.answer.number, answer.answer.place, answer.token_count), (2, 0, 0));
        assert!(buffers.all_hold(LENT), "{length}");
    }
}

#[test]
fn no_token_needs_no_buffer() {
    let mut buffers = lent(0, ROOM);
    let answer = call_text(SOURCE_FILE, OLD, b"", &mut buffers);
    assert_eq!((answer.answer.number, answer.token_count, answer.answer.tree_count), (0, 0, 1));
    let mut buffers = lent(1, ROOM);
    assert_eq!(call_text(SOURCE_FILE, OLD, b"", &mut buffers).answer.number, 0);
    assert_eq!(buffers.tokens, [0]);
}

#[test]
fn refusals_before_the_parse_leave_every_buffer() {
    let long = b" ".repeat(1_048_577);
    let cases: [(u32, &[u8], u32, usize); 6] = [
        (0, TEXT, 1, 0),
        (5, b"\x80", 1, 0), // 1 before 9
        (SOURCE_FILE, &long, 2, 0),
        (SOURCE_FILE, b"a\x80", 9, 1),
        (SOURCE_FILE, b"a;#if", 10, 2),
        (SOURCE_FILE, b",,,,,,,,#if", 10, 8), // and not 2 for its token numbers, of which there would be 16 and more
    ];
    for (entry, text, number, place) in cases {
        let mut buffers = lent(9, ROOM);
        let answer = call_text(entry, OLD, text, &mut buffers);
        assert_eq!((answer.answer.number, answer.answer.place, answer.token_count), (number, place, 0), "{entry}");
        assert!(buffers.all_hold(LENT), "{number}");
    }
}

#[test]
fn refusals_of_token_rows_leave_every_buffer() {
    let cases: [(u32, &[u32], u32, usize); 9] = [
        (0, &[99, 0, 27], 1, 0),
        (SOURCE_FILE, &[99, 0, 27], 3, 1),
        (SOURCE_FILE, &[27], 3, 0),
        (SOURCE_FILE, &[27, 1, 26, 0], 11, 1),
        (SOURCE_FILE, &[27, 1, 27, 0, 26, 1], 12, 1),
        (SOURCE_FILE, &[27, 1, 27, u32::MAX, 27, 2], 13, 1),
        (SOURCE_FILE, &[27, 1], 13, 1),
        (SOURCE_FILE, &[], 13, 0),
        (SOURCE_FILE, &[29, 1, 27, 1], 4, 0),
    ];
    for (entry, rows, number, place) in cases {
        for room in [0, 1, ROOM] {
            let mut buffers = lent(9, room);
            let answer = call(entry, OLD, b"ab", rows, &mut buffers);
            assert_eq!((answer.number, answer.place), (number, place), "{rows:?}");
            assert_eq!((answer.tree_count, answer.error_count), (0, 0), "{rows:?}");
            assert_eq!((answer.report_count, answer.expectation_count), (0, 0), "{rows:?}");
            assert!(buffers.all_hold(LENT), "{rows:?}");
        }
    }
}

#[test]
fn refusals_of_the_parse_clear_every_buffer() {
    let deep = b"(".repeat(64);
    // 64 open brackets, and no room for an event
    for (entry, text, room, number) in [(CELLS, deep.as_slice(), ROOM, 5), (SOURCE_FILE, b";", 2, 6)] {
        let mut buffers = lent(201, room);
        assert_eq!(call_text(entry, OLD, text, &mut buffers).answer.number, number);
        assert!(buffers.all_hold(0), "{number}");
    }
    for (reports, trees, errors, number) in [(8, ROOM, ROOM, 7), (ROOM, 14, ROOM, 8), (ROOM, ROOM, 2, 8)] {
        let mut buffers = lent(201, ROOM);
        buffers.reports.truncate(reports);
        buffers.trees.truncate(trees);
        buffers.errors.truncate(errors);
        let answer = call_text(SOURCE_FILE, OLD, b"\\;", &mut buffers);
        assert_eq!((answer.answer.number, answer.token_count), (number, 0));
        assert!(buffers.all_hold(0), "{number}");
    }
}

#[test]
fn the_rest_is_what_the_tokens_give() {
    for text in [TEXT, b"/{a=<1 \\ (2)>;b", b"1:;", b""] {
        for setting in [0, 1, 7] {
            let mut of_text = lent(2 * text.len(), ROOM);
            let answer = call_text(SOURCE_FILE, setting, text, &mut of_text);
            let mut of_rows = lent(0, ROOM);
            let rows = &of_text.tokens[..2 * answer.token_count];
            let same = call(SOURCE_FILE, setting, text, rows, &mut of_rows);
            assert_eq!((answer.answer.number, answer.answer.tree_count), (same.number, same.tree_count));
            assert_eq!((answer.answer.error_count, answer.answer.report_count), (same.error_count, same.report_count));
            assert_eq!(answer.answer.expectation_count, same.expectation_count);
            assert_eq!(
                (of_text.trees, of_text.errors, of_text.reports),
                (of_rows.trees, of_rows.errors, of_rows.reports)
            );
            assert_eq!((of_text.pool, of_text.events), (of_rows.pool, of_rows.events));
        }
    }
}
