//! Cases made by hand, each with the reason for its answer.
use super::*;
use dt_parser_layout::{MAX_BYTES, MAX_TOKEN_NUMBERS, MAX_TOKENS};

const BLANK: u32 = 0;
const IDENT: u32 = 27;
const SEMICOLON: u32 = 29;
/// No kind: the first number after those of tokens.
const NO_KIND: u32 = 61;
const FAR: u32 = u32::MAX;

fn given(tokens: &[u32], bytes: &str) -> Option<Refusal> {
    refusal(1, bytes.as_bytes(), tokens)
}

#[test]
fn good_rows_are_not_refused() {
    assert_eq!(given(&[], ""), None);
    assert_eq!(given(&[IDENT, 1, SEMICOLON, 1], "a;"), None);
    assert_eq!(given(&[64, 1, 74, 2], "abc"), None)
}

/// By document 01's numbers, and not by the Rust's names as in `is_input`.
#[test]
fn a_row_has_kind_0_to_24_or_27_to_60_or_64_to_74() {
    let near = (0..300).chain([65536 + IDENT, (1 << 31) + IDENT, FAR - 1, FAR]);
    for kind in near {
        let good = matches!(kind, 0..=24 | 27..=60 | 64..=74);
        // a good kind may have a fixed text, which is not there: 4
        assert_eq!(given(&[kind, 1], "\u{1}") == Some((11, 0)), !good, "{kind}")
    }
}

#[test]
fn each_cause_alone() {
    // one whole row, and a number over
    assert_eq!(given(&[IDENT, 1, IDENT], "a"), Some((3, 1)));
    // no whole row
    assert_eq!(given(&[IDENT], ""), Some((3, 0)));
    assert_eq!(given(&[IDENT, 1, NO_KIND, 1], "ab"), Some((11, 1)));
    assert_eq!(given(&[IDENT, 1, IDENT, 0, IDENT, 1], "ab"), Some((12, 1)));
    // the second token starts at 1 and ends at 3 of 2 bytes
    assert_eq!(given(&[IDENT, 1, IDENT, 2], "ab"), Some((13, 1)));
    // one of two bytes has no token: the count of rows
    assert_eq!(given(&[IDENT, 1], "ab"), Some((13, 1)));
    assert_eq!(given(&[], "a"), Some((13, 0)));
    assert_eq!(given(&[IDENT, 1, SEMICOLON, 1], "a:"), Some((4, 1)))
}

/// "tried within a row in the order given"
#[test]
fn two_causes_in_one_row() {
    // the kind before the length and before the end
    assert_eq!(given(&[NO_KIND, 0], "a"), Some((11, 0)));
    assert_eq!(given(&[NO_KIND, 2], "a"), Some((11, 0)));
    assert_eq!(given(&[IDENT, 1, NO_KIND, FAR], "a"), Some((11, 1)));
    // length 0 and an end past the input are never in the first bad row both: such a token ends where the one before it
    // does, so that row would be bad
    assert_eq!(given(&[IDENT, 1, IDENT, 0], "a"), Some((12, 1)));
    assert_eq!(given(&[IDENT, 2, IDENT, 0], "a"), Some((13, 0)));
    assert_eq!(given(&[IDENT, 0], ""), Some((12, 0)))
}

/// "at the first bad row": it decides, whatever the later ones have.
#[test]
fn causes_in_two_rows() {
    let bad = [(11, [NO_KIND, 1]), (12, [IDENT, 0]), (13, [IDENT, 9])];
    for (number, first) in bad {
        for (_, second) in bad {
            let rows = [first, second].concat();
            assert_eq!(given(&rows, "ab"), Some((number, 0)), "{rows:?}");
            let rows = [[IDENT, 1], first, [IDENT, 1], second].concat();
            assert_eq!(given(&rows, "abc"), Some((number, 1)), "{rows:?}")
        }
    }
}

/// "an odd count of numbers, now tried right after 2": whatever the rows have, and not at a bad row's place.
#[test]
fn an_odd_count_before_all_rows() {
    assert_eq!(given(&[99, 0, IDENT], "a"), Some((3, 1)));
    for row in [[NO_KIND, 1], [IDENT, 0], [IDENT, 9], [SEMICOLON, 1]] {
        let numbers = [&row[..], &[IDENT, 1], &[IDENT, 1], &[5]].concat();
        assert_eq!(given(&numbers, "abc"), Some((3, 3)), "{numbers:?}")
    }
    // and a short total
    assert_eq!(given(&[IDENT, 1, 1], "abc"), Some((3, 1)))
}

/// "or last": after all rows.
#[test]
fn a_short_total_after_all_rows() {
    assert_eq!(given(&[NO_KIND, 1], "ab"), Some((11, 0)));
    assert_eq!(given(&[IDENT, 0], "ab"), Some((12, 0)));
    assert_eq!(given(&[IDENT, 1, IDENT, 1, NO_KIND, 1], "abcde"), Some((11, 2)));
    assert_eq!(given(&[IDENT, 1, IDENT, 1, IDENT, 1], "abcde"), Some((13, 3)))
}

/// "All come before 4": also where the row with the wrong bytes is the first.
#[test]
fn all_before_wrong_bytes() {
    assert_eq!(given(&[SEMICOLON, 1, NO_KIND, 1], ",a"), Some((11, 1)));
    assert_eq!(given(&[SEMICOLON, 1, IDENT, 0], ","), Some((12, 1)));
    assert_eq!(given(&[SEMICOLON, 1, IDENT, 2], ",a"), Some((13, 1)));
    assert_eq!(given(&[SEMICOLON, 1], ",a"), Some((13, 1)));
    assert_eq!(given(&[SEMICOLON, 1, IDENT], ","), Some((3, 1)));
    assert_eq!(given(&[SEMICOLON, 1, IDENT, 1], ",a"), Some((4, 0)))
}

/// In 32 bits the first list's ends would be 1, 0 and 2: none past the input, and the total right.
#[test]
fn sums_are_exact() {
    assert_eq!(given(&[IDENT, 1, IDENT, FAR, IDENT, 2], "ab"), Some((13, 1)));
    assert_eq!(given(&[IDENT, FAR, IDENT, 3], "ab"), Some((13, 0)));
    assert_eq!(given(&[IDENT, 1, IDENT, FAR], ""), Some((13, 0)));
    assert_eq!(given(&[IDENT, 1, IDENT, FAR], "a"), Some((13, 1)));
    // the row that is past the input by its sum alone has no kind: 11
    assert_eq!(given(&[IDENT, 1, NO_KIND, FAR], "a"), Some((11, 1)));
    // lengths of a case line
    assert_eq!(bad_input(&[(IDENT, 1), (IDENT, usize::MAX), (IDENT, 1)], b"a"), Some((13, 1)))
}

/// So many numbers, over as many blanks as they have rows.
fn blanks(numbers: usize) -> (Vec<u32>, String) {
    let tokens = (0..numbers).map(|i| if i % 2 == 0 { BLANK } else { 1 }).collect();
    (tokens, " ".repeat(numbers / 2))
}

#[test]
fn cause_2_before_an_odd_count() {
    let at = |numbers: usize| {
        let (tokens, bytes) = blanks(numbers);
        given(&tokens, &bytes)
    };
    assert_eq!((MAX_TOKEN_NUMBERS, MAX_TOKENS), (131_072, 65_536));
    assert_eq!(at(131_072), None);
    // odd: the last is above the limit too
    assert_eq!(at(131_071), Some((3, 65_535)));
    assert_eq!(at(131_073), Some((2, 0)));
    assert_eq!(given(&[IDENT], &"a".repeat(MAX_BYTES)), Some((3, 0)));
    assert_eq!(given(&[IDENT], &"a".repeat(MAX_BYTES + 1)), Some((2, 0)))
}

#[test]
fn cause_2_before_bad_rows() {
    for numbers in [131_071, 131_072, 131_073, 131_074] {
        for row in [0, 65_534] {
            let (mut tokens, bytes) = blanks(numbers);
            tokens[2 * row] = NO_KIND;
            let said = [Some((3, 65_535)), Some((11, row)), Some((2, 0)), Some((2, 0))];
            assert_eq!(given(&tokens, &bytes), said[numbers - 131_071], "{numbers} numbers, row {row}")
        }
    }
    // the last of 65,536 rows
    let (mut tokens, bytes) = blanks(131_072);
    tokens[131_071] = 2;
    assert_eq!(given(&tokens, &bytes), Some((13, 65_535)))
}

#[test]
fn an_unknown_entry_before_all() {
    for entry in [0, 5, 256 + 1, FAR] {
        assert_eq!(refusal(entry, b"a", &[IDENT, 0, 1]), Some((1, 0)));
        assert_eq!(refusal(entry, b"a", &[NO_KIND, 1]), Some((1, 0)));
        assert_eq!(refusal(entry, b"a", &[IDENT, 1]), Some((1, 0)))
    }
}
