//! What request 4/14 of document 02 makes of document 01's answers. The table of document 01 has one number for "a row
//! with a bad kind, length 0 or an end past the input; odd numbers or a short total", 3, at the "first bad row, else
//! count of whole rows"; it is read here as it was before the request, apart from oracle::checks, which reads the
//! request. The two must be related as the request says: nothing else is refused, and nothing else is accepted.
use dt_parser_layout::{COL_TOKEN_KIND, COL_TOKEN_LENGTH, ENTRY_CELLS, MAX_BYTES, MAX_TOKEN_NUMBERS, ROW_TOKEN};
use dt_parser_layout::{REFUSAL_BAD_END, REFUSAL_BAD_KIND, REFUSAL_BAD_TEXT, REFUSAL_ODD_COUNT};
use dt_parser_layout::{REFUSAL_TOO_LONG, REFUSAL_UNKNOWN_ENTRY};
use oracle::checks::Refusal;
use oracle::token::fixed_text;

/// Document 01's number for all of these causes.
const BAD_ROW: u32 = 3;

/// Causes 1 to 4 by document 01's table alone.
pub fn before(entry: u32, bytes: &[u8], tokens: &[u32]) -> Option<Refusal> {
    if entry == 0 || entry > ENTRY_CELLS {
        return Some((REFUSAL_UNKNOWN_ENTRY, 0));
    }
    if bytes.len() > MAX_BYTES || tokens.len() > MAX_TOKEN_NUMBERS {
        return Some((REFUSAL_TOO_LONG, 0));
    }
    let (mut row, mut rest, mut wrong_text) = (0, bytes, None);
    for numbers in tokens.chunks_exact(ROW_TOKEN) {
        let kind = numbers[COL_TOKEN_KIND];
        let is_kind = kind < 25 || (27..61).contains(&kind) || (64..75).contains(&kind);
        let token = rest.split_at_checked(numbers[COL_TOKEN_LENGTH] as usize);
        let Some((text, after)) = token.filter(|(text, _)| is_kind && !text.is_empty()) else {
            return Some((BAD_ROW, row));
        };
        if wrong_text.is_none() && fixed_text(kind).is_some_and(|fixed| fixed.as_bytes() != text) {
            wrong_text = Some((REFUSAL_BAD_TEXT, row))
        }
        (row, rest) = (row + 1, after)
    }
    let whole = tokens.len().is_multiple_of(ROW_TOKEN) && rest.is_empty();
    if whole { wrong_text } else { Some((BAD_ROW, row)) }
}

/// An old 3 is one of 3, 11, 12 and 13: of an odd count 3, whose place is the count of whole rows and not less than it
/// was, and else another one at the same place. All other answers are as they were.
pub fn are_related(tokens: &[u32], old: Option<Refusal>, new: Option<Refusal>) -> bool {
    let (rows, over) = (tokens.len() / ROW_TOKEN, tokens.len() % ROW_TOKEN);
    match (old, new) {
        (Some((BAD_ROW, was)), Some((REFUSAL_ODD_COUNT, is))) => over == 1 && is == rows && is >= was,
        (Some((BAD_ROW, was)), Some((REFUSAL_BAD_KIND..=REFUSAL_BAD_END, is))) => over == 0 && is == was,
        (_, Some((REFUSAL_ODD_COUNT | REFUSAL_BAD_KIND..=REFUSAL_BAD_END, _))) => false,
        _ => old == new,
    }
}

#[cfg(test)]
mod tests {
    use super::*;
    use oracle::checks::refusal;

    /// Token numbers over so many bytes: document 01's answer, and the request's.
    #[test]
    fn answers_before_and_now() {
        let cases: [(&[u32], &[u8], Refusal, Refusal); 8] = [
            (&[99, 0, 27], b"a", (3, 0), (3, 1)),
            (&[27, 1, 27], b"a", (3, 1), (3, 1)),
            (&[27, 1, 61, 0], b"a", (3, 1), (11, 1)),
            (&[27, 0], b"a", (3, 0), (12, 0)),
            (&[27, 1, 27, u32::MAX, 27, 2], b"ab", (3, 1), (13, 1)),
            (&[27, 1], b"ab", (3, 1), (13, 1)),
            (&[29, 1, 61, 1], b",a", (3, 1), (11, 1)),
            (&[27, 1, 29, 1], b"a:", (4, 1), (4, 1)),
        ];
        for (tokens, bytes, old, new) in cases {
            assert_eq!(before(1, bytes, tokens), Some(old), "{tokens:?}");
            assert_eq!(refusal(1, bytes, tokens), Some(new), "{tokens:?}");
            assert!(are_related(tokens, Some(old), Some(new)), "{tokens:?}")
        }
    }

    /// Answers that the request does not allow beside document 01's.
    #[test]
    fn what_is_not_related() {
        let (rows, odd): (&[u32], &[u32]) = (&[27, 1, 61, 1], &[27, 1, 61, 1, 27]);
        let wrong = [
            (rows, Some((3, 1)), Some((3, 1))),
            (rows, Some((3, 1)), Some((11, 0))),
            (rows, Some((3, 1)), Some((4, 1))),
            (rows, Some((3, 1)), None),
            (rows, None, Some((11, 1))),
            (rows, Some((4, 1)), Some((13, 1))),
            (rows, Some((4, 1)), Some((4, 0))),
            (odd, Some((3, 1)), Some((11, 1))),
            (odd, Some((3, 1)), Some((3, 1))),
            (odd, Some((3, 3)), Some((3, 2))),
            (odd, Some((2, 0)), Some((3, 2))),
        ];
        for (tokens, old, new) in wrong {
            assert!(!are_related(tokens, old, new), "{old:?} {new:?}")
        }
        assert!(are_related(odd, Some((3, 1)), Some((3, 2))))
    }
}
