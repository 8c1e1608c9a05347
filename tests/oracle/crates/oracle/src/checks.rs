//! What a call over token rows is refused for before its parse, as a plain reading of two documents: causes 1, 2 and 4
//! off document 01's table, and what stands between 2 and 4 off document 02's request 4/14. Only the kinds' numbers and
//! fixed texts are taken from the Rust.
//!
//! The request: "Refusal 3 .. remains for an odd count of numbers, now tried right after 2. Every other cause gets its
//! own number at the first bad row, tried within a row in the order given. Errors: 11, bad kind; 12, length 0; 13, a
//! token ends past the input, or last, with the count of rows as place, the total is short. All come before 4."
use crate::token::{TokenKind, fixed_text};
use dt_parser_layout::{self as layout, COL_TOKEN_KIND, COL_TOKEN_LENGTH, ROW_TOKEN};

#[cfg(test)]
mod tests;

/// Number and place.
pub type Refusal = (u32, usize);

/// The first cause that a call meets before its parse.
pub fn refusal(entry: u32, bytes: &[u8], tokens: &[u32]) -> Option<Refusal> {
    if !(layout::ENTRY_SOURCE_FILE..=layout::ENTRY_CELLS).contains(&entry) {
        return Some((layout::REFUSAL_UNKNOWN_ENTRY, 0));
    }
    if bytes.len() > layout::MAX_BYTES || tokens.len() > layout::MAX_TOKEN_NUMBERS {
        return Some((layout::REFUSAL_TOO_LONG, 0));
    }
    let row = |row: &[u32]| (row[COL_TOKEN_KIND], row[COL_TOKEN_LENGTH] as usize);
    let rows: Vec<_> = tokens.chunks_exact(ROW_TOKEN).map(row).collect();
    if rows.len() * ROW_TOKEN != tokens.len() {
        return Some((layout::REFUSAL_ODD_COUNT, rows.len()));
    }
    bad_input(&rows, bytes)
}

/// What is wrong with whole rows: 11 to 13, else 4.
pub fn bad_input(rows: &[(u32, usize)], bytes: &[u8]) -> Option<Refusal> {
    bad_row(rows, bytes.len()).or_else(|| Some((layout::REFUSAL_BAD_TEXT, wrong_text(rows, bytes)?)))
}

/// The first row with one of the three causes, and which of them is the first that it has; else a short total.
fn bad_row(rows: &[(u32, usize)], size: usize) -> Option<Refusal> {
    let ends = ends(rows);
    let causes = |row: usize| {
        [
            (layout::REFUSAL_BAD_KIND, !is_input(rows[row].0)),
            (layout::REFUSAL_ZERO_LENGTH, rows[row].1 == 0),
            (layout::REFUSAL_BAD_END, ends[row] > size as u128),
        ]
    };
    let first_cause = |row: usize| causes(row).iter().find(|cause| cause.1).map(|cause| (cause.0, row));
    let total = ends.last().copied().unwrap_or(0);
    let short = || (total < size as u128).then_some((layout::REFUSAL_BAD_END, rows.len()));
    (0..rows.len()).find_map(first_cause).or_else(short)
}

/// Where each row's token ends, exactly: a length of a call has 32 bits, one of a case line may have 64.
fn ends(rows: &[(u32, usize)]) -> Vec<u128> {
    let add = |end: &mut u128, row: &(u32, usize)| {
        *end += row.1 as u128;
        Some(*end)
    };
    rows.iter().scan(0, add).collect()
}

/// A token's kind, but for the two that only leaves have; or a lexical error.
fn is_input(kind: u32) -> bool {
    let only_of_leaves = [TokenKind::Unrecognized, TokenKind::Name].map(|k| k as u32).contains(&kind);
    let is_error = (layout::TOKEN_FIRST_LEX_ERROR..=layout::TOKEN_LAST_LEX_ERROR).contains(&kind);
    kind <= TokenKind::QuestionMark as u32 && !only_of_leaves || is_error
}

/// The first row whose bytes are not its kind's fixed text. The rows are good.
fn wrong_text(rows: &[(u32, usize)], bytes: &[u8]) -> Option<usize> {
    let mut rest = bytes;
    rows.iter().position(|&(kind, width)| {
        let (text, after) = rest.split_at(width);
        rest = after;
        fixed_text(kind).is_some_and(|fixed| fixed.as_bytes() != text)
    })
}
