//! What is wrong with token rows: refusals 3, 11, 12 and 13, with the numbers in question.

use crate::rows::TokenRow;
use crate::{Refusal, Token, TokenKind};
use std::fmt;

/// Why token rows are refused before their texts are looked at: which row, and what is wrong with it. `Display` says in
/// one line what is wrong and what is allowed; [`RowError::message`] and [`RowError::allowed`] have these apart.
///
/// The cause and the row are what the proved call answered. Read off the rows are only the numbers that
/// [`RowErrorKind`] has.
///
/// ```
/// use dt_parser::{Entrypoint, Error, RowErrorKind};
/// // a kind and a length for each token of `ab;`, the last one too long
/// let refused = Entrypoint::SourceFile.parse_rows(b"ab;", &[27, 2, 29, 4]).unwrap_err();
/// let Error::BadRows(why) = refused else { panic!("{refused}") };
/// match why.kind() {
///     RowErrorKind::PastInput { start, length, bytes } => assert_eq!((start, length, bytes), (2, 4, 3)),
///     other => panic!("{other:?}"),
/// }
/// assert_eq!((why.refusal().number(), why.row()), (13, 1));
/// assert_eq!(
///     why.to_string(),
///     "refusal 13: row 1, counted from 0, starts at byte 2 and has length 4, and the input has 3 bytes; \
///      its length is at most 1"
/// );
/// ```
#[derive(Debug, Clone, Copy, PartialEq, Eq, Hash)]
pub struct RowError {
    row: usize,
    kind: RowErrorKind,
}

/// What is wrong with token rows, by cause.
#[derive(Debug, Clone, Copy, PartialEq, Eq, Hash)]
#[non_exhaustive]
pub enum RowErrorKind {
    /// 3: an odd count of numbers, so that the last row has a kind and no length. The other rows are not looked at.
    OddCount {
        /// How many numbers there are.
        numbers: usize,
    },
    /// 11: a kind that no row may have.
    BadKind {
        /// The kind.
        kind: u32,
    },
    /// 12: the length is 0.
    ZeroLength,
    /// 13: the token ends past the input.
    PastInput {
        /// Where it starts: the sum of the lengths before it.
        start: usize,
        /// Its length.
        length: u32,
        /// How many bytes the input has.
        bytes: usize,
    },
    /// 13: the total is short, the tokens end before the input does.
    ShortTotal {
        /// The sum of all lengths.
        covered: usize,
        /// How many bytes the input has.
        bytes: usize,
    },
}

impl RowError {
    /// The refusal with the numbers in question, of rows over so many bytes. None where the rows contradict it, and for
    /// a refusal that has another cause.
    pub(crate) fn read(refusal: Refusal, bytes: usize, numbers: &[u32]) -> Option<Self> {
        let (rows, over) = numbers.as_chunks::<{ TokenRow::SIZE }>();
        let row = refusal.place();
        let found = rows.get(row).map(|numbers| TokenRow::from(*numbers));
        let kind = match (refusal, found) {
            (Refusal::OddCount(_), None) if row == rows.len() && !over.is_empty() => {
                RowErrorKind::OddCount { numbers: numbers.len() }
            }
            (Refusal::BadKind(_), Some(found)) if Token::from_row(found).is_none() => {
                RowErrorKind::BadKind { kind: found.kind }
            }
            (Refusal::ZeroLength(_), Some(TokenRow { length: 0, .. })) => RowErrorKind::ZeroLength,
            (Refusal::BadEnd(_), Some(TokenRow { length, .. })) => {
                let start = covered(&rows[..row])?;
                let is_past = bytes.checked_sub(start)? < length as usize;
                is_past.then_some(RowErrorKind::PastInput { start, length, bytes })?
            }
            (Refusal::BadEnd(_), None) if row == rows.len() => {
                let covered = covered(rows)?;
                (covered < bytes).then_some(RowErrorKind::ShortTotal { covered, bytes })?
            }
            _ => return None,
        };
        Some(Self { row, kind })
    }

    /// What is wrong.
    #[must_use]
    pub const fn kind(&self) -> RowErrorKind {
        self.kind
    }

    /// The row, counted from 0. Of an odd count it is the last one, which is not whole; of a short total it is the one
    /// that is missing, and so the count of rows.
    #[must_use]
    pub const fn row(&self) -> usize {
        self.row
    }

    /// The refusal: 3, 11, 12 or 13, with the row as its place.
    #[must_use]
    pub const fn refusal(&self) -> Refusal {
        match self.kind {
            RowErrorKind::OddCount { .. } => Refusal::OddCount(self.row),
            RowErrorKind::BadKind { .. } => Refusal::BadKind(self.row),
            RowErrorKind::ZeroLength => Refusal::ZeroLength(self.row),
            RowErrorKind::PastInput { .. } | RowErrorKind::ShortTotal { .. } => Refusal::BadEnd(self.row),
        }
    }

    /// Which row it is, and what is wrong with it.
    #[must_use]
    pub fn message(&self) -> String {
        let row = format!("row {}, counted from 0,", self.row);
        match self.kind {
            RowErrorKind::OddCount { numbers } => {
                format!("{row} has a kind and no length: the count of numbers, {numbers}, is odd")
            }
            RowErrorKind::BadKind { kind } => match TokenKind::from_number(kind) {
                Some(known) => format!("{row} has kind {kind} ({}), which only the parser makes", known.name()),
                None => format!("{row} has kind {kind}, which no token has"),
            },
            RowErrorKind::ZeroLength => format!("{row} has length 0"),
            RowErrorKind::PastInput { start, length, bytes } => {
                let bytes = counted(bytes, "byte");
                format!("{row} starts at byte {start} and has length {length}, and the input has {bytes}")
            }
            RowErrorKind::ShortTotal { covered, bytes } => {
                let (rows, bytes) = (counted(self.row, "row"), counted(bytes, "byte"));
                format!("the total is short: the lengths of {rows} add up to {covered}, and the input has {bytes}")
            }
        }
    }

    /// What is allowed there.
    #[must_use]
    pub fn allowed(&self) -> String {
        match self.kind {
            RowErrorKind::OddCount { .. } => "a row is two numbers, a kind and a length".to_string(),
            RowErrorKind::BadKind { .. } => format!("a row's kind is {KINDS}"),
            RowErrorKind::ZeroLength => "a row's length is at least 1".to_string(),
            RowErrorKind::PastInput { start, bytes, .. } if start >= bytes => {
                "no row may follow those before it, which are the whole input".to_string()
            }
            RowErrorKind::PastInput { start, bytes, .. } => format!("its length is at most {}", bytes - start),
            RowErrorKind::ShortTotal { .. } => "all rows together are the whole input".to_string(),
        }
    }
}

/// The kinds that a row may have.
const KINDS: &str = "0 to 24, 27 to 60 or 64 to 74";

/// The sum of the lengths, exactly; none where no number of this machine is so large.
fn covered(rows: &[[u32; TokenRow::SIZE]]) -> Option<usize> {
    rows.iter().try_fold(0usize, |sum, row| sum.checked_add(TokenRow::from(*row).length as usize))
}

/// `1 byte`, `2 bytes`.
pub(crate) fn counted(count: usize, what: &str) -> String {
    format!("{count} {what}{}", if count == 1 { "" } else { "s" })
}

impl fmt::Display for RowError {
    fn fmt(&self, f: &mut fmt::Formatter<'_>) -> fmt::Result {
        write!(f, "refusal {}: {}; {}", self.refusal().number(), self.message(), self.allowed())
    }
}

impl std::error::Error for RowError {}

#[cfg(test)]
mod tests;
