//! Why there is no answer: the refusals of documents 01 and 02, and what must not happen.

use crate::row_error::counted;
use crate::{Input, RowError};
use std::fmt;

/// A refused call: document 01's causes 1 to 8; 9 and 10, of a text alone ([`TextError`](crate::TextError) says more of
/// these); 3 and 11 to 13, of token rows ([`RowError`] says more of these).
#[derive(Debug, Clone, Copy, PartialEq, Eq, Hash)]
#[non_exhaustive]
pub enum Refusal {
    /// 1: the entry is none of 1 to 4.
    UnknownEntry,
    /// 2: over [`Input::MAX_BYTES`] bytes or over [`Input::MAX_TOKENS`] tokens.
    TooLong,
    /// 3: the count of token numbers is odd, so that this row, which follows so many whole ones, has no length.
    OddCount(usize),
    /// 4: this token's bytes are not the one text of its kind.
    BadText(usize),
    /// 5: over [`Input::MAX_OPEN_CALLS`] open calls, after so many tokens.
    TooDeep(usize),
    /// 6: no room for the next event, after so many tokens.
    NoEventRoom(usize),
    /// 7: no room for a report or its expectations, after so many tokens; or for the report of a label whose name
    /// starts there.
    NoReportRoom(usize),
    /// 8: no room for the tree or the lexical errors, or for the list of a query.
    NoTreeRoom,
    /// 9: the byte of a text at this offset is 128 or more.
    HighByte(usize),
    /// 10: a token of a text begins like a preprocessor directive; its `#` is at this offset.
    Directive(usize),
    /// 11: this row's kind is none that a row may have.
    BadKind(usize),
    /// 12: this row's length is 0.
    ZeroLength(usize),
    /// 13: this row's token ends past the input; or, with the count of rows, the tokens end before the input does.
    BadEnd(usize),
}

impl Refusal {
    /// The refusal that a call's number and place stand for.
    #[must_use]
    pub const fn from_number(number: u32, place: usize) -> Option<Self> {
        let all = Self::all_at(place);
        let mut i = 0;
        while i < all.len() {
            if all[i].number() == number {
                return Some(all[i]);
            }
            i += 1;
        }
        None
    }

    /// Every refusal, with this place where it has one.
    const fn all_at(place: usize) -> [Self; 13] {
        [
            Self::UnknownEntry,
            Self::TooLong,
            Self::OddCount(place),
            Self::BadText(place),
            Self::TooDeep(place),
            Self::NoEventRoom(place),
            Self::NoReportRoom(place),
            Self::NoTreeRoom,
            Self::HighByte(place),
            Self::Directive(place),
            Self::BadKind(place),
            Self::ZeroLength(place),
            Self::BadEnd(place),
        ]
    }

    /// Whether it is about what stands in a text, so that no call with tokens is refused with it.
    pub(crate) const fn is_of_text_alone(self) -> bool {
        matches!(self, Self::HighByte(_) | Self::Directive(_))
    }

    /// Whether it is about the numbers of token rows: [`RowError`] has it with what is wrong there.
    pub(crate) const fn is_of_row_numbers(self) -> bool {
        matches!(self, Self::OddCount(_) | Self::BadKind(_) | Self::ZeroLength(_) | Self::BadEnd(_))
    }

    /// Whether a buffer was too small, and not the input refused.
    pub(crate) const fn is_about_room(self) -> bool {
        matches!(self, Self::NoEventRoom(_) | Self::NoReportRoom(_) | Self::NoTreeRoom)
    }

    /// Its number, 1 to 13.
    #[must_use]
    pub const fn number(self) -> u32 {
        match self {
            Self::UnknownEntry => 1,
            Self::TooLong => 2,
            Self::OddCount(_) => 3,
            Self::BadText(_) => 4,
            Self::TooDeep(_) => 5,
            Self::NoEventRoom(_) => 6,
            Self::NoReportRoom(_) => 7,
            Self::NoTreeRoom => 8,
            Self::HighByte(_) => 9,
            Self::Directive(_) => 10,
            Self::BadKind(_) => 11,
            Self::ZeroLength(_) => 12,
            Self::BadEnd(_) => 13,
        }
    }

    /// Its place: a row's index, or how many tokens had been passed, of 9 and 10 a byte's offset; 0 where it has none.
    #[must_use]
    pub const fn place(self) -> usize {
        match self {
            Self::UnknownEntry | Self::TooLong | Self::NoTreeRoom => 0,
            Self::OddCount(place)
            | Self::BadText(place)
            | Self::TooDeep(place)
            | Self::NoEventRoom(place)
            | Self::NoReportRoom(place)
            | Self::HighByte(place)
            | Self::Directive(place)
            | Self::BadKind(place)
            | Self::ZeroLength(place)
            | Self::BadEnd(place) => place,
        }
    }
}

impl fmt::Display for Refusal {
    fn fmt(&self, f: &mut fmt::Formatter<'_>) -> fmt::Result {
        match self {
            Self::UnknownEntry => f.write_str("the entry is none of 1 to 4"),
            Self::TooLong => {
                let (bytes, tokens) = (grouped(Input::MAX_BYTES), grouped(Input::MAX_TOKENS));
                write!(f, "the input is over {bytes} bytes or over {tokens} tokens")
            }
            Self::OddCount(row) => write!(f, "row {row}, counted from 0, has a kind and no length"),
            Self::BadText(row) => write!(f, "token {row}, counted from 0, has other bytes than its kind always has"),
            Self::TooDeep(mark) => {
                write!(f, "over {} calls are open after {}", Input::MAX_OPEN_CALLS, counted(*mark, "token"))
            }
            Self::NoEventRoom(mark) => write!(f, "no room for an event after {}", counted(*mark, "token")),
            Self::NoReportRoom(mark) => {
                write!(f, "no room for a report or its expectations after {}", counted(*mark, "token"))
            }
            Self::NoTreeRoom => f.write_str("no room for the tree, the lexical errors or the list of a query"),
            Self::HighByte(offset) => write!(f, "the byte at offset {offset} is not ASCII"),
            Self::Directive(offset) => write!(f, "a preprocessor directive starts at offset {offset}"),
            Self::BadKind(row) => write!(f, "row {row}, counted from 0, has a kind that no row may have"),
            Self::ZeroLength(row) => write!(f, "row {row}, counted from 0, has length 0"),
            Self::BadEnd(row) => {
                write!(f, "row {row}, counted from 0, ends past the input, or is missing, and the input goes on")
            }
        }
    }
}

/// A number with its digits in groups of three: 1,048,576.
fn grouped(n: usize) -> String {
    if n < 1000 { n.to_string() } else { format!("{},{:03}", grouped(n / 1000), n % 1000) }
}

impl std::error::Error for Refusal {}

/// Why a parse gave no answer.
#[derive(Debug, Clone, Copy, PartialEq, Eq, Hash)]
#[non_exhaustive]
pub enum Error {
    /// The call was refused for its input: refusal 1, 2, 4 or 5. (6 to 8 are met with larger buffers, and 3 and 11 to 13
    /// are [`Error::BadRows`].)
    Refused(Refusal),
    /// The numbers of the token rows are refused: refusal 3, 11, 12 or 13.
    BadRows(RowError),
    /// Refused for lack of room with buffers that every run on so many tokens fits, by a theorem (crates/bounds).
    /// So the linked library is not the proved one.
    LimitPassed {
        /// What there was no room for.
        refusal: Refusal,
        /// The number of tokens.
        tokens: usize,
    },
    /// The answer has a number that the call's contract excludes. So the linked library is not the proved one.
    BadAnswer {
        /// Where the number stands: a `tree row`, a `report row`, a `count`.
        what: &'static str,
        /// Which of these rows, counted from 0; none where it is not about one row.
        row: Option<usize>,
        /// What was expected.
        expected: &'static str,
    },
}

impl Error {
    /// The refusal that caused it, if there is one.
    #[must_use]
    pub const fn refusal(self) -> Option<Refusal> {
        match self {
            Self::Refused(refusal) | Self::LimitPassed { refusal, .. } => Some(refusal),
            Self::BadRows(why) => Some(why.refusal()),
            Self::BadAnswer { .. } => None,
        }
    }
}

impl fmt::Display for Error {
    fn fmt(&self, f: &mut fmt::Formatter<'_>) -> fmt::Result {
        match self {
            Self::Refused(refusal) => write!(f, "refusal {}: {refusal}", refusal.number()),
            Self::BadRows(why) => why.fmt(f),
            Self::LimitPassed { refusal, tokens } => write!(
                f,
                "refusal {}: {refusal}, with room for all that {} can give: the linked library is not the proved one",
                refusal.number(),
                counted(*tokens, "token")
            ),
            Self::BadAnswer { what, row, expected } => {
                match row {
                    Some(row) => write!(f, "{what} {row} of the answer")?,
                    None => write!(f, "the {what} of the answer")?,
                }
                write!(f, " is not {expected}: the linked library is not the proved one")
            }
        }
    }
}

// No `source`: the refusal's text is in the error's own already.
impl std::error::Error for Error {}

impl From<Refusal> for Error {
    fn from(refusal: Refusal) -> Self {
        Self::Refused(refusal)
    }
}

impl From<RowError> for Error {
    fn from(why: RowError) -> Self {
        Self::BadRows(why)
    }
}

#[cfg(test)]
mod tests {
    use super::*;

    #[test]
    fn limits_stand_in_the_texts() {
        assert_eq!(Refusal::TooLong.to_string(), "the input is over 1,048,576 bytes or over 65,536 tokens");
        assert_eq!(Refusal::TooDeep(7).to_string(), "over 64 calls are open after 7 tokens");
        assert_eq!(Refusal::NoEventRoom(1).to_string(), "no room for an event after 1 token");
        assert_eq!([0, 999, 1000, 1_000_007].map(grouped), ["0", "999", "1,000", "1,000,007"]);
    }

    #[test]
    fn numbers_and_places_are_read_as_they_are_given() {
        for number in 1..=13 {
            let refusal = Refusal::from_number(number, 7).unwrap();
            let place = if matches!(number, 1 | 2 | 8) { 0 } else { 7 };
            assert_eq!((refusal.number(), refusal.place()), (number, place));
            assert_eq!(refusal.is_of_row_numbers(), matches!(number, 3 | 11..=13), "{number}");
            assert_eq!(refusal.is_of_text_alone(), matches!(number, 9 | 10), "{number}");
        }
        for number in [0, 14, u32::MAX] {
            assert_eq!(Refusal::from_number(number, 0), None);
        }
    }
}
