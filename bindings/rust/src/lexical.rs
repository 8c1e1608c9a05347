//! Lexical errors: the error tokens of the input.

use crate::rows::ErrorRow;
use crate::{Error, LexError, TextRange};
use std::fmt;

/// An error token and where it lies.
#[derive(Debug, Clone, Copy, PartialEq, Eq, Hash)]
pub struct LexicalError {
    /// What is wrong.
    pub error: LexError,
    /// The token's bytes.
    pub range: TextRange,
}

/// The error's text, as in dt-tools.
impl fmt::Display for LexicalError {
    fn fmt(&self, f: &mut fmt::Formatter<'_>) -> fmt::Result {
        self.error.fmt(f)
    }
}

impl std::error::Error for LexicalError {}

pub(crate) fn read(rows: &[[u32; ErrorRow::SIZE]]) -> Result<Vec<LexicalError>, Error> {
    let one = |(row, numbers): (usize, &[u32; ErrorRow::SIZE])| {
        let ErrorRow { number, start, end } = (*numbers).into();
        let bad = Error::BadAnswer { what: "error row", row: Some(row), expected: "a lexical error" };
        let error = LexError::from_number(number).ok_or(bad)?;
        Ok(LexicalError { error, range: TextRange { start: start as usize, end: end as usize } })
    };
    rows.iter().enumerate().map(one).collect()
}
