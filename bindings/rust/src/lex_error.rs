//! What can be wrong with a token, with the names and the texts of dt-tools' lexer.rs.

use crate::numbered::numbered;
use std::fmt;

numbered! {
    /// What the lexer found wrong with a token, 64 to 74 in rows.
    ///
    /// ```
    /// use dt_parser::LexError;
    /// assert_eq!(LexError::from_number(74), Some(LexError::Default));
    /// assert_eq!(LexError::Default.to_string(), "Unexpected input, or end of input");
    /// ```
    LexError {
        /// An incbin directive does not end.
        UnexpectedEndIncbin = 64,
        /// An incbin directive has no `(`.
        IncbinMissingLParen = 65,
        /// An incbin directive has no `)`.
        IncbinMissingRParen = 66,
        /// An incbin directive lacks a number.
        IncbinMissingNumber = 67,
        /// An incbin directive lacks a comma.
        IncbinMissingComma = 68,
        /// An incbin directive has no string.
        IncbinMissingString = 69,
        /// A string literal does not end.
        UnexpectedEndString = 70,
        /// A bytestring literal does not end.
        UnexpectedEndBytestring = 71,
        /// A character literal does not end.
        UnexpectedEndChar = 72,
        /// A block comment does not end.
        UnexpectedEndBlockComment = 73,
        /// No rule of the lexer takes this input.
        Default = 74,
    }
}

impl LexError {
    /// The error's text, as in dt-tools.
    #[must_use]
    pub const fn text(self) -> &'static str {
        match self {
            Self::UnexpectedEndIncbin => "Unexpected end of input (hint: unterminated incbin directive)",
            Self::IncbinMissingLParen => "Missing ( in incbin directive",
            Self::IncbinMissingRParen => "Missing ) in incbin directive",
            Self::IncbinMissingNumber => "Missing number in incbin directive",
            Self::IncbinMissingComma => "Missing comma in incbin directive",
            Self::IncbinMissingString => "Missing string in incbin directive",
            Self::UnexpectedEndString => "Unexpected end of input (hint: unterminated string literal)",
            Self::UnexpectedEndBytestring => "Unexpected end of input (hint: unterminated bytestring literal)",
            Self::UnexpectedEndChar => "Unexpected end of input (hint: unterminated char literal)",
            Self::UnexpectedEndBlockComment => "Unexpected end of input (hint: unterminated block comment)",
            Self::Default => "Unexpected input, or end of input",
        }
    }
}

impl fmt::Display for LexError {
    fn fmt(&self, f: &mut fmt::Formatter<'_>) -> fmt::Result {
        f.pad(self.text())
    }
}

impl std::error::Error for LexError {}
