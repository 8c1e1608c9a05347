//! What the parser would have taken, with the names and the words of dt-tools' errors.rs.

use crate::TokenKind;
use std::fmt;

/// Something that the parser would have taken: a kind of token, or one of the other things, 101 to 108 in the pool.
///
/// ```
/// use dt_parser::{Expected, TokenKind};
/// assert_eq!(Expected::from_number(29), Some(Expected::Kind(TokenKind::Semicolon)));
/// assert_eq!(Expected::from_number(108), Some(Expected::End));
/// assert_eq!(Expected::End.to_string(), "end of input");
/// ```
#[derive(Debug, Clone, Copy, PartialEq, Eq, Hash)]
#[non_exhaustive]
pub enum Expected {
    /// A token of this kind.
    Kind(TokenKind),
    /// A preprocessor directive.
    PreprocessorDirective,
    /// The operator `defined`, of an entry that this parser leaves out.
    PreprocessorDefinedOperator,
    /// A property's value.
    Value,
    /// A cell.
    Cell,
    /// A label's name.
    LabelName,
    /// An operator between two operands.
    InfixOperator,
    /// An operator before an operand.
    PrefixOperator,
    /// The end of the input.
    End,
}

impl Expected {
    /// Its number in the pool.
    #[must_use]
    pub const fn number(self) -> u32 {
        match self {
            Self::Kind(kind) => kind.number(),
            Self::PreprocessorDirective => 101,
            Self::PreprocessorDefinedOperator => 102,
            Self::Value => 103,
            Self::Cell => 104,
            Self::LabelName => 105,
            Self::InfixOperator => 106,
            Self::PrefixOperator => 107,
            Self::End => 108,
        }
    }

    /// The expectation with this number.
    #[must_use]
    pub const fn from_number(number: u32) -> Option<Self> {
        let mut i = 0;
        while i < Self::OTHERS.len() {
            if Self::OTHERS[i].number() == number {
                return Some(Self::OTHERS[i]);
            }
            i += 1;
        }
        match TokenKind::from_number(number) {
            Some(kind) => Some(Self::Kind(kind)),
            None => None,
        }
    }

    /// All that are not a kind of token, in the order of their numbers.
    pub const OTHERS: [Self; 8] = [
        Self::PreprocessorDirective,
        Self::PreprocessorDefinedOperator,
        Self::Value,
        Self::Cell,
        Self::LabelName,
        Self::InfixOperator,
        Self::PrefixOperator,
        Self::End,
    ];
}

/// The words that reports use, as in dt-tools.
impl fmt::Display for Expected {
    fn fmt(&self, f: &mut fmt::Formatter<'_>) -> fmt::Result {
        match self {
            Self::Kind(kind) => kind.fmt(f),
            Self::PreprocessorDirective => f.pad("preprocessor directive"),
            Self::PreprocessorDefinedOperator => f.pad("preprocessor `defined` operator"),
            Self::Value => f.pad("value"),
            Self::Cell => f.pad("cell"),
            Self::LabelName => f.pad("label name"),
            Self::InfixOperator => f.pad("infix operator"),
            Self::PrefixOperator => f.pad("prefix operator"),
            Self::End => f.pad("end of input"),
        }
    }
}
