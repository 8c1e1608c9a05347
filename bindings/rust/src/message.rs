//! What a report says: messages and hints, with the texts of dt-tools' grammar, and one that it lacks.

use crate::numbered::numbered;

numbered! {
    /// What a report says, 1 to 8 in rows.
    Message {
        /// Something else was expected; the report has the list.
        Expected = 1,
        /// A `}` that closes nothing.
        UnmatchedRCurly = 2,
        /// A `;` that ends nothing.
        UnmatchedSemicolon = 3,
        /// An `#endif` that ends nothing.
        UnmatchedEndif = 4,
        /// An `#else` or the like that continues nothing.
        StrayContinuation = 5,
        /// An `@` in a label.
        AtSignInLabel = 6,
        /// The input ends inside a node; the report has a label on the node's `{`.
        UnclosedNode = 7,
        /// A label that is not of letters, digits and underscores, or starts with a digit. Only in the
        /// [strict setting](crate::Setting::Strict); dt-tools has no such report.
        NotALabel = 8,
    }
}

impl Message {
    /// The message's text, as in dt-tools where it has one. None for [`Message::Expected`], whose text depends on the
    /// report: [`Report::text`](crate::Report::text).
    #[must_use]
    pub const fn fixed_text(self) -> Option<&'static str> {
        Some(match self {
            Self::Expected => return None,
            Self::UnmatchedRCurly => "Unmatched `}`",
            Self::UnmatchedSemicolon => "Unmatched `;`",
            Self::UnmatchedEndif => "Unmatched `#endif`",
            Self::StrayContinuation => "Preprocessor conditional continuation without preceding `#if` or equivalent.",
            Self::AtSignInLabel => "Label names can't contain an `@`",
            Self::UnclosedNode => "Expected `}`, but reached end of input",
            Self::NotALabel => {
                "Label names can only hold letters, digits and underscores, and can't start with a digit"
            }
        })
    }
}

numbered! {
    /// What a report adds to its message, 1 to 6 in rows; 0 means none.
    Hint {
        /// What follows is read as a property without a name.
        UnnamedProperty = 1,
        /// What follows is read as a node without a name.
        UnnamedNode = 2,
        /// An expression in cells needs parentheses.
        MissingParentheses = 3,
        /// The report is about cells.
        InCells = 4,
        /// A node must stand here, not a property.
        PropertyNotAllowed = 5,
        /// What follows is read as an expression without its left side.
        MissingLeftSide = 6,
    }
}

impl Hint {
    /// The hint's text, as in dt-tools.
    #[must_use]
    pub const fn text(self) -> &'static str {
        match self {
            Self::UnnamedProperty => "Recovered as unnamed property",
            Self::UnnamedNode => "Recovered as unnamed node",
            Self::MissingParentheses => "Wrap expressions in parenthesis",
            Self::InCells => "in cells()",
            Self::PropertyNotAllowed => "Property not allowed",
            Self::MissingLeftSide => "Recovered as expression with missing left-hand-side expression",
        }
    }
}
