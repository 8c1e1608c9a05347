//! Kinds of tokens, with the names and the words of dt-tools' lexer.rs.

use crate::numbered::numbered;
use std::fmt;

numbered! {
    /// The kind of a token, 0 to 60 in rows.
    ///
    /// ```
    /// use dt_parser::TokenKind;
    /// assert_eq!(TokenKind::Semicolon.number(), 29);
    /// assert_eq!(TokenKind::from_number(60), Some(TokenKind::QuestionMark));
    /// assert_eq!(TokenKind::Comma.static_text(), Some(","));
    /// assert_eq!(TokenKind::Ident.to_string(), "identifier");
    /// ```
    TokenKind {
        /// Blanks, line ends and escaped line ends.
        Whitespace = 0,
        /// `/* .. */`
        BlockComment = 1,
        /// `,`
        Comma = 2,
        /// `// ..`
        LineComment = 3,
        /// `#if ..`
        IfDirective = 4,
        /// `#ifdef ..`
        IfdefDirective = 5,
        /// `#ifndef ..`
        IfndefDirective = 6,
        /// `#elif ..`
        ElifDirective = 7,
        /// `#elifdef ..`
        ElifdefDirective = 8,
        /// `#elifndef ..`
        ElifndefDirective = 9,
        /// `#else`
        ElseDirective = 10,
        /// `#endif`
        EndifDirective = 11,
        /// `#pragma ..`
        PragmaDirective = 12,
        /// `#define ..`
        DefineDirective = 13,
        /// `#undef ..`
        UndefDirective = 14,
        /// `#include ..`
        IncludeDirective = 15,
        /// `#error ..`
        ErrorDirective = 16,
        /// `/bits/`
        BitsDirective = 17,
        /// `/omit-if-no-ref/`
        OmitIfNoRefDirective = 18,
        /// `/include/`
        DtIncludeDirective = 19,
        /// `/memreserve/`
        MemreserveDirective = 20,
        /// `/delete-node/`
        DeleteNodeDirective = 21,
        /// `/delete-property/`
        DeletePropertyDirective = 22,
        /// `/dts-v1/`
        V1Directive = 23,
        /// `/plugin/`
        PluginDirective = 24,
        /// The leaf of an error token. Only in trees: a call refuses it as input.
        Unrecognized = 25,
        /// A name that the parser joined from one or more raw tokens. Only in trees: a call refuses it as input.
        Name = 26,
        /// An identifier.
        Ident = 27,
        /// `=`
        Equals = 28,
        /// `;`
        Semicolon = 29,
        /// `&`, in a reference or as an operator.
        Ampersand = 30,
        /// `:`, after a label or as the second half of a ternary.
        Colon = 31,
        /// `@`
        AtSign = 32,
        /// A string literal.
        String = 33,
        /// A character literal.
        Char = 34,
        /// A number.
        Number = 35,
        /// `[..]`
        DtBytestring = 36,
        /// `{`
        LCurly = 37,
        /// `}`
        RCurly = 38,
        /// `<`, as a bracket or as an operator.
        LAngle = 39,
        /// `>`, as a bracket or as an operator.
        RAngle = 40,
        /// `(`
        LParen = 41,
        /// `)`
        RParen = 42,
        /// `+`
        Plus = 43,
        /// `-`
        Minus = 44,
        /// `*`
        Asterisk = 45,
        /// `/`
        Slash = 46,
        /// `%`
        Modulo = 47,
        /// `|`
        BitwiseOr = 48,
        /// `^`
        BitwiseXor = 49,
        /// `~`
        BitwiseNot = 50,
        /// `<<`
        BitwiseShl = 51,
        /// `>>`
        BitwiseShr = 52,
        /// `&&`
        LogicalAnd = 53,
        /// `||`
        LogicalOr = 54,
        /// `!`
        LogicalNot = 55,
        /// `<=`
        RelationalLtEq = 56,
        /// `>=`
        RelationalGtEq = 57,
        /// `==`
        RelationalEq = 58,
        /// `!=`
        RelationalNeq = 59,
        /// `?`, the first half of a ternary.
        QuestionMark = 60,
    }
}

impl TokenKind {
    /// Whether tokens of this kind are blanks or comments.
    #[must_use]
    pub const fn is_trivia(self) -> bool {
        matches!(self, Self::Whitespace | Self::BlockComment | Self::LineComment)
    }

    /// Whether a token row may have this kind.
    #[must_use]
    pub const fn is_input(self) -> bool {
        !matches!(self, Self::Unrecognized | Self::Name)
    }

    /// The one text of this kind's tokens, where it has only one.
    #[must_use]
    pub const fn static_text(self) -> Option<&'static str> {
        Some(match self {
            Self::Comma => ",",
            Self::BitsDirective => "/bits/",
            Self::OmitIfNoRefDirective => "/omit-if-no-ref/",
            Self::DtIncludeDirective => "/include/",
            Self::MemreserveDirective => "/memreserve/",
            Self::DeleteNodeDirective => "/delete-node/",
            Self::DeletePropertyDirective => "/delete-property/",
            Self::V1Directive => "/dts-v1/",
            Self::PluginDirective => "/plugin/",
            Self::Equals => "=",
            Self::Semicolon => ";",
            Self::Ampersand => "&",
            Self::Colon => ":",
            Self::AtSign => "@",
            Self::LCurly => "{",
            Self::RCurly => "}",
            Self::LAngle => "<",
            Self::RAngle => ">",
            Self::LParen => "(",
            Self::RParen => ")",
            _ => return self.operator_text(),
        })
    }

    const fn operator_text(self) -> Option<&'static str> {
        Some(match self {
            Self::Plus => "+",
            Self::Minus => "-",
            Self::Asterisk => "*",
            Self::Slash => "/",
            Self::Modulo => "%",
            Self::BitwiseOr => "|",
            Self::BitwiseXor => "^",
            Self::BitwiseNot => "~",
            Self::BitwiseShl => "<<",
            Self::BitwiseShr => ">>",
            Self::LogicalAnd => "&&",
            Self::LogicalOr => "||",
            Self::LogicalNot => "!",
            Self::RelationalLtEq => "<=",
            Self::RelationalGtEq => ">=",
            Self::RelationalEq => "==",
            Self::RelationalNeq => "!=",
            Self::QuestionMark => "?",
            _ => return None,
        })
    }

    /// A preprocessor directive's name without the `#`.
    #[must_use]
    pub const fn preprocessor_directive_name(self) -> Option<&'static str> {
        Some(match self {
            Self::IfDirective => "if",
            Self::IfdefDirective => "ifdef",
            Self::IfndefDirective => "ifndef",
            Self::ElifDirective => "elif",
            Self::ElifdefDirective => "elifdef",
            Self::ElifndefDirective => "elifndef",
            Self::ElseDirective => "else",
            Self::EndifDirective => "endif",
            Self::PragmaDirective => "pragma",
            Self::DefineDirective => "define",
            Self::UndefDirective => "undef",
            Self::IncludeDirective => "include",
            Self::ErrorDirective => "error",
            _ => return None,
        })
    }

    /// The words for kinds that have neither a fixed text nor a directive's name.
    const fn words(self) -> &'static str {
        match self {
            Self::Whitespace => "whitespace",
            Self::BlockComment => "block comment",
            Self::LineComment => "line comment",
            Self::Unrecognized => "unrecognized token",
            Self::Name => "name",
            Self::Ident => "identifier",
            Self::String => "string literal",
            Self::Char => "character literal",
            Self::Number => "number literal",
            Self::DtBytestring => "bytestring literal",
            _ => "token",
        }
    }

    /// dt-tools closes the quotes of these with the opening sign, and so its texts are kept.
    const fn closed_by_opening_sign(self) -> bool {
        let is_dts_directive = matches!(
            self,
            Self::BitsDirective
                | Self::OmitIfNoRefDirective
                | Self::DtIncludeDirective
                | Self::MemreserveDirective
                | Self::DeleteNodeDirective
                | Self::DeletePropertyDirective
                | Self::V1Directive
                | Self::PluginDirective
        );
        let is_late_operator = matches!(
            self,
            Self::BitwiseXor
                | Self::LogicalAnd
                | Self::LogicalOr
                | Self::LogicalNot
                | Self::RelationalLtEq
                | Self::RelationalGtEq
                | Self::RelationalEq
                | Self::RelationalNeq
                | Self::QuestionMark
        );
        is_dts_directive || is_late_operator
    }
}

/// The words that reports use, as in dt-tools: `‘;’`, `identifier`, `‘#if‘ preprocessor directive`.
impl fmt::Display for TokenKind {
    fn fmt(&self, f: &mut fmt::Formatter<'_>) -> fmt::Result {
        if let Some(name) = self.preprocessor_directive_name() {
            write!(f, "‘#{name}‘ preprocessor directive")
        } else if let Some(text) = self.static_text() {
            let close = if self.closed_by_opening_sign() { '‘' } else { '’' };
            write!(f, "‘{text}{close}")
        } else {
            f.pad(self.words())
        }
    }
}
