//! What is parsed: a text and the tokens over it.

use crate::rows::TokenRow;
use crate::{Error, LexError, TextRange, TokenKind};

/// A token: what it is, and how many bytes of the text it takes.
#[derive(Debug, Clone, Copy, PartialEq, Eq, Hash)]
pub struct Token {
    /// The token's kind, or what is wrong with it.
    pub kind: Result<TokenKind, LexError>,
    /// Its length in bytes.
    pub length: u32,
}

impl Token {
    /// A token without an error.
    #[must_use]
    pub const fn new(kind: TokenKind, length: u32) -> Self {
        Self { kind: Ok(kind), length }
    }

    /// An error token.
    #[must_use]
    pub const fn error(error: LexError, length: u32) -> Self {
        Self { kind: Err(error), length }
    }

    /// The token that a row stands for; none where its kind is one that no row may have.
    pub(crate) fn from_row(row: TokenRow) -> Option<Self> {
        let kind = TokenKind::from_number(row.kind).filter(|kind| kind.is_input()).map(Ok);
        let kind = kind.or_else(|| LexError::from_number(row.kind).map(Err))?;
        Some(Self { kind, length: row.length })
    }

    /// The number of its kind or error in a row.
    #[must_use]
    pub const fn number(self) -> u32 {
        match self.kind {
            Ok(kind) => kind.number(),
            Err(error) => error.number(),
        }
    }

    /// The kind that the parser sees: an error token is [`TokenKind::Unrecognized`].
    #[must_use]
    pub const fn seen_kind(self) -> TokenKind {
        match self.kind {
            Ok(kind) => kind,
            Err(_) => TokenKind::Unrecognized,
        }
    }

    /// Whether it is a blank or a comment. An error token never is.
    #[must_use]
    pub const fn is_trivia(self) -> bool {
        self.seen_kind().is_trivia()
    }
}

/// A text with its tokens, which cover it from the first byte to the last.
///
/// The tokens come from a lexer of the caller's, from a [file of token rows](crate::rowsfile), or from the parser itself:
/// [`Entrypoint::parse_text`](crate::Entrypoint::parse_text) takes a text alone and gives the tokens too.
#[derive(Debug, Clone, PartialEq, Eq, Hash)]
pub struct Input<'i> {
    /// The bytes, whatever they are.
    pub text: &'i [u8],
    /// The tokens in order.
    pub tokens: Vec<Token>,
}

impl<'i> Input<'i> {
    /// The longest text that is accepted, in bytes.
    pub const MAX_BYTES: usize = 1_048_576;
    /// The most tokens that are accepted.
    pub const MAX_TOKENS: usize = 65_536;
    /// The most items, values, cells and expressions that may be nested.
    pub const MAX_OPEN_CALLS: usize = 64;
    /// How many different expectations there are: each kind of token, and [the others](crate::Expected::OTHERS). A
    /// [`Report`](crate::Report) lists no more, since it has each once.
    pub const MAX_EXPECTATIONS: usize = 69;

    /// A text with its tokens.
    #[must_use]
    pub const fn new(text: &'i [u8], tokens: Vec<Token>) -> Self {
        Self { text, tokens }
    }

    /// A text with the tokens that plain numbers stand for, a kind and a length each. None where a kind is one that no
    /// row may have, or where the last row has no length. Whether the tokens fit the text is not looked at:
    /// [`Entrypoint::parse_rows`](crate::Entrypoint::parse_rows) does that, and says what is wrong.
    ///
    /// ```
    /// use dt_parser::{Input, Token, TokenKind};
    /// let input = Input::from_rows(b"a;", &[27, 1, 29, 1]).expect("these are tokens");
    /// assert_eq!(input.tokens[1], Token::new(TokenKind::Semicolon, 1));
    /// assert_eq!(input.rows(), [27, 1, 29, 1]);
    /// assert_eq!(Input::from_rows(b"a;", &[26, 1, 29, 1]), None);
    /// ```
    #[must_use]
    pub fn from_rows(text: &'i [u8], rows: &[u32]) -> Option<Self> {
        let (rows, over) = rows.as_chunks::<{ TokenRow::SIZE }>();
        let tokens: Option<Vec<Token>> = rows.iter().map(|row| Token::from_row((*row).into())).collect();
        tokens.filter(|_| over.is_empty()).map(|tokens| Self { text, tokens })
    }

    /// The tokens' byte ranges. A range may lie past the text where the tokens do not fit it.
    ///
    /// ```
    /// use dt_parser::{Input, Token, TokenKind};
    /// let input = Input::new(b"ab;", vec![Token::new(TokenKind::Ident, 2), Token::new(TokenKind::Semicolon, 1)]);
    /// let ranges: Vec<_> = input.ranges().map(|range| range.byte_range()).collect();
    /// assert_eq!(ranges, [0..2, 2..3]);
    /// ```
    pub fn ranges(&self) -> impl Iterator<Item = TextRange> {
        self.tokens.iter().scan(0usize, |end, token| {
            let start = *end;
            *end = start.saturating_add(token.length as usize);
            Some(TextRange { start, end: *end })
        })
    }

    /// The tokens as plain numbers, a kind and a length each: the rows that a call takes.
    #[must_use]
    pub fn rows(&self) -> Vec<u32> {
        let row = |token: &Token| TokenRow { kind: token.number(), length: token.length };
        self.tokens.iter().flat_map(|token| <[u32; TokenRow::SIZE]>::from(row(token))).collect()
    }

    /// What the parser sees from this token on: the first that is not trivia, none at the end.
    pub(crate) fn seen_from(&self, token: usize) -> Option<TokenKind> {
        let rest = self.tokens.get(token..).unwrap_or_default();
        rest.iter().find(|token| !token.is_trivia()).map(|token| token.seen_kind())
    }
}

/// Token rows that a call wrote.
pub(crate) fn read(rows: &[[u32; TokenRow::SIZE]]) -> Result<Vec<Token>, Error> {
    let one = |(row, numbers): (usize, &[u32; TokenRow::SIZE])| {
        let bad = Error::BadAnswer { what: "token row", row: Some(row), expected: "a token" };
        Token::from_row((*numbers).into()).ok_or(bad)
    };
    rows.iter().enumerate().map(one).collect()
}
