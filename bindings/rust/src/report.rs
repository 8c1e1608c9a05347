//! The parser's reports.

use crate::rows::ReportRow;
use crate::{Error, Expected, Hint, Input, Message, TextRange, TokenKind};
use std::fmt;

/// Something that the parser did not understand. It goes on after it.
#[derive(Debug, Clone, PartialEq, Eq, Hash)]
#[non_exhaustive]
pub struct Report {
    /// What it says.
    pub message: Message,
    /// The bytes that it is about.
    pub range: TextRange,
    /// The index just past the last token that had been taken; for [`Message::NotALabel`] that of the name's first
    /// token.
    pub mark: usize,
    /// What would have been taken, each once, in the order in which it first came up. Empty except for
    /// [`Message::Expected`].
    ///
    /// ```
    /// # use dt_parser::{Entrypoint, Expected, Input, Token, TokenKind};
    /// # let input = Input::new(b"#else", vec![Token::new(TokenKind::ElseDirective, 5)]);
    /// let parse = Entrypoint::SourceFile.parse(&input)?; // of `#else`
    /// assert_eq!(parse.reports[1].expected, [Expected::Kind(TokenKind::EndifDirective)]);
    /// # Ok::<(), dt_parser::Error>(())
    /// ```
    pub expected: Vec<Expected>,
    /// What stands at the mark, blanks and comments passed over; none at the end of the input.
    pub found: Option<TokenKind>,
    /// What it adds to the message.
    pub hint: Option<Hint>,
    /// The `{` of the node that is not closed, for [`Message::UnclosedNode`].
    pub label: Option<TextRange>,
}

/// A text for a part of the input, beside a report's own message.
#[derive(Debug, Clone, Copy, PartialEq, Eq, Hash)]
pub struct Label {
    /// The bytes that it is about.
    pub range: TextRange,
    /// What it says.
    pub text: &'static str,
}

impl Report {
    /// The message's text, as in dt-tools.
    #[must_use]
    pub fn text(&self) -> String {
        self.to_string()
    }

    /// The labels, as in dt-tools: the unclosed `{`, and the hint at the report's own range.
    ///
    /// ```
    /// # use dt_parser::{Entrypoint, Input, Token, TokenKind};
    /// # let input = Input::new(b"/{", vec![Token::new(TokenKind::Slash, 1), Token::new(TokenKind::LCurly, 1)]);
    /// let parse = Entrypoint::SourceFile.parse(&input)?; // of `/{`
    /// let label = parse.reports[0].labels()[0];
    /// assert_eq!((label.range.byte_range(), label.text), (1..2, "Unclosed delimiter"));
    /// # Ok::<(), dt_parser::Error>(())
    /// ```
    #[must_use]
    pub fn labels(&self) -> Vec<Label> {
        let brace = self.label.map(|range| Label { range, text: "Unclosed delimiter" });
        let hint = self.hint.map(|hint| Label { range: self.range, text: hint.text() });
        brace.into_iter().chain(hint).collect()
    }

    fn write_expected(&self, f: &mut fmt::Formatter<'_>) -> fmt::Result {
        f.write_str("Expected ")?;
        for (i, expected) in self.expected.iter().enumerate() {
            match i {
                0 => {}
                _ if i + 1 == self.expected.len() => f.write_str(" or ")?,
                _ => f.write_str(", ")?,
            }
            write!(f, "{expected}")?;
        }
        match self.found {
            Some(kind) => write!(f, ", but found {kind}"),
            None => f.write_str(", but reached end of input"),
        }
    }
}

/// The message's text, as in dt-tools.
impl fmt::Display for Report {
    fn fmt(&self, f: &mut fmt::Formatter<'_>) -> fmt::Result {
        match self.message.fixed_text() {
            Some(text) => f.write_str(text),
            None => self.write_expected(f),
        }
    }
}

impl std::error::Error for Report {}

/// Report rows with their expectations.
pub(crate) fn read(rows: &[[u32; ReportRow::SIZE]], pool: &[u32], input: &Input<'_>) -> Result<Vec<Report>, Error> {
    rows.iter().enumerate().map(|(i, row)| read_one(i, row, pool, input)).collect()
}

fn read_one(i: usize, numbers: &[u32; ReportRow::SIZE], pool: &[u32], input: &Input<'_>) -> Result<Report, Error> {
    let bad = |expected| Error::BadAnswer { what: "report row", row: Some(i), expected };
    let row = ReportRow::from(*numbers);
    let (first, count) = (row.pool_first as usize, row.pool_count as usize);
    let codes = pool.get(first..first.saturating_add(count)).ok_or(bad("a part of the pool"))?;
    let expected = codes.iter().map(|code| Expected::from_number(*code));
    let range = TextRange { start: row.start as usize, end: row.end as usize };
    let label = TextRange { start: row.label_start as usize, end: row.label_end as usize };
    if [range, label].iter().any(|range| range.end < range.start || range.end > input.text.len()) {
        return Err(bad("a range of the text"));
    }
    Ok(Report {
        message: Message::from_number(row.message).ok_or(bad("a message"))?,
        range,
        mark: row.mark as usize,
        expected: expected.collect::<Option<_>>().ok_or(bad("an expectation"))?,
        found: input.seen_from(row.mark as usize),
        hint: match row.hint {
            0 => None,
            n => Some(Hint::from_number(n).ok_or(bad("a hint"))?),
        },
        label: (!label.is_empty()).then_some(label),
    })
}
