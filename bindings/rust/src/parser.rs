//! A call with owned buffers.

use crate::buffers::{Buffers, Room};
use crate::raw::{Answer, TextAnswer};
use crate::rows::TokenRow;
use crate::sys;
use crate::{Entrypoint, Error, Input, LexicalError, Refusal, Report, RowError, Setting, TextError, TextParse, Tree};
use crate::{input, lexical, report, rows, text};

/// Parses, and keeps its buffers for the next time.
///
/// ```
/// use dt_parser::{Entrypoint, Input, Parser, Token, TokenKind};
/// let mut parser = Parser::new();
/// let input = Input::new(b"}", vec![Token::new(TokenKind::RCurly, 1)]);
/// let parse = parser.parse(Entrypoint::SourceFile, &input)?;
/// assert_eq!(parse.reports[0].to_string(), "Unmatched `}`");
/// # Ok::<(), dt_parser::Error>(())
/// ```
#[derive(Debug, Default)]
pub struct Parser {
    pub(crate) buffers: Buffers,
}

/// What a parse gives: the tree, and what is wrong.
#[derive(Debug, Clone)]
#[non_exhaustive]
pub struct Parse<'i> {
    /// The tree. It holds every token of the input.
    pub tree: Tree<'i>,
    /// The error tokens, in order.
    pub lexical_errors: Vec<LexicalError>,
    /// The parser's reports, in the order in which it made them; those of labels, which the
    /// [strict setting](Setting::Strict) adds, stand last.
    pub reports: Vec<Report>,
}

impl Parse<'_> {
    /// Whether there is neither a report nor a lexical error. A tree may hold a
    /// [`ParseError`](crate::NodeKind::ParseError) all the same: see [`Parse::unreported`].
    #[must_use]
    pub fn is_clean(&self) -> bool {
        self.reports.is_empty() && self.lexical_errors.is_empty()
    }

    /// The same without a borrow of the input, to be kept: the text is copied where it is borrowed.
    /// [`Tree::into_owned`] has an example.
    #[must_use]
    pub fn into_owned(self) -> OwnedParse {
        Parse { tree: self.tree.into_owned(), lexical_errors: self.lexical_errors, reports: self.reports }
    }
}

/// A parse that borrows nothing: [`Parse::into_owned`].
pub type OwnedParse = Parse<'static>;

impl Parser {
    /// A parser without buffers; they are made when they are needed.
    #[must_use]
    pub fn new() -> Self {
        Self::default()
    }

    /// Parses the input in the old setting. Where a buffer is too small (refusals 6 to 8) the call is made again with a
    /// larger one, up to what every run fits by the theorem of crates/bounds.
    ///
    /// # Errors
    ///
    /// If the call is refused for its input: see [`Error`].
    pub fn parse<'i>(&mut self, entry: Entrypoint, input: &Input<'i>) -> Result<Parse<'i>, Error> {
        self.parse_in(Setting::Old, entry, input)
    }

    /// The same in a setting: [`Entrypoint::parse_in`] has an example.
    ///
    /// # Errors
    ///
    /// If the call is refused for its input: see [`Error`].
    pub fn parse_in<'i>(&mut self, setting: Setting, entry: Entrypoint, input: &Input<'i>) -> Result<Parse<'i>, Error> {
        self.parse_by(sys::call, setting, entry, input)
    }

    /// Parses a text with its tokens as plain numbers, a kind and a length each, in the old setting. The buffers grow as
    /// for [`Parser::parse`]. [`Entrypoint::parse_rows`] has an example.
    ///
    /// # Errors
    ///
    /// If the call is refused for its input: see [`Error`], and of bad rows [`RowError`].
    pub fn parse_rows<'i>(&mut self, entry: Entrypoint, text: &'i [u8], rows: &[u32]) -> Result<TextParse<'i>, Error> {
        self.parse_rows_in(Setting::Old, entry, text, rows)
    }

    /// The same in a setting.
    ///
    /// # Errors
    ///
    /// If the call is refused for its input: see [`Error`], and of bad rows [`RowError`].
    pub fn parse_rows_in<'i>(
        &mut self,
        setting: Setting,
        entry: Entrypoint,
        text: &'i [u8],
        rows: &[u32],
    ) -> Result<TextParse<'i>, Error> {
        self.parse_rows_by(sys::call, setting, entry, text, rows)
    }

    /// Parses a text in the old setting: its tokens are read by the rules of dt-tools' lexer. The buffers grow as for
    /// [`Parser::parse`], that of the tokens too. [`Entrypoint::parse_text`] has an example.
    ///
    /// # Errors
    ///
    /// If the text is refused: see [`TextError`].
    pub fn parse_text<'i>(&mut self, entry: Entrypoint, text: &'i [u8]) -> Result<TextParse<'i>, TextError> {
        self.parse_text_in(Setting::Old, entry, text)
    }

    /// The same in a setting.
    ///
    /// # Errors
    ///
    /// If the text is refused: see [`TextError`].
    pub fn parse_text_in<'i>(
        &mut self,
        setting: Setting,
        entry: Entrypoint,
        text: &'i [u8],
    ) -> Result<TextParse<'i>, TextError> {
        self.parse_text_by(sys::call_text, setting, entry, text).map_err(|why| match why {
            // its tokens are gone: those of an entry that nests nothing are the same
            Error::Refused(Refusal::TooDeep(mark)) => {
                let read = self.parse_text_by(sys::call_text, Setting::Old, Entrypoint::ReferenceNoamp, text);
                text::too_deep(mark, read.ok().map(|read| read.input))
            }
            why => text::explain(why, text),
        })
    }

    /// Parses typed tokens by any call of that form.
    fn parse_by<'i>(
        &mut self,
        mut call: impl FnMut(u32, u32, &[u8], &[u32], &mut Buffers) -> Answer,
        setting: Setting,
        entry: Entrypoint,
        input: &Input<'i>,
    ) -> Result<Parse<'i>, Error> {
        let (text, rows) = (input.text, input.rows());
        let call = |lent: &mut Buffers| (call(entry.number(), setting.number(), text, &rows, lent), ());
        let (answer, ()) = self.answer_by(call, text, &rows)?;
        self.read(&answer, input)
    }

    /// The same for plain numbers. Those of an accepted call are tokens.
    fn parse_rows_by<'i>(
        &mut self,
        mut call: impl FnMut(u32, u32, &[u8], &[u32], &mut Buffers) -> Answer,
        setting: Setting,
        entry: Entrypoint,
        text: &'i [u8],
        rows: &[u32],
    ) -> Result<TextParse<'i>, Error> {
        let call = |lent: &mut Buffers| (call(entry.number(), setting.number(), text, rows, lent), ());
        let (answer, ()) = self.answer_by(call, text, rows)?;
        let input = Input::from_rows(text, rows).ok_or(bad_number("a refusal of these rows"))?;
        let parse = self.read(&answer, &input)?;
        Ok(TextParse { input, parse })
    }

    /// The answer to token rows, if they are accepted, and what the call counts beside it.
    pub(crate) fn answer_by<C>(
        &mut self,
        call: impl FnMut(&mut Buffers) -> (Answer, C),
        text: &[u8],
        rows: &[u32],
    ) -> Result<(Answer, C), Error> {
        let tokens = rows.len() / TokenRow::SIZE;
        let growing = Growing { first: Room::first(rows), most: Room::most(rows), tokens };
        growing.answer(&mut self.buffers, call).map_err(|why| match why {
            Error::Refused(refusal) if refusal.is_of_text_alone() => bad_number("0 or a refusal of token rows"),
            Error::Refused(refusal) if refusal.is_of_row_numbers() => {
                RowError::read(refusal, text.len(), rows).map_or(bad_place(), Error::BadRows)
            }
            why => why,
        })
    }

    /// Parses a text by any call of that form.
    fn parse_text_by<'i>(
        &mut self,
        mut call: impl FnMut(u32, u32, &[u8], &mut Buffers) -> TextAnswer,
        setting: Setting,
        entry: Entrypoint,
        text: &'i [u8],
    ) -> Result<TextParse<'i>, Error> {
        let (first, most) = (Room::first_for_text(text), Room::most_for_text(text));
        let growing = Growing { first, most, tokens: most.tokens };
        let answer = growing.answer(&mut self.buffers, |lent| {
            let TextAnswer { answer, token_count } = call(entry.number(), setting.number(), text, lent);
            (answer, token_count)
        });
        let (answer, token_count) = answer.map_err(|why| match why {
            Error::Refused(Refusal::UnknownEntry | Refusal::BadText(_)) => bad_number("0 or a refusal of a text"),
            Error::Refused(refusal) if refusal.is_of_row_numbers() => bad_number("0 or a refusal of a text"),
            why => why,
        })?;
        let tokens = rows::front(&self.buffers.tokens, token_count).ok_or(bad_count("count of token rows"))?;
        let input = Input::new(text, input::read(tokens)?);
        let parse = self.read(&answer, &input)?;
        Ok(TextParse { input, parse })
    }

    /// The rows of an accepted call as values.
    fn read<'i>(&self, answer: &Answer, input: &Input<'i>) -> Result<Parse<'i>, Error> {
        let Buffers { trees, errors, reports, pool, .. } = &self.buffers;
        let pool = pool.get(..answer.expectation_count).ok_or(bad_count("count of expectations"))?;
        let trees = rows::front(trees, answer.tree_count).ok_or(bad_count("count of tree rows"))?;
        let errors = rows::front(errors, answer.error_count).ok_or(bad_count("count of lexical errors"))?;
        let reports = rows::front(reports, answer.report_count).ok_or(bad_count("count of reports"))?;
        Ok(Parse {
            tree: Tree::read(trees, input)?,
            lexical_errors: lexical::read(errors)?,
            reports: report::read(reports, pool, input)?,
        })
    }
}

/// Calls that are made again with more room where that helps.
struct Growing {
    first: Room,
    most: Room,
    /// How many tokens the most room is for.
    tokens: usize,
}

impl Growing {
    /// The first answer that is not a refusal, with what the call counts beside it.
    fn answer<C>(
        self,
        buffers: &mut Buffers,
        mut call: impl FnMut(&mut Buffers) -> (Answer, C),
    ) -> Result<(Answer, C), Error> {
        let mut room = self.first;
        loop {
            buffers.set_room(room);
            let (answer, count) = call(buffers);
            let Answer { number, place, .. } = answer;
            if number == 0 {
                return Ok((answer, count));
            }
            let refusal = Refusal::from_number(number, place).ok_or(bad_number("0 or a refusal from 1 to 13"))?;
            match room.after(refusal, self.most) {
                Some(more) => room = more,
                None if !refusal.is_about_room() => return Err(Error::Refused(refusal)),
                None => return Err(Error::LimitPassed { refusal, tokens: self.tokens }),
            }
        }
    }
}

fn bad_number(expected: &'static str) -> Error {
    Error::BadAnswer { what: "number", row: None, expected }
}

fn bad_place() -> Error {
    Error::BadAnswer { what: "place", row: None, expected: "that of what is refused" }
}

pub(crate) fn bad_count(what: &'static str) -> Error {
    Error::BadAnswer { what, row: None, expected: "at most what fits the lent buffer" }
}

#[cfg(test)]
mod tests;
