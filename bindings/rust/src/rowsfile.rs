//! Files of token rows: a text with its tokens, written down. docs/TOKENS.md says when to use them, and their form.
//!
//! ```text
//! devicetree tokens 1
//! entry SourceFile
//! file a.dts
//! rows 2
//! Ident 1
//! Semicolon 1
//! text 2
//! a;
//! ```

use crate::row_error::counted;
use crate::rows::TokenRow;
use crate::{Entrypoint, Input, LexError, TokenKind};
use std::fmt;

/// The first line of every such file.
pub const FIRST_LINE: &str = "devicetree tokens 1";

/// What the first line begins with in every version of the form.
const FIRST_WORDS: &[u8] = b"devicetree tokens";

/// Whether a file means to be one of token rows, and is no devicetree source: by its first words.
///
/// ```
/// use dt_parser::rowsfile::is_rows;
/// assert!(is_rows(b"devicetree tokens 2\n"));
/// assert!(!is_rows(b"/dts-v1/;\n"));
/// ```
#[must_use]
pub fn is_rows(bytes: &[u8]) -> bool {
    bytes.starts_with(FIRST_WORDS)
}

/// A file of token rows that has been read.
#[derive(Debug, Clone, PartialEq, Eq)]
pub struct RowsFile<'i> {
    /// What the text is to be read as; a source file where nothing is said.
    pub entry: Entrypoint,
    /// The name of the file that the text comes from.
    pub name: Option<String>,
    /// The text.
    pub text: &'i [u8],
    /// Its token rows as plain numbers, a kind and a length each, as
    /// [`Entrypoint::parse_rows`](crate::Entrypoint::parse_rows) takes them.
    pub rows: Vec<u32>,
    /// The number of the line that has the first row, counted from 1. The line after the last row is that of the text's
    /// length.
    pub first_row_line: usize,
}

/// Why a file is not a file of token rows.
#[derive(Debug, Clone, PartialEq, Eq)]
pub struct BadFile {
    /// The line, counted from 1.
    pub line: usize,
    /// What should stand there.
    pub expected: String,
    /// What stands there.
    pub found: String,
}

impl fmt::Display for BadFile {
    fn fmt(&self, f: &mut fmt::Formatter<'_>) -> fmt::Result {
        write!(f, "line {}: expected {}, found {}", self.line, self.expected, self.found)
    }
}

impl std::error::Error for BadFile {}

impl<'i> RowsFile<'i> {
    /// Reads a file. Whether the rows are tokens and fit the text is not looked at: that is the parser's, refusals 2, 4
    /// and 11 to 13. (3 cannot be met: a line has both numbers of its row.)
    ///
    /// ```
    /// use dt_parser::rowsfile::RowsFile;
    /// let bad = RowsFile::read(b"devicetree tokens 1\nrows two\n").unwrap_err();
    /// assert_eq!(bad.to_string(), "line 2: expected a decimal number after `rows`, found `two`");
    ///
    /// let file = RowsFile::read(b"devicetree tokens 1\nrows 1\nIdent 2\ntext 1\na")?;
    /// let refused = file.entry.parse_rows(file.text, &file.rows).unwrap_err();
    /// assert_eq!(refused.refusal().map(|refusal| refusal.number()), Some(13));
    /// # Ok::<(), dt_parser::rowsfile::BadFile>(())
    /// ```
    ///
    /// # Errors
    ///
    /// [`BadFile`] for the first line that is not as it should be.
    pub fn read(bytes: &'i [u8]) -> Result<Self, BadFile> {
        let mut lines = Lines { rest: bytes, line: 0 };
        lines.first()?;
        let (entry, name, count) = lines.header()?;
        let first_row_line = lines.line + 1;
        let mut rows = Vec::with_capacity(TokenRow::SIZE * count.min(Input::MAX_TOKENS));
        for i in 0..count {
            rows.extend(<[u32; TokenRow::SIZE]>::from(lines.row(i, count)?));
        }
        let text = lines.text()?;
        Ok(Self { entry, name, text, rows, first_row_line })
    }

    /// How many whole rows there are.
    #[must_use]
    pub fn row_count(&self) -> usize {
        self.rows.len() / TokenRow::SIZE
    }

    /// Writes the file; what [`RowsFile::read`] reads is the same again. A number that is left over after the last whole
    /// row is not written.
    #[must_use]
    pub fn write(&self) -> Vec<u8> {
        let mut out = format!("{FIRST_LINE}\nentry {}\n", self.entry.name());
        if let Some(name) = &self.name {
            out += &format!("file {}\n", name.replace('\n', " "));
        }
        let (rows, _) = self.rows.as_chunks::<{ TokenRow::SIZE }>();
        out += &format!("rows {}\n", rows.len());
        for row in rows {
            let TokenRow { kind, length } = (*row).into();
            out += &format!("{} {length}\n", kind_word(kind));
        }
        out += &format!("text {}\n", self.text.len());
        [out.as_bytes(), self.text].concat()
    }
}

/// The lines that are left, and the number of the last one that was taken.
struct Lines<'i> {
    rest: &'i [u8],
    line: usize,
}

impl<'i> Lines<'i> {
    /// The next line without its end. The last line of a file needs no end.
    fn next(&mut self, expected: &str) -> Result<&'i [u8], BadFile> {
        self.line += 1;
        if self.rest.is_empty() {
            return Err(self.bad(expected, "the end of the file"));
        }
        let end = self.rest.iter().position(|byte| *byte == b'\n');
        let (line, rest) = self.rest.split_at(end.unwrap_or(self.rest.len()));
        self.rest = rest.get(1..).unwrap_or_default();
        Ok(line)
    }

    fn bad(&self, expected: impl Into<String>, found: impl Into<String>) -> BadFile {
        BadFile { line: self.line, expected: expected.into(), found: found.into() }
    }

    fn first(&mut self) -> Result<(), BadFile> {
        let expected = format!("`{FIRST_LINE}`");
        let line = self.next(&expected)?;
        if line == FIRST_LINE.as_bytes() { Ok(()) } else { Err(self.bad(expected, quoted(line))) }
    }

    /// `entry` and `file`, each at most once and in any order, up to `rows` with its number.
    fn header(&mut self) -> Result<(Entrypoint, Option<String>, usize), BadFile> {
        let (mut entry, mut name) = (None, None);
        loop {
            let line = self.next("`entry`, `file` or `rows`")?;
            let (word, value) = split(line);
            match word {
                b"rows" => {
                    return Ok((entry.unwrap_or(Entrypoint::SourceFile), name, self.number("rows", value)?));
                }
                b"entry" if entry.is_none() => entry = Some(self.entry(value)?),
                b"file" if name.is_none() => name = Some(String::from_utf8_lossy(value).into_owned()),
                b"entry" | b"file" => return Err(self.bad("this word once", quoted(line))),
                _ => return Err(self.bad("`entry`, `file` or `rows`", quoted(line))),
            }
        }
    }

    fn entry(&self, value: &[u8]) -> Result<Entrypoint, BadFile> {
        let expected = "SourceFile, ReferenceNoamp, PropValues or Cells";
        let name = std::str::from_utf8(value).ok();
        name.and_then(Entrypoint::from_name).ok_or_else(|| self.bad(expected, quoted(value)))
    }

    /// The count after `rows` or `text`.
    fn number(&self, after: &str, value: &[u8]) -> Result<usize, BadFile> {
        match decimal(value) {
            Decimal::Number(number) => Ok(number as usize),
            Decimal::TooLarge => Err(self.too_large("a count", value)),
            Decimal::Other => Err(self.bad(format!("a decimal number after `{after}`"), quoted(value))),
        }
    }

    fn too_large(&self, what: &str, digits: &[u8]) -> BadFile {
        self.bad(format!("{what} of at most {}", u32::MAX), format!("{}, which is too large", quoted(digits)))
    }

    /// A kind and a length.
    fn row(&mut self, i: usize, count: usize) -> Result<TokenRow, BadFile> {
        let expected = format!("row {} of {count}, a kind and a length", i + 1);
        let line = self.next(&expected)?;
        let (kind, length) = split(line);
        match (kind_number(kind), decimal(length)) {
            (Decimal::Number(kind), Decimal::Number(length)) => Ok(TokenRow { kind, length }),
            (_, Decimal::Other) => Err(self.bad(expected, quoted(line))),
            (Decimal::TooLarge, _) => Err(self.too_large("a kind", kind)),
            (Decimal::Other, _) => Err(self.bad("a token's kind, by name or number", quoted(kind))),
            (_, Decimal::TooLarge) => Err(self.too_large("a length", length)),
        }
    }

    /// The line `text` with the number of bytes, and then those bytes up to the file's end.
    fn text(&mut self) -> Result<&'i [u8], BadFile> {
        let expected = "`text` and the number of its bytes, after the last row";
        let line = self.next(expected)?;
        let (word, value) = split(line);
        if word != b"text" {
            return Err(self.bad(expected, quoted(line)));
        }
        let count = self.number("text", value)?;
        if count == self.rest.len() {
            return Ok(self.rest);
        }
        let expected = format!("{} after this line, up to the end of the file", counted(count, "byte"));
        Err(self.bad(expected, self.rest.len().to_string()))
    }
}

/// The word up to the first blank, and what follows the blank.
fn split(line: &[u8]) -> (&[u8], &[u8]) {
    match line.iter().position(|byte| *byte == b' ') {
        Some(end) => (&line[..end], &line[end + 1..]),
        None => (line, b""),
    }
}

/// What a word is as a number.
enum Decimal {
    Number(u32),
    /// Digits for more than a row's numbers can be.
    TooLarge,
    Other,
}

/// Digits alone: no sign, no blank.
fn decimal(digits: &[u8]) -> Decimal {
    match std::str::from_utf8(digits) {
        Ok(text) if !text.is_empty() && text.bytes().all(|byte| byte.is_ascii_digit()) => {
            text.parse().map_or(Decimal::TooLarge, Decimal::Number)
        }
        _ => Decimal::Other,
    }
}

/// What an error token's name begins with.
const LEX_ERROR: &str = "LexError::";

/// The number of a kind or a lexical error, by name; or any number.
fn kind_number(word: &[u8]) -> Decimal {
    let name = std::str::from_utf8(word).unwrap_or_default();
    let named = match name.strip_prefix(LEX_ERROR) {
        Some(error) => LexError::from_name(error).map(LexError::number),
        None => TokenKind::from_name(name).map(TokenKind::number),
    };
    named.map_or_else(|| decimal(word), Decimal::Number)
}

/// The name of a kind or a lexical error, or the number where it has none.
fn kind_word(number: u32) -> String {
    match (TokenKind::from_number(number), LexError::from_number(number)) {
        (Some(kind), _) => kind.name().to_string(),
        (None, Some(error)) => format!("{LEX_ERROR}{}", error.name()),
        (None, None) => number.to_string(),
    }
}

/// What was found, short and on one line.
fn quoted(bytes: &[u8]) -> String {
    if bytes.is_empty() {
        return "nothing".to_string();
    }
    let short = &bytes[..bytes.len().min(40)];
    let dots = if short.len() < bytes.len() { ".." } else { "" };
    format!("`{}`{dots}", short.escape_ascii())
}

#[cfg(test)]
mod tests;
