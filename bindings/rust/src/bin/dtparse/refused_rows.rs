//! Why a call on a file of token rows is refused, with the place in the file that has the row.

use crate::counts::plural;
use crate::lines::Lines;
use crate::refused::{Refused, sentence};
use dt_parser::rowsfile::RowsFile;
use dt_parser::{Error, Input, Refusal, RowError, RowErrorKind, TextRange};

/// A file of token rows: its bytes, and what was read of them.
pub struct Rows<'f> {
    pub bytes: &'f [u8],
    pub file: &'f RowsFile<'f>,
}

/// Which word of a line is underlined.
#[derive(Clone, Copy)]
enum Word {
    First,
    Second,
}

impl Rows<'_> {
    /// What is wrong, the word of the row in question, and what is allowed there.
    pub fn explain(&self, why: Error) -> Refused {
        match why {
            Error::BadRows(why) => Refused {
                refusal: Some(why.refusal()),
                message: why.message(),
                range: Some(self.word(why.row(), word(why.kind()))),
                help: Some(allowed(why)),
            },
            Error::Refused(refusal) => self.refused(refusal),
            _ => Refused { refusal: None, message: why.to_string(), range: None, help: None },
        }
    }

    /// What is wrong, where it is not the numbers of the rows.
    fn refused(&self, refusal: Refusal) -> Refused {
        let (message, range) = match refusal {
            Refusal::TooLong => (self.too_long(), None),
            Refusal::BadText(row) => (self.bad_text(row), Some(self.word(row, Word::First))),
            Refusal::TooDeep(mark) => (self.too_deep(mark), None),
            _ => (refusal.to_string(), None),
        };
        Refused { refusal: Some(refusal), message, range, help: None }
    }

    /// A word of a row's line. After the last row comes the line with the text's length.
    fn word(&self, row: usize, word: Word) -> TextRange {
        let lines = Lines::new(self.bytes);
        let line = self.file.first_row_line - 1 + row;
        let (start, bytes) = (lines.start(line), lines.line(line));
        let blank = bytes.iter().position(|byte| *byte == b' ').unwrap_or(bytes.len());
        TextRange::from(match word {
            Word::First => start..start + blank,
            Word::Second => start + (blank + 1).min(bytes.len())..start + bytes.len(),
        })
    }

    /// The text and its tokens, which rows are if the refusal is 4 or 5.
    fn input(&self) -> Option<Input<'_>> {
        Input::from_rows(self.file.text, &self.file.rows)
    }

    fn bad_text(&self, row: usize) -> String {
        let described = self.input().and_then(|input| {
            let (kind, range) = (input.tokens.get(row)?.seen_kind(), input.ranges().nth(row)?);
            let found = input.text.get(range.byte_range())?;
            let found = found[..found.len().min(40)].escape_ascii().to_string();
            let (name, fixed) = (kind.name(), kind.static_text()?);
            Some(format!("row {row}, counted from 0: {name} is always `{fixed}`, and the text has `{found}`"))
        });
        described.unwrap_or_else(|| Refusal::BadText(row).to_string())
    }

    fn too_long(&self) -> String {
        format!(
            "{} and {}; at most {} bytes and {} tokens are taken",
            plural(self.file.text.len(), "byte", "bytes"),
            plural(self.file.row_count(), "token", "tokens"),
            Input::MAX_BYTES,
            Input::MAX_TOKENS
        )
    }

    fn too_deep(&self, mark: usize) -> String {
        let last = self.input().and_then(|input| input.ranges().nth(mark.checked_sub(1)?));
        let position = Lines::new(self.file.text).position(last.map_or(0, |range| range.start));
        format!("{}, the last of them at {position} of the text", Refusal::TooDeep(mark))
    }
}

/// The kind, the length or, of a short total, the text's length.
const fn word(kind: RowErrorKind) -> Word {
    match kind {
        RowErrorKind::BadKind { .. } => Word::First,
        _ => Word::Second,
    }
}

/// What is allowed. A file can have a kind by its name too.
fn allowed(why: RowError) -> String {
    match why.kind() {
        RowErrorKind::BadKind { .. } => sentence(&format!("{}, or the name of one (docs/TOKENS.md)", why.allowed())),
        _ => sentence(&why.allowed()),
    }
}
