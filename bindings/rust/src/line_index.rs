//! Lines and columns of byte offsets.

use crate::TextRange;
use std::fmt;

/// What ends a line.
#[derive(Debug, Clone, Copy, PartialEq, Eq, Hash, Default)]
#[non_exhaustive]
pub enum LineEnds {
    /// LF, and CR LF as one end. A CR alone is a character like any other.
    #[default]
    Lf,
    /// LF, CR LF as one end, and CR alone, as the language server protocol has it.
    LfOrCr,
}

/// What a column counts.
#[derive(Debug, Clone, Copy, PartialEq, Eq, Hash, Default)]
#[non_exhaustive]
pub enum Columns {
    /// Bytes.
    Bytes,
    /// Characters. A byte that belongs to no character of UTF-8 counts as one.
    #[default]
    Characters,
    /// Units of UTF-16, of which a character has one or two. The default of the language server protocol.
    Utf16,
}

/// A line and a column, both counted from 0. `Display` shows them counted from 1, as messages do: `3:14`.
#[derive(Debug, Clone, Copy, PartialEq, Eq, PartialOrd, Ord, Hash)]
pub struct Position {
    /// The line.
    pub line: usize,
    /// The column, in the unit that was asked for.
    pub column: usize,
}

impl fmt::Display for Position {
    fn fmt(&self, f: &mut fmt::Formatter<'_>) -> fmt::Result {
        write!(f, "{}:{}", self.line + 1, self.column + 1)
    }
}

/// Where the lines of a text start, to go from byte offsets to lines and columns and back. It borrows nothing: it can
/// be kept with an [owned tree](crate::Tree::into_owned).
///
/// ```
/// use dt_parser::{Columns, LineIndex, Position};
/// let index = LineIndex::new("a;\nb = \"é\";\n".as_bytes());
/// assert_eq!(index.line_count(), 3); // the last line is empty
///
/// let semicolon = index.position(11, Columns::Characters).expect("the text has 13 bytes");
/// assert_eq!(semicolon, Position { line: 1, column: 7 });
/// assert_eq!(semicolon.to_string(), "2:8");
/// assert_eq!(index.position(11, Columns::Bytes), Some(Position { line: 1, column: 8 }));
/// assert_eq!(index.offset(semicolon, Columns::Characters), Some(11));
/// assert_eq!(index.line_range(0), Some((0..2).into()));
/// ```
#[derive(Debug, Clone, PartialEq, Eq)]
pub struct LineIndex {
    /// The length of the text.
    length: usize,
    /// Where each line starts, and how many bytes its end has: 0 for the last line.
    lines: Vec<(usize, usize)>,
    /// The characters of more than one byte.
    wide: Vec<Wide>,
}

/// A character of more than one byte.
#[derive(Debug, Clone, Copy, PartialEq, Eq)]
struct Wide {
    start: usize,
    bytes: usize,
    utf16: usize,
    /// By how much bytes outnumber characters, and units of UTF-16, up to its start.
    spare: [usize; 2],
}

impl LineIndex {
    /// The lines of a text, which end in LF or CR LF.
    #[must_use]
    pub fn new(text: &[u8]) -> Self {
        Self::with_ends(text, LineEnds::Lf)
    }

    /// The lines of a text, with other line ends.
    ///
    /// ```
    /// use dt_parser::{LineEnds, LineIndex};
    /// let text = b"a\rb\r\nc";
    /// assert_eq!(LineIndex::new(text).line_count(), 2);
    /// assert_eq!(LineIndex::with_ends(text, LineEnds::LfOrCr).line_count(), 3);
    /// ```
    #[must_use]
    pub fn with_ends(text: &[u8], ends: LineEnds) -> Self {
        let mut lines = Vec::new();
        let mut start = 0;
        for (offset, byte) in text.iter().enumerate() {
            let before_lf = text.get(offset + 1) == Some(&b'\n');
            let end = match byte {
                b'\n' if offset > start && text[offset - 1] == b'\r' => 2,
                b'\n' => 1,
                b'\r' if ends == LineEnds::LfOrCr && !before_lf => 1,
                _ => continue,
            };
            lines.push((start, end));
            start = offset + 1;
        }
        lines.push((start, 0));
        Self { length: text.len(), lines, wide: wide(text) }
    }

    /// How many lines there are: at least one, since a text without a line end is a line.
    #[must_use]
    pub const fn line_count(&self) -> usize {
        self.lines.len()
    }

    /// The line that has this offset, counted from 0. A line's end belongs to the line, and the end of the text to the
    /// last line; none past the text.
    #[must_use]
    pub fn line_of(&self, offset: usize) -> Option<usize> {
        (offset <= self.length).then(|| self.lines.partition_point(|(start, _)| *start <= offset) - 1)
    }

    /// The bytes of a line without its end; none past the last line.
    #[must_use]
    pub fn line_range(&self, line: usize) -> Option<TextRange> {
        let whole = self.whole_line_range(line)?;
        Some(TextRange { start: whole.start, end: whole.end - self.lines[line].1 })
    }

    /// The bytes of a line with its end; none past the last line.
    #[must_use]
    pub fn whole_line_range(&self, line: usize) -> Option<TextRange> {
        let (start, _) = *self.lines.get(line)?;
        let end = self.lines.get(line + 1).map_or(self.length, |(next, _)| *next);
        Some(TextRange { start, end })
    }

    /// Line and column of an offset. An offset inside a character has the character's column; none past the text.
    #[must_use]
    pub fn position(&self, offset: usize, columns: Columns) -> Option<Position> {
        let line = self.line_of(offset)?;
        let (start, _) = self.lines[line];
        Some(Position { line, column: self.units(offset, columns) - self.units(start, columns) })
    }

    /// The offset of a line and a column. A column inside a character gives the character's start. None past the last
    /// line, and none past the line with its end. A caller whose column may lie past the line should use the end of
    /// [`LineIndex::line_range`] instead.
    ///
    /// ```
    /// # use dt_parser::{Columns, LineIndex, Position};
    /// let index = LineIndex::new(b"ab\nc");
    /// let offset = |line, column| index.offset(Position { line, column }, Columns::Bytes);
    /// assert_eq!([offset(0, 2), offset(1, 0), offset(1, 1)], [Some(2), Some(3), Some(4)]);
    /// assert_eq!([offset(0, 3), offset(1, 2), offset(2, 0)], [None, None, None]);
    /// ```
    #[must_use]
    pub fn offset(&self, position: Position, columns: Columns) -> Option<usize> {
        let whole = self.whole_line_range(position.line)?;
        let wanted = self.units(whole.start, columns).checked_add(position.column)?;
        let offset = self.byte_of(wanted, columns);
        let is_last = position.line + 1 == self.lines.len();
        (offset < whole.end || (is_last && offset == whole.end)).then_some(offset)
    }

    /// How many units there are before the character at this offset.
    fn units(&self, offset: usize, columns: Columns) -> usize {
        let Some(which) = spare_of(columns) else {
            return offset;
        };
        // the last wide character that starts before the offset, if there is one
        match self.wide[..self.wide.partition_point(|wide| wide.start < offset)].last() {
            None => offset,
            Some(wide) if offset < wide.start + wide.bytes => wide.start - wide.spare[which],
            Some(wide) => offset - wide.spare_after(which),
        }
    }

    /// The character that has this unit; past the text, as many bytes past it as units.
    fn byte_of(&self, unit: usize, columns: Columns) -> usize {
        let Some(which) = spare_of(columns) else {
            return unit;
        };
        let before = self.wide.partition_point(|wide| wide.start - wide.spare[which] <= unit);
        match self.wide[..before].last() {
            None => unit,
            Some(wide) if unit < wide.start + wide.bytes - wide.spare_after(which) => wide.start,
            Some(wide) => unit.saturating_add(wide.spare_after(which)),
        }
    }
}

impl Wide {
    /// By how much bytes outnumber units up to its end.
    const fn spare_after(&self, which: usize) -> usize {
        let units = [1, self.utf16][which];
        self.spare[which] + self.bytes - units
    }
}

/// Which of the two spare counts a unit uses; none for bytes.
const fn spare_of(columns: Columns) -> Option<usize> {
    match columns {
        Columns::Bytes => None,
        Columns::Characters => Some(0),
        Columns::Utf16 => Some(1),
    }
}

/// The characters of more than one byte. A byte that belongs to no character stands for one.
fn wide(text: &[u8]) -> Vec<Wide> {
    let mut found: Vec<Wide> = Vec::new();
    let (mut end, mut spare) = (0, [0, 0]);
    for chunk in text.utf8_chunks() {
        for character in chunk.valid().chars() {
            let (start, bytes, utf16) = (end, character.len_utf8(), character.len_utf16());
            end += bytes;
            if bytes > 1 {
                found.push(Wide { start, bytes, utf16, spare });
                spare = [spare[0] + bytes - 1, spare[1] + bytes - utf16];
            }
        }
        end += chunk.invalid().len();
    }
    found
}

#[cfg(test)]
mod tests;
