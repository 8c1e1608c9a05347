//! The lines of a text, for people.

use crate::counts::plural;
use dt_parser::{Columns, LineIndex, Position};

/// A text with its line index. A line ends in LF; a CR before it belongs to the end.
pub struct Lines<'t> {
    text: &'t [u8],
    index: LineIndex,
}

impl<'t> Lines<'t> {
    pub fn new(text: &'t [u8]) -> Self {
        Self { text, index: LineIndex::new(text) }
    }

    /// The line that has this offset, counted from 0. A line's end belongs to the line.
    pub fn line_of(&self, offset: usize) -> usize {
        self.index.line_of(offset.min(self.text.len())).unwrap_or(0)
    }

    pub fn start(&self, line: usize) -> usize {
        self.index.line_range(line).map_or(self.text.len(), |range| range.start)
    }

    /// A line without its end.
    pub fn line(&self, line: usize) -> &'t [u8] {
        self.index.line_range(line).map_or(b"", |range| &self.text[range.byte_range()])
    }

    /// Line and column of an offset. A column is a character.
    pub fn position(&self, offset: usize) -> Position {
        let position = self.index.position(offset.min(self.text.len()), Columns::Characters);
        position.unwrap_or(Position { line: 0, column: 0 })
    }

    /// The offset of a position; or why it has none: there is no such line, or the column lies past the line's end,
    /// which is the column after the last character.
    pub fn offset(&self, position: Position) -> Result<usize, String> {
        let Some(line) = self.index.line_range(position.line) else {
            let count = self.index.line_count();
            let is_last_empty = count > 1 && self.line(count - 1).is_empty();
            let last = if is_last_empty { ", the last of them empty" } else { "" };
            return Err(format!("the text has {}{last}", plural(count, "line", "lines")));
        };
        let offset = self.index.offset(position, Columns::Characters);
        offset.filter(|offset| *offset <= line.end).ok_or_else(|| {
            let length = self.position(line.end).column;
            let characters = plural(length, "character", "characters");
            format!("line {} has {characters}, so that its end is column {}", position.line + 1, length + 1)
        })
    }
}

#[cfg(test)]
mod tests {
    use super::*;

    #[test]
    fn line_ends_belong_to_their_lines() {
        let lines = Lines::new(b"ab\r\n\nc\rd");
        assert_eq!([0, 2, 3, 4, 5, 8].map(|offset| lines.line_of(offset)), [0, 0, 0, 1, 2, 2]);
        assert_eq!([lines.line(0), lines.line(1), lines.line(2)], [b"ab".as_slice(), b"", b"c\rd"]);
    }

    #[test]
    fn the_end_of_a_text_has_a_position() {
        let position = |text: &[u8], offset| Lines::new(text).position(offset).to_string();
        assert_eq!(position(b"", 0), "1:1");
        assert_eq!(position(b"a\n", 1), "1:2");
        assert_eq!(position(b"a\n", 2), "2:1");
        assert_eq!(Lines::new(b"a\n").line(1), b"");
    }

    #[test]
    fn every_position_that_is_shown_has_its_offset() {
        for text in ["ab\n\ncé漢;\n", "a", "", "\n", "é\ré\n𝛼"] {
            let lines = Lines::new(text.as_bytes());
            for offset in (0..=text.len()).filter(|offset| text.is_char_boundary(*offset)) {
                assert_eq!(lines.offset(lines.position(offset)), Ok(offset), "{text:?}");
            }
        }
    }

    #[test]
    fn a_position_past_a_line_or_the_text_is_none() {
        let offset = |text: &str, line, column| Lines::new(text.as_bytes()).offset(Position { line, column });
        let why = |text, line, column| offset(text, line, column).unwrap_err();
        assert_eq!(why("ab\nc\n", 0, 3), "line 1 has 2 characters, so that its end is column 3");
        assert_eq!(why("ab\nc\n", 1, usize::MAX), "line 2 has 1 character, so that its end is column 2");
        assert_eq!(why("ab\nc\n", 2, 1), "line 3 has 0 characters, so that its end is column 1");
        assert_eq!(why("ab\nc\n", 3, 0), "the text has 3 lines, the last of them empty");
        assert_eq!(why("é\nc", usize::MAX, 0), "the text has 2 lines");
        assert_eq!(why("", 1, 0), "the text has 1 line");
        assert_eq!(why("", 0, 1), "line 1 has 0 characters, so that its end is column 1");
        // a caret does not stand inside of CR LF
        assert_eq!(offset("é\r\nc", 0, 1), Ok(2));
        assert_eq!(why("é\r\nc", 0, 2), "line 1 has 1 character, so that its end is column 2");
    }

    #[test]
    fn columns_are_characters() {
        assert_eq!(Lines::new("é\tx".as_bytes()).position(3).to_string(), "1:3");
        assert_eq!(Lines::new(b"\xff\xfex").position(2).to_string(), "1:3");
        let lines = Lines::new("éé\néé".as_bytes());
        let positions = [2, 4, 0, 7, 9].map(|offset| lines.position(offset).to_string());
        assert_eq!(positions, ["1:2", "1:3", "1:1", "2:2", "2:3"]);
    }
}
