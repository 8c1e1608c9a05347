//! How bytes of a source are put on a terminal: one line, nothing that moves the cursor, and known columns.

const TAB: usize = 4;

/// A text that can be printed, and the column at which each of its bytes is shown; one more for the end.
pub struct Shown {
    pub text: String,
    pub columns: Vec<usize>,
}

/// A byte that belongs to no character is shown as U+FFFD, a control character as its picture, a tab as blanks.
pub fn shown(bytes: &[u8]) -> Shown {
    let mut out = Shown { text: String::new(), columns: Vec::with_capacity(bytes.len() + 1) };
    let mut column = 0;
    for chunk in bytes.utf8_chunks() {
        for character in chunk.valid().chars() {
            out.columns.extend(std::iter::repeat_n(column, character.len_utf8()));
            column += push(&mut out.text, character, column);
        }
        for _ in chunk.invalid() {
            out.columns.push(column);
            column += push(&mut out.text, char::REPLACEMENT_CHARACTER, column);
        }
    }
    out.columns.push(column);
    out
}

/// A text for the middle of a line.
pub fn plain(text: &str) -> String {
    shown(text.as_bytes()).text
}

/// Adds a character and returns its width.
fn push(out: &mut String, character: char, column: usize) -> usize {
    let (character, width) = match character {
        '\t' => {
            let width = TAB - column % TAB;
            out.extend(std::iter::repeat_n(' ', width));
            return width;
        }
        '\0'..='\x1f' => (char::from_u32(0x2400 + character as u32).unwrap_or('?'), 1),
        '\x7f' => ('\u{2421}', 1),
        _ if is_hidden(character) => (char::REPLACEMENT_CHARACTER, 1),
        _ => (character, width(character)),
    };
    out.push(character);
    width
}

/// Characters that are not seen and can change what is seen around them.
pub const fn is_hidden(character: char) -> bool {
    matches!(character as u32, 0x80..=0x9f | 0x200b..=0x200f | 0x2028..=0x202e | 0x2060..=0x206f | 0xfeff)
}

/// Columns of a character: the marks that join the one before take none, the wide blocks take two.
const fn width(character: char) -> usize {
    match character as u32 {
        0x0300..=0x036f | 0x1ab0..=0x1aff | 0x20d0..=0x20ff | 0xfe00..=0xfe0f => 0,
        0x1100..=0x115f | 0x2e80..=0xa4cf | 0xac00..=0xd7a3 | 0xf900..=0xfaff => 2,
        0xfe30..=0xfe4f | 0xff00..=0xff60 | 0xffe0..=0xffe6 | 0x1f300..=0x1f9ff | 0x20000..=0x3fffd => 2,
        _ => 1,
    }
}

#[cfg(test)]
mod tests {
    use super::*;

    #[test]
    fn every_byte_has_a_column() {
        let line = shown("a\té漢\x1b".as_bytes());
        assert_eq!(line.text, "a   é漢\u{241b}");
        assert_eq!(line.columns, [0, 1, 4, 4, 5, 5, 5, 7, 8]);
    }

    #[test]
    fn bytes_that_are_not_text_are_seen() {
        let line = shown(b"\xff\xfe\xe9\x80;");
        assert_eq!(line.text, "\u{fffd}\u{fffd}\u{fffd}\u{fffd};");
        assert_eq!(line.columns, [0, 1, 2, 3, 4, 5]);
        assert_eq!(plain("a\nb\u{202e}c"), "a\u{240a}b\u{fffd}c");
    }
}
