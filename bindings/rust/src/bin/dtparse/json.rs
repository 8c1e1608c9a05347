//! Writes JSON.

use crate::shown::is_hidden;
use std::fmt::Write;

/// Whether the parts of a list or an object stand on lines of their own.
#[derive(Debug, Clone, Copy, PartialEq, Eq)]
pub enum Layout {
    Lines,
    Line,
}

/// A document under way. Commas, line ends and blanks come by themselves.
#[derive(Default)]
pub struct Json {
    out: String,
    open: Vec<Open>,
    /// A key was written, and its value follows.
    after_key: bool,
}

/// A list or an object that is not at its end.
struct Open {
    end: char,
    layout: Layout,
    is_empty: bool,
}

impl Json {
    pub fn object(&mut self, layout: Layout) {
        self.begin('{', '}', layout);
    }

    pub fn list(&mut self, layout: Layout) {
        self.begin('[', ']', layout);
    }

    /// Ends the innermost list or object.
    pub fn end(&mut self) {
        let Some(Open { end, layout, is_empty }) = self.open.pop() else {
            return;
        };
        if layout == Layout::Lines && !is_empty {
            self.new_line();
        }
        self.out.push(end);
        if self.open.is_empty() {
            self.out.push('\n');
        }
    }

    pub fn key(&mut self, key: &str) -> &mut Self {
        self.string(key);
        self.out.push_str(": ");
        self.after_key = true;
        self
    }

    pub fn string(&mut self, text: &str) {
        self.before();
        self.out.push('"');
        for character in text.chars() {
            match character {
                '"' => self.out.push_str("\\\""),
                '\\' => self.out.push_str("\\\\"),
                '\n' => self.out.push_str("\\n"),
                '\r' => self.out.push_str("\\r"),
                '\t' => self.out.push_str("\\t"),
                // all of these are below U+10000
                _ if character.is_control() || is_hidden(character) => {
                    let _ = write!(self.out, "\\u{:04x}", u32::from(character));
                }
                _ => self.out.push(character),
            }
        }
        self.out.push('"');
    }

    /// Bytes that are not UTF-8 become U+FFFD.
    pub fn bytes(&mut self, text: &[u8]) {
        self.string(&String::from_utf8_lossy(text));
    }

    pub fn number(&mut self, number: usize) {
        self.before();
        let _ = write!(self.out, "{number}");
    }

    pub fn word(&mut self, is_true: bool) {
        self.before();
        self.out.push_str(if is_true { "true" } else { "false" });
    }

    pub fn null(&mut self) {
        self.before();
        self.out.push_str("null");
    }

    /// What there is, or null.
    pub fn option<T>(&mut self, value: Option<T>, write: impl FnOnce(&mut Self, T)) {
        match value {
            Some(value) => write(self, value),
            None => self.null(),
        }
    }

    /// A list with a line for each of its parts.
    pub fn each<T>(&mut self, parts: impl IntoIterator<Item = T>, mut write: impl FnMut(&mut Self, T)) {
        self.list(Layout::Lines);
        for part in parts {
            write(self, part);
        }
        self.end();
    }

    /// What has been written since the last time.
    pub fn take(&mut self) -> String {
        std::mem::take(&mut self.out)
    }

    fn begin(&mut self, start: char, end: char, layout: Layout) {
        self.before();
        self.out.push(start);
        self.open.push(Open { end, layout, is_empty: true });
    }

    /// What separates a part from the one before it.
    fn before(&mut self) {
        if std::mem::take(&mut self.after_key) {
            return;
        }
        let Some(open) = self.open.last_mut() else {
            return;
        };
        let is_first = std::mem::replace(&mut open.is_empty, false);
        let layout = open.layout;
        if !is_first {
            self.out.push(',');
        }
        match layout {
            Layout::Lines => self.new_line(),
            Layout::Line if !is_first => self.out.push(' '),
            Layout::Line => {}
        }
    }

    fn new_line(&mut self) {
        self.out.push('\n');
        let depth = self.open.iter().filter(|open| open.layout == Layout::Lines).count();
        self.out.extend(std::iter::repeat_n("  ", depth));
    }
}

#[cfg(test)]
mod tests {
    use super::*;

    #[test]
    fn commas_and_lines_come_by_themselves() {
        let mut json = Json::default();
        json.object(Layout::Lines);
        json.key("a").number(1);
        json.key("b").list(Layout::Line);
        json.word(true);
        json.null();
        json.end();
        json.key("c").list(Layout::Lines);
        json.object(Layout::Line);
        json.key("d").list(Layout::Lines);
        json.end();
        json.end();
        json.end();
        json.end();
        assert_eq!(json.take(), "{\n  \"a\": 1,\n  \"b\": [true, null],\n  \"c\": [\n    {\"d\": []}\n  ]\n}\n");
    }

    #[test]
    fn strings_are_escaped() {
        let mut json = Json::default();
        json.bytes(b"\"\\/\n\r\t\0\x1b\x7f \xff\xc2\x85");
        assert_eq!(json.take(), "\"\\\"\\\\/\\n\\r\\t\\u0000\\u001b\\u007f \u{fffd}\\u0085\"");
        json.string("é𝛼\u{2028}\u{202e}");
        assert_eq!(json.take(), "\"é𝛼\\u2028\\u202e\"");
    }
}
