//! Source lines with ranges underlined.

use crate::lines::Lines;
use crate::shown::shown;
use crate::style::{Ink, Style};
use dt_parser::TextRange;

/// Lines of more bytes than this are shown in part: so many bytes before an underline, and so many from it on.
const LONG: usize = 240;
const BEFORE: usize = 60;
const AFTER: usize = 100;

/// A range to underline, and what to say there.
#[derive(PartialEq, Eq)]
pub struct Underline {
    pub range: TextRange,
    pub text: String,
    pub ink: Ink,
}

/// An underline's part on one line: bytes of that line.
struct Piece<'u> {
    line: usize,
    from: usize,
    to: usize,
    text: &'u str,
    ink: Ink,
}

/// The lines that have underlines, with the position of the first underline above them.
pub fn snippet(name: &str, lines: &Lines, underlines: &[&Underline], style: Style) -> String {
    let mut pieces: Vec<Piece> = underlines.iter().flat_map(|underline| pieces(underline, lines)).collect();
    pieces.sort_by_key(|piece| piece.line);
    let last = pieces.last().map_or(0, |piece| piece.line);
    let gutter = (last + 1).to_string().len();
    let position = lines.position(underlines.first().map_or(0, |first| first.range.start));
    let frame = |text: String| style.paint(Ink::Frame, &text);
    let mut out = format!("{} {name}:{position}\n", frame(format!("{:gutter$}-->", "")));
    out += &format!("{}\n", frame(format!("{:gutter$} |", "")));
    let mut before = None;
    for group in pieces.chunk_by(|a, b| a.line == b.line && lines.line(a.line).len() <= LONG) {
        let line = group[0].line;
        if before.is_some_and(|before| line > before + 1) {
            out += &frame("...\n".to_string());
        }
        before = Some(line);
        let number = frame(format!("{:>gutter$} |", line + 1));
        out += &underlined(group, lines.line(line), &number, &frame(format!("{:gutter$} |", "")), style);
    }
    out
}

/// One line with the signs under it.
fn underlined(group: &[Piece], bytes: &[u8], number: &str, frame: &str, style: Style) -> String {
    let part = part(bytes, group[0].from);
    let line = shown(&bytes[part.start..part.end]);
    let (left, right) = (if part.start > 0 { "…" } else { "" }, if part.end < bytes.len() { "…" } else { "" });
    let mut out = format!("{number} {left}{}{right}\n", line.text).replace(" \n", "\n");
    for piece in group {
        let column = |byte: usize| line.columns[byte.clamp(part.start, part.end) - part.start];
        let (from, to) = (column(piece.from), column(piece.to));
        let sign = if piece.ink == Ink::Frame { "-" } else { "^" };
        let signs = sign.repeat((to.saturating_sub(from)).max(1));
        let blank = " ".repeat(from + left.chars().count());
        let text = if piece.text.is_empty() { signs } else { format!("{signs} {}", piece.text) };
        out += &format!("{frame} {blank}{}\n", style.paint(piece.ink, &text));
    }
    out
}

/// The bytes of a line that are shown: all, or some around where an underline starts, cut between characters.
fn part(bytes: &[u8], from: usize) -> TextRange {
    if bytes.len() <= LONG {
        return TextRange { start: 0, end: bytes.len() };
    }
    let is_first = |byte: &usize| bytes[*byte] & 0xc0 != 0x80;
    let boundary = |byte: usize| (byte..bytes.len()).find(is_first).unwrap_or(bytes.len());
    TextRange { start: boundary(from.saturating_sub(BEFORE)), end: boundary((from + AFTER).min(bytes.len())) }
}

/// An underline over several lines is its first line's part and its last one's.
fn pieces<'u>(underline: &'u Underline, lines: &Lines) -> Vec<Piece<'u>> {
    let TextRange { start, end } = underline.range;
    let (first, last) = (lines.line_of(start), lines.line_of(end.saturating_sub(1).max(start)));
    let within = |line: usize, offset: usize| (offset - lines.start(line)).min(lines.line(line).len());
    let piece = |line, from, to, text| Piece { line, from, to, text, ink: underline.ink };
    if first == last {
        return vec![piece(first, within(first, start), within(first, end), underline.text.as_str())];
    }
    let indent = lines.line(last).iter().take_while(|byte| byte.is_ascii_whitespace()).count();
    let to = within(last, end);
    vec![
        piece(first, within(first, start), lines.line(first).len(), ""),
        piece(last, indent.min(to), to, underline.text.as_str()),
    ]
}

#[cfg(test)]
mod tests {
    use super::*;

    fn one(text: &[u8], start: usize, end: usize) -> String {
        let underline = Underline { range: TextRange { start, end }, text: "here".into(), ink: Ink::Error };
        snippet("x", &Lines::new(text), &[&underline], Style::new(false))
    }

    #[test]
    fn signs_stand_under_their_range() {
        assert_eq!(one(b"a\n\tbc;\n", 3, 5), " --> x:2:2\n  |\n2 |     bc;\n  |     ^^ here\n");
        assert_eq!(one(b"", 0, 0), " --> x:1:1\n  |\n1 |\n  | ^ here\n");
        assert_eq!(one(b"ab\r\nc", 2, 4), " --> x:1:3\n  |\n1 | ab\n  |   ^ here\n");
        assert_eq!(one(b"ab\n", 2, 3), " --> x:1:3\n  |\n1 | ab\n  |   ^ here\n");
    }

    #[test]
    fn wide_ranges_show_their_ends() {
        let text = b"a \"b\n1\n2\n  c\" d\n";
        assert_eq!(one(text, 2, 13), " --> x:1:3\n  |\n1 | a \"b\n  |   ^^\n...\n4 |   c\" d\n  |   ^^ here\n");
        assert_eq!(one(b"a\nb", 0, 3), " --> x:1:1\n  |\n1 | a\n  | ^\n2 | b\n  | ^ here\n");
    }

    #[test]
    fn long_lines_are_cut() {
        let said = one(&[b"x".repeat(5000), b";".to_vec(), b"y".repeat(5000)].concat(), 5000, 5001);
        let lines: Vec<&str> = said.lines().collect();
        assert_eq!(lines[2], format!("1 | …{};{}…", "x".repeat(60), "y".repeat(99)));
        assert_eq!(lines[3], format!("  | {}^ here", " ".repeat(61)));
    }

    #[test]
    fn a_label_has_its_own_line() {
        let underline = |start, end, ink| Underline { range: TextRange { start, end }, text: "t".into(), ink };
        let both = [&underline(5, 6, Ink::Error), &underline(1, 2, Ink::Frame)];
        let said = snippet("x", &Lines::new(b"/{\na;\n"), &both, Style::new(false));
        assert_eq!(said, " --> x:2:3\n  |\n1 | /{\n  |  - t\n2 | a;\n  |   ^ t\n");
    }
}
