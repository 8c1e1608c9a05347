//! What stands at a position: the rows of the tree from the root to the token, a line for each.

use crate::lines::Lines;
use crate::page::Page;
use crate::style::Ink;
use crate::tree::ink;
use dt_parser::{Item, Parse, Position};

/// Longer texts are cut after so many characters.
const LONGEST: usize = 40;

/// A row's line, in parts: its number, its kind, where it starts and ends, and its text.
struct Line {
    row: usize,
    kind: &'static str,
    range: String,
    text: String,
    ink: Option<Ink>,
}

/// The items from the root to the token; or why the text has no such position.
pub fn items<'p>(lines: &Lines, parse: &'p Parse<'p>, position: Position) -> Result<Vec<Item<'p>>, String> {
    Ok(parse.tree.at_offset(lines.offset(position)?))
}

pub fn print(page: &Page, position: Position) -> Result<String, String> {
    let items = items(page.lines, page.parse, position).map_err(|why| format!("--at {position}: {why}"))?;
    let lines: Vec<Line> = items.into_iter().map(|item| line(page, item)).collect();
    let widest = |of: fn(&Line) -> usize| lines.iter().map(of).max().unwrap_or(0);
    let gutter = widest(|line| line.row).to_string().len();
    let (kinds, ranges) = (widest(|line| line.kind.len()), widest(|line| line.range.len()));
    let heading = format!("rows at {}:{position}, from the root to the token:", page.name);
    let mut out = page.style.paint(Ink::Strong, &heading) + "\n";
    for Line { row, kind, range, text, ink } in lines {
        let number = page.style.paint(Ink::Frame, &format!("{row:>gutter$} |"));
        let kind = format!("{kind:kinds$}");
        let kind = ink.map_or(kind.clone(), |ink| page.style.paint(ink, &kind));
        out += &format!("{number} {kind}  {range:ranges$}  {text}\n");
    }
    Ok(out)
}

fn line(page: &Page, item: Item) -> Line {
    let kind = match item {
        Item::Node(node) => node.kind().name(),
        Item::Leaf(leaf) => leaf.kind().name(),
    };
    let (start, end) = (page.lines.position(item.range().start), page.lines.position(item.range().end));
    Line { row: item.row(), kind, range: format!("{start}..{end}"), text: short(item.text()), ink: ink(item) }
}

/// A text on one line, escaped as in the tree; cut if it is long.
fn short(text: &[u8]) -> String {
    // a character has at most four bytes
    let front = &text[..text.len().min(4 * (LONGEST + 1))];
    let front = String::from_utf8_lossy(front);
    match front.char_indices().nth(LONGEST) {
        Some((end, _)) => format!("{:?}…", &front[..end]),
        None => format!("{front:?}"),
    }
}

#[cfg(test)]
mod tests {
    use super::*;

    #[test]
    fn long_texts_are_cut_between_characters() {
        assert_eq!(short(b"a = \"b\";\n\t"), r#""a = \"b\";\n\t""#);
        assert_eq!(short(&b"x".repeat(40)), format!("{:?}", "x".repeat(40)));
        assert_eq!(short(&b"x".repeat(41)), format!("{:?}…", "x".repeat(40)));
        assert_eq!(short("𝛼".repeat(40).as_bytes()), format!("{:?}", "𝛼".repeat(40)));
        assert_eq!(short("𝛼".repeat(99).as_bytes()), format!("{:?}…", "𝛼".repeat(40)));
        assert_eq!(short(&b"\xff".repeat(50)), format!("{:?}…", "\u{fffd}".repeat(40)));
    }
}
