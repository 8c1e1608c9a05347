//! The whole tree, a line for each node and leaf.

use crate::page::Page;
use crate::style::Ink;
use dt_parser::{Item, NodeKind, TokenKind};

/// Deeper items are not indented further; their depth is written before them.
const DEEPEST: usize = 40;

pub fn print(page: &Page) -> String {
    let mut out = String::new();
    for (item, depth) in page.parse.tree.root().walk() {
        out += &"  ".repeat(depth.min(DEEPEST));
        if depth > DEEPEST {
            out += &format!("({depth}) ");
        }
        out += &match ink(item) {
            Some(ink) => page.style.paint(ink, &item.to_string()),
            None => item.to_string(),
        };
        out.push('\n');
    }
    out
}

/// The colours of an item; none for a token that is neither trivia nor an error.
pub fn ink(item: Item) -> Option<Ink> {
    match item {
        Item::Node(node) if node.kind() == NodeKind::ParseError => Some(Ink::Error),
        Item::Node(_) => Some(Ink::Frame),
        Item::Leaf(leaf) if leaf.kind() == TokenKind::Unrecognized => Some(Ink::Error),
        Item::Leaf(leaf) if leaf.is_trivia() => Some(Ink::Faint),
        Item::Leaf(_) => None,
    }
}
