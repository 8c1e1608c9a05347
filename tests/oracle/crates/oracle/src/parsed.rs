//! What a parse gave, in types that the Rust and its patched copy share.
use crate::case::Rows;
use dt_parser_layout::{CLASS_LEAF, CLASS_NODE, ROW_TREE};
use dt_tools_parser::TextRange;
pub use dt_tools_parser::cst::NodeKind;
use dt_tools_parser::cst::{GreenItem, GreenNode};
use dt_tools_parser::lexer::TokenKind;
use std::borrow::Cow;

pub type Text = Cow<'static, str>;

pub struct Parsed {
    pub green: GreenNode,
    /// Lexical errors as document 01's rows: number, start, end.
    pub lexical: Vec<u32>,
    pub reports: Vec<Report>,
}

#[derive(PartialEq)]
pub struct Report {
    pub message: Text,
    pub range: TextRange,
    /// A hint is a label at the report's own range.
    pub labels: Vec<(TextRange, Text)>,
}

impl Parsed {
    /// Writes the tree as rows: document 01's four numbers and, by document 02's request 7/14, the parent's row; the
    /// root names itself. `out` is empty. Gives how many of the tokens are in its leaves.
    pub fn tree_rows(&self, toks: &Rows, out: &mut Vec<u32>) -> usize {
        let mut taken = 0;
        node_rows(&self.green, ROOT, toks, &mut taken, out);
        taken
    }
}

/// The root's row.
const ROOT: u32 = 0;

/// In preorder: class, kind, width, count, parent. The parent is the row of the node in whose children the walk is; no
/// count is looked at for it. A leaf's count of raw tokens is read off `toks` by its width.
fn node_rows(n: &GreenNode, parent: u32, toks: &Rows, at: &mut usize, out: &mut Vec<u32>) {
    let own = (out.len() / ROW_TREE) as u32;
    out.extend([CLASS_NODE, n.kind as u32, n.width as u32, n.children.len() as u32, parent]);
    for child in &n.children {
        match child {
            GreenItem::Node(n) => node_rows(n, own, toks, at, out),
            GreenItem::Token(t) => {
                let (mut width, mut count) = (toks[*at].1, 1);
                *at += 1;
                while t.kind == TokenKind::Name && width < t.text.as_str().len() {
                    width += toks[*at].1;
                    *at += 1;
                    count += 1
                }
                out.extend([CLASS_LEAF, t.kind as u32, width as u32, count, own])
            }
        }
    }
}
