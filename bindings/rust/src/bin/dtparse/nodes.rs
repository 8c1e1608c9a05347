//! The outline: each devicetree node with the line that it starts on.

use crate::counts::plural;
use crate::page::Page;
use crate::shown::shown;
use crate::style::Ink;
use dt_parser::{Item, Node, NodeKind, Parse, TokenKind};
use std::collections::HashMap;

/// Deeper nodes are not indented further.
const DEEPEST: usize = 32;

pub fn print(page: &Page) -> String {
    let nodes: Vec<Node> = all(page.parse).collect();
    let Some(last) = nodes.last() else {
        return String::new();
    };
    let gutter = line(page, last).to_string().len();
    let errors = errors_inside(page.parse);
    let names: Vec<String> = nodes.iter().copied().map(indented).collect();
    let widest = names.iter().map(|name| name.chars().count()).max().unwrap_or(0).min(60);
    let mut out = page.style.paint(Ink::Strong, "nodes, with the line that each starts on:") + "\n";
    for (node, name) in nodes.iter().zip(names) {
        let number = page.style.paint(Ink::Frame, &format!("{:>gutter$} |", line(page, node)));
        if let Some(errors) = errors.get(node) {
            let count = page.style.paint(Ink::Error, &format!("<- {}", plural(*errors, "error", "errors")));
            out += &format!("{number} {name:widest$}  {count}\n");
        } else {
            out += &format!("{number} {name}\n");
        }
    }
    out
}

/// The devicetree nodes in the order of the text.
pub fn all<'p>(parse: &'p Parse<'p>) -> impl Iterator<Item = Node<'p>> {
    parse.tree.root().nodes_below().filter(is_dt_node)
}

/// The line that a node starts on, from 1.
fn line(page: &Page, node: &Node) -> usize {
    page.lines.line_of(node.range().start) + 1
}

pub fn is_dt_node(node: &Node) -> bool {
    node.kind() == NodeKind::DtNode
}

/// How many reports and lexical errors start in a node and in no node inside it; nodes without any are left out.
pub fn errors_inside<'p>(parse: &'p Parse<'p>) -> HashMap<Node<'p>, usize> {
    let reports = parse.reports.iter().map(|report| report.range.start);
    let lexical = parse.lexical_errors.iter().map(|error| error.range.start);
    let mut counts = HashMap::new();
    // up from the token there; what starts at the end of the text is in no node
    let leaves = reports.chain(lexical).filter_map(|offset| parse.tree.leaf_at(offset));
    for node in leaves.filter_map(|leaf| leaf.nodes_above().find(is_dt_node)) {
        *counts.entry(node).or_default() += 1;
    }
    counts
}

/// What stands before a node's `{`, without blanks and comments.
pub struct Head {
    /// Each with its colon.
    pub labels: Vec<Vec<u8>>,
    /// Name or reference with the unit address; empty where there is none.
    pub name: Vec<u8>,
}

pub fn head(node: Node) -> Head {
    let mut head = Head { labels: Vec::new(), name: Vec::new() };
    for item in node.children() {
        match item {
            Item::Leaf(leaf) if leaf.kind() == TokenKind::LCurly => break,
            Item::Leaf(leaf) if leaf.is_trivia() => {}
            Item::Node(label) if label.kind() == NodeKind::DtLabel => head.labels.push(bare(item)),
            _ => head.name.extend(bare(item)),
        }
    }
    head
}

fn indented(node: Node) -> String {
    let depth = node.nodes_above().filter(is_dt_node).count().min(DEEPEST);
    let Head { labels, name } = head(node);
    let labels: String = labels.iter().map(|label| format!("{} ", shown(label).text)).collect();
    let name = if name.is_empty() { "(no name)".to_string() } else { shown(&name).text };
    format!("{}{labels}{name}", "    ".repeat(depth))
}

/// The text of an item without blanks and comments.
fn bare(item: Item) -> Vec<u8> {
    match item {
        Item::Leaf(leaf) => leaf.text().to_vec(),
        Item::Node(node) => {
            node.leaves().filter(|leaf| !leaf.is_trivia()).flat_map(|leaf| leaf.text().to_vec()).collect()
        }
    }
}
