//! Parts that were not understood and that no report speaks of.

use crate::{Message, Node, NodeKind, Parse, TextRange};

impl Parse<'_> {
    /// The outermost [`ParseError`](NodeKind::ParseError) nodes without a report or a lexical error inside them or just
    /// after them. dt-tools' grammar makes such nodes: `a=<1> b;` lacks a semicolon, `a=<1>` becomes a `ParseError`,
    /// and nothing is reported. A report of a label's name says nothing of what stands around it and does not count.
    #[must_use]
    pub fn unreported(&self) -> Vec<Node<'_>> {
        let of_syntax = self.reports.iter().filter(|report| report.message != Message::NotALabel);
        let mut ranges: Vec<TextRange> = of_syntax.map(|report| report.range).collect();
        ranges.extend(self.lexical_errors.iter().map(|error| error.range));
        ranges.sort();
        let spoken_of = |node: &Node<'_>| {
            let own = node.range();
            let first = ranges.partition_point(|range| range.start < own.start);
            ranges.get(first).is_some_and(|range| range.start <= own.end)
        };
        let mut silent = self.outermost_errors();
        silent.retain(|node| !spoken_of(node));
        silent
    }

    /// The [`ParseError`](NodeKind::ParseError) nodes that lie in no other one.
    #[must_use]
    pub fn outermost_errors(&self) -> Vec<Node<'_>> {
        let mut found = Vec::new();
        let mut past = 0;
        for node in self.tree.root().nodes_below() {
            if node.kind() == NodeKind::ParseError && node.row >= past {
                past = node.data().next;
                found.push(node);
            }
        }
        found
    }
}
