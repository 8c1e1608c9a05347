//! Walks through a tree.

use dt_parser::rowsfile::RowsFile;
use dt_parser::{Input, Item, Node, NodeKind, TextRange, TokenKind};

fn example(name: &str) -> Vec<u8> {
    std::fs::read(format!("{}/../../examples/{name}", env!("CARGO_MANIFEST_DIR"))).unwrap()
}

/// Runs a test on the tree of each example.
fn on_examples(test: impl Fn(Node<'_>, &Input<'_>)) {
    for name in ["board.rows", "overlay.rows"] {
        let bytes = example(name);
        let file = RowsFile::read(&bytes).unwrap();
        let read = file.entry.parse_rows(file.text, &file.rows).unwrap();
        test(read.parse.tree.root(), &read.input);
    }
}

#[test]
fn the_leaves_are_the_text() {
    on_examples(|root, input| {
        let leaves: Vec<u8> = root.leaves().flat_map(|leaf| leaf.text().to_vec()).collect();
        assert_eq!(leaves, input.text);
        assert_eq!(root.text(), input.text);
        let tokens: Vec<usize> = root.leaves().flat_map(|leaf| leaf.tokens()).collect();
        assert_eq!(tokens, (0..input.tokens.len()).collect::<Vec<_>>());
        assert_eq!(root.tokens(), 0..input.tokens.len());
    });
}

#[test]
fn children_lie_side_by_side_in_their_parent() {
    on_examples(|root, _| {
        for node in std::iter::once(root).chain(root.nodes_below()) {
            let mut end = node.range().start;
            for child in node.children() {
                assert_eq!(child.parent(), Some(node));
                assert_eq!(child.range().start, end);
                end = child.range().end;
            }
            assert_eq!(end, node.range().end);
            let count = node.child_nodes().count() + node.child_leaves().count();
            assert_eq!(count, node.children().count());
        }
        assert_eq!(root.parent(), None);
    });
}

#[test]
fn a_walk_is_in_preorder_with_depths() {
    on_examples(|root, _| {
        let walked: Vec<(Item<'_>, usize)> = root.walk().collect();
        assert_eq!(walked[0], (Item::Node(root), 0));
        assert!(walked[1..].iter().map(|(item, _)| *item).eq(root.items_below()));
        for (item, depth) in walked {
            assert_eq!(item.nodes_above().count(), depth);
        }
        for node in root.nodes_below() {
            let around = node.nodes_above().count();
            for (item, depth) in node.walk() {
                assert_eq!(item.nodes_above().count(), around + depth);
            }
        }
    });
}

#[test]
fn every_byte_has_its_leaf() {
    let bytes = example("board.rows");
    let file = RowsFile::read(&bytes).unwrap();
    let parse = file.entry.parse_rows(file.text, &file.rows).unwrap().parse;
    for leaf in parse.tree.root().leaves() {
        for offset in leaf.range().byte_range() {
            assert_eq!(parse.tree.leaf_at(offset), Some(leaf));
        }
    }
    assert_eq!(parse.tree.leaf_at(file.text.len()), None);
}

#[test]
fn the_node_after_the_mistake_is_whole() {
    let bytes = example("board.rows");
    let file = RowsFile::read(&bytes).unwrap();
    let parse = file.entry.parse_rows(file.text, &file.rows).unwrap().parse;
    let mistake = parse.reports[0].range.start;
    let name = |node: Node<'_>| node.child_leaf(TokenKind::Name).map(|leaf| leaf.text().to_vec());
    let is_regulator = |node: &Node<'_>| name(*node).is_some_and(|name| name == b"regulator-3v3");
    let node = parse.tree.root().nodes_below().find(is_regulator).unwrap();
    assert_eq!(node.kind(), NodeKind::DtNode);
    assert!(node.range().start > mistake);
    assert_eq!(node.child_nodes().filter(|child| child.kind() == NodeKind::DtProperty).count(), 6);
    assert_eq!(node.child(NodeKind::DtLabel).unwrap().text(), b"vcc_3v3:");
    assert!(node.nodes_below().all(|inner| inner.kind() != NodeKind::ParseError));
}

#[test]
fn a_part_without_a_report_is_found() {
    // a="s" b;
    let rows = b"devicetree tokens 1\nrows 6\n27 1\n28 1\n33 3\n0 1\n27 1\n29 1\ntext 8\na=\"s\" b;";
    let file = RowsFile::read(rows).unwrap();
    let parse = file.entry.parse_rows(file.text, &file.rows).unwrap().parse;
    assert!(parse.is_clean());
    let silent: Vec<TextRange> = parse.unreported().iter().map(|node| node.range()).collect();
    assert_eq!(silent, [TextRange { start: 0, end: 5 }]);
}
