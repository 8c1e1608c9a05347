//! The parent's row number, which every tree row has: in the rows that the Rust gave (tests/oracle/answers.txt), against
//! the parents that the counts of children give, and against the ways that the crate goes by it. That the rows are the
//! library's is tested in oracle.rs, and its buffers in src/sys/tests/parents.rs.

#[path = "common/answers.rs"]
mod answers;
#[path = "common/model.rs"]
#[allow(dead_code)] // only the rows are read here
mod model;

use dt_parser::{Entrypoint, Input, Item, Leaf, Node, OwnedTree, Parser, Query, Tree};

/// The fifth number of a row.
fn parent(row: &[u32]) -> usize {
    row[4] as usize
}

/// All trees, after the texts that they were made from have gone, and the rows of each.
fn trees() -> Vec<(OwnedTree, Vec<Vec<u32>>)> {
    let mut parser = Parser::new();
    let tree = |case: answers::Case| {
        let input = Input::new(&case.text, case.tokens);
        let parse = parser.parse(case.entry, &input).unwrap_or_else(|why| panic!("{}: {why}", case.line));
        (parse.tree.into_owned(), answers::tree_rows(&case.answer))
    };
    answers::all().into_iter().map(tree).collect()
}

/// Every item of every tree, with the rows of its tree.
fn on_items(check: impl Fn(Item<'_>, &[Vec<u32>])) {
    let mut items = 0;
    for (tree, rows) in &trees() {
        assert_eq!(tree.item_count(), rows.len());
        for row in 0..rows.len() {
            check(tree.item(row).unwrap(), rows);
        }
        items += rows.len();
    }
    assert!(items > 1000, "{items}");
}

#[test]
fn a_parent_is_the_one_that_the_counts_give() {
    for (tree, rows) in &trees() {
        for (row, known) in model::read(rows).iter().enumerate() {
            let item = tree.item(row).unwrap();
            assert_eq!(item.parent().map(Node::row), known.parent, "{item} in\n{tree}");
            assert_eq!(parent(&rows[row]), known.parent.unwrap_or(0), "{item} in\n{tree}");
        }
    }
}

#[test]
fn a_parent_is_a_node_before_the_row_that_counts_it() {
    on_items(|item, rows| match item.parent() {
        Some(above) => {
            assert_eq!(parent(&rows[item.row()]), above.row());
            assert!(above.row() < item.row());
            assert!(above.children().any(|child| child == item));
            let named = rows.iter().skip(1).filter(|row| parent(row) == above.row()).count();
            assert_eq!(above.children().count(), named);
        }
        None => assert_eq!((item.row(), parent(&rows[0])), (0, 0), "the root has none, and names itself"),
    });
}

#[test]
fn going_up_ends_at_the_root() {
    on_items(|item, rows| {
        let mut row = item.row();
        for node in item.nodes_above() {
            assert!(row > 0);
            row = parent(&rows[row]);
            assert_eq!(node.row(), row);
        }
        assert_eq!(row, 0);
    });
}

#[test]
fn siblings_are_the_rows_with_the_same_parent() {
    on_items(|item, rows| {
        let row = item.row();
        let is_sibling = |other: &usize| row > 0 && *other > 0 && parent(&rows[*other]) == parent(&rows[row]);
        let (before, after) = ((0..row).rev().find(is_sibling), (row + 1..rows.len()).find(is_sibling));
        assert_eq!(item.prev_sibling().map(Item::row), before);
        assert_eq!(item.next_sibling().map(Item::row), after);
    });
}

/// The leaves of a source file, each asked for at its first byte: what the proved call lists, backwards, is the leaf and
/// the nodes above it.
fn check_chains(tree: &Tree<'_>, input: &Input<'_>, parser: &mut Parser) -> usize {
    let leaves: Vec<Leaf<'_>> = tree.root().leaves().collect();
    for leaf in &leaves {
        let mut listed = parser.query(Query::Caret(leaf.range().start), input).unwrap();
        listed.reverse();
        let above = leaf.nodes_above().map(Node::row);
        assert!(std::iter::once(leaf.row()).chain(above).eq(listed), "{leaf} in\n{tree}");
    }
    leaves.len()
}

#[test]
fn the_nodes_above_a_leaf_are_what_the_caret_lists_backwards() {
    let mut parser = Parser::new();
    let mut leaves = 0;
    for case in answers::all().into_iter().filter(|case| case.entry == Entrypoint::SourceFile) {
        let input = Input::new(&case.text, case.tokens);
        let tree = parser.parse(case.entry, &input).unwrap().tree;
        leaves += check_chains(&tree, &input, &mut parser);
    }
    assert!(leaves > 1000, "{leaves}");
}

#[test]
fn the_root_has_no_parent() {
    for text in [b"".as_slice(), b"a;", b"}"] {
        let tree = Entrypoint::SourceFile.parse_text(text).unwrap().parse.tree;
        let root = tree.root();
        assert_eq!((root.row(), root.parent(), root.nodes_above().count()), (0, None, 0));
        assert_eq!((root.next_sibling(), root.prev_sibling()), (None, None));
        assert!(root.children().all(|part| part.parent() == Some(root)));
    }
}
