//! A plain reading of tree rows, in which every answer is found by looking at all there is; and the crate's steps and
//! walks against it.

use dt_parser::{Item, Leaf, Node, TextRange, Tree};
use std::cmp::Ordering;

/// What the rows say of an item.
pub struct Known {
    pub parent: Option<usize>,
    pub children: Vec<usize>,
    /// The row after all that lies below it.
    pub after: usize,
    pub range: TextRange,
    pub depth: usize,
    pub is_leaf: bool,
}

/// Reads rows, by recursion. Their first numbers are class, kind, width and count; the fifth is the parent's row, which
/// is not looked at: a parent is the row from whose count of children a row is read.
pub fn read(rows: &[impl AsRef<[u32]>]) -> Vec<Known> {
    let mut known = Vec::new();
    read_subtree(rows, None, 0, 0, &mut known);
    assert_eq!(known.len(), rows.len());
    known
}

fn read_subtree(
    rows: &[impl AsRef<[u32]>],
    parent: Option<usize>,
    depth: usize,
    start: usize,
    known: &mut Vec<Known>,
) -> usize {
    let row = known.len();
    let number = |column: usize| rows[row].as_ref()[column] as usize;
    let (class, width, count) = (number(0), number(2), number(3));
    let range = TextRange { start, end: start + width };
    known.push(Known { parent, children: Vec::new(), after: row + 1, range, depth, is_leaf: class == 1 });
    if class == 0 {
        let mut end = start;
        for _ in 0..count {
            let child = read_subtree(rows, Some(row), depth + 1, end, known);
            end = known[child].range.end;
            known[row].children.push(child);
        }
        known[row].after = known.len();
    }
    row
}

/// Every item of the tree, and the leaf and the items at every offset.
pub fn check_items(tree: &Tree<'_>, known: &[Known]) {
    assert_eq!(tree.item_count(), known.len());
    assert_eq!(tree.item(known.len()), None);
    for row in 0..known.len() {
        check_item(tree, known, row);
    }
    for offset in 0..known[0].range.end + 2 {
        let leaf = (0..known.len()).find(|row| known[*row].is_leaf && known[*row].range.contains(offset));
        assert_eq!(tree.leaf_at(offset).map(Leaf::row), leaf, "{offset}");
        let items: Vec<usize> = tree.at_offset(offset).into_iter().map(Item::row).collect();
        assert_eq!(items, chain(known, offset), "{offset} in\n{tree}");
    }
}

/// The rows from the root to the leaf at an offset: the leaf that has the byte, or at the end the last leaf.
fn chain(known: &[Known], offset: usize) -> Vec<usize> {
    let length = known[0].range.end;
    let mut leaves = (0..known.len()).filter(|row| known[*row].is_leaf);
    let leaf = match offset.cmp(&length) {
        Ordering::Less => leaves.find(|row| known[*row].range.contains(offset)),
        Ordering::Equal => leaves.next_back(),
        Ordering::Greater => return Vec::new(),
    };
    // without a leaf the text is empty
    let last = leaf.unwrap_or(0);
    (0..=last).filter(|row| last < known[*row].after).collect()
}

/// The top-level parts that share a byte with a range, by looking at each byte of each part.
pub fn check_parts(tree: &Tree<'_>, known: &[Known], range: TextRange) {
    let shares = |row: &&usize| known[**row].range.byte_range().any(|byte| range.contains(byte));
    let parts: Vec<usize> = known[0].children.iter().filter(shares).copied().collect();
    assert!(tree.parts_in(range).map(Item::row).eq(parts), "{range} in\n{tree}");
}

fn check_item(tree: &Tree<'_>, known: &[Known], row: usize) {
    let item = tree.item(row).unwrap();
    let row_of = |item: Option<Item<'_>>| item.map(Item::row);
    assert_eq!((item.row(), item.range()), (row, known[row].range));
    assert_eq!(item.parent().map(Node::row), known[row].parent);
    assert_eq!(row_of(item.next_sibling()), sibling(known, row, 1));
    assert_eq!(row_of(item.prev_sibling()), sibling(known, row, -1));
    let within = |row: usize, above: usize| above <= row && row < known[above].after;
    let leaves: Vec<usize> = (0..known.len()).filter(|other| known[*other].is_leaf && within(*other, row)).collect();
    assert_eq!(item.first_leaf().map(Leaf::row), leaves.first().copied());
    assert_eq!(item.last_leaf().map(Leaf::row), leaves.last().copied());
    let above = (0..known.len()).rev().filter(|other| *other != row && within(row, *other));
    assert!(item.nodes_above().map(Node::row).eq(above));
    if let Some(node) = item.as_node() {
        let below = || (0..known.len()).filter(|other| *other != row && within(*other, row));
        assert!(node.items_below().map(Item::row).eq(below()));
        assert!(node.nodes_below().map(Node::row).eq(below().filter(|other| !known[*other].is_leaf)));
        assert!(node.children().map(Item::row).eq(known[row].children.iter().copied()));
        assert!(node.leaves().map(Leaf::row).eq(leaves));
        let all = (0..known.len()).filter(|other| within(*other, row));
        assert!(node.walk().map(|(_, depth)| depth).eq(all.map(|other| known[other].depth - known[row].depth)));
    }
}

/// The nearest sibling before (-1) or after (+1), by the parent's list.
fn sibling(known: &[Known], row: usize, step: isize) -> Option<usize> {
    let siblings = &known[known[row].parent?].children;
    let index = siblings.iter().position(|child| *child == row).unwrap();
    siblings.get(index.checked_add_signed(step)?).copied()
}

/// The node that covers a range.
pub fn check_covering(tree: &Tree<'_>, known: &[Known], range: TextRange) {
    assert_eq!(tree.covering_node(range).map(Node::row), covering(known, range), "{range} in\n{tree}");
}

/// The deepest node that has every byte of the range, by looking at all nodes.
fn covering(known: &[Known], range: TextRange) -> Option<usize> {
    let TextRange { start, end } = range;
    let length = known[0].range.end;
    if start > end || end > length {
        return None;
    }
    let (start, end) = match (start == end, start == length) {
        (false, _) => (start, end),
        (true, false) => (start, start + 1),
        (true, true) => (length.saturating_sub(1), length),
    };
    if length == 0 {
        return Some(0);
    }
    let covers = |known: &Known| !known.is_leaf && known.range.start <= start && end <= known.range.end;
    (0..known.len()).filter(|row| covers(&known[*row])).max_by_key(|row| known[*row].depth)
}
