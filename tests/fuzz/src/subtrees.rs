//! Where subtrees end, by the child counts of tree rows: no parent is looked at.
use dt_parser_layout::{CLASS_NODE, COL_TREE_CLASS, COL_TREE_COUNT, ROW_TREE};

/// How many rows are a row's children.
pub fn children(row: &[u32]) -> usize {
    if row[COL_TREE_CLASS] == CLASS_NODE { row[COL_TREE_COUNT] as usize } else { 0 }
}

/// Of each row the row after its subtree. None if the numbers are not whole rows, or not of one tree.
pub fn ends(trees: &[u32]) -> Option<Vec<usize>> {
    let rows = trees.len() / ROW_TREE;
    let mut ends = vec![0; rows];
    for (i, row) in trees.chunks_exact(ROW_TREE).enumerate().rev() {
        let mut end = i + 1;
        for _ in 0..children(row) {
            end = *ends.get(end)?
        }
        ends[i] = end
    }
    (trees.len().is_multiple_of(ROW_TREE) && ends.first() == Some(&rows)).then_some(ends)
}
