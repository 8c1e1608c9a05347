//! Request 7/14 of document 02, the parent in every tree row, as a plain reading of its words over an answer's rows
//! alone. It shares nothing with the definitions, and looks at no tree of the Rust.
//!
//! "A tree row becomes five numbers, the fifth being the parent's row, and the root names itself. Every user of tree
//! rows follows, the caret query and document 01's readings included."
//!
//! Which rows are a node's children is said by the child counts too, so the column is held against these.
use crate::subtrees::{children, ends};
use dt_parser_ffi::Query;
use dt_parser_layout::{CLASS_NODE, COL_TREE_CLASS, COL_TREE_PARENT, ROW_TREE};

/// The root's row: rows are numbered from 0, in preorder.
const ROOT: usize = 0;

struct Row {
    is_node: bool,
    children: usize,
    parent: usize,
}

struct Tree {
    rows: Vec<Row>,
    /// Of each row the row after its subtree, by child counts.
    ends: Vec<usize>,
}

impl Tree {
    /// None if the child counts are not those of one tree.
    fn of(trees: &[u32]) -> Option<Tree> {
        let row = |row: &[u32]| Row {
            is_node: row[COL_TREE_CLASS] == CLASS_NODE,
            children: children(row),
            parent: row[COL_TREE_PARENT] as usize,
        };
        Some(Tree { ends: ends(trees)?, rows: trees.chunks_exact(ROW_TREE).map(row).collect() })
    }

    /// Each row but the root, with the row that it names.
    fn others(&self) -> impl Iterator<Item = (usize, usize)> {
        self.rows.iter().map(|row| row.parent).enumerate().skip(ROOT + 1)
    }

    fn root_names_itself(&self) -> bool {
        self.rows[ROOT].parent == ROOT
    }

    /// Each other row names an earlier one, a node in whose subtree it is.
    fn parents_are_around(&self) -> bool {
        let holds = |parent: usize, row: usize| self.rows[parent].is_node && row < self.ends[parent];
        self.others().all(|(row, parent)| parent < row && holds(parent, row))
    }

    /// Who goes up from parent to parent comes to the root.
    fn ways_up_end_at_the_root(&self) -> bool {
        let mut known = vec![false; self.rows.len()];
        known[ROOT] = true;
        (0..known.len()).all(|row| {
            let (mut at, mut steps) = (row, 0);
            // no way is longer than there are rows, but one that comes back to a row
            while known.get(at) == Some(&false) && steps < known.len() {
                (at, steps) = (self.rows[at].parent, steps + 1)
            }
            known[row] = known.get(at) == Some(&true);
            known[row]
        })
    }

    /// So many other rows name a row as it has children.
    fn names_are_counted(&self) -> bool {
        let mut named = vec![0; self.rows.len()];
        for (_, parent) in self.others() {
            match named.get_mut(parent) {
                Some(count) => *count += 1,
                None => return false,
            }
        }
        self.rows.iter().map(|row| row.children).eq(named)
    }

    /// The parents as the child counts alone have them: a node's first child is the next row, and each other one is
    /// after the subtree of the child before it.
    fn are_those_of_counts(&self) -> bool {
        let mut parents = vec![ROOT; self.rows.len()];
        for (node, row) in self.rows.iter().enumerate() {
            let mut child = node + 1;
            for _ in 0..row.children {
                parents[child] = node;
                child = self.ends[child]
            }
        }
        self.rows.iter().map(|row| row.parent).eq(parents)
    }
}

/// What is wrong with the tree rows of an accepted answer, if anything.
pub fn wrong(trees: &[u32]) -> Option<&'static str> {
    let Some(tree) = Tree::of(trees) else { return Some("they are not five numbers each, of one tree") };
    let statements = [
        ("the root does not name itself", tree.root_names_itself()),
        ("a parent is not a node around its row", tree.parents_are_around()),
        ("a way up does not end at the root", tree.ways_up_end_at_the_root()),
        ("a row is not named as often as it has children", tree.names_are_counted()),
        ("the child counts have other parents", tree.are_those_of_counts()),
    ];
    statements.into_iter().find(|(_, holds)| !holds).map(|(said, _)| said)
}

/// Whether what a query lists agrees with the parents in those rows: a chain begins with the root, and each later row
/// of it names the one before; a part names the root.
pub fn agrees(trees: &[u32], query: Query, list: &[u32]) -> bool {
    let names = |row: u32, parent: u32| trees.get(ROW_TREE * row as usize + COL_TREE_PARENT) == Some(&parent);
    let root = ROOT as u32;
    match query {
        Query::Caret(_) => {
            list.first().is_none_or(|&row| row == root) && list.windows(2).all(|pair| names(pair[1], pair[0]))
        }
        Query::Parts(..) => list.iter().all(|&row| row != root && names(row, root)),
    }
}

#[cfg(test)]
mod tests;
