//! The Rust's own way up: the `parent` of each node and token of its red tree (cst.rs). The rows have theirs from the
//! way down (`parsed`), so that one can be held against the other.
use crate::parsed::Parsed;
use dt_tools_parser::cst::{RedItem, RedNode};
use std::collections::HashMap;
use std::sync::Arc;

#[derive(Default)]
struct Walk {
    /// The row of each node, which is known by where it lies. A child holds its parent, so that no other lies there.
    rows: HashMap<*const RedNode, u32>,
    parents: Vec<u32>,
}

impl Walk {
    fn add(&mut self, item: RedItem) {
        let own = self.parents.len() as u32;
        match item {
            RedItem::Token(token) => self.parents.push(self.rows[&Arc::as_ptr(&token.parent)]),
            RedItem::Node(node) => {
                // the root has none, and names itself
                self.parents.push(node.parent.as_ref().map_or(own, |parent| self.rows[&Arc::as_ptr(parent)]));
                self.rows.insert(Arc::as_ptr(&node), own);
                node.children().for_each(|child| self.add(child))
            }
        }
    }
}

/// The parent's row of each row, in preorder.
pub fn of(parsed: Parsed) -> Vec<u32> {
    let mut walk = Walk::default();
    walk.add(RedItem::Node(RedNode::new(Arc::new(parsed.green))));
    walk.parents
}

#[cfg(test)]
mod tests {
    use super::of;
    use crate::case::Case;
    use crate::parsers::rust;
    use crate::token::rows;
    use dt_parser_layout::{COL_TREE_PARENT, ROW_TREE};

    /// The parents of a source file, by both ways.
    fn parents(text: &str) -> [Vec<u32>; 2] {
        let (toks, text) = rows(&Case::Text(text.into()));
        let parsed = rust::parse(1, &toks, &text).ok().expect("no panic");
        let mut trees = vec![];
        parsed.tree_rows(&toks, &mut trees);
        [trees.chunks_exact(ROW_TREE).map(|row| row[COL_TREE_PARENT]).collect(), of(parsed)]
    }

    /// Worked out by hand, in preorder.
    #[test]
    fn both_ways() {
        let cases: [(&str, &[u32]); 5] = [
            ("", &[0]),
            // DtProperty: Name, `;`
            ("a;", &[0, 0, 1, 1]),
            // DtProperty: Name, `;`; blank; DtProperty: Name, `;`
            ("a; b;", &[0, 0, 1, 1, 0, 0, 5, 5]),
            // DtNode: `/`, `{`, DtProperty: Name, `;`, then `}`, `;`
            ("/{a;};", &[0, 0, 1, 1, 1, 4, 4, 1, 1]),
            // DtsDirective: `/delete-node/`, DtsDirectiveArguments of width 0
            ("/delete-node/", &[0, 0, 1, 1]),
        ];
        for (text, expected) in cases {
            assert_eq!(parents(text), [expected, expected], "{text:?}")
        }
    }
}
