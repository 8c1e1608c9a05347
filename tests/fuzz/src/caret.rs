//! Request 5/14 of document 02, what is under the caret, as a plain reading of its words over the tree rows of the
//! Rust's tree: a tree of parts with their bytes. It shares nothing with the definitions.
//!
//! "The editor gives a byte offset in a source file and wants the chain of tree rows, by number, from the root to the
//! leaf there. A leaf owns its first byte and not its end. An offset equal to the file's length belongs to the last
//! leaf; in an empty file it gives the root only; an offset past the length gives no row. A second query lists, by
//! number too, the top-level parts that share a byte with a range, its end excluded, in order. Both parse first, with
//! the parser's refusals; a list that doesn't fit is refusal 8."
use dt_parser_ffi::Query;
use dt_parser_layout::{CLASS_NODE, COL_TREE_CLASS, COL_TREE_COUNT, COL_TREE_WIDTH, ROW_TREE};
use std::ops::Range;

/// A row of the tree, with its bytes and, if it is a node, its parts.
struct Part {
    number: u32,
    bytes: Range<u64>,
    parts: Option<Vec<Part>>,
}

/// "the chain of tree rows, by number, from the root to the leaf", and the leaf's bytes.
struct Chain {
    rows: Vec<u32>,
    bytes: Range<u64>,
}

/// A source file's tree.
pub struct File {
    root: Part,
    /// Of each leaf, in order.
    chains: Vec<Chain>,
}

/// The part whose rows come next.
fn grown<'a>(rows: &mut impl Iterator<Item = (usize, &'a [u32])>, start: u64) -> Part {
    let (number, row) = rows.next().expect("as many rows as are counted");
    let (number, width, mut end) = (number as u32, u64::from(row[COL_TREE_WIDTH]), start);
    if row[COL_TREE_CLASS] != CLASS_NODE {
        return Part { number, bytes: start..start + width, parts: None };
    }
    let mut parts = vec![];
    for _ in 0..row[COL_TREE_COUNT] {
        let part = grown(rows, end);
        end = part.bytes.end;
        parts.push(part)
    }
    assert_eq!(end, start + width, "a node is as wide as its parts");
    Part { number, bytes: start..end, parts: Some(parts) }
}

/// Adds the chains to the leaves of a part. `above`: the rows around it, from the root on.
fn add_chains(part: &Part, above: &mut Vec<u32>, out: &mut Vec<Chain>) {
    above.push(part.number);
    match &part.parts {
        None => out.push(Chain { rows: above.clone(), bytes: part.bytes.clone() }),
        Some(parts) => parts.iter().for_each(|part| add_chains(part, above, out)),
    }
    above.pop();
}

impl File {
    /// Of the numbers of its tree rows.
    pub fn new(trees: &[u32]) -> File {
        let root = grown(&mut trees.chunks_exact(ROW_TREE).enumerate(), 0);
        let mut chains = vec![];
        add_chains(&root, &mut vec![], &mut chains);
        File { root, chains }
    }

    /// The rows that a query lists.
    pub fn listed(&self, query: Query) -> Vec<u32> {
        match query {
            Query::Caret(offset) => self.under(offset),
            Query::Parts(start, end) => self.sharing(start, end),
        }
    }

    fn under(&self, offset: u64) -> Vec<u32> {
        let length = self.root.bytes.end;
        if offset > length {
            return vec![];
        }
        if length == 0 {
            return vec![self.root.number];
        }
        let owns = |chain: &&Chain| chain.bytes.start <= offset && offset < chain.bytes.end;
        let chain = if offset == length { self.chains.last() } else { self.chains.iter().find(owns) };
        chain.expect("each byte is a leaf's").rows.clone()
    }

    fn sharing(&self, start: u64, end: u64) -> Vec<u32> {
        let in_range = |byte| start <= byte && byte < end;
        let shares = |part: &&Part| part.bytes.clone().any(in_range);
        self.root.parts.iter().flatten().filter(shares).map(|part| part.number).collect()
    }
}

#[cfg(test)]
mod tests {
    use super::*;
    use dt_parser_layout::TREES;
    use oracle::case::Case;

    /// The file of a text, by the Rust's tree.
    fn file(text: &str) -> File {
        let (rows, text) = oracle::token::rows(&Case::Text(text.into()));
        let mut run = oracle::doc01::Run::default();
        assert!(run.of(1, &rows, &text, false).is_ok());
        File::new(&run.rows[TREES])
    }

    fn carets(text: &str, expected: &[(u64, &[u32])]) {
        let file = file(text);
        for &(offset, rows) in expected {
            assert_eq!(file.listed(Query::Caret(offset)), rows, "{text:?} at {offset}")
        }
    }

    fn parts(text: &str, expected: &[(u64, u64, &[u32])]) {
        let file = file(text);
        for &(start, end, rows) in expected {
            assert_eq!(file.listed(Query::Parts(start, end)), rows, "{text:?} from {start} to {end}")
        }
    }

    /// Worked out by hand. ` a;`: the blank is row 1, the property 2, its Name 3 and `;` 4.
    #[test]
    fn under_the_caret() {
        let past = [4, u64::from(u32::MAX), 1 << 32, (1 << 32) + 1, (1 << 32) + 3, 1 << 63, u64::MAX];
        carets(" a;", &past.map(|offset| (offset, &[] as &[u32])));
        carets(" a;", &[(0, &[0, 1]), (1, &[0, 2, 3]), (2, &[0, 2, 4]), (3, &[0, 2, 4])]);
        carets("", &[(0, &[0]), (1, &[]), (u64::MAX, &[])]);
        // a node of width 0 is the last row, and stands before the string in the second file
        carets("/delete-node/", &[(0, &[0, 1, 2]), (12, &[0, 1, 2]), (13, &[0, 1, 2]), (14, &[])]);
        carets("/delete-node/\"t\";", &[(12, &[0, 1, 2]), (13, &[0, 1, 4, 5]), (16, &[0, 6, 7]), (17, &[0, 6, 7])]);
        // a Name of five tokens
        carets("a,b-c;", &[(1, &[0, 1, 2]), (4, &[0, 1, 2]), (5, &[0, 1, 3])]);
        carets("a=;", &[(2, &[0, 1, 4, 5, 6]), (3, &[0, 1, 4, 5, 6])])
    }

    /// `a; b;`: the properties are rows 1 and 5, the blank 4.
    #[test]
    fn parts_in_a_range() {
        parts("a; b;", &[(0, 5, &[1, 4, 5]), (0, 2, &[1]), (1, 2, &[1]), (2, 3, &[4]), (1, 3, &[1, 4]), (3, 5, &[5])]);
        parts("a; b;", &[(1, 1, &[]), (2, 2, &[]), (3, 1, &[]), (5, 0, &[]), (5, 9, &[]), (4, u64::MAX, &[5])]);
        parts("a; b;", &[(0, 1 << 32, &[1, 4, 5]), (1 << 32, (1 << 32) + 5, &[]), (u64::MAX, 5, &[])]);
        parts("", &[(0, 0, &[]), (0, 1, &[]), (0, u64::MAX, &[])]);
        parts("/{a;b;};", &[(3, 5, &[1])])
    }
}
