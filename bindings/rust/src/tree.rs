//! The tree: rows in preorder, with what is needed to walk it in any direction.

use crate::rows::{self, TreeRow};
use crate::{Error, Input, Item, Leaf, Node, NodeKind, TokenKind};
use std::borrow::Cow;
use std::fmt;

/// What a row stands for.
#[derive(Debug, Clone, Copy, PartialEq, Eq, Hash)]
pub(crate) enum RowKind {
    Node(NodeKind),
    Leaf(TokenKind),
}

/// A row with where it stands. Rows and tokens are counted from 0.
#[derive(Debug, Clone, Copy)]
pub(crate) struct Row {
    pub kind: RowKind,
    /// Its first byte, and how many bytes it has.
    pub start: usize,
    pub width: usize,
    /// The parent's row; the root's is its own.
    pub parent: usize,
    /// The row just past all that lies under it.
    pub next: usize,
    /// Its first raw token, and how many it has.
    pub token: usize,
    pub tokens: usize,
}

/// A lossless tree: its leaves in order are the tokens of the input.
///
/// [`Tree::root`] is where a walk starts. `Display` prints the tree as dt-tools does, a line for each node and leaf.
///
/// ```
/// # use dt_parser::{Entrypoint, Input, Token, TokenKind};
/// # let tokens = [(TokenKind::Slash, 1), (TokenKind::LCurly, 1), (TokenKind::RCurly, 1), (TokenKind::Semicolon, 1)];
/// # let input = Input::new(b"/{};", tokens.map(|(kind, length)| Token::new(kind, length)).to_vec());
/// let parse = Entrypoint::SourceFile.parse(&input)?; // of `/{};`
/// let lines = ["SourceFile@0..4", "  DtNode@0..4", "    Slash@0..1 \"/\"", "    LCurly@1..2 \"{\""];
/// assert!(parse.tree.to_string().lines().take(4).eq(lines));
///
/// let brace = parse.tree.leaf_at(2).expect("the text has four bytes");
/// assert_eq!(brace.kind(), TokenKind::RCurly);
/// # Ok::<(), dt_parser::Error>(())
/// ```
#[derive(Clone)]
pub struct Tree<'i> {
    pub(crate) text: Cow<'i, [u8]>,
    pub(crate) rows: Vec<Row>,
}

/// A tree that borrows nothing: [`Tree::into_owned`].
pub type OwnedTree = Tree<'static>;

impl<'i> Tree<'i> {
    /// The text that was parsed.
    #[must_use]
    pub fn text(&self) -> &[u8] {
        &self.text
    }

    /// The same tree without a borrow of the input, to be kept: the text is copied where it is borrowed.
    ///
    /// A [`Node`] borrows its tree. What is to be kept beside an owned tree is the node's [row](Node::row), which
    /// [`Tree::item`] turns into the node again.
    ///
    /// ```
    /// use dt_parser::{Entrypoint, Input, NodeKind, OwnedTree, Token, TokenKind};
    ///
    /// fn tree_of(text: String) -> OwnedTree {
    ///     let tokens = vec![Token::new(TokenKind::Ident, 1), Token::new(TokenKind::Semicolon, 1)];
    ///     let parse = Entrypoint::SourceFile.parse(&Input::new(text.as_bytes(), tokens)).expect("two good tokens");
    ///     parse.tree.into_owned() // the text is dropped here
    /// }
    ///
    /// let tree = tree_of("a;".to_string());
    /// let row = tree.root().child(NodeKind::DtProperty).expect("there is one").row();
    /// let tree = std::thread::spawn(move || tree).join().expect("it goes to another thread and back");
    /// assert_eq!(tree.item(row).expect("the row is there").text(), b"a;");
    /// ```
    #[must_use]
    pub fn into_owned(self) -> OwnedTree {
        Tree { text: Cow::Owned(self.text.into_owned()), rows: self.rows }
    }

    /// The root.
    #[must_use]
    pub fn root(&self) -> Node<'_> {
        Node { tree: self, row: 0 }
    }

    /// How many nodes and leaves there are.
    #[must_use]
    pub fn item_count(&self) -> usize {
        self.rows.len()
    }

    /// The node or leaf with this [row](Node::row); none past the last.
    #[must_use]
    pub fn item(&self, row: usize) -> Option<Item<'_>> {
        Some(match self.rows.get(row)?.kind {
            RowKind::Node(_) => Item::Node(Node { tree: self, row }),
            RowKind::Leaf(_) => Item::Leaf(Leaf { tree: self, row }),
        })
    }

    /// The item of a row that is there.
    pub(crate) fn item_at_row(&self, row: usize) -> Item<'_> {
        self.item(row).unwrap_or_else(|| unreachable!("row {row} of {}", self.rows.len()))
    }

    /// Reads the rows of a call. They are checked to be one tree over the input, so that no walk can leave it.
    ///
    /// Not part of the interface: public for tests/navigate.rs alone, which reads trees that no text has.
    #[doc(hidden)]
    pub fn read(rows: &[[u32; TreeRow::SIZE]], input: &Input<'i>) -> Result<Self, Error> {
        let made = Vec::with_capacity(rows.len());
        let mut reader = Reader { input, given: rows, rows: made, open: None, byte: 0, token: 0 };
        for numbers in rows {
            reader.add((*numbers).into())?;
        }
        reader.end_up_to(None)?;
        if !rows.is_empty() && reader.byte == input.text.len() && reader.token == input.tokens.len() {
            Ok(Self { text: Cow::Borrowed(input.text), rows: reader.rows })
        } else {
            Err(Error::BadAnswer { what: "tree", row: None, expected: "one over all tokens" })
        }
    }
}

/// The rows from one on, up to an end, of which each follows the subtree of the one before.
pub(crate) fn side_by_side(rows: &[Row], first: usize, end: usize) -> impl Iterator<Item = usize> {
    let within = move |row: usize| (row < end).then_some(row);
    std::iter::successors(within(first), move |row| within(rows[*row].next))
}

/// A tree that is being read.
struct Reader<'r, 'i> {
    input: &'r Input<'i>,
    given: &'r [[u32; TreeRow::SIZE]],
    rows: Vec<Row>,
    /// The innermost node that has not ended: the next row may lie under it or under a node above it.
    open: Option<usize>,
    /// The bytes and raw tokens so far.
    byte: usize,
    token: usize,
}

impl Reader<'_, '_> {
    fn add(&mut self, TreeRow { class, kind, width, count, parent }: TreeRow) -> Result<(), Error> {
        let (row, width, parent) = (self.rows.len(), width as usize, parent as usize);
        if row == 0 && (class, parent) != (rows::NODE, 0) {
            return Err(bad(row, "a node that names itself"));
        }
        self.end_up_to((row > 0).then_some(parent))?;
        let (kind, tokens) = match class {
            rows::NODE => (NodeKind::from_number(kind).map(RowKind::Node), 0),
            rows::LEAF => (TokenKind::from_number(kind).map(RowKind::Leaf), count as usize),
            _ => return Err(bad(row, "a node or a leaf")),
        };
        let kind = kind.ok_or(bad(row, "of a kind that there is"))?;
        self.rows.push(Row { kind, start: self.byte, width, parent, next: row + 1, token: self.token, tokens });
        match kind {
            RowKind::Node(_) => self.open = Some(row),
            RowKind::Leaf(_) => self.take(width, tokens).ok_or(bad(row, "a leaf of tokens"))?,
        }
        Ok(())
    }

    /// Passes a leaf's tokens, whose lengths must add up to its width.
    fn take(&mut self, width: usize, tokens: usize) -> Option<()> {
        let taken = self.input.tokens.get(self.token..self.token.checked_add(tokens)?)?;
        let sum: usize = taken.iter().map(|token| token.length as usize).sum();
        self.token += tokens;
        self.byte += width;
        (sum == width && tokens > 0).then_some(())
    }

    /// Ends open nodes, the innermost first, up to the parent of the next row; all of them where there is none.
    fn end_up_to(&mut self, parent: Option<usize>) -> Result<(), Error> {
        while self.open != parent {
            let row = self.open.ok_or(bad(self.rows.len(), "under a node that has not ended"))?;
            self.end(row)?;
            self.open = (row > 0).then_some(self.rows[row].parent);
        }
        Ok(())
    }

    fn end(&mut self, row: usize) -> Result<(), Error> {
        let next = self.rows.len();
        let children = side_by_side(&self.rows, row + 1, next).count();
        let node = &mut self.rows[row];
        node.next = next;
        node.tokens = self.token - node.token;
        if children != TreeRow::from(self.given[row]).count as usize {
            return Err(bad(row, "a node of as many children as name it"));
        }
        if node.width != self.byte - node.start {
            return Err(bad(row, "a node as wide as what is under it"));
        }
        Ok(())
    }
}

/// The error for a row whose numbers cannot be.
const fn bad(row: usize, expected: &'static str) -> Error {
    Error::BadAnswer { what: "tree row", row: Some(row), expected }
}

impl fmt::Debug for Tree<'_> {
    fn fmt(&self, f: &mut fmt::Formatter<'_>) -> fmt::Result {
        fmt::Display::fmt(self, f)
    }
}

impl fmt::Display for Tree<'_> {
    fn fmt(&self, f: &mut fmt::Formatter<'_>) -> fmt::Result {
        for (item, depth) in self.root().walk() {
            for _ in 0..depth {
                f.write_str("  ")?;
            }
            writeln!(f, "{item}")?;
        }
        Ok(())
    }
}

#[cfg(test)]
mod tests {
    use super::*;
    use crate::Token;

    /// `a;` as SourceFile(DtProperty(Name, Semicolon)).
    const ROWS: [[u32; TreeRow::SIZE]; 4] = [[0, 0, 2, 1, 0], [0, 16, 2, 2, 0], [1, 26, 1, 1, 1], [1, 29, 1, 1, 1]];

    fn input() -> Input<'static> {
        Input::new(b"a;", vec![Token::new(TokenKind::Ident, 1), Token::new(TokenKind::Semicolon, 1)])
    }

    #[test]
    fn rows_of_a_tree_are_taken() {
        let tree = Tree::read(&ROWS, &input()).unwrap();
        assert_eq!(
            tree.to_string(),
            "SourceFile@0..2\n  DtProperty@0..2\n    Name@0..1 \"a\"\n    Semicolon@1..2 \";\"\n"
        );
    }

    #[test]
    fn rows_that_are_not_a_tree_are_refused() {
        assert!(Tree::read(&[], &input()).is_err());
        assert!(Tree::read(&ROWS[..3], &input()).is_err());
        assert!(Tree::read(&[ROWS.as_slice(), &ROWS[3..]].concat(), &input()).is_err());
        for row in 0..ROWS.len() {
            for number in 0..TreeRow::SIZE {
                for other in [3, 200, u32::MAX] {
                    let mut rows = ROWS;
                    rows[row][number] = other;
                    // another kind that exists is a tree too
                    let is_tree = number == 1 && other == 3;
                    assert_eq!(Tree::read(&rows, &input()).is_ok(), is_tree, "{rows:?}");
                }
            }
        }
    }

    #[test]
    fn every_other_parent_is_refused() {
        for (row, numbers) in ROWS.into_iter().enumerate() {
            for parent in (0..9).chain([200, u32::MAX]) {
                let mut rows = ROWS;
                rows[row][4] = parent;
                assert_eq!(Tree::read(&rows, &input()).is_ok(), parent == numbers[4], "{rows:?}");
            }
        }
    }

    #[test]
    fn what_is_wrong_with_a_parent_is_said() {
        let [root, property, name, semicolon] = ROWS;
        let under = |parent, [class, kind, width, count, _]: [u32; TreeRow::SIZE]| [class, kind, width, count, parent];
        let says = |rows: &[[u32; TreeRow::SIZE]], row: usize, what: &str| {
            let said = Tree::read(rows, &input()).unwrap_err().to_string();
            assert_eq!(said.strip_suffix(": the linked library is not the proved one").unwrap(), bad_row(row, what));
        };
        for root in [under(1, root), under(0, name)] {
            says(&[root, property, name, semicolon], 0, "a node that names itself");
        }
        // the `;` under the Name, itself and the root, so that the property has one child
        for parent in [2, 3, 0] {
            says(&[root, property, name, under(parent, semicolon)], 1, "a node of as many children as name it");
        }
        // a property that has ended, and a node under it or past the rows
        let rows = [[0, 0, 2, 2, 0], [0, 16, 1, 1, 0], name, under(0, semicolon)];
        assert!(Tree::read(&rows, &input()).is_ok());
        for parent in [1, 4, 9] {
            let more = [rows.as_slice(), &[[0, 10, 0, 0, parent]]].concat();
            says(&more, 4, "under a node that has not ended");
        }
    }

    fn bad_row(row: usize, expected: &str) -> String {
        format!("tree row {row} of the answer is not {expected}")
    }
}
