//! Steps from an item of the tree to others: siblings, first and last leaf, what lies at an offset, in a range or
//! around it.

use crate::tree::RowKind;
use crate::{Item, Leaf, Node, TextRange, Tree};

/// The steps that a node, a leaf and an item all have.
macro_rules! steps {
    ($name:ident) => {
        impl<'t> $name<'t> {
            /// The next child of the same parent; none for the last and for the root.
            ///
            /// ```
            /// # use dt_parser::{Entrypoint, Input, Token, TokenKind};
            /// # let kinds = [TokenKind::Ident, TokenKind::Equals, TokenKind::Ident, TokenKind::Semicolon];
            /// # let input = Input::new(b"a=b;", kinds.map(|kind| Token::new(kind, 1)).to_vec());
            /// # let parse = Entrypoint::SourceFile.parse(&input)?;
            /// let name = parse.tree.leaf_at(0).expect("the text is `a=b;`");
            /// let equals = name.next_sibling().expect("a value follows");
            /// assert_eq!(equals.text(), b"=");
            /// assert_eq!(equals.prev_sibling().map(|item| item.text()), Some(b"a".as_slice()));
            /// assert_eq!(name.prev_sibling(), None);
            /// # Ok::<(), dt_parser::Error>(())
            /// ```
            #[must_use]
            pub fn next_sibling(self) -> Option<Item<'t>> {
                let row = self.data();
                self.tree().item(row.next).filter(|item| item.data().parent == row.parent)
            }

            /// The child of the same parent before it; none for the first and for the root.
            #[must_use]
            pub fn prev_sibling(self) -> Option<Item<'t>> {
                let (tree, parent) = (self.tree(), self.parent()?.row());
                // The row before is the last of the sibling's subtree: the sibling is that row or lies above it.
                let mut row = self.row() - 1;
                if row == parent {
                    return None;
                }
                while tree.rows[row].parent != parent {
                    row = tree.rows[row].parent;
                }
                Some(tree.item_at_row(row))
            }
        }
    };
}

steps!(Node);
steps!(Leaf);
steps!(Item);

impl<'t> Node<'t> {
    /// The first leaf below it; none for a node without text.
    ///
    /// ```
    /// # use dt_parser::{Entrypoint, Input, Token, TokenKind};
    /// # let kinds = [TokenKind::Slash, TokenKind::LCurly, TokenKind::RCurly, TokenKind::Semicolon];
    /// # let input = Input::new(b"/{};", kinds.map(|kind| Token::new(kind, 1)).to_vec());
    /// let parse = Entrypoint::SourceFile.parse(&input)?; // of `/{};`
    /// let node = parse.tree.root().child_nodes().next().expect("there is one");
    /// assert_eq!(node.first_leaf().map(|leaf| leaf.kind()), Some(TokenKind::Slash));
    /// assert_eq!(node.last_leaf().map(|leaf| leaf.kind()), Some(TokenKind::Semicolon));
    /// # Ok::<(), dt_parser::Error>(())
    /// ```
    #[must_use]
    pub fn first_leaf(self) -> Option<Leaf<'t>> {
        self.leaf_among(self.row + 1..self.data().next)
    }

    /// The last leaf below it; none for a node without text.
    #[must_use]
    pub fn last_leaf(self) -> Option<Leaf<'t>> {
        self.leaf_among((self.row + 1..self.data().next).rev())
    }

    /// The first of these rows that is a leaf's.
    fn leaf_among(self, mut rows: impl Iterator<Item = usize>) -> Option<Leaf<'t>> {
        let tree = self.tree;
        let row = rows.find(|row| matches!(tree.rows[*row].kind, RowKind::Leaf(_)))?;
        Some(Leaf { tree, row })
    }
}

impl<'t> Item<'t> {
    /// The first leaf of it: a leaf itself, or the first below a node. None for a node without text.
    #[must_use]
    pub fn first_leaf(self) -> Option<Leaf<'t>> {
        match self {
            Self::Node(node) => node.first_leaf(),
            Self::Leaf(leaf) => Some(leaf),
        }
    }

    /// The last leaf of it: a leaf itself, or the last below a node. None for a node without text.
    #[must_use]
    pub fn last_leaf(self) -> Option<Leaf<'t>> {
        match self {
            Self::Node(node) => node.last_leaf(),
            Self::Leaf(leaf) => Some(leaf),
        }
    }
}

impl Tree<'_> {
    /// What is under a caret: the items that have the byte at this offset, the root first and the leaf last. At the end
    /// of the text they are those of the last leaf, and in an empty text the root alone. None past the text.
    ///
    /// A leaf owns its first byte and not its end, which is the next leaf's. A node without text is none of the items.
    /// Of a source file the proved `dt_caret` lists the same rows: [`Query::Caret`](crate::Query::Caret).
    ///
    /// ```
    /// use dt_parser::Entrypoint;
    ///
    /// let parse = Entrypoint::SourceFile.parse_text(b"a{b;};")?.parse;
    /// let at = |offset| -> Vec<String> { parse.tree.at_offset(offset).iter().map(|item| item.to_string()).collect() };
    /// assert_eq!(at(2), ["SourceFile@0..6", "DtNode@0..6", "DtProperty@2..4", "Name@2..3 \"b\""]);
    /// assert_eq!(at(3).last().expect("a leaf"), "Semicolon@3..4 \";\"");
    /// assert_eq!(at(6), ["SourceFile@0..6", "DtNode@0..6", "Semicolon@5..6 \";\""]);
    /// assert!(at(7).is_empty());
    /// # Ok::<(), dt_parser::TextError>(())
    /// ```
    #[must_use]
    pub fn at_offset(&self, offset: usize) -> Vec<Item<'_>> {
        let Some(leaf) = self.leaf_under(offset) else {
            // an empty text has no leaf
            return if offset == 0 { vec![Item::Node(self.root())] } else { Vec::new() };
        };
        let mut items: Vec<Item> = leaf.nodes_above().map(Item::Node).collect();
        items.reverse();
        items.push(Item::Leaf(leaf));
        items
    }

    /// The top-level parts that share a byte with a range, in order. A part is a child of the root, and so is a blank
    /// or a comment between two nodes. An empty or reversed range shares no byte with any part. It may go past the text.
    ///
    /// Of a source file the proved `dt_parts_in_range` lists the same rows: [`Query::Parts`](crate::Query::Parts).
    ///
    /// ```
    /// use dt_parser::Entrypoint;
    ///
    /// let parse = Entrypoint::SourceFile.parse_text(b"a; b; c;")?.parse;
    /// let parts = |range: std::ops::Range<usize>| -> Vec<String> {
    ///     parse.tree.parts_in(range.into()).map(|part| part.text_lossy().into_owned()).collect()
    /// };
    /// assert_eq!(parts(1..4), ["a;", " ", "b;"]);
    /// assert_eq!(parts(2..3), [" "]); // it only touches the properties on either side
    /// assert_eq!(parts(7..99), ["c;"]);
    /// assert!(parts(4..4).is_empty());
    /// # Ok::<(), dt_parser::TextError>(())
    /// ```
    pub fn parts_in(&self, range: TextRange) -> impl Iterator<Item = Item<'_>> {
        let parts = self.root().children();
        parts.take_while(move |part| part.range().start < range.end).filter(move |part| part.range().overlaps(range))
    }

    /// The leaf that has the byte at this offset; none past the text. [`Tree::at_offset`] has the nodes around it too,
    /// and at the end of the text the last leaf.
    #[must_use]
    pub fn leaf_at(&self, offset: usize) -> Option<Leaf<'_>> {
        // Rows after the leaf start past its bytes, and so past the offset: the leaf is the last row that does not.
        let after = self.rows.partition_point(|row| row.start <= offset);
        (offset < self.text.len()).then_some(Leaf { tree: self, row: after - 1 })
    }

    /// The innermost node that has all bytes of a range. None for a range that ends before it starts or past the text.
    ///
    /// An empty range, as a caret is, stands for the byte after it, and at the end of the text for the last byte; in an
    /// empty text the root has it. A range inside a leaf is in the leaf's parent.
    ///
    /// ```
    /// # use dt_parser::{Entrypoint, Input, NodeKind, Token, TokenKind};
    /// # use TokenKind::{Ident, LCurly, RCurly, Semicolon};
    /// # let kinds = [Ident, LCurly, Ident, Semicolon, RCurly, Semicolon];
    /// # let input = Input::new(b"a{b;};", kinds.map(|kind| Token::new(kind, 1)).to_vec());
    /// let parse = Entrypoint::SourceFile.parse(&input)?; // of `a{b;};`
    /// let kind = |range: std::ops::Range<usize>| parse.tree.covering_node(range.into()).map(|node| node.kind());
    /// assert_eq!(kind(2..4), Some(NodeKind::DtProperty));
    /// assert_eq!(kind(3..5), Some(NodeKind::DtNode));
    /// assert_eq!(kind(2..2), Some(NodeKind::DtProperty));
    /// assert_eq!(kind(5..7), None);
    /// # Ok::<(), dt_parser::Error>(())
    /// ```
    #[must_use]
    pub fn covering_node(&self, range: TextRange) -> Option<Node<'_>> {
        let TextRange { start, end } = range;
        if end < start || end > self.text.len() {
            return None;
        }
        match self.leaf_under(start) {
            Some(leaf) => leaf.nodes_above().find(|node| node.range().end >= end),
            None => Some(self.root()),
        }
    }

    /// The leaf under a caret: that of the byte after it, and at the end of the text the last one. None past the text,
    /// and in an empty text.
    fn leaf_under(&self, caret: usize) -> Option<Leaf<'_>> {
        let is_last = caret == self.text.len() && caret > 0;
        self.leaf_at(if is_last { caret - 1 } else { caret })
    }
}
