//! Nodes and leaves of a tree, and the ways through it.

use crate::tree::{Row, RowKind, side_by_side};
use crate::{NodeKind, TextRange, TokenKind, Tree};
use std::borrow::Cow;
use std::fmt;
use std::ops::Range;

/// A node of a tree.
///
/// ```
/// # use dt_parser::{Entrypoint, Input, NodeKind, Token, TokenKind};
/// # use TokenKind::{Ident, LCurly, RCurly, Semicolon};
/// # let kinds = [Ident, LCurly, Ident, Semicolon, RCurly, Semicolon];
/// # let input = Input::new(b"a{b;};", kinds.map(|kind| Token::new(kind, 1)).to_vec());
/// let parse = Entrypoint::SourceFile.parse(&input)?; // of `a{b;};`
/// let node = parse.tree.root().child(NodeKind::DtNode).expect("there is one");
/// let property = node.child(NodeKind::DtProperty).expect("there is one");
/// assert_eq!((property.text(), property.tokens()), (b"b;".as_slice(), 2..4));
/// assert_eq!(property.parent(), Some(node));
/// assert_eq!(node.children().count(), 5);
/// assert_eq!(node.child_leaf(TokenKind::Name).expect("its name").text_lossy(), "a");
/// # Ok::<(), dt_parser::Error>(())
/// ```
#[derive(Clone, Copy)]
pub struct Node<'t> {
    pub(crate) tree: &'t Tree<'t>,
    pub(crate) row: usize,
}

/// A leaf of a tree: a token, or a name joined from several.
#[derive(Clone, Copy)]
pub struct Leaf<'t> {
    pub(crate) tree: &'t Tree<'t>,
    pub(crate) row: usize,
}

/// A node or a leaf.
#[derive(Clone, Copy, PartialEq, Eq, Hash)]
pub enum Item<'t> {
    /// A node.
    Node(Node<'t>),
    /// A leaf.
    Leaf(Leaf<'t>),
}

/// What nodes, leaves and items all have.
macro_rules! placed {
    ($name:ident) => {
        impl<'t> $name<'t> {
            /// The bytes that it covers.
            #[must_use]
            pub fn range(self) -> TextRange {
                let row = self.data();
                TextRange { start: row.start, end: row.start + row.width }
            }

            /// Its text.
            #[must_use]
            pub fn text(self) -> &'t [u8] {
                &self.tree().text[self.range().byte_range()]
            }

            /// Its text for people: bytes that are not UTF-8 are shown as U+FFFD.
            #[must_use]
            pub fn text_lossy(self) -> Cow<'t, str> {
                String::from_utf8_lossy(self.text())
            }

            /// The indexes of its tokens in the input.
            #[must_use]
            pub fn tokens(self) -> Range<usize> {
                let row = self.data();
                row.token..row.token + row.tokens
            }

            /// The node that it is a child of; none for the root.
            #[must_use]
            pub fn parent(self) -> Option<Node<'t>> {
                let (row, parent) = (self.row(), self.data().parent);
                (row != parent).then_some(Node { tree: self.tree(), row: parent })
            }

            /// The nodes that it lies in, the nearest first and the root last. It is not one of them itself.
            ///
            /// ```
            /// # use dt_parser::Entrypoint;
            /// let parse = Entrypoint::SourceFile.parse_text(b"a{b;};")?.parse;
            /// let name = parse.tree.leaf_at(2).expect("the `b`");
            /// let above: Vec<String> = name.nodes_above().map(|node| node.to_string()).collect();
            /// assert_eq!(above, ["DtProperty@2..4", "DtNode@0..6", "SourceFile@0..6"]);
            /// # Ok::<(), dt_parser::TextError>(())
            /// ```
            pub fn nodes_above(self) -> impl Iterator<Item = Node<'t>> + use<'t> {
                std::iter::successors(self.parent(), |node| node.parent())
            }

            /// Its row: its index in the tree's preorder, where the root is 0. [`Tree::item`] is the way back.
            #[must_use]
            pub const fn row(self) -> usize {
                self.tree_and_row().1
            }

            pub(crate) const fn tree(self) -> &'t Tree<'t> {
                self.tree_and_row().0
            }

            pub(crate) fn data(self) -> &'t Row {
                &self.tree().rows[self.row()]
            }
        }
    };
}

placed!(Node);
placed!(Leaf);
placed!(Item);

impl<'t> Node<'t> {
    /// What it is.
    #[must_use]
    pub fn kind(self) -> NodeKind {
        match self.data().kind {
            RowKind::Node(kind) => kind,
            RowKind::Leaf(_) => unreachable!("a node is made over a node's row alone"),
        }
    }

    /// Its children, in order: nodes and leaves just below it.
    pub fn children(self) -> impl Iterator<Item = Item<'t>> + use<'t> {
        let tree = self.tree;
        side_by_side(&tree.rows, self.row + 1, self.data().next).map(|row| tree.item_at_row(row))
    }

    /// Its children that are nodes.
    pub fn child_nodes(self) -> impl Iterator<Item = Node<'t>> + use<'t> {
        self.children().filter_map(Item::as_node)
    }

    /// Its children that are leaves.
    pub fn child_leaves(self) -> impl Iterator<Item = Leaf<'t>> + use<'t> {
        self.children().filter_map(Item::as_leaf)
    }

    /// The first child node of this kind.
    #[must_use]
    pub fn child(self, kind: NodeKind) -> Option<Node<'t>> {
        self.child_nodes().find(|node| node.kind() == kind)
    }

    /// The first child leaf of this kind.
    #[must_use]
    pub fn child_leaf(self, kind: TokenKind) -> Option<Leaf<'t>> {
        self.child_leaves().find(|leaf| leaf.kind() == kind)
    }

    /// All that lies below it, without itself: each node before its children, in the order of the text.
    ///
    /// ```
    /// # use dt_parser::{Entrypoint, Input, Token, TokenKind};
    /// # let kinds = [TokenKind::Ident, TokenKind::Semicolon];
    /// # let input = Input::new(b"a;", kinds.map(|kind| Token::new(kind, 1)).to_vec());
    /// let parse = Entrypoint::SourceFile.parse(&input)?; // of `a;`
    /// let root = parse.tree.root();
    /// let below: Vec<String> = root.items_below().map(|item| item.to_string()).collect();
    /// assert_eq!(below, ["DtProperty@0..2", "Name@0..1 \"a\"", "Semicolon@1..2 \";\""]);
    /// assert_eq!(root.walk().count(), below.len() + 1); // with the root itself
    /// # Ok::<(), dt_parser::Error>(())
    /// ```
    pub fn items_below(self) -> impl Iterator<Item = Item<'t>> + use<'t> {
        let tree = self.tree;
        (self.row + 1..self.data().next).map(|row| tree.item_at_row(row))
    }

    /// The nodes below it, without itself, in the order of [`Node::items_below`].
    pub fn nodes_below(self) -> impl Iterator<Item = Node<'t>> + use<'t> {
        self.items_below().filter_map(Item::as_node)
    }

    /// The leaves below it, in the order of the text.
    pub fn leaves(self) -> impl Iterator<Item = Leaf<'t>> + use<'t> {
        self.items_below().filter_map(Item::as_leaf)
    }

    /// Itself and all that lies below it, each with its depth below this node, which is 0 for itself. No recursion,
    /// however deep the tree is.
    pub fn walk(self) -> impl Iterator<Item = (Item<'t>, usize)> + use<'t> {
        let (tree, first) = (self.tree, self.row);
        let mut depth = 0;
        (first..self.data().next).map(move |row| {
            if row > first {
                // the parent is the row before it or lies above that
                let (parent, mut above) = (tree.rows[row].parent, row - 1);
                depth += 1;
                while above != parent {
                    above = tree.rows[above].parent;
                    depth -= 1;
                }
            }
            (tree.item_at_row(row), depth)
        })
    }

    const fn tree_and_row(self) -> (&'t Tree<'t>, usize) {
        (self.tree, self.row)
    }
}

impl<'t> Leaf<'t> {
    /// What it is: the token's kind, [`TokenKind::Name`] for a name, [`TokenKind::Unrecognized`] for an error token.
    #[must_use]
    pub fn kind(self) -> TokenKind {
        match self.data().kind {
            RowKind::Leaf(kind) => kind,
            RowKind::Node(_) => unreachable!("a leaf is made over a leaf's row alone"),
        }
    }

    /// Whether it is a blank or a comment.
    #[must_use]
    pub fn is_trivia(self) -> bool {
        self.kind().is_trivia()
    }

    const fn tree_and_row(self) -> (&'t Tree<'t>, usize) {
        (self.tree, self.row)
    }
}

impl<'t> Item<'t> {
    /// The node, if it is one.
    #[must_use]
    pub const fn as_node(self) -> Option<Node<'t>> {
        match self {
            Self::Node(node) => Some(node),
            Self::Leaf(_) => None,
        }
    }

    /// The leaf, if it is one.
    #[must_use]
    pub const fn as_leaf(self) -> Option<Leaf<'t>> {
        match self {
            Self::Leaf(leaf) => Some(leaf),
            Self::Node(_) => None,
        }
    }

    const fn tree_and_row(self) -> (&'t Tree<'t>, usize) {
        match self {
            Self::Node(node) => node.tree_and_row(),
            Self::Leaf(leaf) => leaf.tree_and_row(),
        }
    }
}

/// Equal are those that have the same row of the same tree.
macro_rules! same_row {
    ($name:ident) => {
        impl PartialEq for $name<'_> {
            fn eq(&self, other: &Self) -> bool {
                std::ptr::eq(self.tree, other.tree) && self.row == other.row
            }
        }

        impl Eq for $name<'_> {}

        impl std::hash::Hash for $name<'_> {
            fn hash<H: std::hash::Hasher>(&self, state: &mut H) {
                self.row.hash(state);
            }
        }
    };
}

same_row!(Node);
same_row!(Leaf);

/// Kind and range, as `DtNode@0..5`.
impl fmt::Display for Node<'_> {
    fn fmt(&self, f: &mut fmt::Formatter<'_>) -> fmt::Result {
        write!(f, "{:?}@{}", self.kind(), self.range())
    }
}

/// Kind, range and text, as `Semicolon@4..5 ";"`. Bytes that are not UTF-8 are shown as U+FFFD.
impl fmt::Display for Leaf<'_> {
    fn fmt(&self, f: &mut fmt::Formatter<'_>) -> fmt::Result {
        write!(f, "{:?}@{} {:?}", self.kind(), self.range(), self.text_lossy())
    }
}

impl fmt::Display for Item<'_> {
    fn fmt(&self, f: &mut fmt::Formatter<'_>) -> fmt::Result {
        match self {
            Self::Node(node) => node.fmt(f),
            Self::Leaf(leaf) => leaf.fmt(f),
        }
    }
}

macro_rules! debug_as_display {
    ($($name:ident)*) => {
        $(impl fmt::Debug for $name<'_> {
            fn fmt(&self, f: &mut fmt::Formatter<'_>) -> fmt::Result {
                fmt::Display::fmt(self, f)
            }
        })*
    };
}

debug_as_display!(Node Leaf Item);
