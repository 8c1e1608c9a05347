//! The layout of rows: which numbers each has and in what order. No other file knows it, so that a row can get another
//! number here. tools/numbers prints it, as it prints include/dt_parser.h.

/// Numbers in an event, which is the call's own work space.
pub(crate) const EVENT_ROW: usize = 3;

/// The class of a tree row.
pub(crate) const NODE: u32 = 0;
pub(crate) const LEAF: u32 = 1;

/// A row with its numbers by name, in their order in a buffer.
macro_rules! row {
    ($(#[$doc:meta])* $name:ident { $($member:ident,)* }) => {
        $(#[$doc])*
        #[derive(Debug, Clone, Copy, PartialEq, Eq)]
        pub(crate) struct $name {
            $(pub $member: u32,)*
        }

        impl $name {
            /// How many numbers it has.
            pub const SIZE: usize = [$(stringify!($member),)*].len();
        }

        impl From<$name> for [u32; $name::SIZE] {
            fn from(row: $name) -> Self {
                [$(row.$member,)*]
            }
        }

        impl From<[u32; Self::SIZE]> for $name {
            fn from([$($member,)*]: [u32; Self::SIZE]) -> Self {
                Self { $($member,)* }
            }
        }
    };
}

row! {
    /// A token of the input.
    TokenRow { kind, length, }
}

row! {
    /// A node or a leaf of the tree, in preorder. The count is of a node's children, or of a leaf's raw tokens; the
    /// parent is a row number, the root's its own, 0.
    TreeRow { class, kind, width, count, parent, }
}

row! {
    /// A lexical error.
    ErrorRow { number, start, end, }
}

row! {
    /// A report. Its expectations are a part of the pool.
    ReportRow { message, start, end, mark, pool_first, pool_count, hint, label_start, label_end, }
}

/// The first rows of a buffer; none where it has fewer.
pub(crate) fn front<const SIZE: usize>(buffer: &[u32], count: usize) -> Option<&[[u32; SIZE]]> {
    let (rows, _) = buffer.as_chunks::<SIZE>();
    rows.get(..count)
}

#[cfg(test)]
mod tests {
    use super::*;

    #[test]
    fn rows_are_read_as_they_are_written() {
        let row = TreeRow { class: LEAF, kind: 29, width: 1, count: 1, parent: 1 };
        assert_eq!(TreeRow::from(<[u32; TreeRow::SIZE]>::from(row)), row);
        assert_eq!(front::<2>(&[1, 2, 3, 4, 5], 2), Some([[1, 2], [3, 4]].as_slice()));
        assert_eq!(front::<2>(&[1, 2, 3, 4, 5], 3), None);
    }
}
