//! The reading of the request against the Rust's own `token_at_offset`, which has no answer at the length of a file or
//! past it, and none in numbers of rows: its nodes and its token are compared by kind and bytes.
use crate::call::Call;
use crate::caret::File;
use dt_parser_ffi::Query;
use dt_parser_layout::{CLASS_NODE, COL_TREE_CLASS, COL_TREE_KIND, COL_TREE_WIDTH, ROW_TREE};
use oracle::offset::{Finder, Span};
use oracle::parsers::rust;
use oracle::token::ascii;

/// Kind and bytes of each row. The leaves before a row are what stands before it.
fn spans(trees: &[u32]) -> Vec<Span> {
    let mut start = 0;
    let span = |row: &[u32]| {
        let bytes = start..start + row[COL_TREE_WIDTH] as usize;
        if row[COL_TREE_CLASS] != CLASS_NODE {
            start = bytes.end
        }
        (row[COL_TREE_KIND], bytes)
    };
    trees.chunks_exact(ROW_TREE).map(span).collect()
}

/// Whether both say the same at each of these offsets; at those where the Rust says nothing, that they are no byte of
/// the file. None if the Rust panics.
pub fn agrees(call: &Call, file: &File, trees: &[u32], offsets: impl IntoIterator<Item = usize>) -> Option<bool> {
    let finder = Finder::new(rust::parse(call.entry, &call.rows(), &ascii(&call.bytes)).ok()?);
    let spans = spans(trees);
    let same = |offset: usize| match finder.chain(offset) {
        None => offset >= call.bytes.len(),
        Some(chain) => {
            let rows = file.listed(Query::Caret(offset as u64));
            chain.iter().eq(rows.iter().map(|&row| &spans[row as usize]))
        }
    };
    Some(offsets.into_iter().all(same))
}
