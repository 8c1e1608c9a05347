//! The Rust's own search for what stands at an offset.
use crate::parsed::Parsed;
use dt_tools_parser::cst::RedNode;
use std::ops::Range;
use std::sync::Arc;

/// Over the tree of a parse.
pub struct Finder(Arc<RedNode>);

/// Kind and bytes of a node or a token.
pub type Span = (u32, Range<usize>);

impl Finder {
    pub fn new(parsed: Parsed) -> Finder {
        Finder(RedNode::new(Arc::new(parsed.green)))
    }

    /// The token that `token_at_offset` (cst.rs) finds, after the nodes around it, the root first.
    pub fn chain(&self, offset: usize) -> Option<Vec<Span>> {
        let token = self.0.token_at_offset(offset)?;
        let around = token.parent_ancestors().map(|node| (node.green.kind as u32, node.text_range().byte_range()));
        let mut chain: Vec<Span> = around.collect();
        chain.reverse();
        chain.push((token.green.kind as u32, token.text_range().byte_range()));
        Some(chain)
    }
}
