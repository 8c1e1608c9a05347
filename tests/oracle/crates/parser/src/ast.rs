//! Hand-written stand-in for ast.rs, with only what parser/mod.rs names (`Parse::source_file`).
//! The real one needs crates which are not in the repository: the build reaches no registry (docs/DECISIONS.md,
//! section 7). No parse goes through it.
use crate::cst::{NodeKind, RedNode};
use std::sync::Arc;

pub trait AstNode: Sized {
    fn cast(syntax: Arc<RedNode>) -> Option<Self>;
}

pub struct SourceFile(pub Arc<RedNode>);

impl AstNode for SourceFile {
    fn cast(syntax: Arc<RedNode>) -> Option<Self> {
        (syntax.green.kind == NodeKind::SourceFile).then_some(SourceFile(syntax))
    }
}
