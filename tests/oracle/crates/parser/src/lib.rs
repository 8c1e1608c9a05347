//! Hand-written stand-in for the crate root, which docs/src does not have: the modules and `TextRange`.
//! All other files here but `ast.rs` and `text_range.rs` are copies of docs/src, made by build.sh.
#![allow(dead_code, unused)]
pub mod ast;
pub mod cst;
mod grammar;
pub mod lexer;
pub mod parser;
mod text_range;
pub use text_range::TextRange;
