//! The PATCHED copy of the parser: grammar and parser of docs/src with ../../../doc01.patch applied by build.sh, and
//! `record`. It gives what document 01 adds to the Rust: marks, the pool, the limits and the order of what is pushed.
//! Tokens and trees are those of the unchanged Rust, so that both answers have the same types.
#![allow(dead_code, unused)]
mod grammar;
pub mod parser;
pub mod record;
pub use dt_tools_parser::{TextRange, ast, cst};

pub mod lexer {
    pub use dt_tools_parser::lexer::*;

    /// Stands in for the Rust's lexer struct, which is private to its crate.
    pub(crate) struct Lexer;

    impl Lexer {
        #[allow(clippy::new_ret_no_self)]
        pub(crate) fn new(input: &str) -> impl Iterator<Item = Token<'_>> {
            lex(input).into_iter()
        }
    }
}
