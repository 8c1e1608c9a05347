//! The unchanged Rust over ready tokens. Its parse starts with lexing; the ready tokens are copied there in place of
//! it, and that copy is measured apart and taken off.
use crate::input::Input;
use dt_tools_parser::lexer::{Token, lex};
use dt_tools_parser::parser::Parse;
use oracle::parsers::rust::entrypoint;
use oracle::token::inject;

/// From now on each lexer gives this input's tokens, until `Input::new` lexes another.
pub fn ready(input: &Input) {
    inject(Some(&input.rows))
}

pub fn copy(input: &Input) -> Vec<Token<'_>> {
    lex(&input.text)
}

pub fn parse(input: &Input) -> Parse<'_> {
    entrypoint(input.entry).parse(&input.text)
}
