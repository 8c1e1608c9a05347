//! Tokens as document 01 numbers them, from the Rust and back. Both parsers have the same tokens.
use crate::case::{Case, Rows};
use dt_parser_layout::TOKEN_FIRST_LEX_ERROR;
pub use dt_tools_parser::lexer::{LexError, TokenKind};
use dt_tools_parser::lexer::{Token, lex};
use logos::Logos;
use std::rc::Rc;

const LEX_ERRORS: [LexError; 11] = [
    LexError::UnexpectedEndIncbin,
    LexError::IncbinMissingLParen,
    LexError::IncbinMissingRParen,
    LexError::IncbinMissingNumber,
    LexError::IncbinMissingComma,
    LexError::IncbinMissingString,
    LexError::UnexpectedEndString,
    LexError::UnexpectedEndBytestring,
    LexError::UnexpectedEndChar,
    LexError::UnexpectedEndBlockComment,
    LexError::Default,
];

/// Every token kind; its number is its place.
pub fn kinds() -> &'static [TokenKind] {
    TokenKind::variants()
}

pub const fn lexical_code(e: LexError) -> u32 {
    TOKEN_FIRST_LEX_ERROR + e as u32
}

pub fn code(k: &Result<TokenKind, LexError>) -> u32 {
    match k {
        Ok(k) => *k as u32,
        Err(e) => lexical_code(*e),
    }
}

pub fn kind(c: u32) -> Result<TokenKind, LexError> {
    match c.checked_sub(TOKEN_FIRST_LEX_ERROR) {
        Some(error) => Err(LEX_ERRORS[error as usize]),
        None => Ok(kinds()[c as usize]),
    }
}

/// The text that every token of a kind has, if the Rust fixes it.
pub fn fixed_text(c: u32) -> Option<&'static str> {
    kinds().get(c as usize).and_then(|k| k.static_text())
}

/// The tokens of a text, by lexer.rs over the logos shim.
pub fn lexed(text: &str) -> Vec<Token<'_>> {
    inject(None);
    lex(text)
}

/// Token rows and text of a case.
/// The Rust works on &str: where bytes are not UTF-8, or rows cut a character, bytes over 127 become '?'.
pub fn rows(c: &Case) -> (Rows, String) {
    match c {
        Case::Text(t) => (lexed(t).iter().map(|t| (code(&t.kind), t.text.len())).collect(), t.clone()),
        Case::Toks(rows, bytes) => {
            let text = match std::str::from_utf8(bytes) {
                Ok(s) if cuts_no_character(rows, s) => s.to_string(),
                _ => ascii(bytes),
            };
            (rows.clone(), text)
        }
    }
}

fn cuts_no_character(rows: &Rows, text: &str) -> bool {
    let mut end = 0;
    rows.iter().all(|x| {
        end += x.1;
        text.is_char_boundary(end)
    })
}

/// The bytes as a text of as many characters. The parser never looks at what stands in place of one over 127.
pub fn ascii(bytes: &[u8]) -> String {
    bytes.iter().map(|&x| if x < 128 { x as char } else { '?' }).collect()
}

/// Makes each lexer of this thread give these tokens until it is called with none.
pub fn inject(toks: Option<&Rows>) {
    let ready = toks.map(|t| Rc::new(t.iter().map(|&(k, n)| (kind(k), n)).collect()));
    logos::inject::<TokenKind>(ready)
}
