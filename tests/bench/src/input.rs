//! The inputs: a realistic file in many sizes, and inputs that might cost more than others.
use crate::text;
use dt_parser_layout::{ENTRY_CELLS, ENTRY_SOURCE_FILE, MAX_TOKENS};
use oracle::case::{Case, Rows};
use oracle::generate;
use oracle::token::TokenKind::{
    self, Colon, Comma, Equals, Ident, LAngle, LParen, Number, Plus, RAngle, RCurly, RParen, Semicolon, Whitespace,
};
use oracle::token::{self, LexError};

pub struct Input {
    /// `FAMILY-TOKENS`, or `FAMILY-BYTES` of a text, as the command line has it.
    pub name: String,
    pub entry: u32,
    pub rows: Rows,
    pub text: String,
    /// Kind and length of each token, as the call takes them.
    pub tokens: Vec<u32>,
}

/// Kinds, as the Rust's lexer gives them, with texts.
type Tokens = &'static [(Result<TokenKind, LexError>, &'static str)];

/// Name, entry, head, pattern and tail: the pattern is repeated to n tokens between the other two.
const PATTERNS: &[(&str, u32, Tokens, Tokens, Tokens)] = &[
    // one expression, nested n / 2 deep to the left
    (
        "chain",
        ENTRY_CELLS,
        &[(Ok(LParen), "(")],
        &[(Ok(Number), "1"), (Ok(Plus), "+")],
        &[(Ok(Number), "1"), (Ok(RParen), ")")],
    ),
    // the same in a source file
    (
        "sum",
        ENTRY_SOURCE_FILE,
        &[(Ok(Ident), "a"), (Ok(Equals), "="), (Ok(LAngle), "<"), (Ok(LParen), "(")],
        &[(Ok(Number), "1"), (Ok(Plus), "+")],
        &[(Ok(Number), "1"), (Ok(RParen), ")"), (Ok(RAngle), ">"), (Ok(Semicolon), ";")],
    ),
    // a report for each token
    ("braces", ENTRY_SOURCE_FILE, &[], &[(Ok(RCurly), "}")], &[]),
    // a report of eleven expectations and a lexical error for each token
    ("errors", ENTRY_SOURCE_FILE, &[], &[(Err(LexError::Default), "\\")], &[]),
    // two reports for three tokens
    ("novalue", ENTRY_SOURCE_FILE, &[], &[(Ok(Ident), "a"), (Ok(Equals), "="), (Ok(Semicolon), ";")], &[]),
    // one name
    ("name", ENTRY_SOURCE_FILE, &[], &[(Ok(Ident), "a"), (Ok(Comma), ",")], &[(Ok(Semicolon), ";")]),
    // a label that the strict setting reports for every fourth token
    (
        "labels",
        ENTRY_SOURCE_FILE,
        &[],
        &[(Ok(Number), "1"), (Ok(Colon), ":"), (Ok(Ident), "a"), (Ok(Semicolon), ";")],
        &[],
    ),
    // trivia alone
    ("blanks", ENTRY_SOURCE_FILE, &[], &[(Ok(Whitespace), " ")], &[]),
];

impl Input {
    /// A realistic file (`board`) or one of the patterns, of about n tokens; the file as a text (`text`); or a text of
    /// at most n bytes.
    pub fn new(family: &str, n: usize) -> Input {
        let name = format!("{family}-{n}");
        if family == "board" {
            return Input::board(name, n);
        }
        if family == "text" {
            return Input::read(name, text::without_directives(&Input::board(String::new(), n).text));
        }
        if let Some(text) = text::costly(family, n) {
            return Input::read(name, text);
        }
        let found = PATTERNS.iter().find(|p| p.0 == family);
        let &(_, entry, head, pattern, tail) = found.unwrap_or_else(|| panic!("no input {family}"));
        let times = (n - head.len() - tail.len()) / pattern.len();
        let body = (0..times).flat_map(|_| pattern);
        let list: Vec<_> = head.iter().chain(body).chain(tail).collect();
        let rows = list.iter().map(|t| (token::code(&t.0), t.1.len())).collect();
        Input::from(name, entry, rows, list.iter().map(|t| t.1).collect())
    }

    /// The generator counts up to n; a file that is then over the limit is made a little smaller.
    fn board(name: String, n: usize) -> Input {
        let mut less = 0;
        loop {
            let (rows, text) = token::rows(&Case::Text(generate::big(n - less)));
            if rows.len() <= MAX_TOKENS {
                return Input::from(name, ENTRY_SOURCE_FILE, rows, text);
            }
            less += rows.len() - MAX_TOKENS
        }
    }

    /// A text with the tokens that the Rust's lexer gives.
    pub fn read(name: String, text: String) -> Input {
        let (rows, text) = token::rows(&Case::Text(text));
        Input::from(name, ENTRY_SOURCE_FILE, rows, text)
    }

    fn from(name: String, entry: u32, rows: Rows, text: String) -> Input {
        let tokens = rows.iter().flat_map(|&(k, n)| [k, n as u32]).collect();
        Input { name, entry, rows, text, tokens }
    }
}

impl std::str::FromStr for Input {
    type Err = String;
    fn from_str(s: &str) -> Result<Self, String> {
        let (family, n) = s.split_once('-').ok_or("FAMILY-NUMBER")?;
        Ok(Input::new(family, n.parse().map_err(|_| "a number of tokens or bytes")?))
    }
}
