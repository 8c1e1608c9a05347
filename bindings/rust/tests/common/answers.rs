//! The cases of tests/oracle/answers.txt: calls with what the Rust answers to them (tests/oracle/make.sh).

use dt_parser::{Entrypoint, LexError, Token, TokenKind};
use std::fmt::Write;

/// A case of the file: the call, and the lines that the Rust's answer has.
pub struct Case {
    pub line: String,
    pub entry: Entrypoint,
    pub tokens: Vec<Token>,
    pub text: Vec<u8>,
    pub answer: String,
}

/// The tree rows of an answer: its lines `R class kind width count parent`.
#[allow(dead_code)] // not every test reads them
pub fn tree_rows(answer: &str) -> Vec<Vec<u32>> {
    let lines = answer.lines().filter_map(|line| line.strip_prefix("R "));
    lines.map(|line| line.split(' ').map(|number| number.parse().unwrap()).collect()).collect()
}

/// All cases of the file, or of the one that `DT_ORACLE_ANSWERS` names.
pub fn all() -> Vec<Case> {
    let file = std::env::var("DT_ORACLE_ANSWERS");
    let cases = file.map_or_else(|_| stored(), |file| read(&std::fs::read_to_string(file).unwrap()));
    assert!(!cases.is_empty());
    cases
}

/// All cases of the file.
pub fn stored() -> Vec<Case> {
    read(include_str!("../oracle/answers.txt"))
}

/// Each case is `CASE ..`, its own line after two blanks, the answer's lines and `END`.
fn read(file: &str) -> Vec<Case> {
    let mut cases = Vec::new();
    let mut lines = file.lines();
    while let Some(head) = lines.next() {
        assert!(head.starts_with("CASE "), "{head}");
        let line = lines.next().unwrap().trim_start();
        let words: Vec<&str> = line.splitn(4, ' ').collect();
        assert_eq!(words[1], "toks");
        let mut answer = String::new();
        for line in lines.by_ref().take_while(|line| *line != "END") {
            writeln!(answer, "{line}").unwrap();
        }
        // The Rust's own limit of steps: the only panic, and no answer to compare with.
        if answer.starts_with("PANIC ") {
            continue;
        }
        cases.push(Case {
            line: line.to_string(),
            entry: Entrypoint::from_number(words[0].parse().unwrap()).unwrap(),
            tokens: words[2].split(',').filter(|row| !row.is_empty()).map(token).collect(),
            text: unescape(words.get(3).unwrap_or(&"")),
            answer,
        });
    }
    cases
}

/// `KIND` or `KIND:LENGTH`; a length of 1 is left out.
fn token(row: &str) -> Token {
    let (kind, length) = row.split_once(':').unwrap_or((row, "1"));
    let (kind, length) = (kind.parse().unwrap(), length.parse().unwrap());
    match TokenKind::from_number(kind) {
        Some(kind) => Token::new(kind, length),
        None => Token::error(LexError::from_number(kind).unwrap(), length),
    }
}

/// \n \t \r \\ \xNN
fn unescape(text: &str) -> Vec<u8> {
    let mut bytes = text.bytes();
    let mut out = Vec::new();
    while let Some(byte) = bytes.next() {
        out.push(match byte {
            b'\\' => match bytes.next().unwrap() {
                b'n' => b'\n',
                b't' => b'\t',
                b'r' => b'\r',
                b'x' => {
                    let digits = [bytes.next().unwrap(), bytes.next().unwrap()];
                    u8::from_str_radix(std::str::from_utf8(&digits).unwrap(), 16).unwrap()
                }
                other => other,
            },
            other => other,
        });
    }
    out
}
