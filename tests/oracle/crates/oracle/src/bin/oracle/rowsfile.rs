//! Files of token rows, for programs that have no lexer. ../../../../../../../docs/TOKENS.md describes their form.
use crate::Out;
use dt_tools_parser::lexer::Token;
use oracle::token::lexed;
use std::io::Write;

const ENTRIES: [&str; 4] = ["SourceFile", "ReferenceNoamp", "PropValues", "Cells"];

/// Lexes a file and writes its tokens and its text. The entry is a number from 1 to 4.
pub fn rowsfile(path: &str, entry: usize, out: &mut Out) {
    let name = ENTRIES.get(entry.wrapping_sub(1)).unwrap_or_else(|| panic!("entry 1 to 4"));
    let text = std::fs::read_to_string(path).unwrap_or_else(|why| panic!("{path}: {why}"));
    let tokens = lexed(&text);
    writeln!(out, "devicetree tokens 1\nentry {name}").unwrap();
    writeln!(out, "file {}\nrows {}", path.replace('\n', " "), tokens.len()).unwrap();
    for token in &tokens {
        writeln!(out, "{}", row(token)).unwrap()
    }
    write!(out, "text {}\n{text}", text.len()).unwrap()
}

fn row(token: &Token) -> String {
    match token.kind {
        Ok(kind) => format!("{kind:?} {}", token.text.len()),
        Err(error) => format!("LexError::{error:?} {}", token.text.len()),
    }
}
