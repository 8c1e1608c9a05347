//! The texts of include/dt_names.h, which tools/numbers prints from docs/src, against this crate's, which are written by
//! hand: each number has the same one.

use dt_parser::{Entrypoint, Expected, Hint, Input, LexError, Message, Token, TokenKind};
use std::collections::HashMap;

fn include(name: &str) -> String {
    std::fs::read_to_string(format!("{}/../../include/{name}", env!("CARGO_MANIFEST_DIR"))).unwrap()
}

/// The constants of dt_parser.h with their numbers.
fn constants() -> HashMap<String, u32> {
    let text = include("dt_parser.h");
    let words: Vec<&str> = text.split([' ', '\n', ',']).filter(|word| !word.is_empty()).collect();
    let named = words.windows(3).filter(|three| three[1] == "=" && three[0].starts_with("DT_"));
    named.filter_map(|three| Some((three[0].to_string(), three[2].parse().ok()?))).collect()
}

/// The numbers that a function of dt_names.h has a text for, in order.
fn function(name: &str) -> Vec<(u32, String)> {
    let (text, constants) = (include("dt_names.h"), constants());
    let from = text.find(&format!("*{name}(")).unwrap_or_else(|| panic!("no {name}"));
    let body = text[from..].split("\n}").next().unwrap();
    let case = |line: &str| {
        let (constant, rest) = line.trim().strip_prefix("case ")?.split_once(": return \"")?;
        Some((constants[constant], rest.strip_suffix("\";")?.replace("\\\"", "\"").replace("\\\\", "\\")))
    };
    body.lines().filter_map(case).collect()
}

#[track_caller]
fn same(name: &str, ours: impl Iterator<Item = (u32, String)>) {
    assert_eq!(function(name), ours.collect::<Vec<_>>(), "{name}");
}

#[test]
fn kinds_and_expectations_have_the_same_words() {
    same("dt_token_text", TokenKind::ALL.iter().map(|kind| (kind.number(), kind.to_string())));
    same("dt_lex_error_text", LexError::ALL.iter().map(|error| (error.number(), error.to_string())));
    same("dt_expected_text", Expected::OTHERS.iter().map(|expected| (expected.number(), expected.to_string())));
}

#[test]
fn messages_and_hints_have_the_same_texts() {
    let text = |message: Message| message.fixed_text().unwrap_or("Expected").to_string();
    same("dt_message_text", Message::ALL.iter().map(|message| (message.number(), text(*message))));
    let none = std::iter::once((0, String::new()));
    same("dt_hint_text", none.chain(Hint::ALL.iter().map(|hint| (hint.number(), hint.text().to_string()))));
}

#[test]
fn the_label_of_an_open_node_has_the_same_text() {
    let input = Input::new(b"{", vec![Token::new(TokenKind::LCurly, 1)]);
    let parse = Entrypoint::SourceFile.parse(&input).unwrap();
    let open = parse.reports.iter().find(|report| report.message == Message::UnclosedNode).unwrap();
    same("dt_label_text", std::iter::once((open.message.number(), open.labels()[0].text.to_string())));
}
