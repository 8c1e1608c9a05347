//! The texts of this crate against the Rust's own source, docs/src.

use dt_parser::{Expected, Hint, LexError, Message, NodeKind, TokenKind};

fn rust(file: &str) -> String {
    let path = format!("{}/../../docs/src/crates/parser/src/{file}", env!("CARGO_MANIFEST_DIR"));
    std::fs::read_to_string(&path).unwrap_or_else(|why| panic!("{path}: {why}"))
}

/// What stands between two texts.
fn between<'t>(text: &'t str, from: &str, to: &str) -> &'t str {
    let start = text.find(from).unwrap() + from.len();
    &text[start..start + text[start..].find(to).unwrap()]
}

/// The cases of an enum in order: its lines that are one word and a comma.
fn cases<'t>(text: &'t str, name: &str) -> Vec<&'t str> {
    let body = between(text, &format!("pub enum {name} {{"), "\n}");
    let words = body.lines().filter_map(|line| line.trim().strip_suffix(','));
    words.filter(|word| word.chars().all(char::is_alphanumeric)).collect()
}

/// The lines `ENUM::CASE => "TEXT",` of a function.
fn texts<'t>(body: &'t str, name: &str) -> Vec<(&'t str, &'t str)> {
    let prefix = format!("{name}::");
    let lines = body.lines().filter_map(|line| line.trim().strip_prefix(&prefix)?.split_once(" => "));
    lines.filter_map(|(case, text)| Some((case, text.split('"').nth(1)?))).collect()
}

#[test]
fn the_kinds_are_the_rusts_in_its_order() {
    let names: Vec<&str> = TokenKind::ALL.iter().map(|kind| kind.name()).collect();
    assert_eq!(names, cases(&rust("lexer.rs"), "TokenKind"));
    let names: Vec<&str> = NodeKind::ALL.iter().map(|kind| kind.name()).collect();
    assert_eq!(names, cases(&rust("cst.rs"), "NodeKind"));
    let names: Vec<&str> = LexError::ALL.iter().map(|error| error.name()).collect();
    assert_eq!(names, cases(&rust("lexer.rs"), "LexError"));
    assert!(TokenKind::ALL.iter().enumerate().all(|(i, kind)| kind.number() as usize == i));
    assert!(NodeKind::ALL.iter().enumerate().all(|(i, kind)| kind.number() as usize == i));
    assert!(LexError::ALL.iter().enumerate().all(|(i, error)| error.number() as usize == i + 64));
}

#[test]
fn the_words_of_token_kinds_are_the_rusts() {
    let file = rust("lexer.rs");
    let words = texts(between(&file, "impl core::fmt::Display for TokenKind", "\n}"), "TokenKind");
    assert_eq!(words.len(), TokenKind::ALL.len());
    for (case, text) in words {
        assert_eq!(TokenKind::from_name(case).unwrap().to_string(), text);
    }
    let fixed = texts(between(&file, "pub fn static_text", "\n    }"), "TokenKind");
    assert_eq!(fixed.len(), TokenKind::ALL.iter().filter(|kind| kind.static_text().is_some()).count());
    for (case, text) in fixed {
        assert_eq!(TokenKind::from_name(case).unwrap().static_text(), Some(text));
    }
    let directives = texts(between(&file, "pub fn preprocessor_directive_name", "\n    }"), "TokenKind");
    assert_eq!(directives.len(), 13);
    for (case, text) in directives {
        assert_eq!(TokenKind::from_name(case).unwrap().preprocessor_directive_name(), Some(text));
    }
}

#[test]
fn the_texts_of_lexical_errors_are_the_rusts() {
    let file = rust("lexer.rs");
    let body = between(&file, "pub enum LexError {", "\n}");
    let texts: Vec<&str> = body.lines().filter_map(|line| line.trim().strip_prefix("/// ")).collect();
    let ours: Vec<String> = LexError::ALL.iter().map(|error| error.to_string()).collect();
    assert_eq!(ours, texts);
}

#[test]
fn the_words_of_expectations_are_the_rusts() {
    let file = rust("parser/errors.rs");
    let body = between(&file, "impl core::fmt::Display for Expected", "\n}");
    let texts = texts(body, "Expected");
    assert_eq!(texts.len(), 8);
    for (i, (case, text)) in texts.into_iter().enumerate() {
        let expected = Expected::from_number(101 + i as u32).unwrap();
        assert_eq!((format!("{expected:?}").as_str(), expected.to_string().as_str()), (case, text));
        assert_eq!(expected.number(), 101 + i as u32);
    }
}

#[test]
fn messages_and_hints_stand_in_the_rusts_grammar() {
    let grammar = ["grammar.rs", "grammar/expr.rs", "grammar/preprocessor_directive.rs"].map(rust).concat();
    for message in Message::ALL {
        let said = message.fixed_text().is_none_or(|text| grammar.contains(&format!("\"{text}\"")));
        assert_eq!(said, *message != Message::NotALabel, "{message:?}");
    }
    for hint in Hint::ALL {
        assert!(grammar.contains(&format!("\"{}\"", hint.text())), "{hint:?}");
    }
    assert_eq!(grammar.matches(".msg_custom(").count(), 6);
    assert_eq!(grammar.matches(".add_hint(").count(), 6);
}
