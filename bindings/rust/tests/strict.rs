//! The strict setting: which labels are reported. tests/oracle.rs has that all else is the old setting's.

use dt_parser::TokenKind::{Ampersand, Comma, Minus, Whitespace};
use dt_parser::TokenKind::{AtSign, Colon, DeleteNodeDirective, Ident, LCurly, Number, RCurly, Semicolon, Slash};
use dt_parser::{Entrypoint, Input, Message, Setting, Token, TokenKind};

type Row = (TokenKind, &'static [u8]);

/// What stands after a label: `c{};`.
const NODE: [Row; 4] = [(Ident, b"c"), (LCurly, b"{"), (RCurly, b"}"), (Semicolon, b";")];

fn input<'t>(rows: &[Row], text: &'t mut Vec<u8>) -> Input<'t> {
    *text = rows.iter().flat_map(|row| row.1.to_vec()).collect();
    Input::new(text, rows.iter().map(|row| Token::new(row.0, row.1.len() as u32)).collect())
}

/// Start, end and mark of each report of a label in the strict setting.
fn labels(entry: Entrypoint, rows: &[Row]) -> Vec<(usize, usize, usize)> {
    let mut text = Vec::new();
    let parse = entry.parse_in(Setting::Strict, &input(rows, &mut text)).unwrap();
    let found = parse.reports.iter().filter(|report| report.message == Message::NotALabel);
    found.map(|report| (report.range.start, report.range.end, report.mark)).collect()
}

fn source(rows: &[Row]) -> Vec<(usize, usize, usize)> {
    labels(Entrypoint::SourceFile, rows)
}

/// The reports of labels of `NAME:c{};`.
fn of_label(name: &[Row]) -> Vec<(usize, usize, usize)> {
    source(&[name, &[(Colon, b":")], &NODE].concat())
}

#[test]
fn letters_digits_and_underscores_with_no_digit_first() {
    for good in [b"a".as_slice(), b"_", b"__", b"a1", b"_1", b"Z9_z", b"ABCDEFGHIJKLMNOPQRSTUVWXYZabcdefghijklmnopq"] {
        assert_eq!(of_label(&[(Ident, good)]), [], "{good:?}");
    }
    // one row of any kind and text: the bytes decide
    for bad in [b"1".as_slice(), b"7x", b"a.b", b"#a", b"a-", b"a,b", b"a\xe9", b"a+", b"?", b"a b", b"@", b"[", b"`"] {
        assert_eq!(of_label(&[(Ident, bad)]), [(0, bad.len(), 0)], "{bad:?}");
        assert_eq!(of_label(&[(Number, bad)]), [(0, bad.len(), 0)], "{bad:?}");
    }
    assert_eq!(of_label(&[(Number, b"a")]), [], "a Number's bytes may be a label");
    assert_eq!(of_label(&[(Ident, b"a"), (Comma, b","), (Ident, b"b")]), [(0, 3, 0)]);
    assert_eq!(of_label(&[(Ident, b"a"), (Minus, b"-"), (Number, b"1")]), [(0, 3, 0)]);
    assert_eq!(of_label(&[(Ident, b"a"), (Number, b"1")]), [], "joined, they keep the rule");
    assert_eq!(of_label(&[(Whitespace, b"  "), (Number, b"1"), (Ident, b"a")]), [(2, 4, 1)]);
}

#[test]
fn references_are_judged_and_paths_are_not() {
    let delete = (DeleteNodeDirective, b"/delete-node/".as_slice());
    let end = (Semicolon, b";".as_slice());
    let reference = [(Ampersand, b"&".as_slice()), (Number, b"1"), (Ident, b"a")];
    assert_eq!(source(&[[delete].as_slice(), &reference, &[end]].concat()), [(14, 16, 2)]);
    assert_eq!(source(&[delete, (Whitespace, b" "), (Number, b"1"), end]), []);
    let path = [(Ampersand, b"&".as_slice()), (LCurly, b"{"), (Slash, b"/"), (Number, b"1"), (RCurly, b"}")];
    assert_eq!(source(&[[delete].as_slice(), &path, &[end]].concat()), []);
    assert_eq!(labels(Entrypoint::ReferenceNoamp, &reference[1..]), [(0, 2, 0)]);
    assert_eq!(labels(Entrypoint::ReferenceNoamp, &path[1..]), []);
    assert_eq!(labels(Entrypoint::PropValues, &reference), [(1, 3, 1)]);
    assert_eq!(labels(Entrypoint::Cells, &reference), [(1, 3, 1)]);
}

#[test]
fn a_label_with_an_at_sign_is_reported_once() {
    let rows = [(Number, b"1".as_slice()), (AtSign, b"@"), (Number, b"2"), (Colon, b":")];
    let mut text = Vec::new();
    let rows = [rows.as_slice(), &NODE].concat();
    let parse = Entrypoint::SourceFile.parse_in(Setting::Strict, &input(&rows, &mut text)).unwrap();
    let messages: Vec<Message> = parse.reports.iter().map(|report| report.message).collect();
    assert_eq!(messages, [Message::AtSignInLabel]);
}

#[test]
fn names_of_nodes_and_unit_addresses_are_not_judged() {
    assert_eq!(source(&[(Number, b"1"), (AtSign, b"@"), (Number, b"2"), NODE[1], NODE[2], NODE[3]]), []);
    assert_eq!(source(&[(Number, b"1"), (Semicolon, b";")]), []);
}

#[test]
fn a_reported_label_does_not_hide_what_has_no_report() {
    // `1:a="s" b;` lacks a semicolon
    let mut text = Vec::new();
    let rows = [
        (Number, b"1".as_slice()),
        (Colon, b":"),
        (Ident, b"a"),
        (TokenKind::Equals, b"="),
        (TokenKind::String, b"\"s\""),
        (Whitespace, b" "),
        (Ident, b"b"),
        (Semicolon, b";"),
    ];
    let input = input(&rows, &mut text);
    let ranges = |setting| {
        let parse = Entrypoint::SourceFile.parse_in(setting, &input).unwrap();
        let silent: Vec<_> = parse.unreported().iter().map(|node| node.range().to_string()).collect();
        (silent.join(" "), parse.reports.len())
    };
    assert_eq!(ranges(Setting::Old), ("0..7".to_string(), 0));
    assert_eq!(ranges(Setting::Strict), ("0..7".to_string(), 1));
}
