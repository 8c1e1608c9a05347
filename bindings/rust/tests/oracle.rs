//! This crate against the Rust: tests/oracle/answers.txt has what the oracle printed (tests/oracle/make.sh), and every
//! line must come out the same: tree rows, printed tree, lexical errors, message texts and labels with their ranges.
//!
//! `DT_ORACLE_ANSWERS=FILE cargo test --test oracle` compares with another such file.

#[path = "common/answers.rs"]
mod answers;

use dt_parser::{Input, Item, Message, Node, Parse, Parser, Report, Setting};
use std::fmt::Write;

#[test]
fn every_line_is_the_rusts() {
    let cases = answers::all();
    let mut parser = Parser::new();
    for case in &cases {
        let input = Input::new(&case.text, case.tokens.clone());
        let parse = parser.parse(case.entry, &input).unwrap_or_else(|why| panic!("{}: {why}", case.line));
        assert_eq!(lines(&parse), case.answer, "{}", case.line);
    }
    println!("{} cases alike", cases.len());
}

/// The strict setting adds reports of labels at the end, in the order of the text, and changes nothing else.
#[test]
fn the_strict_setting_only_adds_reports_of_labels() {
    let mut parser = Parser::new();
    let mut found = 0;
    for case in answers::all() {
        let input = Input::new(&case.text, case.tokens.clone());
        let mut parse = parser.parse_in(Setting::Strict, case.entry, &input).unwrap();
        let is_label = |report: &Report| report.message == Message::NotALabel;
        let first = parse.reports.iter().position(is_label).unwrap_or(parse.reports.len());
        let labels = parse.reports.split_off(first);
        assert_eq!(lines(&parse), case.answer, "{}", case.line);
        assert!(labels.iter().all(is_label), "{}", case.line);
        assert!(labels.is_sorted_by(|a, b| a.mark < b.mark && a.range.end <= b.range.start), "{}", case.line);
        assert!(labels.iter().all(|report| report.expected.is_empty() && report.labels().is_empty()), "{}", case.line);
        found += labels.len();
    }
    assert!(found > 0 || std::env::var_os("DT_ORACLE_ANSWERS").is_some(), "no case has such a label");
}

/// Document 02, 6/14.
fn lists_each_once(report: &Report) -> bool {
    let all = &report.expected;
    all.len() <= Input::MAX_EXPECTATIONS && all.iter().enumerate().all(|(i, one)| !all[..i].contains(one))
}

#[test]
fn no_report_lists_an_expectation_twice() {
    let mut parser = Parser::new();
    let mut longest = 0;
    for case in answers::all() {
        let input = Input::new(&case.text, case.tokens.clone());
        for setting in [Setting::Old, Setting::Strict] {
            let parse = parser.parse_in(setting, case.entry, &input).unwrap();
            assert!(parse.reports.iter().all(lists_each_once), "{}: {:?}", case.line, parse.reports);
            longest = parse.reports.iter().map(|report| report.expected.len()).fold(longest, usize::max);
        }
    }
    assert!(longest > 10, "{longest}");
}

/// The answer in the oracle's lines.
fn lines(parse: &Parse<'_>) -> String {
    let mut out = String::new();
    for (item, _) in parse.tree.root().walk() {
        let (class, kind, count) = match item {
            Item::Node(node) => (0, node.kind().number(), node.children().count()),
            Item::Leaf(leaf) => (1, leaf.kind().number(), leaf.tokens().len()),
        };
        // the root has no parent, and its row names itself
        let parent = item.parent().map_or(item.row(), Node::row);
        writeln!(out, "R {class} {kind} {} {count} {parent}", item.range().len()).unwrap();
    }
    write!(out, "{}", parse.tree).unwrap();
    for error in &parse.lexical_errors {
        let range = error.range;
        writeln!(out, "X {} {} {}", error.error.number(), range.start, range.end).unwrap();
    }
    for report in &parse.reports {
        let range = report.range;
        writeln!(out, "E {} {} {report}", range.start, range.end).unwrap();
        for label in report.labels() {
            writeln!(out, "L {} {} {}", label.range.start, label.range.end, label.text).unwrap();
        }
    }
    out
}
