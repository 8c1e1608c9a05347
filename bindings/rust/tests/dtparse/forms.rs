//! Lines, silence, and errors at the same place.

use crate::{dtparse, golden, no_answer, run, run_on};
use std::io::{Read, Write};
use std::process::{Command, Stdio};

/// A source with mistakes of several sorts.
const MISTAKES: &str = "bindings/rust/tests/golden/mistakes.dts";

#[test]
fn reports_and_refusals_are_a_line_each() {
    let files = [MISTAKES, "examples/overlay.dts", "examples/labels.dts", "examples/board.dts"];
    let (status, out, err) = run(&[["--lines", "--strict"].as_slice(), &files].concat());
    golden("lines.txt", &out);
    assert_eq!((status, err.as_str()), (Some(2), ""));
    let is_line = |line: &str| {
        let words: Vec<&str> = line.splitn(5, ':').collect();
        matches!(words.as_slice(), [file, line, column, " error" | " note", text]
            if files.contains(file) && line.parse::<u32>().is_ok() && column.parse::<u32>().is_ok() && text.len() > 1)
    };
    assert!(out.lines().all(is_line), "{out}");
    assert_eq!(run(&["--lines", "--reports", "examples/overlay.rows"]), (Some(0), String::new(), String::new()));
}

#[test]
fn a_line_has_the_hint_and_another_place_is_a_note() {
    let lines = |text: &[u8]| run_on(text, &["--lines"]).1;
    let hint = "but found ‘=’ (Recovered as unnamed property)";
    assert!(lines(b"=1;").lines().next().unwrap().ends_with(hint), "{}", lines(b"=1;"));
    let unclosed = "(standard input):1:4: error: Expected `}`, but reached end of input\n\
                    (standard input):1:2: note: Unclosed delimiter\n";
    assert_eq!(lines(b"/{a;"), unclosed);
    let marks = lines(b"/dts-v1/;\n# 1 \"a.dts\"\n");
    assert!(marks.lines().last().unwrap().starts_with("(standard input):2:1: note: Lines such as "), "{marks}");
}

#[test]
fn what_has_no_place_stands_at_the_start_and_an_unreadable_file_is_told_apart() {
    let (status, out, err) = run_on(&b",".repeat(65_537), &["--lines"]);
    let line = "(standard input):1:1: error: refusal 2: the text has more than 65536 tokens\n";
    assert_eq!((status, out.as_str(), err.as_str()), (Some(2), line, ""));
    let (_, out, _) = run_on(b"devicetree tokens 1\nrows x\n", &["--lines"]);
    assert_eq!(out, "(standard input):2:1: error: expected a decimal number after `rows`, found `x`\n");
    let (_, out, _) = run_on(b"devicetree tokens 1\nrows 1\nIdent 0\ntext 0\n", &["--lines"]);
    assert_eq!(out, "(standard input):3:7: error: refusal 12: row 0, counted from 0, has length 0\n");
    assert!(no_answer(run(&["--lines", "no/such.dts"])).starts_with("dtparse: no/such.dts: No such file"));
}

#[test]
fn quiet_is_nothing_but_the_status() {
    let quiet = |file: &str| run(&["--quiet", file]);
    let silent = |status| (Some(status), String::new(), String::new());
    assert_eq!(quiet("examples/overlay.rows"), silent(0));
    assert_eq!(quiet("examples/board.dts"), silent(1));
    assert_eq!(quiet("examples/overlay.dts"), silent(2));
    assert_eq!(run(&["-q", "--tree", "examples/board.dts", "examples/labels.dts"]), silent(1));
    assert!(no_answer(quiet("no/such.dts")).starts_with("dtparse: no/such.dts: No such file"));
    assert!(no_answer(run(&["-q", "--no"])).starts_with("dtparse: --no is not an option"));
    let said = no_answer(run(&["-q", "--at", "99:1", "examples/board.dts"]));
    assert!(said.starts_with("dtparse: examples/board.dts: --at 99:1: the text has 73 lines"), "{said}");
}

#[test]
fn the_version_is_the_crates() {
    let expected = format!("dtparse {}\n", env!("CARGO_PKG_VERSION"));
    assert_eq!(run(&["--version"]), (Some(0), expected.clone(), String::new()));
    assert_eq!(run(&["-V", "--no-such"]).1, expected);
}

#[test]
fn errors_at_the_same_place_are_one_block_and_counted_each() {
    let (_, out, _) = run_on(b"/{a=<1;", &["--reports"]);
    let expected = "\
error: Expected cell, ‘/include/‘, preprocessor directive or ‘>’, but found ‘;’
error: Unmatched `;`
error: Expected `}`, but reached end of input
 --> (standard input):1:7
  |
1 | /{a=<1;
  |       ^
  |  - Unclosed delimiter

(standard input): 3 errors; 1 node and 0 properties read; 5 of 7 bytes not understood
";
    assert_eq!(out, expected);
}

#[test]
fn a_note_is_apart_from_an_error_at_its_place() {
    let (_, out, _) = run_on(b"1a:x=<1> y;", &["--reports", "--strict"]);
    assert!(out.starts_with("error: Label names ") && out.contains("\n  | ^^\n\nnote: Not understood. "), "{out}");
    assert_eq!(out.matches(" --> (standard input):1:1\n").count(), 2, "{out}");
}

#[test]
fn a_hint_is_kept_where_an_error_without_one_has_the_same_place() {
    let (_, out, _) = run(&["--reports", MISTAKES]);
    let expected = "\
error: Unexpected input, or end of input
error: Expected cell, ‘/include/‘, preprocessor directive or ‘>’, but found unrecognized token
 --> bindings/rust/tests/golden/mistakes.dts:7:9
  |
7 |     x = <1 \\>;
  |            ^ in cells()
";
    assert!(out.contains(expected), "{out}");
}

/// Someone before a terminal is told what is waited for. `script` has a terminal to run it in.
#[test]
fn a_terminal_is_told_that_it_is_waited_for() {
    let command = format!("{} -q", env!("CARGO_BIN_EXE_dtparse"));
    let script = Command::new("script")
        .args(["-qec", &command, "/dev/null"])
        .stdin(Stdio::piped())
        .stdout(Stdio::piped())
        .stderr(Stdio::null())
        .spawn();
    let Ok(mut child) = script else {
        println!("no script");
        return;
    };
    // its input stays open: `script` does not wait for the output at the end of it
    child.stdin.as_mut().unwrap().write_all(b"\x04").unwrap();
    let mut said = String::new();
    child.stdout.take().unwrap().read_to_string(&mut said).unwrap();
    child.wait().unwrap();
    assert!(said.starts_with("dtparse: waiting for a source on the standard input; Ctrl-D "), "{said:?}");
    assert_eq!(run_on(b"a;\n", &["-q"]).2, "", "and a pipe is not");
}

#[test]
fn a_reader_that_goes_away_stops_nothing() {
    for form in ["--tree", "--lines", "--json"] {
        let files = ["examples/cpp/rk3328-rock64.plain.dts", "examples/board.dts", "examples/overlay.dts"];
        let mut command = dtparse(&[[form].as_slice(), &files].concat());
        let mut child = command.stdout(Stdio::piped()).stderr(Stdio::piped()).spawn().unwrap();
        drop(child.stdout.take());
        let output = child.wait_with_output().unwrap();
        assert_eq!(output.status.code(), Some(2), "the worst of all files");
        assert!(!String::from_utf8_lossy(&output.stderr).contains("panic"));
    }
    let full = std::fs::File::options().write(true).open("/dev/full");
    if let Ok(full) = full {
        let output = dtparse(&["examples/labels.dts"]).stdout(full).output().unwrap();
        assert_eq!(output.status.code(), Some(2));
        assert!(String::from_utf8_lossy(&output.stderr).starts_with("dtparse: standard output: "));
    }
}
