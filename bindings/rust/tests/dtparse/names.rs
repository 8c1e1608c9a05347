//! File names and arguments of any bytes, and files without an end.

use crate::{folder, no_answer, run, run_on};
use std::ffi::{OsStr, OsString};
use std::fs;
use std::os::unix::ffi::OsStrExt;
use std::path::{Path, PathBuf};

/// A name that colours what follows it, with a line end and a byte that is not UTF-8.
const WEIRD: &[u8] = b"\x1b[31m\n\xff '.dts";
const ESCAPED: &str = r"\x1b[31m\n\xff '.dts";

/// A file of that name, below a folder.
fn weird(folder: &Path, text: &[u8]) -> PathBuf {
    let path = folder.join(OsStr::from_bytes(WEIRD));
    fs::write(&path, text).unwrap();
    path
}

#[test]
fn a_name_of_any_bytes_is_read_and_shown_escaped() {
    let below = folder("weird");
    let path = weird(&below, b"}");
    let shown = format!("{}/{ESCAPED}", below.display());
    for arguments in [vec![path.as_os_str()], vec![OsStr::new("--lines"), path.as_os_str()], vec![below.as_os_str()]] {
        let (status, out, err) = run(&arguments);
        assert_eq!((status, err.as_str()), (Some(1), ""));
        assert!(out.contains(&format!("{shown}:1:1")) && !out.contains('\x1b'), "{out}");
    }
    fs::write(&path, b"#if").unwrap();
    let said = no_answer(run(&[&path]));
    assert!(said.contains(&format!("dtparse: {shown}: refusal 10")) && !said.contains('\x1b'), "{said}");
    let word = ESCAPED.replace('\'', "\\'");
    assert!(said.contains(&format!("$'{}/{word}' | ", below.display())), "a shell takes it: {said}");
    fs::remove_file(&path).unwrap();
    assert!(no_answer(run(&[&path])).starts_with(&format!("dtparse: {shown}: No such file")));
}

#[test]
fn the_name_in_a_file_of_rows_is_shown_escaped() {
    let file = b"devicetree tokens 1\nfile \x1b[31m\xff\nrows 1\nRCurly 1\ntext 1\n}";
    let (_, out, _) = run_on(file, &[]);
    assert!(out.contains("\n --> \\x1b[31m\u{fffd}:1:1\n") && !out.contains('\x1b'), "{out}");
}

#[test]
fn arguments_are_repeated_escaped() {
    for option in ["--entry", "--color", "--print", "--at"] {
        let said = no_answer(run(&[option, "\x1b[31mred\u{9b}"]));
        assert!(said.contains(r", not \x1b[31mred\xc2\x9b") && !said.contains('\x1b'), "{said}");
    }
    let said = no_answer(run(&["--\x1b[31m=\x1b"]));
    assert!(said.starts_with("dtparse: --\\x1b[31m is not an option\n"), "{said}");
    let bytes: OsString = OsStr::from_bytes(b"--entry=\xff").to_os_string();
    assert!(no_answer(run(&[bytes])).starts_with("dtparse: \\xff is not UTF-8\n"));
}

#[test]
fn an_empty_name_is_told() {
    assert_eq!(no_answer(run(&[""])), "dtparse: a file's name is empty\nTry `dtparse --help`.\n");
    assert_eq!(no_answer(run(&["examples/board.dts", ""])).lines().next(), Some("dtparse: a file's name is empty"));
}

#[test]
fn a_file_without_an_end_is_refused_at_once() {
    let said = no_answer(run(&["/dev/zero"]));
    assert!(said.starts_with("dtparse: /dev/zero: refusal 2: the text has more than 1048576 bytes\n"), "{said}");
    let endless = [b"devicetree tokens 1\nfile ".as_slice(), &b"a".repeat(16 << 20)].concat();
    let why = "over 16777216 bytes, more than a file of token rows can have";
    assert_eq!(no_answer(run_on(&endless, &[])), format!("dtparse: -: {why}\n"));
}

/// What is said of a text that is too long helps after the preprocessor too: its parts are read as in the whole.
#[test]
fn a_text_that_is_too_long_can_be_parsed_in_parts() {
    let said = no_answer(run_on(&b",".repeat(65_537), &[]));
    assert!(said.contains("\nThe text is too long for one call, ") && !said.contains("include"), "{said}");
    let text = fs::read(crate::root().join("examples/cpp/kestrel-lantern.plain.dts")).unwrap();
    let cut = b"\n};\n/ {\n";
    let at = text.windows(cut.len()).position(|part| part == cut).unwrap() + b"\n};".len();
    let nodes = |text: &[u8]| -> Vec<String> {
        let out = run_on(text, &["--nodes"]).1;
        let name = |line: &str| line.split_once(" | ").map(|(_, name)| name.to_string());
        out.lines().filter_map(name).collect()
    };
    let parts = [nodes(&text[..at]), nodes(&text[at..])];
    assert!(parts.iter().all(|part| part.len() > 10));
    assert_eq!(parts.concat(), nodes(&text));
}
