//! The JSON document, read again by a small reader of the test's own.

use crate::reader::{Json, Reader};
use crate::{dtparse, folder, piped, root, run, run_on};
use dt_parser::{Entrypoint, Setting};
use std::ffi::OsStr;
use std::os::unix::ffi::OsStrExt;
use std::process::Command;

/// The document of a call, whose status is the process's, and nothing on the standard error.
fn document<A: AsRef<OsStr>>(arguments: &[A]) -> Json {
    let (status, out, err) = printed(dtparse(arguments).arg("--json"));
    let json = Reader::read(&out);
    assert_eq!((err.as_str(), Some(json.number("exit_status") as i32)), ("", status));
    json
}

fn printed(command: &mut Command) -> (Option<i32>, String, String) {
    crate::printed(command.output().unwrap())
}

fn of_text(text: &[u8], arguments: &[&str]) -> Json {
    Reader::read(&run_on(text, &[arguments, &["--json"]].concat()).1)
}

#[test]
fn the_report_of_the_board_is_there_with_its_place_and_expectations() {
    let json = document(&["examples/board.dts"]);
    assert_eq!((json.number("format"), json.text("dtparse")), (1, env!("CARGO_PKG_VERSION")));
    let file = json.at("files.0");
    assert_eq!((file.text("name"), file.text("status")), ("examples/board.dts", "parsed"));
    let report = file.at("reports.0");
    assert_eq!((report.number("number"), report.text("name")), (1, "Expected"));
    assert!(report.text("text").starts_with("Expected cell, ") && report.text("found.name") == "Semicolon");
    let names: Vec<&str> = report.list("expected").iter().map(|one| one.text("name")).collect();
    assert_eq!(names, ["Cell", "DtIncludeDirective", "PreprocessorDirective", "RAngle"]);
    let places = ["line", "column", "end_line", "end_column"].map(|key| report.at("range").number(key));
    assert_eq!(places, [49, 20, 49, 21]);
    let text = std::fs::read(root().join("examples/board.dts")).unwrap();
    assert_eq!(text[report.number("range.start")..report.number("range.end")], *b";");
    assert_eq!(file.text("reports.1.name"), "UnmatchedSemicolon");
    assert_eq!((file.number("counts.reports"), file.number("counts.nodes")), (2, 13));
    assert_eq!(json.at("counts"), file.at("counts"), "there is one file");
    let rows = document(&["examples/board.rows"]);
    assert_eq!(rows.at("files.0.reports"), file.at("reports"));
    assert_eq!((rows.text("files.0.form"), file.text("form")), ("rows", "text"));
    assert_eq!(
        (rows.text("files.0.name"), rows.text("files.0.text_name")),
        ("examples/board.rows", "examples/board.dts")
    );
}

#[test]
fn nodes_have_labels_names_parents_and_lines() {
    let json = document(&["examples/board.dts"]);
    let nodes = json.list("files.0.nodes");
    let pmic = nodes.iter().find(|node| node.at("name") == &Json::Text("pmic@4b".into())).unwrap();
    assert_eq!((pmic.at("labels"), pmic.number("errors")), (&Json::List(vec![Json::Text("pmic".into())]), 2));
    assert_eq!((pmic.number("range.line"), pmic.number("range.end_line")), (45, 60));
    assert_eq!(nodes[pmic.number("parent")].text("name"), "&i2c_pmic");
    assert_eq!(nodes[0].at("parent"), &Json::Null);
    assert_eq!(of_text(b"{};", &[]).at("files.0.nodes.0.name"), &Json::Null);
}

#[test]
fn labels_hints_and_lexical_errors_are_there() {
    let unclosed = of_text(b"/{a;", &[]);
    let report = unclosed.at("files.0.reports.0");
    assert_eq!((report.text("name"), report.number("label.column")), ("UnclosedNode", 2));
    assert_eq!(of_text(b"=1;", &[]).text("files.0.reports.0.hint.name"), "UnnamedProperty");
    let lexical = of_text(b"a = \"x;\n b;", &[]);
    let error = lexical.at("files.0.lexical_errors.0");
    assert_eq!((error.number("number"), error.text("name")), (70, "UnexpectedEndString"));
    assert_eq!((error.number("range.end_line"), error.number("range.end_column")), (2, 4));
    let silent = of_text(b"a=<1> b;", &[]);
    assert_eq!(silent.number("files.0.not_understood.0.range.end"), 5);
    assert_eq!(silent.number("exit_status"), 0);
    assert_eq!(of_text(b"# 1 \"a\"\n", &[]).at("files.0.line_marks"), &Json::Word(true));
}

#[test]
fn tree_and_rows_at_a_position_are_there_when_they_are_asked_for() {
    let (text, arguments) = (b"/ { a = <1>; };\n", ["--tree", "--at", "1:5", "--at", "7:1"]);
    let json = of_text(text, &arguments);
    let parse = Entrypoint::SourceFile.parse_text_in(Setting::Old, text).unwrap().parse;
    let rows = json.list("files.0.tree");
    assert_eq!(rows.len(), parse.tree.item_count());
    for (i, row) in rows.iter().enumerate() {
        let item = parse.tree.item(i).unwrap();
        assert_eq!(
            (row.number("row"), row.number("start"), row.number("end")),
            (i, item.range().start, item.range().end)
        );
        assert_eq!(row.number("parent"), item.parent().map_or(0, |parent| parent.row()));
        let text = item.as_leaf().map_or(Json::Null, |leaf| Json::Text(leaf.text_lossy().into_owned()));
        assert_eq!((row.at("text"), row.text("class") == "leaf"), (&text, item.as_leaf().is_some()));
    }
    let kinds: Vec<&str> = json.list("files.0.at.0.rows").iter().map(|row| row.text("kind")).collect();
    assert_eq!(kinds, ["SourceFile", "DtNode", "DtProperty", "Name"]);
    assert_eq!(json.text("files.0.at.1.error"), "the text has 2 lines, the last of them empty");
    assert_eq!(json.number("exit_status"), 2);
    let plain = of_text(text, &[]);
    assert_eq!((plain.at("files.0.tree"), plain.at("files.0.at")), (&Json::Null, &Json::Null));
}

#[test]
fn refused_and_unreadable_files_have_the_same_fields() {
    let empty = folder("json-empty");
    let given = [OsStr::new("examples/overlay.dts"), OsStr::new("no/such.dts"), OsStr::new("examples/labels.dts")];
    let json = document(&[given.as_slice(), &[empty.as_os_str()]].concat());
    let keys = |file: &Json| match file {
        Json::Object(fields) => fields.iter().map(|(key, _)| key.clone()).collect::<Vec<_>>(),
        other => panic!("{other:?}"),
    };
    let files = json.list("files");
    assert!(files.iter().all(|file| keys(file) == keys(&files[2])));
    let statuses: Vec<&str> = files.iter().map(|file| file.text("status")).collect();
    assert_eq!(statuses, ["refused", "unreadable", "parsed", "unreadable"]);
    let refusal = files[0].at("refusal");
    assert_eq!((refusal.number("number"), refusal.text("name"), refusal.number("place")), (10, "Directive", 142));
    assert_eq!((refusal.number("range.line"), refusal.number("range.column")), (6, 1));
    assert!(refusal.text("message").contains("`#define`") && refusal.text("help").contains("cpp -P"));
    assert!(files[1].text("unreadable.message").starts_with("No such file"));
    assert!(files[3].text("unreadable.message").starts_with("no file below this folder"));
    let totals = ["files", "with_errors", "refused", "unreadable"].map(|key| json.at("totals").number(key));
    assert_eq!(totals, [4, 0, 1, 2]);
    let rows = of_text(b"devicetree tokens 1\nrows 1\nIdent 0\ntext 0\n", &[]);
    assert_eq!((rows.number("files.0.refusal.range.line"), rows.number("files.0.refusal.range.column")), (3, 7));
    let bad = of_text(b"devicetree tokens 1\nrows x\n", &[]);
    assert_eq!(bad.number("files.0.unreadable.line"), 2);
    assert_eq!(of_text(&b",".repeat(65_537), &[]).at("files.0.refusal.range"), &Json::Null);
}

#[test]
fn names_and_texts_of_any_bytes_are_strings() {
    let below = folder("json-names");
    let name = b"\"\\\x1b\x01\n\t\x7f\xff\xe9'.dts";
    let path = below.join(OsStr::from_bytes(name));
    std::fs::write(&path, b"a = \"\\\\\x01\x7f\";").unwrap();
    let json = document(&[path.as_os_str(), OsStr::new("--tree")]);
    let all = path.as_os_str().as_bytes();
    assert_eq!(json.text("files.0.name"), String::from_utf8_lossy(all));
    let bytes: Vec<Json> = all.iter().map(|byte| Json::Number((*byte).into())).collect();
    assert_eq!(json.at("files.0.name_bytes"), &Json::List(bytes));
    let (_, out, _) = printed(dtparse(&[path.as_os_str()]).args(["--tree", "--json"]));
    assert!(out.bytes().all(|byte| byte == b'\n' || (byte >= b' ' && byte != 0x7f)), "no bare control byte");
    assert_eq!(document(&["examples/board.dts"]).at("files.0.name_bytes"), &Json::Null);
}

#[test]
fn every_text_of_the_oracle_gives_a_document() {
    let answers = std::fs::read_to_string(root().join("bindings/rust/tests/oracle/answers.txt")).unwrap();
    let below = folder("json-oracle");
    for (i, line) in answers.lines().step_by(97).enumerate() {
        std::fs::write(below.join(format!("{i:03}.dts")), line.bytes().filter(u8::is_ascii).collect::<Vec<_>>())
            .unwrap();
    }
    let json = document(&[below.as_os_str(), OsStr::new("--tree"), OsStr::new("--strict")]);
    assert_eq!(json.list("files").len(), answers.lines().step_by(97).count());
    let sum = |key: &str| json.list("files").iter().map(|file| file.at("counts").number(key)).sum::<usize>();
    for key in ["reports", "lexical_errors", "not_understood", "nodes", "properties", "bytes", "bytes_not_understood"] {
        assert_eq!(json.at("counts").number(key), sum(key), "{key}");
    }
    for file in json.list("files") {
        assert_eq!(file.list("reports").len(), file.number("counts.reports"));
        assert_eq!(file.list("nodes").len(), file.number("counts.nodes"));
    }
}

/// A reader that is not of this project, where there is one.
#[test]
fn python_reads_it() {
    let (_, out, _) = run(&["--json", "--tree", "--strict", "examples", "examples/board.rows", "no/such"]);
    let script = "import json,sys; d=json.load(sys.stdin); print(d['format'], len(d['files']), d['exit_status'])";
    if Command::new("python3").arg("--version").output().is_err() {
        println!("no python3");
        return;
    }
    let (status, said, err) = piped(Command::new("python3").args(["-c", script]), out.as_bytes());
    let expected = format!("1 {} 2\n", Reader::read(&out).list("files").len());
    assert_eq!((status, said, err.as_str()), (Some(0), expected, ""));
}
