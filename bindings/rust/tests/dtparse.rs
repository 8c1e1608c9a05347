//! The command dtparse: what it prints and its exit status. tests/dtparse has several files and folders, the forms of
//! the output, the man page and the completions, and docs/DTPARSE.md.

#[path = "dtparse/document.rs"]
mod document;
#[path = "dtparse/files.rs"]
mod files;
#[path = "dtparse/forms.rs"]
mod forms;
#[path = "dtparse/json.rs"]
mod json;
#[path = "dtparse/names.rs"]
mod names;
#[path = "dtparse/pages.rs"]
mod pages;
#[path = "dtparse/reader.rs"]
mod reader;

use dt_parser::rowsfile::RowsFile;
use dt_parser::{Entrypoint, Input, LexError, TextError, Token, TokenKind};
use std::ffi::OsStr;
use std::io::Write;
use std::path::PathBuf;
use std::process::{Command, Output, Stdio};

fn root() -> PathBuf {
    PathBuf::from(env!("CARGO_MANIFEST_DIR")).join("../..")
}

/// dtparse at the repository's root, with nothing in its surroundings that speaks of colours.
fn dtparse<A: AsRef<OsStr>>(arguments: &[A]) -> Command {
    let mut command = Command::new(env!("CARGO_BIN_EXE_dtparse"));
    command.args(arguments).current_dir(root()).env_remove("NO_COLOR");
    command
}

fn run<A: AsRef<OsStr>>(arguments: &[A]) -> (Option<i32>, String, String) {
    printed(dtparse(arguments).output().unwrap())
}

/// Exit status, standard output and standard error.
fn printed(output: Output) -> (Option<i32>, String, String) {
    let text = |bytes| String::from_utf8(bytes).unwrap();
    (output.status.code(), text(output.stdout), text(output.stderr))
}

/// An empty folder for a test.
fn folder(name: &str) -> PathBuf {
    let path = PathBuf::from(env!("CARGO_TARGET_TMPDIR")).join(name);
    let _ = std::fs::remove_dir_all(&path);
    std::fs::create_dir_all(&path).unwrap();
    path
}

/// dtparse on a file that it reads from the standard input.
fn run_on(file: &[u8], arguments: &[&str]) -> (Option<i32>, String, String) {
    piped(&mut dtparse(&[arguments, &["-"]].concat()), file)
}

/// A command with this standard input.
fn piped(command: &mut Command, input: &[u8]) -> (Option<i32>, String, String) {
    let mut child = command.stdin(Stdio::piped()).stdout(Stdio::piped()).stderr(Stdio::piped()).spawn().unwrap();
    // a command that has read enough may be gone
    let _ = child.stdin.take().unwrap().write_all(input);
    printed(child.wait_with_output().unwrap())
}

fn rows(entry: Entrypoint, text: &[u8], tokens: &[Token]) -> Vec<u8> {
    let rows = Input::new(text, tokens.to_vec()).rows();
    RowsFile { entry, name: Some("a.dts".into()), text, rows, first_row_line: 0 }.write()
}

/// A source file of tokens whose texts follow one another.
fn source(tokens: &[(TokenKind, &[u8])]) -> Vec<u8> {
    let text: Vec<u8> = tokens.iter().flat_map(|(_, text)| text.to_vec()).collect();
    let tokens: Vec<Token> = tokens.iter().map(|(kind, text)| Token::new(*kind, text.len() as u32)).collect();
    rows(Entrypoint::SourceFile, &text, &tokens)
}

/// Compares with a file of tests/golden. `DTPARSE_GOLDEN=write` writes the file instead.
fn golden(name: &str, text: &str) {
    let path = format!("{}/tests/golden/{name}", env!("CARGO_MANIFEST_DIR"));
    if std::env::var_os("DTPARSE_GOLDEN").is_some() {
        std::fs::write(&path, text).unwrap();
    }
    assert_eq!(text, std::fs::read_to_string(&path).unwrap(), "{path}");
}

#[test]
fn the_board_is_shown_with_its_mistake_and_all_its_nodes() {
    let (status, out, err) = run(&["examples/board.dts"]);
    golden("board.txt", &out);
    assert_eq!((status, err.as_str()), (Some(1), ""));
    assert!(out.contains("vcc_3v3: regulator-3v3\n"));
    assert_eq!(run(&["examples/board.rows"]), (status, out, err), "its rows are read as it is");
}

#[test]
fn a_file_without_mistakes_has_status_0() {
    let (status, out, err) = run(&["examples/overlay.rows"]);
    golden("overlay.txt", &out);
    assert_eq!((status, err.as_str()), (Some(0), ""));
}

#[test]
fn the_tree_is_printed_whole() {
    let (status, out, _) = run(&["--tree", "examples/overlay.rows"]);
    golden("overlay.tree.txt", &out);
    assert_eq!(status, Some(0));
}

#[test]
fn what_stands_at_a_position_is_shown_from_the_root_to_the_token() {
    let (status, out, err) = run(&["--at", "49:19", "examples/board.dts"]);
    golden("board.at.txt", &out);
    assert_eq!((status, err.as_str()), (Some(1), ""), "the file has reports");
    assert_eq!(run(&["--at=49:19", "examples/board.rows"]), (status, out.clone(), err));
    assert_eq!(run(&["--strict", "--at", "49:19", "examples/board.dts"]).1, out);
    let (status, out, _) = run(&["--at", "29:28", "examples/overlay.rows"]);
    golden("overlay.at.txt", &out);
    assert_eq!(status, Some(0));
}

/// The rows at a position, a line each; all but the heading.
fn rows_at(text: &[u8], position: &str) -> Vec<String> {
    let (_, out, _) = run_on(text, &["--at", position]);
    let (heading, rows) = out.split_once('\n').unwrap();
    assert_eq!(heading, format!("rows at (standard input):{position}, from the root to the token:"));
    rows.lines().map(String::from).collect()
}

#[test]
fn a_token_owns_its_first_byte_and_the_last_one_the_end_of_the_file() {
    let (file, property) = (r#"0 | SourceFile  1:1..2:1  "a;\n""#, r#"1 | DtProperty  1:1..1:3  "a;""#);
    assert_eq!(rows_at(b"a;\n", "1:1"), [file, property, r#"2 | Name        1:1..1:2  "a""#]);
    assert_eq!(rows_at(b"a;\n", "1:2"), [file, property, r#"3 | Semicolon   1:2..1:3  ";""#]);
    for end in ["1:3", "2:1"] {
        assert_eq!(rows_at(b"a;\n", end), [file, r#"4 | Whitespace  1:3..2:1  "\n""#]);
    }
    assert_eq!(rows_at(b"a", "1:2").len(), 3, "the last line needs no end");
    assert_eq!(rows_at(b"", "1:1"), [r#"0 | SourceFile  1:1..1:1  """#]);
    // a row without bytes is the last one, and not shown
    let rows = rows_at(b"/delete-node/", "1:14");
    assert!(rows.len() == 3 && rows[2].starts_with("2 | DeleteNodeDirective  1:1..1:14  "), "{rows:?}");
}

#[test]
fn a_position_that_the_text_does_not_have_is_refused() {
    let why = |position: &str, file: &str| no_answer(run(&["--at", position, file]));
    let file = "examples/board.dts";
    let lines = "the text has 73 lines, the last of them empty";
    assert_eq!(why("99:1", file), format!("dtparse: {file}: --at 99:1: {lines}\n"));
    let column = "line 49 has 20 characters, so that its end is column 21";
    assert_eq!(why("49:22", file), format!("dtparse: {file}: --at 49:22: {column}\n"));
    assert_eq!(run(&["--at", "49:21", file]).0, Some(1), "the line's end is there");
    assert_eq!(why("99:1", "examples/board.rows"), format!("dtparse: examples/board.rows: --at 99:1: {lines}\n"));
    assert!(why("0:1", file).starts_with("dtparse: --at is LINE:COLUMN, both counted from 1, as 49:20, not 0:1\n"));
    assert!(why("99:1", "examples/overlay.dts").contains("refusal 10"), "the parse comes first");
}

#[test]
fn positions_are_shown_beside_other_views_and_in_any_entry() {
    let (status, out, _) = run_on(b"a;", &["--at", "1:2", "--at", "1:1", "--nodes"]);
    assert_eq!(status, Some(0));
    let parts: Vec<&str> = out.split("\n\n").collect();
    assert!(parts.len() == 3 && parts[0].contains("\n3 | Semicolon") && parts[1].contains("\n2 | Name"), "{out}");
    assert_eq!(parts[2], "(standard input): no errors; 0 nodes and 1 property read\n");
    let (_, out, _) = run_on(b"<1>", &["--entry", "PropValues", "--at", "1:2"]);
    assert!(out.contains("\n0 | EntryPropValues ") && out.ends_with("Number           1:2..1:3  \"1\"\n"), "{out}");
    assert!(run_on(b"a;", &["--at", "1:1", "--color=always"]).1.contains("\x1b["));
    // columns are characters: the name starts at byte 8
    let tokens = [Token::new(TokenKind::BlockComment, 8), Token::new(TokenKind::Ident, 1)];
    let file = rows(Entrypoint::SourceFile, "/*éé*/a".as_bytes(), &tokens);
    let (_, out, _) = run_on(&file, &["--at", "1:7"]);
    assert!(out.ends_with("Name        1:7..1:8  \"a\"\n"), "{out}");
}

#[test]
fn labels_are_reported_in_the_strict_setting_alone() {
    let (status, out, err) = run(&["--strict", "examples/labels.dts"]);
    golden("labels.txt", &out);
    assert_eq!((status, err.as_str()), (Some(1), ""));
    assert_eq!(run(&["--strict", "examples/labels.rows"]), (status, out, err));
    let (status, old, _) = run(&["examples/labels.dts"]);
    assert_eq!(status, Some(0));
    assert!(old.ends_with("examples/labels.dts: no errors; 5 nodes and 1 property read\n"), "{old}");
    assert_eq!(run(&["--strict", "--tree", "examples/labels.dts"]).1, run(&["--tree", "examples/labels.dts"]).1);
}

#[test]
fn a_source_is_read_from_the_standard_input_too() {
    let text = std::fs::read(root().join("examples/board.dts")).unwrap();
    let rows = std::fs::read(root().join("examples/board.rows")).unwrap();
    let (status, of_file, _) = run(&["examples/board.dts"]);
    let named = of_file.replace("examples/board.dts", "(standard input)");
    assert_eq!(run_on(&text, &[]), (status, named.clone(), String::new()));
    assert_eq!(piped(&mut dtparse::<&str>(&[]), &text), (status, named, String::new()), "no file is `-`");
    assert_eq!(run_on(&rows, &[]), (status, of_file.clone(), String::new()), "rows are told by their first line");
    assert_eq!(piped(&mut dtparse::<&str>(&[]), &rows), (status, of_file, String::new()));
}

#[test]
fn the_first_line_tells_rows_from_a_source_and_then_the_ending() {
    let file = |name: &str, text: &[u8]| {
        let path = format!("{}/{name}", env!("CARGO_TARGET_TMPDIR"));
        std::fs::write(&path, text).unwrap();
        path
    };
    let rows = source(&[(TokenKind::Ident, b"a"), (TokenKind::Semicolon, b";")]);
    let summary = "no errors; 0 nodes and 1 property read\n";
    assert_eq!(run(&[&file("rows.dts", &rows)]).1, format!("a.dts: {summary}"));
    let text = file("text", b"a;");
    assert_eq!(run(&[&text]).1, format!("{text}: {summary}"));
    let bad = file("text.rows", b"a;");
    let first = "line 1: expected `devicetree tokens 1`, found";
    assert_eq!(no_answer(run(&[&bad])), format!("dtparse: {bad}: {first} `a;`\n"));
    let empty = file("empty.rows", b"");
    assert_eq!(no_answer(run(&[&empty])), format!("dtparse: {empty}: {first} the end of the file\n"));
    assert_eq!(
        no_answer(run_on(b"devicetree tokens 2\n", &[])),
        format!("dtparse: -: {first} `devicetree tokens 2`\n")
    );
}

#[test]
fn a_directive_is_refused_with_its_line_and_the_usual_way() {
    let expected = "\
dtparse: examples/overlay.dts: refusal 10: `#define` is a preprocessor directive
 --> examples/overlay.dts:6:1
  |
6 | #define FAN_PWM_PERIOD 40000
  | ^
Directives are for the preprocessor, which goes first. The usual way, with -I for each folder
that the source includes from:
    cpp -P -nostdinc -undef -x assembler-with-cpp examples/overlay.dts | ./dtparse -
";
    assert_eq!(no_answer(run(&["examples/overlay.dts"])), expected);
    let of_text = no_answer(run_on(b"/ {\n\ta;\t#  if A\n", &["--tree"]));
    assert!(of_text.contains("\n --> (standard input):2:5\n  |\n2 |     a;  #  if A\n  |         ^\n"), "{of_text}");
    assert!(of_text.ends_with("cpp FILE.dts | ./dtparse -\n"), "{of_text}");
}

#[test]
fn a_name_that_begins_like_a_directive_is_refused_and_the_preprocessor_not_named() {
    let said = no_answer(run_on(b"#iface-cells = <1>;", &[]));
    assert!(
        said.starts_with("dtparse: -: refusal 10: `#iface-cells` begins like a preprocessor directive\n"),
        "{said}"
    );
    assert!(said.contains("\n1 | #iface-cells = <1>;\n  | ^\n") && !said.contains("cpp"), "{said}");
    let minus = Token::new(TokenKind::Minus, 1);
    let names = [Token::new(TokenKind::Ident, 6), minus, Token::new(TokenKind::Ident, 5)];
    let tokens = [names.as_slice(), &[Token::new(TokenKind::Semicolon, 1)]].concat();
    let file = rows(Entrypoint::SourceFile, b"#iface-cells;", &tokens);
    assert_eq!(run_on(&file, &[]).0, Some(0), "rows can have it");
}

#[test]
fn a_byte_that_is_not_ascii_is_refused_with_its_line() {
    let expected = "\
dtparse: -: refusal 9: byte 0xc3, the first of `ë` (U+00EB), is not ASCII
 --> (standard input):2:6
  |
2 | // Zoë
  |      ^
A source is plain ASCII, in comments and strings too. In a string it can be written as `\\xc3\\xab`.
Comments are taken out by the preprocessor:
    cpp -P -nostdinc -undef -x assembler-with-cpp FILE.dts | ./dtparse -
";
    assert_eq!(no_answer(run_on("/dts-v1/;\n// Zoë\n".as_bytes(), &[])), expected);
    let said = no_answer(run_on(b"a = \"\xb5\";\r\n", &[]));
    assert!(said.starts_with("dtparse: -: refusal 9: byte 0xb5 is not ASCII\n --> (standard input):1:6\n"), "{said}");
    assert!(said.contains("\n1 | a = \"\u{fffd}\";\n  |      ^\n"), "{said}");
    let mark = no_answer(run_on("\u{feff}/dts-v1/;\n".as_bytes(), &[]));
    assert!(mark.ends_with("\nSave the file without a byte order mark.\n"), "{mark}");
    let compiled = no_answer(run_on(b"\xd0\x0d\xfe\xed\0\0", &[]));
    assert!(compiled.contains("\nThis is a compiled devicetree; `dtc -I dtb -O dts FILE.dts` makes "), "{compiled}");
}

#[test]
fn a_long_line_is_cut_around_the_byte() {
    let text = [b"a".repeat(3000), b" #if ".to_vec(), b"b".repeat(3000)].concat();
    let said = no_answer(run_on(&text, &[]));
    let lines: Vec<&str> = said.lines().collect();
    let (line, caret) = (lines[3].chars().collect::<Vec<_>>(), lines[4].chars().count());
    assert!(line.len() < 200 && line[caret - 1] == '#' && lines[4].ends_with('^'), "{said}");
}

#[test]
fn a_text_that_is_too_long_or_too_deep_has_status_2() {
    let start = "dtparse: -: refusal";
    let said = no_answer(run_on(&b" ".repeat(1_048_577), &[]));
    assert!(
        said.starts_with(&format!(
            "{start} 2: the text has more than 1048576 bytes\nThe text is too long for one call"
        )),
        "{said}"
    );
    let said = no_answer(run_on(&b",".repeat(65_537), &[]));
    assert!(said.starts_with(&format!("{start} 2: the text has more than 65536 tokens\n")), "{said}");
    let said = no_answer(run_on(&b"(".repeat(64), &["--entry", "Cells"]));
    assert!(said.starts_with(&format!("{start} 5: over 64 calls are open ")), "{said}");
    assert!(said.contains("\n --> (standard input):1:64\n"), "{said}");
}

#[test]
fn the_preprocessors_marks_of_lines_are_a_reason_for_reports() {
    let (status, out, _) = run_on(b"# 1 \"board.dts\"\n/dts-v1/;\n", &["--reports"]);
    assert_eq!(status, Some(1));
    assert!(out.ends_with("are the preprocessor's own; `cpp -P` leaves them out\n"), "{out}");
    assert!(!run_on(b"}\n", &["--reports"]).1.contains("cpp"));
}

/// A made-up board that includes headers and uses macros and conditions, as boards do.
const LANTERN: &str = "examples/cpp/kestrel-lantern";

#[test]
fn a_board_that_went_through_the_preprocessor_is_read_without_a_report() {
    let (status, out, err) = run(&[&format!("{LANTERN}.plain.dts")]);
    golden("lantern.txt", &out);
    assert_eq!((status, err.as_str()), (Some(0), ""));
    assert!(out.ends_with(": no errors; 49 nodes and 160 properties read\n"), "nothing is left over: {out}");
    assert_eq!(run(&["--strict", &format!("{LANTERN}.plain.dts")]).1, out, "its labels are good");
    assert!(no_answer(run(&[&format!("{LANTERN}.dts")])).contains("refusal 10: `#define` is a preprocessor directive"));
}

/// A board of Linux (examples/cpp says which), as the preprocessor leaves it.
#[test]
fn a_real_board_is_read_without_a_report() {
    let (status, out, err) = run(&["examples/cpp/rk3328-rock64.plain.dts"]);
    assert_eq!((status, err.as_str()), (Some(0), ""));
    assert!(
        out.ends_with(": no errors; 352 nodes and 994 properties read\n"),
        "{}",
        out.lines().last().unwrap_or_default()
    );
}

/// Tokens that are not blanks or comments, with their texts.
fn said(text: &[u8]) -> Vec<(TokenKind, Vec<u8>)> {
    let input = Entrypoint::SourceFile.parse_text(text).unwrap().input;
    let tokens = input.tokens.iter().zip(input.ranges()).filter(|(token, _)| !token.is_trivia());
    tokens.map(|(token, range)| (token.seen_kind(), text[range.byte_range()].to_vec())).collect()
}

/// The command that a refusal names, where there is a preprocessor: what it writes may differ in blanks.
#[test]
fn the_usual_way_is_one() {
    let words: Vec<&str> = TextError::PREPROCESSOR.split(' ').collect();
    let mut command = Command::new(words[0]);
    command.args(&words[1..]).args(["-I", "examples/cpp/include", &format!("{LANTERN}.dts")]).current_dir(root());
    let Ok(output) = command.output() else {
        println!("no {}", words[0]);
        return;
    };
    assert!(output.status.success(), "{}", String::from_utf8_lossy(&output.stderr));
    let (status, out, _) = run_on(&output.stdout, &[]);
    assert_eq!(status, Some(0));
    assert!(out.ends_with("(standard input): no errors; 49 nodes and 160 properties read\n"), "{out}");
    assert_eq!(said(&output.stdout), said(&std::fs::read(root().join(format!("{LANTERN}.plain.dts"))).unwrap()));
}

#[test]
fn the_examples_rows_are_those_of_their_sources() {
    for name in ["board", "labels", "overlay"] {
        let bytes = std::fs::read(root().join(format!("examples/{name}.rows"))).unwrap();
        let file = RowsFile::read(&bytes).unwrap();
        assert_eq!(file.text, std::fs::read(root().join(format!("examples/{name}.dts"))).unwrap());
        assert_eq!(file.name, Some(format!("examples/{name}.dts")));
    }
}

#[test]
fn an_unclosed_node_has_a_label_on_its_brace() {
    use TokenKind::{Ident, LCurly, Semicolon, Slash, Whitespace};
    let file = source(&[
        (Slash, b"/"),
        (LCurly, b"{"),
        (Whitespace, b"\n\t"),
        (Ident, b"a"),
        (Semicolon, b";"),
        (Whitespace, b"\n"),
    ]);
    let (status, out, _) = run_on(&file, &["--reports"]);
    let expected = "\
error: Expected `}`, but reached end of input
 --> a.dts:2:4
  |
1 | /{
  |  - Unclosed delimiter
2 |     a;
  |       ^

a.dts: 1 error; 1 node and 1 property read
";
    assert_eq!((status, out.as_str()), (Some(1), expected));
}

#[test]
fn an_error_is_reported_at_the_node_that_it_lies_in() {
    use TokenKind::{Ident, LCurly, RCurly, Semicolon, Slash};
    let inner: [(TokenKind, &[u8]); 4] = [(Ident, b"a"), (LCurly, b"{"), (RCurly, b"}"), (Semicolon, b";")];
    let before: [(TokenKind, &[u8]); 2] = [(Slash, b"/"), (LCurly, b"{")];
    let after: [(TokenKind, &[u8]); 4] = [(Semicolon, b";"), (RCurly, b"}"), (Semicolon, b";"), (Semicolon, b";")];
    let file = source(&[before.as_slice(), &inner, &after].concat());
    let (status, out, _) = run_on(&file, &["--nodes"]);
    let expected = "\
nodes, with the line that each starts on:
1 | /      <- 1 error
1 |     a

a.dts: 2 errors; 2 nodes and 0 properties read; 2 of 10 bytes not understood
";
    assert_eq!((status, out.as_str()), (Some(1), expected));
}

#[test]
fn a_hint_stands_after_its_underline() {
    use TokenKind::{Equals, Number, Semicolon};
    let (status, out, _) = run_on(&source(&[(Equals, b"="), (Number, b"1"), (Semicolon, b";")]), &["--reports"]);
    assert_eq!(status, Some(1));
    assert!(out.contains("1 | =1;\n  | ^ Recovered as unnamed property\n"), "{out}");
}

#[test]
fn crlf_and_bytes_that_are_not_utf8_are_shown() {
    use TokenKind::{LineComment, RCurly, Whitespace};
    let tokens: [(TokenKind, &[u8]); 4] =
        [(LineComment, b"// \xff\x1b[31m"), (Whitespace, b"\r\n\t"), (RCurly, b"}"), (Whitespace, b"\r\n")];
    let (status, out, _) = run_on(&source(&tokens), &["--reports"]);
    assert_eq!(status, Some(1));
    assert!(out.contains("error: Unmatched `}`\n --> a.dts:2:2\n  |\n2 |     }\n  |     ^\n"), "{out:?}");
    let (_, out, _) = run_on(&source(&[(RCurly, b"}"), (LineComment, b"// \xff\x1b[31m\r")]), &["--reports"]);
    assert!(out.contains("1 | }// \u{fffd}\u{241b}[31m\u{240d}\n"), "{out:?}");
}

#[test]
fn a_lexical_error_over_several_lines_shows_both_ends() {
    let tokens = [Token::new(TokenKind::Ident, 1), Token::new(TokenKind::Equals, 1)];
    let tokens = [tokens.as_slice(), &[Token::error(LexError::UnexpectedEndString, 8)]].concat();
    let (status, out, _) = run_on(&rows(Entrypoint::SourceFile, b"a=\"x;\n\n b;", &tokens), &["--reports"]);
    assert_eq!(status, Some(1));
    let first = "\
error: Unexpected end of input (hint: unterminated string literal)
error: Expected value, ‘/include/‘ or preprocessor directive, but found unrecognized token
 --> a.dts:1:3
  |
1 | a=\"x;
  |   ^^^
...
3 |  b;
  |  ^^
";
    assert!(out.starts_with(first), "{out}");
}

#[test]
fn a_part_without_a_report_is_a_note() {
    use TokenKind::{Equals, Ident, Semicolon, String, Whitespace};
    let tokens: [(TokenKind, &[u8]); 6] =
        [(Ident, b"a"), (Equals, b"="), (String, b"\"s\""), (Whitespace, b"\n"), (Ident, b"b"), (Semicolon, b";")];
    let (status, out, _) = run_on(&source(&tokens), &[]);
    assert_eq!(status, Some(0));
    assert!(out.starts_with("note: Not understood."), "{out}");
    assert!(out.contains("1 | a=\"s\"\n  | ^^^^^\n"), "{out}");
    assert!(out.ends_with("no errors; 0 nodes and 1 property read; 5 of 8 bytes not understood\n"), "{out}");
}

#[test]
fn an_empty_text_has_a_position_too() {
    let (status, out, _) = run_on(&rows(Entrypoint::ReferenceNoamp, b"", &[]), &["--reports"]);
    assert_eq!(status, Some(1));
    assert!(out.contains("--> a.dts:1:1\n  |\n1 |\n  | ^\n"), "{out}");
    let (status, out, _) = run_on(&rows(Entrypoint::SourceFile, b"", &[]), &[]);
    assert_eq!((status, out.as_str()), (Some(0), "a.dts: no errors; 0 nodes and 0 properties read\n"));
    let (status, out, _) = run_on(b"", &[]);
    assert_eq!((status, out.as_str()), (Some(0), "(standard input): no errors; 0 nodes and 0 properties read\n"));
}

#[test]
fn the_entry_can_be_chosen() {
    let file = rows(Entrypoint::SourceFile, b"1", &[Token::new(TokenKind::Number, 1)]);
    assert_eq!(run_on(&file, &[]).0, Some(1));
    let (status, out, _) = run_on(&file, &["--entry", "Cells"]);
    assert_eq!(status, Some(0));
    assert!(out.starts_with("EntryCells@0..1\n  Number@0..1 \"1\"\n"), "{out}");
    assert_eq!(run_on(&file, &["--entry", "PropValues"]).0, Some(1));
    assert_eq!(run_on(b"1", &[]).0, Some(1));
    let of_text = run_on(b"1", &["--entry", "Cells"]);
    assert_eq!(of_text, (status, out.replace("a.dts", "(standard input)"), String::new()));
}

#[test]
fn colours_are_for_terminals_unless_asked_for() {
    let escape = "\x1b[";
    let plain = run(&["examples/board.dts"]).1;
    assert!(!plain.contains(escape));
    let coloured = run(&["--color", "always", "examples/board.dts"]).1;
    assert!(coloured.contains(escape));
    assert_eq!(run(&["--color=never", "examples/board.dts"]).1, plain);
    let mut command = dtparse(&["--color=always", "examples/board.dts"]);
    let (_, out, _) = printed(command.env("NO_COLOR", "1").output().unwrap());
    assert_eq!(out, coloured, "what is asked for goes before NO_COLOR");
    assert!(!no_answer(run_on(b"#if", &[])).contains(escape));
    assert!(no_answer(run_on(b"#if", &["--color=always"])).contains(escape));
}

/// Status 2, nothing on standard output, and the complaint.
fn no_answer((status, out, err): (Option<i32>, String, String)) -> String {
    assert_eq!((status, out.as_str()), (Some(2), ""));
    err
}

#[test]
fn invalid_arguments_have_status_2() {
    assert_eq!(no_answer(run(&["--all", "x"])), "dtparse: --all is not an option\nTry `dtparse --help`.\n");
    assert!(no_answer(run(&["no/such.rows"])).starts_with("dtparse: no/such.rows: No such file"));
    assert!(no_answer(run(&["no/such.dts"])).starts_with("dtparse: no/such.dts: No such file"));
    assert_eq!(run(&["--help"]).0, Some(0));
    assert!(run(&["--help"]).1.starts_with("dtparse shows"));
    assert!(run(&["--help"]).1.contains(&format!("{} FILE.dts | ./dtparse -", TextError::PREPROCESSOR)));
}

#[test]
fn a_bad_file_has_status_2_and_its_line_is_reported() {
    let bad = |file: &str| no_answer(run_on(file.as_bytes(), &[]));
    assert_eq!(
        bad("devicetree tokens 1\nrows 2\nIdent 1\nSemi 1\n"),
        "dtparse: -: line 4: expected a token's kind, by name or number, found `Semi`\n"
    );
    assert_eq!(
        bad("devicetree tokens 1\nrows 1\nIdent 1\ntext 2\na"),
        "dtparse: -: line 4: expected 2 bytes after this line, up to the end of the file, found 1\n"
    );
}

/// What is said of a file of token rows whose lines after the first are these.
fn refused_rows(lines: &str) -> String {
    no_answer(run_on(format!("devicetree tokens 1\n{lines}").as_bytes(), &[]))
}

#[test]
fn a_bad_kind_is_shown_with_its_line() {
    let expected = "\
dtparse: -: refusal 11: row 1, counted from 0, has kind 26 (Name), which only the parser makes
 --> (standard input):4:1
  |
4 | Name 1
  | ^^^^
A row's kind is 0 to 24, 27 to 60 or 64 to 74, or the name of one (docs/TOKENS.md).
";
    assert_eq!(refused_rows("rows 2\nIdent 1\nName 1\ntext 2\nab"), expected);
    let said = refused_rows("entry Cells\nfile a.dts\nrows 1\n61 1\ntext 1\na");
    assert!(
        said.starts_with("dtparse: -: refusal 11: row 0, counted from 0, has kind 61, which no token has\n"),
        "{said}"
    );
    assert!(said.contains("\n --> (standard input):5:1\n  |\n5 | 61 1\n  | ^^\n"), "{said}");
    let said = refused_rows("rows 1\n4294967295 0\ntext 0\n");
    assert!(said.contains(" refusal 11: row 0, counted from 0, has kind 4294967295, "), "before 12: {said}");
}

#[test]
fn a_length_of_0_is_shown_with_its_line() {
    let expected = "\
dtparse: -: refusal 12: row 0, counted from 0, has length 0
 --> (standard input):3:7
  |
3 | Ident 0
  |       ^
A row's length is at least 1.
";
    assert_eq!(refused_rows("rows 2\nIdent 0\nName 1\ntext 1\na"), expected);
}

#[test]
fn a_token_past_the_input_is_shown_with_its_line() {
    let expected = "\
dtparse: -: refusal 13: row 1, counted from 0, starts at byte 1 and has length 4294967295, and the input has 2 bytes
 --> (standard input):4:7
  |
4 | Ident 4294967295
  |       ^^^^^^^^^^
Its length is at most 1.
";
    assert_eq!(refused_rows("rows 3\nIdent 1\nIdent 4294967295\nIdent 2\ntext 2\nab"), expected);
    let said = refused_rows("rows 2\nIdent 2\nIdent 1\ntext 2\nab");
    assert!(said.ends_with("\nNo row may follow those before it, which are the whole input.\n"), "{said}");
}

#[test]
fn a_short_total_is_shown_with_the_line_of_the_texts_length() {
    let expected = "\
dtparse: -: refusal 13: the total is short: the lengths of 2 rows add up to 2, and the input has 3 bytes
 --> (standard input):5:6
  |
5 | text 3
  |      ^
All rows together are the whole input.
";
    assert_eq!(refused_rows("rows 2\nIdent 1\nIdent 1\ntext 3\nabc"), expected);
    let said = refused_rows("rows 0\ntext 12\nrows 1\nIdent");
    assert!(said.contains("\n --> (standard input):3:6\n  |\n3 | text 12\n  |      ^^\n"), "{said}");
}

#[test]
fn another_text_than_the_fixed_one_is_shown_with_the_line_of_its_row() {
    let expected = "\
dtparse: -: refusal 4: row 1, counted from 0: Semicolon is always `;`, and the text has `,`
 --> (standard input):4:1
  |
4 | Semicolon 1
  | ^^^^^^^^^
";
    assert_eq!(refused_rows("rows 2\nIdent 1\nSemicolon 1\ntext 2\na,"), expected);
}

#[test]
fn a_bad_row_is_shown_with_the_files_name_and_in_colours_if_asked_for() {
    let path = format!("{}/bad.rows", env!("CARGO_TARGET_TMPDIR"));
    let row = |i: usize| if i == 9 { "Name 1\n" } else { "Ident 1\n" };
    let rows: String = (0..12).map(row).collect();
    std::fs::write(&path, format!("devicetree tokens 1\nfile a.dts\nrows 12\n{rows}text 12\nabcdefghijkl")).unwrap();
    let said = no_answer(run(&[&path]));
    assert!(said.starts_with(&format!("dtparse: {path}: refusal 11: row 9, counted from 0, ")), "{said}");
    assert!(said.contains(&format!("\n  --> {path}:13:1\n   |\n13 | Name 1\n   | ^^^^\n")), "{said}");
    assert!(!said.contains("a.dts") && !said.contains('\x1b'), "{said}");
    assert!(no_answer(run(&["--color=always", &path])).contains("\x1b["));
    let strict = no_answer(run(&["--strict", "--tree", "--entry", "Cells", &path]));
    assert_eq!(strict, said, "whatever is asked for");
}

#[test]
fn a_refusal_has_status_2_and_its_reason_is_reported() {
    let refused = |file: &str| no_answer(run_on(format!("devicetree tokens 1\n{file}").as_bytes(), &[]));
    let start = "dtparse: -: refusal";
    let (open, many) = ("(".repeat(64), "LParen 1\n".repeat(64));
    assert_eq!(
        refused(&format!("entry Cells\nrows 64\n{many}text 64\n{open}")),
        format!("{start} 5: over 64 calls are open after 64 tokens, the last of them at 1:64 of the text\n")
    );
    let blanks = 65_537;
    let file = format!("rows {blanks}\n{}text {blanks}\n{}", "0 1\n".repeat(blanks), " ".repeat(blanks));
    assert_eq!(
        refused(&file),
        format!("{start} 2: 65537 bytes and 65537 tokens; at most 1048576 bytes and 65536 tokens are taken\n")
    );
}

#[test]
fn a_reader_may_go_away() {
    let mut child =
        dtparse(&["--tree", "examples/board.dts"]).stdout(Stdio::piped()).stderr(Stdio::piped()).spawn().unwrap();
    drop(child.stdout.take());
    let output = child.wait_with_output().unwrap();
    assert_eq!((output.status.code(), output.stderr.as_slice()), (Some(1), b"".as_slice()));
}
