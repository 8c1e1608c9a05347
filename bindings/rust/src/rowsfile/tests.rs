//! Files that are read, written and refused.

use super::*;

fn complaint(bytes: &[u8]) -> String {
    RowsFile::read(bytes).unwrap_err().to_string()
}

fn after_first(rest: &str) -> Vec<u8> {
    format!("{FIRST_LINE}\n{rest}").into_bytes()
}

#[test]
fn what_is_written_is_read_again() {
    // kinds that no row may have are the parser's to refuse
    let rows: Vec<u32> = (0..100).chain([u32::MAX]).flat_map(|kind| [kind, 4_000_000_000 - kind % 2]).collect();
    let (text, name) = (b"\0\xff\r\n\n devicetree", Some("a b.dts".into()));
    let file = RowsFile { entry: Entrypoint::Cells, name, text, rows, first_row_line: 5 };
    let written = file.write();
    assert_eq!(RowsFile::read(&written).as_ref(), Ok(&file));
    let lines = String::from_utf8_lossy(&written);
    for line in ["Ident 3999999999", "Name 4000000000", "LexError::Default 4000000000", "61 3999999999"] {
        assert!(lines.contains(&format!("\n{line}\n")), "{line}");
    }
}

#[test]
fn kinds_are_names_or_numbers() {
    let file = after_first("rows 6\n27 1\nLexError::Default 1\n74 1\nSemicolon 1\nName 0\n4294967295 2\ntext 0\n");
    let read = RowsFile::read(&file).unwrap();
    assert_eq!(read.rows, [27, 1, 74, 1, 74, 1, 29, 1, 26, 0, u32::MAX, 2]);
    assert_eq!((read.entry, read.name, read.first_row_line), (Entrypoint::SourceFile, None, 3));
}

#[test]
fn a_bad_header_is_reported_with_its_line() {
    assert_eq!(complaint(b""), "line 1: expected `devicetree tokens 1`, found the end of the file");
    assert_eq!(complaint(b"/dts-v1/;\n"), "line 1: expected `devicetree tokens 1`, found `/dts-v1/;`");
    assert_eq!(complaint(&after_first("")), "line 2: expected `entry`, `file` or `rows`, found the end of the file");
    assert_eq!(
        complaint(&after_first("entry Name\n")),
        "line 2: expected SourceFile, ReferenceNoamp, PropValues or Cells, found `Name`"
    );
    assert_eq!(complaint(&after_first("file a\nfile b\n")), "line 3: expected this word once, found `file b`");
    assert_eq!(complaint(&after_first("rows\n")), "line 2: expected a decimal number after `rows`, found nothing");
    assert_eq!(complaint(&after_first("rows -1\n")), "line 2: expected a decimal number after `rows`, found `-1`");
    assert_eq!(complaint(&after_first("rows 1\r\n")), "line 2: expected a decimal number after `rows`, found `1\\r`");
}

#[test]
fn a_bad_row_is_reported_with_its_line() {
    assert_eq!(
        complaint(&after_first("rows 2\nIdent 1\n")),
        "line 4: expected row 2 of 2, a kind and a length, found the end of the file"
    );
    assert_eq!(
        complaint(&after_first("rows 1\nIdent\n")),
        "line 3: expected row 1 of 1, a kind and a length, found `Ident`"
    );
    for kind in ["Idents", "name", "LexError::None", "LexError::74", "-1", "\u{e9}"] {
        let said = complaint(&after_first(&format!("rows 1\n{kind} 1\n")));
        assert!(said.starts_with("line 3: expected a token's kind, by name or number, found `"), "{said}");
    }
    assert!(complaint(&after_first("rows 4294967295\nIdent 1\n")).starts_with("line 4: expected row 2 of"));
}

#[test]
fn a_number_of_33_bits_is_too_large() {
    for number in ["4294967296", "99999999999999999999999"] {
        let found = format!("at most 4294967295, found `{number}`, which is too large");
        let said = |lines: String| complaint(&after_first(&lines));
        assert_eq!(said(format!("rows 1\nIdent {number}\n")), format!("line 3: expected a length of {found}"));
        assert_eq!(said(format!("rows 1\n{number} 1\n")), format!("line 3: expected a kind of {found}"));
        assert_eq!(said(format!("rows {number}\n")), format!("line 2: expected a count of {found}"));
        assert_eq!(said(format!("rows 0\ntext {number}\n")), format!("line 3: expected a count of {found}"));
    }
    let file = after_first("rows 1\n0000000000004294967295 04294967295\ntext 00\n");
    assert_eq!(RowsFile::read(&file).unwrap().rows, [u32::MAX, u32::MAX]);
}

#[test]
fn the_text_has_the_length_that_is_given() {
    let expected = "line 3: expected 3 bytes after this line, up to the end of the file, found ";
    assert_eq!(complaint(&after_first("rows 0\ntext 3\na;")), format!("{expected}2"));
    assert_eq!(complaint(&after_first("rows 0\ntext 3\na;b\n")), format!("{expected}4"));
    assert!(complaint(&after_first("rows 0\ntext 1\n")).contains(" expected 1 byte after this line, "));
    assert!(complaint(&after_first("rows 0\nIdent 1\n")).starts_with("line 3: expected `text` and the number"));
    assert!(complaint(&after_first("rows 0\n")).starts_with("line 3: expected `text` and the number"));
}
