use super::*;
use oracle::case::Case;
use oracle::doc01::Run;

/// What is later in a file of this head and tail, by the Rust's rows. The head's last byte is the semicolon.
fn later(head: &str, tail: &str) -> Option<(Places, Later)> {
    let tokens = |text: &str| oracle::token::rows(&Case::Text(text.into())).0;
    let (whole, mut run) = (format!("{head}{tail}"), Run::default());
    assert!(run.of(1, &tokens(&whole), &whole, false).is_ok());
    let rows = run.rows.each_ref().map(Vec::as_slice);
    Later::of(&rows, tokens(head).len() as u32 - 1, head.len() as u32 - 1)
}

fn agree(first: &str, second: &str, tail: &str) -> bool {
    let (first, second) = (later(first, tail).expect("a part's end"), later(second, tail).expect("a part's end"));
    first.1.moved(first.0, second.0) == second.1
}

/// Document 01: "`a;}` and `b,c;}`: after the semicolon both have ParseError and message 2, at 2..3 and 4..5."
#[test]
fn document_01s_reading() {
    let [(places, a), (_, b)] = ["a;", "b,c;"].map(|head| later(head, "}").expect("a property's end"));
    assert_eq!([places.token, places.byte, places.row, places.pool], [1, 1, 3, 0]);
    assert_eq!(a.trees, [0, 10, 1, 1, 0, 1, 38, 1, 1, 4]);
    assert_eq!(b.trees, a.trees);
    assert_eq!([&a.reports[..3], &b.reports[..3]], [[2, 2, 3], [2, 4, 5]]);
    assert!(agree("a;", "b,c;", "}"))
}

/// The semicolon is row 3, and row 8: ` c{d;};` has its blank, its DtNode with five rows under it, and in these a
/// DtProperty.
#[test]
fn parents_move_and_the_root_stays() {
    let [(one, a), (other, b)] = ["a;", "/{a;};"].map(|head| later(head, " c{d;};").expect("a part's end"));
    assert_eq!([one.row, other.row, a.parts as u32], [3, 8, 2]);
    let parents =
        |later: &Later| later.trees.chunks_exact(ROW_TREE).map(|row| row[COL_TREE_PARENT]).collect::<Vec<_>>();
    assert_eq!(parents(&a), [0, 0, 5, 5, 5, 8, 8, 5, 5]);
    assert_eq!(parents(&b), [0, 0, 10, 10, 10, 13, 13, 10, 10]);
    assert!(a.clone().moved(one, other) == b && a != b);
    // a parent that is the root is moved too, or none is
    let mut all = b.clone();
    all.trees.chunks_exact_mut(ROW_TREE).take(2).for_each(|row| row[COL_TREE_PARENT] = 5);
    assert!(a.clone().moved(one, other) != all && a.moved(one, Places { row: one.row, ..other }) != b)
}

/// The first file has an expectation before the semicolon, the second has none: the first pool place moves.
#[test]
fn expectations_and_labels() {
    for tail in ["a=;", "/{", "`", "1a:b{", "#else"] {
        assert!(agree("/dts-v1/ a;", "b;", tail) && agree("b;", "/{a=;};", tail), "{tail}")
    }
}

/// A semicolon in a node, one that is left over, one inside a value, and one after which nothing is a part's end.
#[test]
fn what_ends_no_part() {
    assert!(["/{a;", ";", "a=;", "}a=<1;"].iter().all(|head| later(head, "b;").is_none()));
    assert!(["a;", "/{};", "/dts-v1/;", "}a;"].iter().all(|head| later(head, "").is_some()))
}
