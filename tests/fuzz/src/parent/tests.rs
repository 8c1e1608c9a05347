use super::*;
use dt_parser_layout::TREES;
use oracle::case::Case;

/// The tree rows of a source file, by the Rust's tree.
fn rows_of(text: &str) -> Vec<u32> {
    let (rows, text) = oracle::token::rows(&Case::Text(text.into()));
    let mut run = oracle::doc01::Run::default();
    assert!(run.of(1, &rows, &text, false).is_ok());
    run.rows[TREES].clone()
}

fn parents(trees: &[u32]) -> Vec<u32> {
    trees.chunks_exact(ROW_TREE).map(|row| row[COL_TREE_PARENT]).collect()
}

/// The rows with other parents.
fn renamed(trees: &[u32], parent: impl Fn(usize, &[u32]) -> u32) -> Vec<u32> {
    let (old, mut new) = (parents(trees), trees.to_vec());
    for (i, row) in new.chunks_exact_mut(ROW_TREE).enumerate() {
        row[COL_TREE_PARENT] = parent(i, &old)
    }
    new
}

/// Worked out by hand: document 01's `a;`, and a node with two properties and a blank between them.
#[test]
fn rows_that_are_right() {
    assert_eq!(rows_of("a;"), [0, 0, 2, 1, 0, 0, 16, 2, 2, 0, 1, 26, 1, 1, 1, 1, 29, 1, 1, 1]);
    // 1 DtNode: 2 `/`, 3 `{`, 4 DtProperty: 5 Name, 6 `;`, 7 blank, 8 DtProperty: 9 Name, 10 `;`, 11 `}`, 12 `;`
    assert_eq!(parents(&rows_of("/{a; b;};")), [0, 0, 1, 1, 1, 4, 4, 1, 1, 8, 8, 1, 1]);
    for text in ["", " ", "a;", "/{a; b;};", "a=<1 (2+3)>;", "/delete-node/\"t\";", "}", "/{"] {
        assert_eq!(wrong(&rows_of(text)), None, "{text:?}")
    }
}

/// A column that is wrong in one way.
type Column = fn(usize, &[u32]) -> u32;

#[test]
fn wrong_columns_are_noticed() {
    let columns: [(&str, Column); 8] = [
        ("the row before", |i, _| i.saturating_sub(1) as u32),
        ("a distance", |i, old| i as u32 - old[i]),
        ("where the parent's numbers start", |i, old| ROW_TREE as u32 * old[i]),
        ("0 everywhere", |_, _| 0),
        ("the grandparent", |i, old| old[old[i] as usize]),
        ("the row itself", |i, _| i as u32),
        ("rows counted from 1", |i, old| old[i] + (i > 0) as u32),
        ("a root that names its first child", |i, old| if i == 0 { 1 } else { old[i] }),
    ];
    for (name, column) in columns {
        assert!(wrong(&renamed(&rows_of("/{a; b;};"), column)).is_some(), "{name}")
    }
}

/// Each statement is broken alone, or with those after it.
#[test]
fn what_is_said_of_a_wrong_column() {
    let rows = rows_of("/{a; b;};");
    let said = |column: Column| wrong(&renamed(&rows, column)).unwrap_or("nothing");
    assert_eq!(said(|i, old| if i == 0 { 1 } else { old[i] }), "the root does not name itself");
    // the first `;` is named by its Name, which is a leaf
    assert_eq!(said(|i, old| if i == 5 { 6 } else { old[i] }), "a parent is not a node around its row");
    assert_eq!(said(|i, old| if i == 9 { 4 } else { old[i] }), "a parent is not a node around its row");
    assert_eq!(said(|i, old| old[old[i] as usize]), "a row is not named as often as it has children");
    let tree = |column: Column| Tree::of(&renamed(&rows, column)).expect("counts are not changed");
    let (two_rounds, to_a_leaf): (Column, Column) =
        (|i, old| [5, 4].get(i.wrapping_sub(4)).copied().unwrap_or(old[i]), |i, old| if i == 5 { 99 } else { old[i] });
    assert!(!tree(two_rounds).ways_up_end_at_the_root() && !tree(to_a_leaf).ways_up_end_at_the_root());
    assert!(!tree(|_, _| 0).are_those_of_counts() && !tree(|_, _| 0).names_are_counted());
}

#[test]
fn rows_of_no_tree() {
    let rows = rows_of("a;");
    let said = "they are not five numbers each, of one tree";
    for trees in [&[][..], &rows[..19], &rows[..15], &[&rows[..], &rows[15..]].concat(), &rows[10..]] {
        assert_eq!(wrong(trees), Some(said))
    }
}

/// ` a;`: the blank is row 1, the property 2, its Name 3 and `;` 4.
#[test]
fn lists_of_queries() {
    let (rows, caret, parts) = (rows_of(" a;"), Query::Caret(0), Query::Parts(0, 9));
    for (query, list) in [(caret, &[][..]), (caret, &[0, 1]), (caret, &[0, 2, 4]), (parts, &[]), (parts, &[1, 2])] {
        assert!(agrees(&rows, query, list), "{list:?}")
    }
    for (query, list) in [
        (caret, &[2, 4][..]),
        (caret, &[0, 4]),
        (caret, &[4, 2, 0]),
        (caret, &[0, 10, 20]),
        (parts, &[0]),
        (parts, &[3]),
        (parts, &[5, 10]),
    ] {
        assert!(!agrees(&rows, query, list), "{list:?}")
    }
}
