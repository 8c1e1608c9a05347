//! Request 1/14 of document 02, the strict setting, as a plain reading of its words over the tree rows of the Rust's
//! tree. It shares nothing with the definitions.
//!
//! "The Devicetree Specification lets a label hold letters, digits and underscores and forbids a leading digit. [The
//! strict setting] leaves the tree alone and adds message 8 for each Name directly under a DtLabel, or directly under an
//! unbraced DtPhandle, that breaks the rule. These reports, which the Rust lacks, follow all others, in leaf order, with
//! hint 0 and no label. Each covers the name, and its mark is the index of the name's first token. Length isn't judged.
//! One that doesn't fit is refusal 7 with that mark, before 8."
use dt_parser_layout::{
    CLASS_NODE, COL_TREE_CLASS, COL_TREE_COUNT, COL_TREE_KIND, COL_TREE_WIDTH, ROW_REPORT, ROW_TREE,
};
use dt_parser_layout::{MESSAGE_NOT_A_LABEL, REFUSAL_NO_REPORT_ROOM, SETTING_OLD};
use oracle::parsed::NodeKind;
use oracle::token::TokenKind;

/// A Name that breaks the rule.
#[derive(Clone, Copy)]
pub struct Broken {
    pub first_token: usize,
    start: usize,
    end: usize,
}

/// Whether a label may be so.
fn is_label(text: &[u8]) -> bool {
    let allowed = |b: &u8| b.is_ascii_alphabetic() || b.is_ascii_digit() || *b == b'_';
    text.iter().all(allowed) && !text.first().is_some_and(u8::is_ascii_digit)
}

/// A tree row.
#[derive(Clone, Copy)]
struct Row {
    is_node: bool,
    kind: u32,
    width: usize,
    count: usize,
}

fn rows(trees: &[u32]) -> Vec<Row> {
    let row = |r: &[u32]| Row {
        is_node: r[COL_TREE_CLASS] == CLASS_NODE,
        kind: r[COL_TREE_KIND],
        width: r[COL_TREE_WIDTH] as usize,
        count: r[COL_TREE_COUNT] as usize,
    };
    trees.chunks_exact(ROW_TREE).map(row).collect()
}

/// The row of each row's parent; the root's is its own.
fn parents(rows: &[Row]) -> Vec<usize> {
    let mut parents = vec![0; rows.len()];
    // nodes that are not at their end yet, with how many children are still to come
    let mut open: Vec<(usize, usize)> = vec![];
    for (i, row) in rows.iter().enumerate() {
        while open.pop_if(|node| node.1 == 0).is_some() {}
        if let Some(node) = open.last_mut() {
            parents[i] = node.0;
            node.1 -= 1
        }
        if row.is_node {
            open.push((i, row.count))
        }
    }
    parents
}

/// The Names that break the rule, in leaf order.
pub fn broken(bytes: &[u8], trees: &[u32]) -> Vec<Broken> {
    let rows = rows(trees);
    let parents = parents(&rows);
    let is_leaf = |i: usize, kind: TokenKind| !rows[i].is_node && rows[i].kind == kind as u32;
    let mut braced = vec![false; rows.len()];
    for i in (0..rows.len()).filter(|&i| is_leaf(i, TokenKind::LCurly)) {
        braced[parents[i]] = true
    }
    let judges = |i: usize| match rows[i].kind {
        kind if kind == NodeKind::DtLabel as u32 => true,
        kind if kind == NodeKind::DtPhandle as u32 => !braced[i],
        _ => false,
    };
    let (mut found, mut start, mut first_token) = (vec![], 0, 0);
    for i in (0..rows.len()).filter(|&i| !rows[i].is_node) {
        let end = start + rows[i].width;
        if is_leaf(i, TokenKind::Name) && judges(parents[i]) && !is_label(&bytes[start..end]) {
            found.push(Broken { first_token, start, end })
        }
        start = end;
        first_token += rows[i].count
    }
    found
}

impl Broken {
    /// Its report, where so many expectations stand in the pool.
    pub fn report(&self, expectations: usize) -> [u32; ROW_REPORT] {
        let (start, end, mark) = (self.start as u32, self.end as u32, self.first_token as u32);
        [MESSAGE_NOT_A_LABEL, start, end, mark, expectations as u32, 0, 0, 0, 0]
    }
}

/// Whether a call's setting is the strict one.
pub fn is_strict(setting: u32) -> bool {
    setting != SETTING_OLD
}

/// The first of these reports that does not fit a buffer of that length after so many numbers of others: refusal and
/// place.
pub fn misfit(broken: &[Broken], others: usize, length: usize) -> Option<(u32, usize)> {
    let end = |i: usize| others + ROW_REPORT * (i + 1);
    let first = (0..broken.len()).find(|&i| end(i) > length)?;
    Some((REFUSAL_NO_REPORT_ROOM, broken[first].first_token))
}

#[cfg(test)]
mod tests {
    use super::*;

    #[test]
    fn a_label_is_letters_digits_and_underscores_with_no_digit_first() {
        for good in ["a", "_", "a1", "_1", "Az_09", "z_Z"] {
            assert!(is_label(good.as_bytes()), "{good}")
        }
        for bad in ["1", "1a", "a,b", "a.b", "#a", "a-b", "a+", "a b", "@", "[", "`", "{", "/", ":", "é", "?"] {
            assert!(!is_label(bad.as_bytes()), "{bad}")
        }
    }

    /// `1: 1a:&2b{};`: the two Names, and which report is the first that does not fit.
    #[test]
    fn the_nasty_case() {
        use oracle::case::{Case, Rows};
        let (toks, text): (Rows, String) = oracle::token::rows(&Case::Text("1a:&2b{};".into()));
        let mut run = oracle::doc01::Run::default();
        assert!(run.of(1, &toks, &text, false).is_ok());
        let found = broken(text.as_bytes(), &run.rows[dt_parser_layout::TREES]);
        let said: Vec<_> = found.iter().map(|x| x.report(0)).collect();
        assert_eq!(said, [[8, 0, 2, 0, 0, 0, 0, 0, 0], [8, 4, 6, 4, 0, 0, 0, 0, 0]]);
        let others = run.rows[dt_parser_layout::REPORTS].len();
        assert_eq!(
            [18, 17, 9, 8, 0].map(|n| misfit(&found, others, n)),
            [None, Some((7, 4)), Some((7, 4)), Some((7, 0)), Some((7, 0))]
        );
    }
}
