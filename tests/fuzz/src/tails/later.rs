//! What is later than a semicolon, as a plain reading of document 01 and of document 02's request 7/14 over an answer's
//! rows. It shares nothing with the definitions.
//!
//! "Past a semicolon shared in this way, the later parts are the root's children after the part it ends, with every
//! tree row under them; the later lexical errors are those of the tokens after it; the later reports are those whose
//! mark is greater than its token index. The difference is the second semicolon's start less the first's for bytes, and
//! its token index less the first's for marks. Start, end and mark move; a label moves unless it is 0, 0; message,
//! hint, pool count and the expectations are equal, and the first pool place moves by the second file's sum of pool
//! counts over the reports that aren't later, less the first's." "Rows after a shared semicolon now agree once row
//! numbers are moved too, except that a parent which is the root stays 0."
use crate::subtrees::{children, ends};
use dt_parser_layout::{
    BUFFERS, CLASS_LEAF, CLASS_NODE, COL_ERROR_END, COL_ERROR_START, COL_REPORT_END, COL_REPORT_LABEL_END,
    COL_REPORT_LABEL_START, COL_REPORT_MARK, COL_REPORT_POOL_COUNT, COL_REPORT_POOL_FIRST, COL_REPORT_START,
    COL_TREE_CLASS, COL_TREE_COUNT, COL_TREE_KIND, COL_TREE_PARENT, ERRORS, POOL, REPORTS, ROW_ERROR, ROW_REPORT,
    ROW_TREE, TREES,
};
use oracle::parsed::NodeKind;
use oracle::token::TokenKind;

/// Where a semicolon is.
#[derive(Clone, Copy)]
pub struct Places {
    pub token: u32,
    /// Its start.
    pub byte: u32,
    /// Its row's number.
    pub row: u32,
    /// The pool counts of the reports that are not later, together.
    pub pool: u32,
}

/// What is later than it.
#[derive(Clone, PartialEq)]
pub struct Later {
    /// How many of the root's children.
    pub parts: usize,
    pub trees: Vec<u32>,
    pub errors: Vec<u32>,
    pub reports: Vec<u32>,
    /// The expectations of these reports.
    pub codes: Vec<u32>,
}

/// How many raw tokens are in the leaves of these rows.
fn tokens_in(rows: &[u32]) -> usize {
    let leaves = rows.chunks_exact(ROW_TREE).filter(|row| row[COL_TREE_CLASS] == CLASS_LEAF);
    leaves.map(|row| row[COL_TREE_COUNT] as usize).sum()
}

/// "A part's own last leaf is a direct child of it and its last. Its node kind tells whether it is a property, node or
/// directive." Whether the part at this row is one of these and has a semicolon as its own last leaf.
fn ends_in_semicolon(trees: &[u32], ends: &[usize], part: usize) -> bool {
    let row = |i: usize| &trees[ROW_TREE * i..ROW_TREE * (i + 1)];
    let named = [NodeKind::DtProperty, NodeKind::DtNode, NodeKind::DtsDirective];
    let is_named =
        row(part)[COL_TREE_CLASS] == CLASS_NODE && named.iter().any(|&k| row(part)[COL_TREE_KIND] == k as u32);
    let (mut child, mut last) = (part + 1, part);
    for _ in 0..children(row(part)) {
        (last, child) = (child, ends[child])
    }
    is_named && row(last)[..=COL_TREE_KIND] == [CLASS_LEAF, TokenKind::Semicolon as u32]
}

/// The first later row, and how many of the root's children are later. None if the token with this index is no
/// semicolon that ends a top-level property, node or directive.
fn first_later(trees: &[u32], token: usize) -> Option<(usize, usize)> {
    let ends = ends(trees)?;
    let (mut part, mut first, mut parts, mut taken) = (0, 1, children(trees), 0);
    while taken <= token && first < ends[0] {
        part = first;
        first = ends[part];
        taken += tokens_in(&trees[ROW_TREE * part..ROW_TREE * first]);
        parts -= 1
    }
    (taken == token + 1 && ends_in_semicolon(trees, &ends, part)).then_some((first, parts))
}

impl Later {
    /// Of an accepted source file, after the semicolon with this token index and start. None as of `first_later`.
    pub fn of(rows: &[&[u32]; BUFFERS], token: u32, byte: u32) -> Option<(Places, Later)> {
        let (first, parts) = first_later(rows[TREES], token as usize)?;
        let all = rows[REPORTS].chunks_exact(ROW_REPORT);
        let (later, others): (Vec<_>, Vec<_>) = all.partition(|report| report[COL_REPORT_MARK] > token);
        let codes = later.iter().map(|report| {
            let first = report[COL_REPORT_POOL_FIRST] as usize;
            rows[POOL].get(first..first + report[COL_REPORT_POOL_COUNT] as usize).unwrap_or(&[])
        });
        let errors = rows[ERRORS].chunks_exact(ROW_ERROR).filter(|error| error[COL_ERROR_START] > byte);
        let later = Later {
            parts,
            trees: rows[TREES][ROW_TREE * first..].to_vec(),
            errors: errors.flatten().copied().collect(),
            codes: codes.flatten().copied().collect(),
            reports: later.concat(),
        };
        let pool = others.iter().map(|report| report[COL_REPORT_POOL_COUNT]).sum();
        Some((Places { token, byte, row: first as u32 - 1, pool }, later))
    }

    /// As it is after another semicolon.
    pub fn moved(mut self, from: Places, to: Places) -> Later {
        let by = |number: &mut u32, from: u32, to: u32| *number = number.wrapping_sub(from).wrapping_add(to);
        for row in self.trees.chunks_exact_mut(ROW_TREE).filter(|row| row[COL_TREE_PARENT] != 0) {
            by(&mut row[COL_TREE_PARENT], from.row, to.row)
        }
        for error in self.errors.chunks_exact_mut(ROW_ERROR) {
            [COL_ERROR_START, COL_ERROR_END].into_iter().for_each(|i| by(&mut error[i], from.byte, to.byte))
        }
        for report in self.reports.chunks_exact_mut(ROW_REPORT) {
            let has_label = report[COL_REPORT_LABEL_START..=COL_REPORT_LABEL_END] != [0, 0];
            let label = [COL_REPORT_LABEL_START, COL_REPORT_LABEL_END].into_iter().filter(|_| has_label);
            label.chain([COL_REPORT_START, COL_REPORT_END]).for_each(|i| by(&mut report[i], from.byte, to.byte));
            by(&mut report[COL_REPORT_MARK], from.token, to.token);
            by(&mut report[COL_REPORT_POOL_FIRST], from.pool, to.pool)
        }
        self
    }
}

#[cfg(test)]
mod tests;
