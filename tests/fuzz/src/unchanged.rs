//! The unchanged Rust against the patched copy.
use crate::words;
use dt_parser_layout::{COL_TREE_PARENT, ROW_TREE, TREES};
use oracle::case::Rows;
use oracle::doc01::Run;
use oracle::parents;
use oracle::parsed::Parsed;
use oracle::parsers::rust;

/// What the unchanged Rust said to a case.
#[derive(PartialEq)]
pub enum Unchanged {
    Same,
    Differs,
    Panics,
}

impl Unchanged {
    /// Tree, lexical errors, texts, ranges and labels against those of the patched copy's run, which gave `parsed`; and
    /// the lists in its texts, which have no repeats, against the run's pool. The parents in the rows are compared with
    /// those that the Rust's own red tree has.
    pub fn of(run: &Run, parsed: &Parsed, entry: u32, toks: &Rows, text: &str) -> Unchanged {
        let Ok(q) = rust::parse(entry, toks, text) else { return Unchanged::Panics };
        let mut tree = Vec::with_capacity(run.rows[TREES].len());
        q.tree_rows(toks, &mut tree);
        let same = tree == run.rows[TREES] && q.lexical == parsed.lexical && q.reports == parsed.reports;
        let same = same && words::agree(&q.reports, &run.rows);
        let column = tree.chunks_exact(ROW_TREE).map(|row| row[COL_TREE_PARENT]);
        let same = same && column.eq(parents::of(q));
        if same { Unchanged::Same } else { Unchanged::Differs }
    }
}
