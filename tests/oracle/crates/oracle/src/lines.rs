//! Answers as lines of text; ../../../README.md has their form.
use crate::case::{Rows, esc};
use crate::checks::bad_input;
use crate::doc01::{Run, first_misfit, for_reports};
use crate::parsed::Parsed;
use crate::parsers::{patched, rust};
use dt_parser_layout::{COL_REPORT_POOL_COUNT, COL_REPORT_POOL_FIRST, EVENTS, Lengths, POOL, REPORTS};
use dt_parser_layout::{ROW_ERROR, ROW_REPORT, ROW_TREE};
use parser_doc01::record;
use std::fmt::Write;

/// Which of the Rust's lines are written beside errors and reports.
pub struct Opts {
    pub toks: bool,
    pub tree: bool,
    pub pretty: bool,
}

/// The Rust's answer.
pub fn of_rust(entry: u32, toks: &Rows, text: &str, opts: &Opts, out: &mut String) {
    answer(rust::parse(entry, toks, text), toks, opts, out)
}

/// The patched copy's answer in the Rust's lines, to be compared with the Rust's own.
pub fn of_patched(entry: u32, toks: &Rows, text: &str, opts: &Opts, unit_immediate: bool, out: &mut String) {
    record::reset(unit_immediate);
    answer(patched::parse(entry, toks, text), toks, opts, out)
}

/// Lines T, R, X, E and L, or PANIC.
fn answer(parsed: Result<Parsed, String>, toks: &Rows, opts: &Opts, out: &mut String) {
    if opts.toks {
        for t in toks {
            writeln!(out, "T {} {}", t.0, t.1).unwrap()
        }
    }
    let p = match parsed {
        Ok(p) => p,
        Err(text) => return panicked(&text, out),
    };
    if opts.tree {
        let mut tree = vec![];
        let taken = p.tree_rows(toks, &mut tree);
        write_rows('R', ROW_TREE, &tree, out);
        if taken != toks.len() {
            writeln!(out, "NOT LOSSLESS: {taken} of {} tokens", toks.len()).unwrap()
        }
    }
    if opts.pretty {
        out.push_str(&p.green.print_tree())
    }
    write_rows('X', ROW_ERROR, &p.lexical, out);
    for r in &p.reports {
        writeln!(out, "E {} {} {}", r.range.start, r.range.end, r.message).unwrap();
        for (t, m) in &r.labels {
            writeln!(out, "L {} {} {m}", t.start, t.end).unwrap()
        }
    }
}

fn panicked(text: &str, out: &mut String) {
    writeln!(out, "PANIC {}", esc(text.as_bytes())).unwrap()
}

fn refused((number, place): (u32, usize), out: &mut String) {
    writeln!(out, "REFUSED {number} {place}").unwrap()
}

fn numbers(list: &[u32]) -> String {
    list.iter().map(|n| format!(" {n}")).collect()
}

fn write_rows(letter: char, size: usize, rows: &[u32], out: &mut String) {
    for row in rows.chunks_exact(size) {
        writeln!(out, "{letter}{}", numbers(row)).unwrap()
    }
}

/// Line S: the most that the run reached, and what it pushed before a limit of refusal 5 stopped it.
fn write_stats(run: &Run, out: &mut String) {
    let (most, n) = (record::most(), run.pushed);
    write!(out, "S open {} pending {} steps {} ", most.open, most.pending, most.steps).unwrap();
    writeln!(out, "events {} reports {} pool {}", n[EVENTS], n[REPORTS], n[POOL]).unwrap()
}

/// How the patched copy is asked.
pub struct Doc01Opts {
    pub unit_immediate: bool,
    /// Lines Q are written too.
    pub pushed: bool,
}

/// Document 01's answer by the patched copy: REFUSED, or OK with all rows. The entry and the lengths of input and token
/// list (causes 1 and 2) are not looked at, and a case has whole rows.
pub fn of_doc01(
    entry: u32,
    toks: &Rows,
    bytes: &[u8],
    text: &str,
    opts: &Doc01Opts,
    lengths: Lengths,
    out: &mut String,
) {
    if let Some(bad) = bad_input(toks, bytes) {
        return refused(bad, out);
    }
    let mut run = Run::default();
    let parsed = run.of(entry, toks, text, opts.unit_immediate);
    write_stats(&run, out);
    match (first_misfit(lengths), parsed) {
        (Some(misfit), _) => refused(misfit, out),
        (None, Err(text)) => panicked(&text, out),
        (None, Ok(_)) => match run.refusal(lengths) {
            Some(misfit) => refused(misfit, out),
            None => accepted(&run, opts.pushed, out),
        },
    }
}

/// Lines OK, R, X and P; a report's expectations stand after a bar. Then, if wanted, a line Q of each report: all that
/// the Rust had pushed, with repeats.
fn accepted(run: &Run, pushed: bool, out: &mut String) {
    let [_, trees, errors, reports, pool] = &run.rows;
    write!(out, "OK 0 0 tree {} lexical {} ", trees.len() / ROW_TREE, errors.len() / ROW_ERROR).unwrap();
    writeln!(out, "reports {} pool {}", reports.len() / ROW_REPORT, pool.len()).unwrap();
    write_rows('R', ROW_TREE, trees, out);
    write_rows('X', ROW_ERROR, errors, out);
    for row in reports.chunks_exact(ROW_REPORT) {
        let first = row[COL_REPORT_POOL_FIRST] as usize;
        let codes = &pool[first..first + row[COL_REPORT_POOL_COUNT] as usize];
        writeln!(out, "P{} |{}", numbers(row), numbers(codes)).unwrap()
    }
    if pushed {
        for_reports(|recorded| writeln!(out, "Q{}", numbers(&recorded.pending)).unwrap())
    }
}
