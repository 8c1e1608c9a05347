//! The oracle: answers of the Rust parser (`rows`) and of its patched copy (`doc01`) to cases, and comparisons of the
//! two. ../../../../../README.md has the commands, the form of a case and the lines that come out.
use oracle::case::{Case, Line, ROOM, case_line, esc, parse_lengths, parse_line};
use oracle::lines::{self, Doc01Opts, Opts};
use oracle::parsers::on_large_stack;
use oracle::{generate, token};
use std::io::{BufRead, Read, StdoutLock, Write};

mod compare;
mod rowsfile;

/// The program's arguments.
pub struct Args(Vec<String>);

impl Args {
    pub fn word(&self, i: usize) -> &str {
        self.0.get(i).unwrap_or_else(|| panic!("too few arguments: see README.md"))
    }
    pub fn number<T: std::str::FromStr>(&self, i: usize) -> T {
        let w = self.word(i);
        w.parse().unwrap_or_else(|_| panic!("not a number: {w}"))
    }
    pub fn number_or<T: std::str::FromStr>(&self, i: usize, other: T) -> T {
        if self.0.len() > i { self.number(i) } else { other }
    }
    pub fn has(&self, flag: &str) -> bool {
        self.0.iter().any(|x| x == flag)
    }
    pub fn value(&self, flag: &str) -> Option<&str> {
        self.0.iter().position(|x| x == flag).map(|i| self.word(i + 1))
    }
    fn opts(&self) -> Opts {
        Opts { toks: !self.has("--no-tokens") && !self.has("-q"), tree: !self.has("-q"), pretty: self.has("-p") }
    }
}

pub type Out<'a> = std::io::BufWriter<StdoutLock<'a>>;

/// The cases on standard input with their line numbers. The entry is fixed, or `any`: it stands in each line.
fn cases(entry: &str) -> impl Iterator<Item = (usize, Line)> {
    let entry = if entry == "any" { None } else { Some(entry.parse().unwrap()) };
    let lines = std::io::stdin().lock().lines().enumerate();
    lines.filter_map(move |(i, l)| parse_line(&l.unwrap(), entry).map(|l| (i + 1, l)))
}

fn rows(a: &Args, out: &mut Out) {
    let opts = a.opts();
    for (n, l) in cases(a.word(1)) {
        let (t, s) = token::rows(&l.case);
        let mut o = format!("CASE {n} entry {} tokens {} bytes {}\n", l.entry, t.len(), s.len());
        if opts.pretty {
            o.push_str(&format!("  {}\n", case_line(l.entry, &l.case)))
        }
        lines::of_rust(l.entry, &t, &s, &opts, &mut o);
        writeln!(out, "{o}END").unwrap();
    }
}

fn doc01(a: &Args, out: &mut Out) {
    let all = a.value("--caps").map_or(ROOM, parse_lengths);
    let opts = Doc01Opts { unit_immediate: a.has("--unit-immediate"), pushed: a.has("--pushed") };
    for (n, l) in cases(a.word(1)) {
        let (t, s) = token::rows(&l.case);
        let bytes = match &l.case {
            Case::Text(t) => t.as_bytes(),
            Case::Toks(_, b) => b,
        };
        let mut o = format!("CASE {n} entry {} tokens {} bytes {}\n", l.entry, t.len(), bytes.len());
        lines::of_doc01(l.entry, &t, bytes, &s, &opts, l.lengths.unwrap_or(all), &mut o);
        writeln!(out, "{o}END").unwrap();
    }
}

fn raw(a: &Args, out: &mut Out) {
    let entry = a.number(1);
    for f in a.0[2..].iter().filter(|f| !f.starts_with('-')) {
        let (t, s) = token::rows(&Case::Text(std::fs::read_to_string(f).unwrap()));
        let mut o = format!("CASE {f} entry {entry} tokens {} bytes {}\n", t.len(), s.len());
        lines::of_rust(entry, &t, &s, &a.opts(), &mut o);
        writeln!(out, "{o}END").unwrap();
    }
}

/// Text cases become toks cases, for a parser that has no lexer.
fn totoks(out: &mut Out) {
    for (_, l) in cases("any") {
        let (t, s) = token::rows(&l.case);
        writeln!(out, "{}", case_line(l.entry, &Case::Toks(t, s.into_bytes()))).unwrap();
    }
}

fn lex(out: &mut Out) {
    let mut s = String::new();
    std::io::stdin().read_to_string(&mut s).unwrap();
    for t in token::lexed(&s) {
        let (number, text) = (token::code(&t.kind), esc(t.text.as_bytes()));
        writeln!(out, "{number} {} {:?} {text}", t.text.len(), t.kind).unwrap()
    }
}

/// The numbers of the token kinds as the Rust has them, each with its fixed text if it has one.
fn kinds(out: &mut Out) {
    for k in token::kinds() {
        writeln!(out, "{} {k:?} {}", *k as u32, k.static_text().unwrap_or("")).unwrap()
    }
}

/// Random cases, for one entry or for any.
fn random(a: &Args, out: &mut Out) {
    let (mut rng, count): (_, u64) = (generate::Rng::new(a.number(1)), a.number(2));
    let only = a.0.get(3).map(|_| a.number(3));
    for _ in 0..count {
        let (entry, case) = generate::one(&mut rng, only);
        writeln!(out, "{}", case_line(entry, &case)).unwrap()
    }
}

fn run(a: &Args) {
    let mut out = std::io::BufWriter::new(std::io::stdout().lock());
    match a.word(0) {
        "rows" => rows(a, &mut out),
        "doc01" => doc01(a, &mut out),
        "raw" => raw(a, &mut out),
        "totoks" => totoks(&mut out),
        "lex" => lex(&mut out),
        "kinds" => kinds(&mut out),
        "rowsfile" => rowsfile::rowsfile(a.word(1), a.number_or(2, 1), &mut out),
        "gen" => random(a, &mut out),
        "diff" => compare::diff(a, &mut out),
        "cmp" => compare::cmp(a, &mut out),
        "exhaust" => compare::exhaust(a, &mut out),
        "big" => write!(out, "{}", generate::big(a.number(1))).unwrap(),
        x => panic!("no command {x}: see README.md"),
    }
}

fn main() {
    let args = Args(std::env::args().skip(1).collect());
    on_large_stack(move || run(&args))
}
