//! The unchanged Rust against the patched copy: the same trees, lexical errors, messages, ranges and labels.
use crate::{Args, Out, cases};
use oracle::case::{Case, Rows, case_line, esc};
use oracle::lines::{self, Opts};
use oracle::token::TokenKind;
use oracle::{generate, token};
use parser_doc01::record;
use std::io::Write;

const ALL_ROWS: Opts = Opts { toks: false, tree: true, pretty: false };

/// What one case gave.
enum Outcome {
    Same,
    /// The first line that differs, of each.
    Differs(String, String),
    /// The Rust's panic text.
    Panics(String),
}

fn both(entry: u32, toks: &Rows, text: &str, unit_immediate: bool) -> Outcome {
    let (mut x, mut y) = (String::new(), String::new());
    lines::of_rust(entry, toks, text, &ALL_ROWS, &mut x);
    lines::of_patched(entry, toks, text, &ALL_ROWS, unit_immediate, &mut y);
    if x.starts_with("PANIC") {
        Outcome::Panics(x.trim().to_string())
    } else if x == y {
        Outcome::Same
    } else {
        let (mut p, mut q) = (x.lines(), y.lines());
        loop {
            match (p.next(), q.next()) {
                (a, b) if a != b => return Outcome::Differs(a.unwrap_or("").into(), b.unwrap_or("").into()),
                _ => {}
            }
        }
    }
}

/// Figures over many cases, and the smallest of those that are not the same.
#[derive(Default)]
struct Tally {
    cases: u64,
    differ: u64,
    panic: u64,
    /// Panics of the Rust on cases that are accepted.
    panic_only: u64,
    refused: u64,
    /// With repeats.
    most_pending: usize,
    most_steps: u32,
    found: Vec<(usize, String)>,
}

impl Tally {
    fn case(&mut self, entry: u32, case: &Case, unit_immediate: bool) {
        let (toks, text) = token::rows(case);
        let outcome = both(entry, &toks, &text, unit_immediate);
        let (most, refused) = (record::most(), record::met_limit());
        self.cases += 1;
        self.refused += refused as u64;
        self.most_pending = self.most_pending.max(most.pending);
        self.most_steps = self.most_steps.max(most.steps);
        let line = || case_line(entry, case);
        match outcome {
            Outcome::Same => {}
            Outcome::Differs(a, b) => {
                self.differ += 1;
                self.found.push((toks.len(), format!("DIFFERS {}\n  Rust {a} / patched copy {b}", line())))
            }
            Outcome::Panics(p) => {
                self.panic += 1;
                self.panic_only += !refused as u64;
                let limits = format!("open {} pending {} steps {}", most.open, most.pending, most.steps);
                let verdict = if refused { "refused 5" } else { "accepted" };
                self.found
                    .push((toks.len(), format!("PANICS, {verdict}, {limits}: {} -- {}", line(), esc(p.as_bytes()))))
            }
        }
    }

    fn write(mut self, most: usize, out: &mut Out) {
        self.found.sort();
        for (n, text) in self.found.iter().take(most) {
            writeln!(out, "{n} tokens: {text}").unwrap()
        }
        writeln!(
            out,
            "{} cases: {} differ, {} panic in the Rust ({} of them accepted), {} refused 5; most pending {} with repeats, most steps {}",
            self.cases, self.differ, self.panic, self.panic_only, self.refused, self.most_pending, self.most_steps
        )
        .unwrap()
    }
}

/// oracle diff SEED COUNT [--unit-immediate]: random cases.
pub fn diff(a: &Args, out: &mut Out) {
    let (mut rng, count) = (generate::Rng::new(a.number(1)), a.number(2));
    let mut tally = Tally::default();
    for i in 0..count {
        let (entry, case) = generate::one(&mut rng, None);
        tally.case(entry, &case, a.has("--unit-immediate"));
        if (i + 1) % 100_000 == 0 {
            eprintln!("{} of {count} cases", i + 1)
        }
    }
    tally.write(12, out)
}

/// oracle cmp [--unit-immediate]: the cases on standard input.
pub fn cmp(a: &Args, out: &mut Out) {
    let mut tally = Tally::default();
    for (_, l) in cases("any") {
        tally.case(l.entry, &l.case, a.has("--unit-immediate"))
    }
    tally.write(usize::MAX, out)
}

/// The kinds that `exhaust` uses beside the error token, each by its first sample.
#[rustfmt::skip]
const ALPHABET: [TokenKind; 29] = {
    use TokenKind::*;
    [
        Whitespace, Comma, IfDirective, ElseDirective, EndifDirective, DefineDirective, BitsDirective,
        OmitIfNoRefDirective, DtIncludeDirective, MemreserveDirective, DeleteNodeDirective, V1Directive, Ident, Equals,
        Semicolon, Ampersand, Colon, AtSign, String, Number, LCurly, RCurly, LAngle, RAngle, LParen, RParen, Plus,
        Slash, QuestionMark,
    ]
};

/// oracle exhaust LEN [--unit-immediate]: every token list up to that length over 30 tokens, for all entries.
pub fn exhaust(a: &Args, out: &mut Out) {
    let longest: u32 = a.number(1);
    let sample = |k: &TokenKind| *generate::SAMPLES.iter().find(|x| x.0 == *k as u32).unwrap();
    let alphabet: Vec<(u32, &str)> = ALPHABET.iter().map(sample).chain([generate::ERROR_SAMPLE]).collect();
    let mut tally = Tally::default();
    for len in 0..=longest {
        for code in 0..alphabet.len().pow(len) {
            let list: Vec<_> = (0..len).map(|i| alphabet[code / alphabet.len().pow(i) % alphabet.len()]).collect();
            let text: String = list.iter().map(|x| x.1).collect();
            let case = Case::Toks(list.iter().map(|x| (x.0, x.1.len())).collect(), text.into_bytes());
            for entry in 1..=4 {
                tally.case(entry, &case, a.has("--unit-immediate"))
            }
        }
    }
    tally.write(30, out)
}
