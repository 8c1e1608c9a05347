//! Random calls. `Maker::call` draws the input; the buffers' lengths are chosen when it is known what the input needs.
use crate::call::{Call, flat};
use crate::rng::Rng;
use corpus::{Corpus, Tok};
use dt_parser_layout::{ENTRY_SOURCE_FILE, ROW_TOKEN, SETTING_STRICT};
use oracle::case::Case;
use oracle::{generate, token};

mod bad;
mod bad_rows;
mod corpus;
mod damage;
mod deep;
mod expr;
mod labels;
pub mod lengths;
mod limits;
mod repeats;
pub mod texts;

/// The ways of making an input, with how many of a thousand cases are made so.
const WAYS: &[(&str, usize)] = &[
    ("pieces of files, damaged", 270),
    ("random lists of a few tokens", 120),
    ("the oracle's generator", 110),
    ("expressions", 110),
    ("rows that no lexer gives", 80),
    ("damaged text, lexed", 60),
    ("deep nesting", 50),
    ("the same expected again", 48),
    ("whole files, damaged", 2),
    ("labels and references", 150),
];

/// A number of the strict setting: mostly the usual one, else such as is 0 in its low byte or half, or any.
pub fn strict_setting(r: &mut Rng) -> u32 {
    let any = (r.next() as u32).max(1);
    r.pick(&[SETTING_STRICT, SETTING_STRICT, 2, 256, 1 << 16, 1 << 31, u32::MAX, any])
}

pub fn ways() -> impl Iterator<Item = &'static str> {
    WAYS.iter().map(|w| w.0)
}

/// The number of a random way.
fn drawn_way(r: &mut Rng, ways: &[(&str, usize)]) -> usize {
    let mut draw = r.n(1000);
    for (i, (_, share)) in ways.iter().enumerate() {
        if draw < *share {
            return i;
        }
        draw -= share
    }
    0
}

pub struct Maker {
    corpus: Corpus,
    toks: Vec<Tok>,
}

impl Maker {
    pub fn new() -> Self {
        Maker { corpus: Corpus::load(), toks: vec![] }
    }

    /// Entry, tokens and bytes of a call, and the number of the way that made them.
    pub fn call(&mut self, r: &mut Rng, call: &mut Call) -> usize {
        let entry = r.pick(&[1, 1, 1, 1, 2, 3, 3, 4, 4]);
        let way = self.call_of(r, entry, call);
        if r.p(10) {
            bad::damage(r, call)
        }
        if r.n(20_000) == 0 {
            limits::huge(r, call)
        }
        way
    }

    /// Tokens and bytes of a source file, short mostly, since many calls are made of one; and the number of its way.
    pub fn file(&mut self, r: &mut Rng, call: &mut Call) -> usize {
        let most = r.pick(&[12, 24, 24, 48, 48, 48, 120, 1000]);
        let mut way = self.call_of(r, ENTRY_SOURCE_FILE, call);
        while call.bytes.len() > most {
            way = self.call_of(r, ENTRY_SOURCE_FILE, call)
        }
        if r.p(10) {
            bad::damage(r, call)
        }
        if r.n(20_000) == 0 {
            limits::huge(r, call)
        }
        call.entry = ENTRY_SOURCE_FILE;
        way
    }

    /// Good rows of a source file, no more than so many.
    pub fn good_file(&mut self, r: &mut Rng, most: usize, call: &mut Call) {
        self.call_of(r, ENTRY_SOURCE_FILE, call);
        while call.tokens.len() > ROW_TOKEN * most {
            self.call_of(r, ENTRY_SOURCE_FILE, call);
        }
        call.entry = ENTRY_SOURCE_FILE
    }

    /// Good rows that suit an entry; the oracle's generator has its own.
    fn call_of(&mut self, r: &mut Rng, entry: u32, call: &mut Call) -> usize {
        call.entry = entry;
        self.toks.clear();
        let way = drawn_way(r, WAYS);
        match way {
            2 => self.generated(r, call),
            5 => self.lexed(r, call),
            _ => {
                self.tokens(r, way, call.entry);
                assemble(&self.toks, call)
            }
        }
        way
    }

    fn tokens(&mut self, r: &mut Rng, way: usize, entry: u32) {
        let (c, t) = (&self.corpus, &mut self.toks);
        match way {
            0 => c.piece(r, entry, t),
            1 => c.random_tokens(r, t),
            3 => expr::tokens(r, c, entry, t),
            4 => c.unlexable(r, t),
            6 => deep::tokens(r, c, entry, t),
            7 if r.p(50) => repeats::levels(r, c, entry, t),
            7 => repeats::run(r, c, t),
            9 => labels::tokens(r, c, entry, t),
            _ => c.file(r, t),
        }
        let times = match way {
            0 | 3 if r.p(75) => r.n(4),
            9 if r.p(40) => r.n(4),
            8 => r.n(6),
            _ if r.p(20) => 1,
            _ => 0,
        };
        damage::tokens(r, c, t, times);
        if r.p(25) {
            labels::odd_names(r, t)
        }
    }

    /// From the oracle's own generator.
    fn generated(&mut self, r: &mut Rng, call: &mut Call) {
        let (entry, case) = generate::one(&mut generate::Rng::new(r.next()), None);
        call.entry = entry;
        take(&case, call)
    }

    /// A few lines of a file with damaged bytes, read by the lexer of the Rust.
    fn lexed(&mut self, r: &mut Rng, call: &mut Call) {
        let mut text = self.corpus.lines(r, call.entry).as_bytes().to_vec();
        for _ in 0..r.n(4) {
            damage::bytes(r, &mut text)
        }
        take(&Case::Text(String::from_utf8_lossy(&text).into_owned()), call)
    }
}

fn take(case: &Case, call: &mut Call) {
    let (rows, text) = token::rows(case);
    call.tokens = flat(&rows);
    call.bytes = text.into_bytes()
}

fn assemble(toks: &[Tok], call: &mut Call) {
    call.tokens.clear();
    call.bytes.clear();
    for t in toks {
        call.tokens.extend([t.kind, t.text.len() as u32]);
        call.bytes.extend_from_slice(t.text)
    }
}
