//! Labels and references with names of all kinds, where the grammar takes them and where it does not.
use super::corpus::{Corpus, Tok, lexical_error};
use crate::rng::Rng;
use dt_parser_layout::{ENTRY_CELLS, ENTRY_PROP_VALUES, ENTRY_REFERENCE_NOAMP};
use oracle::token::TokenKind::{self, *};

/// What odd names are cut from: letters, digits, underscores, and the bytes beside each of these ranges.
const ODD: &[u8] = b"a1_Z09z9A_0.b-c,d#e+f?g/1:2@B[C`D{E\x7f\x80\xff\x00 x_1y";

struct Writer<'a> {
    r: &'a mut Rng,
    c: &'a Corpus,
    out: &'a mut Vec<Tok>,
}

/// Some of the names' tokens get other bytes.
pub fn odd_names(r: &mut Rng, toks: &mut [Tok]) {
    for t in toks {
        if (t.kind == Ident as u32 || t.kind == Number as u32) && r.p(40) {
            t.text = odd(r)
        }
    }
}

fn odd(r: &mut Rng) -> &'static [u8] {
    let start = r.n(ODD.len());
    let length = 1 + r.n(4);
    &ODD[start..(start + length).min(ODD.len())]
}

/// What suits the entry.
pub fn tokens(r: &mut Rng, c: &Corpus, entry: u32, out: &mut Vec<Tok>) {
    let mut w = Writer { r, c, out };
    match entry {
        ENTRY_REFERENCE_NOAMP => w.target(),
        ENTRY_PROP_VALUES => w.values(),
        ENTRY_CELLS => w.cells(),
        _ => w.items(2),
    }
}

impl Writer<'_> {
    fn put(&mut self, kind: TokenKind) {
        self.out.push(self.c.kind(self.r, kind))
    }
    fn all(&mut self, kinds: &[TokenKind]) {
        kinds.iter().for_each(|&k| self.put(k))
    }
    fn blank(&mut self) {
        if self.r.p(20) {
            self.put(Whitespace)
        }
    }

    /// One to four tokens of a name, mostly with bytes of its own; now and then an error token.
    fn name(&mut self) {
        for _ in 0..self.r.pick(&[1, 1, 1, 2, 2, 3, 4]) {
            let kind = self.r.pick(&[Ident, Ident, Number, Number, Comma, Minus]);
            self.put(kind);
            if (kind == Ident || kind == Number)
                && self.r.p(60)
                && let Some(last) = self.out.last_mut()
            {
                last.text = odd(self.r)
            }
        }
        if self.r.n(25) == 0
            && let Some(last) = self.out.last_mut()
        {
            last.kind = lexical_error(self.r)
        }
    }

    fn labels(&mut self) {
        for _ in 0..self.r.pick(&[0, 1, 1, 2, 3]) {
            self.name();
            if self.r.n(12) == 0 {
                self.put(AtSign);
                self.name()
            }
            self.blank();
            self.put(Colon);
            self.blank()
        }
    }

    /// A reference after its `&`: a name, or a path in braces.
    fn target(&mut self) {
        if self.r.p(65) {
            return self.name();
        }
        self.put(LCurly);
        self.blank();
        for _ in 0..self.r.n(3) {
            self.put(Slash);
            self.name()
        }
        if self.r.p(80) {
            self.put(RCurly)
        }
    }

    fn reference(&mut self) {
        self.put(Ampersand);
        self.blank();
        self.target()
    }

    fn cells(&mut self) {
        for _ in 0..self.r.n(4) {
            match self.r.n(4) {
                0 => self.put(Number),
                1 => self.labels(),
                _ => self.reference(),
            }
            self.put(Whitespace)
        }
    }

    fn values(&mut self) {
        for i in 0..1 + self.r.n(3) {
            if i > 0 {
                self.put(Comma)
            }
            match self.r.n(5) {
                0 => self.put(String),
                1 => self.labels(),
                2 => self.reference(),
                _ => {
                    self.put(LAngle);
                    self.cells();
                    self.put(RAngle)
                }
            }
        }
    }

    fn items(&mut self, depth: usize) {
        for _ in 0..1 + self.r.n(3) {
            self.item(depth);
            self.blank()
        }
    }

    fn item(&mut self, depth: usize) {
        match self.r.n(10) {
            0 => {
                self.put(DeleteNodeDirective);
                self.blank();
                if self.r.p(70) { self.reference() } else { self.name() }
            }
            1..4 => {
                self.labels();
                self.name();
                self.put(Equals);
                self.values()
            }
            4 if depth > 0 => {
                self.all(&[IfdefDirective, Whitespace]);
                self.items(depth - 1);
                if self.r.p(50) {
                    self.all(&[ElseDirective, Whitespace]);
                    self.items(depth - 1)
                }
                return self.put(EndifDirective);
            }
            5 => {
                self.labels();
                self.reference()
            }
            6 => self.labels(),
            _ => {
                self.labels();
                if self.r.p(30) {
                    self.reference()
                } else {
                    self.name()
                }
                if self.r.p(30) {
                    self.put(AtSign);
                    self.name()
                }
                self.blank();
                self.put(LCurly);
                if depth > 0 && self.r.p(50) {
                    self.items(depth - 1)
                }
                if self.r.p(90) {
                    self.put(RCurly)
                }
            }
        }
        if self.r.p(90) {
            self.put(Semicolon)
        }
    }
}
