//! Random expressions and cells, mostly right.
use super::corpus::{Corpus, Tok};
use crate::rng::Rng;
use dt_parser_layout::{ENTRY_PROP_VALUES, ENTRY_SOURCE_FILE};
use oracle::token::TokenKind::{self, *};

#[rustfmt::skip]
const INFIX: &[TokenKind] = &[
    Plus, Minus, Asterisk, Slash, Modulo, Ampersand, BitwiseOr, BitwiseXor, BitwiseShl, BitwiseShr, LogicalAnd,
    LogicalOr, LAngle, RAngle, RelationalLtEq, RelationalGtEq, RelationalEq, RelationalNeq, QuestionMark,
];
const PREFIX: &[TokenKind] = &[Plus, Minus, BitwiseNot, LogicalNot];

struct Writer<'a> {
    r: &'a mut Rng,
    c: &'a Corpus,
    out: &'a mut Vec<Tok>,
}

/// Cells in the form that the entry takes.
pub fn tokens(r: &mut Rng, c: &Corpus, entry: u32, out: &mut Vec<Tok>) {
    let (open, close): (&[TokenKind], &[TokenKind]) = match entry {
        ENTRY_SOURCE_FILE => (&[Ident, Equals, LAngle], &[RAngle, Semicolon]),
        ENTRY_PROP_VALUES => (&[LAngle], &[RAngle]),
        _ => (&[], &[]),
    };
    let mut w = Writer { r, c, out };
    w.all(open);
    for _ in 0..1 + w.r.n(3) {
        w.put(LParen);
        let depth = w.r.n(6);
        w.expr(depth);
        w.put(RParen);
        w.blank();
    }
    w.all(close)
}

impl Writer<'_> {
    fn put(&mut self, kind: TokenKind) {
        // now and then a token is forgotten or another stands in its place
        match self.r.n(120) {
            0 => {}
            1 => self.out.push(self.c.sample(self.r)),
            _ => self.out.push(self.c.kind(self.r, kind)),
        }
    }
    fn all(&mut self, kinds: &[TokenKind]) {
        kinds.iter().for_each(|&k| self.put(k))
    }
    fn blank(&mut self) {
        if self.r.p(20) {
            self.put(Whitespace)
        }
    }

    fn expr(&mut self, depth: usize) {
        self.operand(depth);
        for _ in 0..self.r.n(4) {
            self.blank();
            let op = self.r.pick(INFIX);
            self.put(op);
            self.blank();
            self.operand(depth);
            if op == QuestionMark {
                self.put(Colon);
                self.operand(depth)
            }
        }
    }

    fn operand(&mut self, depth: usize) {
        while self.r.p(15) {
            let op = self.r.pick(PREFIX);
            self.put(op)
        }
        match self.r.n(if depth == 0 { 4 } else { 6 }) {
            0..2 => self.put(Number),
            2 => self.put(Ident),
            3 => self.put(Char),
            4 => {
                self.put(Ident);
                self.put(LParen);
                for _ in 0..self.r.n(3) {
                    self.expr(depth - 1);
                    self.put(Comma)
                }
                self.put(RParen)
            }
            _ => {
                self.put(LParen);
                self.expr(depth - 1);
                self.put(RParen)
            }
        }
    }
}
