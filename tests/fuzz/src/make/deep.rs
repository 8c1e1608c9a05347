//! Nesting around the limit of 64 open calls.
use super::corpus::{Corpus, Tok};
use crate::rng::Rng;
use oracle::token::TokenKind::{self, *};

/// What opens and what closes a level, as kinds; the first figure is the entry it suits.
const LEVELS: &[(u32, &[TokenKind], &[TokenKind])] = &[
    (4, &[LParen], &[RParen]),
    (4, &[LParen, Minus], &[RParen]),
    (4, &[LParen, Number, Plus], &[RParen]),
    (4, &[LParen, Number, QuestionMark], &[Colon, Number, RParen]),
    (4, &[Ident, LParen], &[RParen]),
    (4, &[IfDirective, Whitespace], &[EndifDirective]),
    (4, &[IfndefDirective, Number], &[ElseDirective, Number, EndifDirective]),
    (3, &[IfDirective, Whitespace], &[EndifDirective]),
    (3, &[IfdefDirective, String, Comma], &[EndifDirective]),
    (3, &[LAngle, LParen], &[RParen, RAngle]),
    (1, &[Ident, LCurly], &[RCurly, Semicolon]),
    (1, &[Ident, Colon, Ident, AtSign, Number, LCurly], &[RCurly, Semicolon]),
    (1, &[Ident, Equals, LAngle, LParen], &[RParen, RAngle, Semicolon]),
    (1, &[IfDirective], &[ElifDirective, EndifDirective]),
    (1, &[Ident, Equals, IfDirective], &[EndifDirective, Semicolon]),
    (1, &[LCurly], &[RCurly]),
    (1, &[Ampersand, LCurly, Slash, Ident], &[RCurly]),
];

fn depth(r: &mut Rng) -> usize {
    match r.n(20) {
        0..5 => 1 + r.n(12),
        5..13 => 20 + r.n(50),
        13..19 => 60 + r.n(8),
        _ => 100 + r.n(60),
    }
}

pub fn tokens(r: &mut Rng, c: &Corpus, entry: u32, out: &mut Vec<Tok>) {
    let suits: Vec<_> = LEVELS.iter().filter(|l| l.0 == entry.max(1) || entry == 2 || l.0 == 4 && entry == 3).collect();
    let (one, other) = (r.pick(&suits), r.pick(&suits));
    let mixed = r.p(40);
    let levels: Vec<_> = (0..depth(r)).map(|_| if mixed && r.p(50) { other } else { one }).collect();
    for l in &levels {
        l.1.iter().for_each(|&k| out.push(c.kind(r, k)))
    }
    if r.p(70) {
        out.push(c.kind(r, Number))
    }
    let kept = if r.p(60) { levels.len() } else { r.n(levels.len() + 1) };
    for l in levels.iter().rev().take(kept) {
        l.2.iter().for_each(|&k| out.push(c.kind(r, k)))
    }
}
