//! What has the Rust push the same expectations again and again: levels that end one after the other while no token is
//! taken, and runs of one to three tokens. Around 42 and 51 conditionals its list passes 256, a limit that there was
//! before request 6/14.
use super::corpus::{Corpus, Tok};
use crate::rng::Rng;
use oracle::token::TokenKind::{self, *};

/// What stands before the levels, by entry: cells, values or items follow.
const FRONTS: &[(u32, &[TokenKind])] = &[
    (1, &[Ident, Equals, LAngle]),
    (1, &[LCurly, Ident, Equals, LAngle]),
    (1, &[Ident, Equals]),
    (1, &[]),
    (2, &[]),
    (3, &[LAngle]),
    (3, &[]),
    (4, &[]),
];

/// What opens a level.
const LEVELS: &[&[TokenKind]] = &[
    &[IfDirective],
    &[IfDirective],
    &[IfDirective, Whitespace],
    &[IfdefDirective, Whitespace],
    &[LParen],
    &[LParen, Number, QuestionMark],
];

/// What no cell, value or item starts with.
const ENDS: &[TokenKind] = &[Semicolon, Semicolon, RAngle, Comma, RCurly, RParen, Equals, AtSign];

fn depth(r: &mut Rng) -> usize {
    match r.n(10) {
        0..4 => 1 + r.n(6),
        4..8 => 38 + r.n(18),
        8 => 60 + r.n(7),
        _ => 1 + r.n(64),
    }
}

/// Levels of one or two kinds, then a token that ends them all, and now and then one more.
pub fn levels(r: &mut Rng, c: &Corpus, entry: u32, out: &mut Vec<Tok>) {
    let suits: Vec<_> = FRONTS.iter().filter(|front| front.0 == entry).collect();
    let (front, level) = (r.pick(&suits).1, r.pick(LEVELS));
    let (inner, inside) = if r.p(25) { (r.pick(LEVELS), 1 + r.n(12)) } else { (level, 0) };
    let depth = depth(r);
    let all = [level].repeat(depth).into_iter().chain([inner].repeat(inside)).flatten();
    front.iter().chain(all).for_each(|&kind| out.push(c.kind(r, kind)));
    if r.p(20) {
        out.push(c.kind(r, Number))
    }
    if r.p(90) {
        let end = r.pick(ENDS);
        out.push(c.kind(r, end))
    }
    if r.p(20) {
        out.push(c.sample(r))
    }
}

/// One to three tokens again and again, then up to two others.
pub fn run(r: &mut Rng, c: &Corpus, out: &mut Vec<Tok>) {
    let unit: Vec<Tok> = (0..1 + r.n(3)).map(|_| if r.p(30) { c.kind(r, IfDirective) } else { c.sample(r) }).collect();
    let times = if r.p(70) { 1 + r.n(20) } else { 36 + r.n(20) };
    for _ in 0..times {
        out.extend_from_slice(&unit)
    }
    for _ in 0..r.n(3) {
        out.push(c.sample(r))
    }
}
