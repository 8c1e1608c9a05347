//! Makes a call that differs small, as long as it differs.
use crate::call::Call;
use crate::judge::{Input, Judge};
use dt_parser_layout::{BUFFERS, COL_TOKEN_KIND, COL_TOKEN_LENGTH, ROW_TOKEN};
use oracle::token::TokenKind::{Ident, Number, Semicolon};

/// What tells whether a call differs.
pub trait Differs {
    fn judge(&mut self) -> &mut Judge;
    fn differs(&mut self, call: &Call) -> bool;
}

impl Differs for Judge {
    fn judge(&mut self) -> &mut Judge {
        self
    }

    fn differs(&mut self, call: &Call) -> bool {
        self.whole(call, true).wrong.is_some()
    }
}

/// Tokens left out, then simpler tokens, shorter texts, and buffers with room or exactly fitting.
pub fn shrink(differing: &mut impl Differs, mut call: Call) -> Call {
    if !differing.differs(&call) {
        println!("the call alone does not differ: it is printed as it is");
        return call;
    }
    room(differing, &mut call);
    loop {
        let before = call.clone();
        shorter(differing, &mut call);
        if call.tokens.len() < 400 {
            simpler(differing, &mut call);
        }
        if call == before {
            break;
        }
    }
    room(differing, &mut call);
    call
}

/// Takes the smaller call if it differs still.
fn take(differing: &mut impl Differs, call: &mut Call, smaller: Call) -> bool {
    let differs = smaller != *call && differing.differs(&smaller);
    if differs {
        *call = smaller
    }
    differs
}

/// The bytes of rows `from` to `to`, as far as the lengths go.
fn bytes_of(call: &Call, from: usize, to: usize) -> std::ops::Range<usize> {
    let length = |row: &[u32]| *row.get(COL_TOKEN_LENGTH).unwrap_or(&0) as usize;
    let sum = |n: usize| call.tokens.chunks(ROW_TOKEN).take(n).map(length).sum::<usize>();
    let end = call.bytes.len();
    sum(from).min(end)..sum(to).min(end)
}

/// Rows left out, many at a time and then one by one; at last single numbers and bytes.
fn shorter(differing: &mut impl Differs, call: &mut Call) {
    let mut width = (call.tokens.len() / 4).max(1);
    loop {
        let mut at = 0;
        while at < call.tokens.len() / ROW_TOKEN {
            let to = (at + width).min(call.tokens.len() / ROW_TOKEN);
            let mut smaller = call.clone();
            smaller.bytes.drain(bytes_of(call, at, to));
            smaller.tokens.drain(ROW_TOKEN * at..ROW_TOKEN * to);
            if !take(differing, call, smaller) {
                at = to
            }
        }
        if width == 1 {
            break;
        }
        width /= 2
    }
    let mut odd = call.clone();
    if !odd.tokens.len().is_multiple_of(ROW_TOKEN) && odd.tokens.pop().is_some() {
        take(differing, call, odd);
    }
    let mut shorter = call.clone();
    shorter.bytes.truncate(call.bytes.len() / 2);
    take(differing, call, shorter);
}

/// Each token as a semicolon, an Ident or a Number of one byte; else its text shorter.
fn simpler(differing: &mut impl Differs, call: &mut Call) {
    let plain = [(Semicolon as u32, b';'), (Ident as u32, b'a'), (Number as u32, b'1')];
    for at in 0..call.tokens.len() / ROW_TOKEN {
        let bytes = bytes_of(call, at, at + 1);
        let (kind_index, length_index) = (ROW_TOKEN * at + COL_TOKEN_KIND, ROW_TOKEN * at + COL_TOKEN_LENGTH);
        let same = call.tokens[kind_index];
        let done = call.tokens[length_index] == 1 && plain.iter().any(|p| p.0 == same);
        for (kind, byte) in plain.into_iter().chain([(same, b'a')]) {
            let mut smaller = call.clone();
            smaller.bytes.splice(bytes.clone(), [byte]);
            smaller.tokens[kind_index] = kind;
            smaller.tokens[length_index] = 1;
            if done || take(differing, call, smaller) {
                break;
            }
        }
    }
}

/// Buffers with room, or that fit exactly; else each buffer alone that can be so.
fn room(differing: &mut impl Differs, call: &mut Call) {
    let judge = differing.judge();
    let needs = match judge.input(call, false) {
        Ok((Input::Parsed, _)) => judge.needs(call.setting),
        Ok((Input::Bad(..), _)) => [0; BUFFERS],
        Err(_) => return,
    };
    let mut tried = [needs.map(|n| n + 9), needs].into_iter();
    if tried.any(|lengths| take(differing, call, Call { lengths, ..call.clone() })) {
        return;
    }
    for (i, need) in needs.into_iter().enumerate() {
        let mut smaller = call.clone();
        smaller.lengths[i] = need;
        take(differing, call, smaller);
    }
}
