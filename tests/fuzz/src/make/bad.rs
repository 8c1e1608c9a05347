//! Input that is refused before a parse: causes 1 to 4 and 11 to 13, one or two at a time. bad_rows.rs has more of them
//! together.
use super::bad_rows;
use crate::call::Call;
use crate::rng::Rng;
use dt_parser_layout::{COL_TOKEN_KIND, COL_TOKEN_LENGTH, EXPECTED_END, EXPECTED_PREPROCESSOR_DIRECTIVE, ROW_TOKEN};
use dt_parser_layout::{TOKEN_FIRST_LEX_ERROR, TOKEN_LAST_LEX_ERROR};
use oracle::token::TokenKind::{Name, QuestionMark, RCurly, Semicolon, Unrecognized};
use oracle::token::{fixed_text, kinds};

pub fn damage(r: &mut Rng, call: &mut Call) {
    if r.p(40) {
        return bad_rows::several(r, call);
    }
    for _ in 0..1 + r.n(2) {
        match r.n(16) {
            0 => call.entry = entry(r),
            1..4 => kind(r, call),
            4..7 => length(r, call),
            7 => call.tokens.push(r.n(80) as u32),
            8 => {
                call.tokens.pop();
            }
            9 => call.bytes.push(b';'),
            10 => {
                call.bytes.pop();
            }
            11 => byte(r, call),
            _ => {
                text(r, call);
            }
        }
    }
}

/// Another byte in a fixed text, or another kind whose fixed text is as long. Which row, if any has one.
pub fn text(r: &mut Rng, call: &mut Call) -> Option<usize> {
    let mut start = 0;
    let mut fixed = vec![];
    for (i, row) in call.tokens.chunks_exact(ROW_TOKEN).enumerate() {
        let (kind, length) = (row[COL_TOKEN_KIND], row[COL_TOKEN_LENGTH] as usize);
        let end = start + length;
        if fixed_text(kind).is_some_and(|t| t.len() == length) && end <= call.bytes.len() {
            fixed.push((i, start, end))
        }
        start = end
    }
    let &(row, start, end) = fixed.get(r.n(fixed.len()))?;
    if r.p(50) {
        call.bytes[start + r.n(end - start)] ^= 1 << r.n(8)
    } else {
        let as_long = |k: &u32| fixed_text(*k).is_some_and(|t| t.len() == end - start);
        let kinds: Vec<u32> = kinds().iter().map(|&k| k as u32).filter(as_long).collect();
        call.tokens[ROW_TOKEN * row + COL_TOKEN_KIND] = r.pick(&kinds)
    }
    Some(row)
}

pub fn entry(r: &mut Rng) -> u32 {
    let other = r.next() as u32;
    r.pick(&[0, 5, 6, 255, 256, 257, 260, 65537, u32::MAX, u32::MAX - 3, other])
}

/// A number that is no kind, or hardly ever: of leaves alone, beside those of kinds and errors, or far from them.
pub fn no_kind(r: &mut Rng, kind: u32) -> u32 {
    let other = r.next() as u32;
    // numbers that are a good kind in their low byte, word or half
    let low = kind.wrapping_add(r.pick(&[128, 256, 512, 65536, 1 << 31]));
    let (last, error, last_error) = (QuestionMark as u32, TOKEN_FIRST_LEX_ERROR, TOKEN_LAST_LEX_ERROR);
    let never = [Unrecognized as u32, Name as u32, last + 1, last + 2, error - 1, last_error + 1, last_error + 2];
    let far = [99, EXPECTED_PREPROCESSOR_DIRECTIVE, EXPECTED_END, u32::MAX, low, low, other];
    r.pick(&[&never[..], &far].concat())
}

/// Another kind: no kind at all, or a good one.
fn kind(r: &mut Rng, call: &mut Call) {
    let rows = call.tokens.len() / ROW_TOKEN;
    if rows > 0 {
        let index = ROW_TOKEN * r.n(rows) + COL_TOKEN_KIND;
        let good = [Semicolon as u32, RCurly as u32, QuestionMark as u32, TOKEN_FIRST_LEX_ERROR];
        call.tokens[index] = if r.p(80) { no_kind(r, call.tokens[index]) } else { r.pick(&good) }
    }
}

fn length(r: &mut Rng, call: &mut Call) {
    let rows = call.tokens.len() / ROW_TOKEN;
    if rows > 0 {
        let mut index = || ROW_TOKEN * r.n(rows) + COL_TOKEN_LENGTH;
        let (one, other) = (index(), index());
        let n = call.tokens[one];
        match r.n(8) {
            0 => call.tokens[one] = 0,
            1 => call.tokens[one] = n.wrapping_add(1),
            2 => call.tokens[one] = n.wrapping_sub(1),
            3 => call.tokens[one] = u32::MAX - r.n(4) as u32,
            4 => call.tokens[one] = 1 << 31 | n,
            5 => {
                // two lengths whose sum is the old one once it passes 32 bits
                call.tokens[other] = call.tokens[other].wrapping_add(n).wrapping_add(1);
                call.tokens[one] = u32::MAX
            }
            6 => call.tokens.swap(one, other),
            _ => call.tokens[one] = call.bytes.len() as u32 + r.n(3) as u32,
        }
    }
}

fn byte(r: &mut Rng, call: &mut Call) {
    if !call.bytes.is_empty() {
        let i = r.n(call.bytes.len());
        call.bytes[i] ^= 1 << r.n(8)
    }
}
