//! Calls and texts just below, at and above the limits of cause 2.
use crate::call::Call;
use crate::rng::Rng;
use dt_parser_layout::{COL_TOKEN_KIND, COL_TOKEN_LENGTH, MAX_BYTES, MAX_TOKENS, ROW_TOKEN};
use oracle::token::TokenKind::{Ident, Number, Semicolon, String, Whitespace};

/// One string of so many bytes, or so many rows of a byte each; in half of the draws an odd count, which is refused after
/// cause 2, and now and then with a bad row, which is refused after both.
pub fn huge(r: &mut Rng, call: &mut Call) {
    call.entry = 1 + r.n(4) as u32;
    let over = r.n(3);
    call.tokens.clear();
    if r.p(50) {
        let n = MAX_BYTES + over - 1;
        call.bytes = vec![b's'; n];
        call.tokens.extend([String as u32, n as u32])
    } else {
        let rows = MAX_TOKENS + over - 1;
        let (kind, byte) = r.pick(&[(Whitespace, b'1'), (Ident, b'1'), (Number, b'1'), (Semicolon, b';')]);
        call.bytes = vec![byte; rows];
        (0..rows).for_each(|_| call.tokens.extend([kind as u32, 1]))
    }
    match r.n(4) {
        0 => call.tokens.truncate(call.tokens.len() - 1),
        1 => call.tokens.push(Ident as u32),
        _ => {}
    }
    if r.p(25) && call.tokens.len() >= ROW_TOKEN {
        let last = call.tokens.len() / ROW_TOKEN - 1;
        let column = r.pick(&[COL_TOKEN_KIND, COL_TOKEN_LENGTH]);
        call.tokens[ROW_TOKEN * r.pick(&[0, last]) + column] = r.pick(&[0, u32::MAX])
    }
}

/// One token of so many bytes, or so many tokens of one byte; in half of the draws with a byte or a directive to be
/// refused for, at the start or at the end.
pub fn huge_text(r: &mut Rng, text: &mut Vec<u8>) {
    text.clear();
    let over = r.n(3);
    if r.p(50) {
        let (first, byte) = r.pick(&[("/*", b'c'), ("\"", b's'), ("//", b'c'), ("", b' '), ("", b'a'), ("", b'1')]);
        text.extend_from_slice(first.as_bytes());
        text.resize(MAX_BYTES + over - 1, byte)
    } else {
        // none that nests: the Rust has no limit of open calls, and its memory would not suffice
        let byte = r.pick(b";,?\\:@})");
        text.resize(MAX_TOKENS + over - 1, byte)
    }
    let refused = r.pick(&[&b""[..], b"", b"\x80", b"#if"]);
    let at = if r.p(50) { 0 } else { text.len() - refused.len() };
    text[at..at + refused.len()].copy_from_slice(refused)
}
