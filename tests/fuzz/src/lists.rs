//! Every list of a few tokens of all sorts, in each entry, for what is expected at its reports: in buffers that just fit,
//! and in each shorter pool.
use crate::call::Call;
use crate::judge::{Input, Judge};
use crate::once::Repeats;
use crate::show;
use dt_parser_layout::{ENTRY_CELLS, ENTRY_SOURCE_FILE, POOL, SETTING_OLD};
use oracle::token::TokenKind::{self, *};
use oracle::token::fixed_text;

/// What starts, separates and ends statements, values, cells, expressions and conditionals.
#[rustfmt::skip]
const ALPHABET: &[TokenKind] = &[
    Whitespace, Comma, IfDirective, ElseDirective, EndifDirective, BitsDirective, OmitIfNoRefDirective,
    DtIncludeDirective, MemreserveDirective, DeleteNodeDirective, V1Directive, Ident, Equals, Semicolon, Ampersand,
    Colon, AtSign, String, Number, LCurly, RCurly, LAngle, RAngle, LParen, RParen, Plus, Slash, QuestionMark,
];

/// True if no call differed.
pub fn run(most: u32) -> bool {
    let (mut judge, mut calls, mut repeats) = (Judge::default(), 0, Repeats::default());
    for length in 0..=most {
        for number in 0..ALPHABET.len().pow(length) {
            for entry in ENTRY_SOURCE_FILE..=ENTRY_CELLS {
                let mut call = list(length, number, entry);
                if !every_pool(&mut judge, &mut call, &mut calls) {
                    show::both(&mut judge, &call);
                    return false;
                }
                repeats.add(judge.repeats)
            }
        }
    }
    println!("every list of up to {most} of {} tokens, in each entry: {calls} calls, no difference", ALPHABET.len());
    println!("reports whose list the Rust had with repeats: {}", repeats.reports);
    true
}

/// The list with that number, its digits being tokens.
fn list(length: u32, mut number: usize, entry: u32) -> Call {
    let mut call = Call { entry, setting: SETTING_OLD, ..Call::default() };
    for _ in 0..length {
        let kind = ALPHABET[number % ALPHABET.len()] as u32;
        let text = fixed_text(kind).unwrap_or("x");
        number /= ALPHABET.len();
        call.tokens.extend([kind, text.len() as u32]);
        call.bytes.extend_from_slice(text.as_bytes())
    }
    call
}

/// Where an answer differs, `call` is the call of it.
fn every_pool(judge: &mut Judge, call: &mut Call, calls: &mut u64) -> bool {
    let Ok((Input::Parsed, _)) = judge.input(call, false) else { return false };
    let needs = judge.needs(SETTING_OLD);
    (0..=needs[POOL]).all(|pool| {
        call.lengths = needs;
        call.lengths[POOL] = pool;
        *calls += 1;
        judge.call(call, Input::Parsed, 0x5A5A5A59).wrong.is_none()
    })
}
