//! Every list of a few tokens that labels and references are made of, in each entry and both settings: in buffers that
//! just fit, and where there are labels to report, in each report buffer that is too short for them, with and without
//! room for the tree.
use crate::call::Call;
use crate::judge::{Input, Judge};
use crate::show;
use dt_parser_layout::{ENTRY_CELLS, ENTRY_SOURCE_FILE, REPORTS, ROW_REPORT, SETTING_OLD, SETTING_STRICT, TREES};
use oracle::token::TokenKind::{self, *};

const ALPHABET: &[(TokenKind, &[u8])] = &[
    (Number, b"1"),
    (Ident, b"a"),
    (Ident, b"."),
    (Comma, b","),
    (Colon, b":"),
    (Ampersand, b"&"),
    (AtSign, b"@"),
    (LCurly, b"{"),
    (RCurly, b"}"),
    (Slash, b"/"),
    (Semicolon, b";"),
    (Whitespace, b" "),
    (DeleteNodeDirective, b"/delete-node/"),
];

/// True if no call differed.
pub fn run(most: u32) -> bool {
    let (mut judge, mut calls, mut labels) = (Judge::default(), 0, 0);
    for length in 0..=most {
        for number in 0..ALPHABET.len().pow(length) {
            for entry in ENTRY_SOURCE_FILE..=ENTRY_CELLS {
                let mut call = list(length, number, entry);
                let Some(found) = both(&mut judge, &mut call, &mut calls) else {
                    show::both(&mut judge, &call);
                    return false;
                };
                labels += found
            }
        }
    }
    println!("every list of up to {most} of {} tokens, in each entry: {calls} calls, no difference", ALPHABET.len());
    println!("labels to report: {labels}");
    true
}

/// The list with that number, its digits being tokens.
fn list(length: u32, mut number: usize, entry: u32) -> Call {
    let mut call = Call { entry, ..Call::default() };
    for _ in 0..length {
        let (kind, text) = ALPHABET[number % ALPHABET.len()];
        number /= ALPHABET.len();
        call.tokens.extend([kind as u32, text.len() as u32]);
        call.bytes.extend_from_slice(text)
    }
    call
}

/// How many labels there are to report; none if an answer differs, which `call` then is the call of.
fn both(judge: &mut Judge, call: &mut Call, calls: &mut u64) -> Option<usize> {
    let (input, _) = judge.input(call, false).ok()?;
    for setting in [SETTING_OLD, SETTING_STRICT] {
        call.setting = setting;
        call.lengths = judge.needs(setting);
        one(judge, call, input, calls)?
    }
    let (needs, labels) = (call.lengths, judge.broken.len());
    for missing in 1..=ROW_REPORT * labels {
        for trees in [needs[TREES], 3] {
            call.lengths = needs;
            call.lengths[REPORTS] -= missing;
            call.lengths[TREES] = trees;
            one(judge, call, input, calls)?
        }
    }
    Some(labels)
}

fn one(judge: &mut Judge, call: &Call, input: Input, calls: &mut u64) -> Option<()> {
    *calls += 1;
    judge.call(call, input, 0x5A5A5A59).wrong.is_none().then_some(())
}
