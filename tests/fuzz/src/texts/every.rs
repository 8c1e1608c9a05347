//! Every text of a few bytes over an alphabet of telling ones. Of each length but the longest, whole answers in each
//! entry and both settings against the Rust, where all just fits and where one token number does not. Of the longest,
//! one entry and setting: the tokens against the lexer of the Rust, and all else against `dt_parse` of those tokens,
//! which is quicker; and the parents in the tree rows by the rows alone.
use super::call::TextCall;
use super::judge::TextJudge;
use super::show;
use crate::buffers::{Buffer, Buffers, Held};
use crate::call::flat;
use crate::parent;
use crate::text;
use dt_parser_ffi::{self as ffi, Answer, TextAnswer};
use dt_parser_layout::{
    ACCEPTED, ANSWERS, BUFFERS, ENTRY_CELLS, ENTRY_SOURCE_FILE, Lengths, POOL, ROW_TOKEN, ROW_TREE, SETTING_OLD,
    SETTING_STRICT, TREES, bound,
};
use oracle::case::esc;
use std::time::Instant;

/// Digits and letters of numbers and their prefixes and suffixes, a directive, comments, line ends, quotes, brackets,
/// and the bytes that are a token alone and with another.
const ALPHABET: &[u8] = b"0178xboul_if#/*\\\r\n \"'[]&<=;";

const GARBAGE: u32 = 0x5A5A5A59;

/// Enough for any text of so many bytes; of the pool less than what is proved to be enough, since it is cleared at each
/// call. A call that needs more would be counted as a difference.
fn enough(bytes: u32) -> Lengths {
    let mut lengths = bound(bytes as usize);
    lengths[POOL] = 100 * bytes as usize;
    lengths
}

#[derive(Default)]
struct Every {
    lengths: Lengths,
    judge: TextJudge,
    tokens: Buffer,
    /// Of the text, and of its tokens.
    buffers: [Buffers; 2],
    calls: u64,
    by_number: [u64; ANSWERS],
    differences: u64,
    /// The first text that differs; none is shorter.
    smallest: Option<TextCall>,
}

/// True if no call differed. `alphabet`: in the place of the usual one.
pub fn run(most: u32, alphabet: Option<&[u8]>) -> bool {
    let alphabet = alphabet.unwrap_or(ALPHABET);
    let mut every = Every { lengths: enough(most), ..Every::default() };
    let (start, mut texts) = (Instant::now(), 0);
    for length in 0..=most {
        let of_length = (alphabet.len() as u64).pow(length);
        for number in 0..of_length {
            let bytes = text_of(alphabet, length, number);
            if length < most { every.whole(&bytes) } else { every.against_tokens(&bytes, number) }
        }
        texts += of_length;
        eprintln!("up to {length} bytes: {texts} texts, {} differences", every.differences)
    }
    let seconds = start.elapsed().as_secs_f64();
    println!("every text of up to {most} of {} bytes ({})", alphabet.len(), esc(alphabet));
    println!("{texts} texts, {} calls in {seconds:.0} s", every.calls);
    let seen = every.by_number.iter().enumerate().filter(|(_, n)| **n > 0);
    println!("answers by number: {}", seen.map(|(i, n)| format!("{i}: {n}")).collect::<Vec<_>>().join(", "));
    println!("{} differences", every.differences);
    if let Some(call) = &every.smallest {
        println!("the smallest text that differs: {}", esc(&call.bytes));
        show::both(&mut every.judge, call);
    }
    every.differences == 0
}

/// The text with that number, its digits being bytes.
fn text_of(alphabet: &[u8], length: u32, number: u64) -> Vec<u8> {
    let size = alphabet.len() as u64;
    (0..length).map(|i| alphabet[(number / size.pow(i) % size) as usize]).collect()
}

impl Every {
    fn count(&mut self, call: &TextCall, answer: Answer, is_right: bool) {
        self.calls += 1;
        self.by_number[answer.number as usize] += 1;
        if !is_right {
            self.differences += 1;
            self.smallest.get_or_insert_with(|| call.clone());
        }
    }

    /// Whole answers, in each entry and both settings.
    fn whole(&mut self, bytes: &[u8]) {
        for entry in ENTRY_SOURCE_FILE..=ENTRY_CELLS {
            let mut call = TextCall { entry, bytes: bytes.to_vec(), ..TextCall::default() };
            if self.judge.input(&call, false).is_err() {
                self.count(&call, Answer::default(), false);
                continue;
            }
            for setting in [SETTING_OLD, SETTING_STRICT] {
                let (lengths, room) = (self.judge.needs(setting), self.judge.token_numbers());
                (call.setting, call.lengths, call.room) = (setting, lengths, room);
                let verdict = self.judge.call(&call, GARBAGE);
                self.count(&call, verdict.expected.answer, verdict.wrong.is_none())
            }
            if call.room > 0 {
                call.room -= 1;
                let verdict = self.judge.call(&call, GARBAGE);
                self.count(&call, verdict.expected.answer, verdict.wrong.is_none())
            }
        }
    }

    /// In one entry and setting, by the text's number.
    fn against_tokens(&mut self, bytes: &[u8], number: u64) {
        let (entry, setting) = (ENTRY_SOURCE_FILE + (number % 4) as u32, (number / 4 % 2) as u32);
        // an odd number too many
        let room = ROW_TOKEN * bytes.len() + 1;
        self.tokens.fill(room, GARBAGE);
        self.buffers.iter_mut().for_each(|b| b.fill(self.lengths, GARBAGE));
        let (tokens, [lent, other]) = (self.tokens.lent(false), self.buffers.each_mut().map(|b| b.lent(false)));
        // Safety: each lent buffer has its length, and they are six vectors
        let given = unsafe { ffi::parse_text_lent(entry, setting, bytes, tokens, lent) };
        let (answer, right) = match text::read(entry, bytes) {
            Err((number, place)) => {
                let answer = Answer { number, place, ..Answer::default() };
                let same = given == TextAnswer { answer, token_count: 0 };
                let wrong = self.buffers[0].wrong(Held::AsItWas);
                (answer, same && self.tokens.is_right(Held::AsItWas) && wrong.is_none())
            }
            Ok(rows) => {
                let rows = flat(&rows);
                // Safety: as above
                let answer = unsafe { ffi::parse_lent(entry, setting, bytes, &rows, other) };
                let same = given == TextAnswer { answer, token_count: rows.len() / ROW_TOKEN };
                let [of_text, of_tokens] = &self.buffers;
                let others = (0..BUFFERS).all(|i| of_text.get(i) == of_tokens.get(i));
                let trees = of_text.get(TREES).get(..ROW_TREE * answer.tree_count);
                let parents = trees.is_some_and(|trees| parent::wrong(trees).is_none());
                let same = same && self.tokens.is_right(Held::Rows(&rows)) && others;
                (answer, answer.number == ACCEPTED && same && parents)
            }
        };
        let call = TextCall { entry, setting, bytes: bytes.to_vec(), room, lengths: self.lengths };
        self.count(&call, answer, right)
    }
}
