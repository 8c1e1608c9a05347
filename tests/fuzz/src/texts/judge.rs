//! One call over a text against the reading of its request (../text.rs) and the Rust's parse of its tokens: the answer
//! and every buffer whole.
use super::call::TextCall;
use crate::buffers::{Buffer, Held};
use crate::call::{Call, flat};
use crate::judge::{Input, Judge, Wrong, is_early};
use crate::once::Repeats;
use crate::text::{self, Refusal};
use crate::unchanged::Unchanged;
use dt_parser_ffi::{self as ffi, Answer, TextAnswer};
use dt_parser_layout::{ACCEPTED, BUFFERS, Lengths, ROW_TOKEN};
use oracle::case::Rows;

#[derive(Default)]
pub struct TextJudge {
    /// The parse of the text's tokens.
    pub parse: Judge,
    /// That parse as a call: entry, bytes, and the text's tokens if it has them.
    pub of_tokens: Call,
    tokens: Rows,
    refused: Option<Refusal>,
    pub token_buffer: Buffer,
    bytes: Vec<u8>,
}

pub struct TextVerdict {
    pub expected: TextAnswer,
    pub given: TextAnswer,
    pub wrong: Option<Wrong>,
}

impl TextJudge {
    /// What is known before buffers are chosen: a refusal, or the tokens and the Rust's run over them. `also`: the
    /// unchanged Rust too.
    pub fn input(&mut self, call: &TextCall, also: bool) -> Result<Option<Unchanged>, Wrong> {
        self.of_tokens.entry = call.entry;
        self.of_tokens.bytes.clone_from(&call.bytes);
        let read = text::read(call.entry, &call.bytes);
        self.refused = read.as_ref().err().copied();
        self.tokens = read.unwrap_or_default();
        self.refused = self.refused.or_else(|| text::no_room(&self.tokens, usize::MAX));
        self.of_tokens.tokens = flat(&self.tokens);
        if self.refused.is_some() {
            return Ok(None);
        }
        match self.parse.input(&self.of_tokens, also)? {
            (Input::Parsed, unchanged) => Ok(unchanged),
            (Input::Bad(number, place), _) => panic!("rows of a text: {number}, {place}, {}", call.line()),
        }
    }

    /// None if the text is refused before a parse, whatever is lent.
    pub fn is_parsed(&self) -> bool {
        self.refused.is_none()
    }

    /// Of the parse: how many lists the Rust had with repeats.
    pub fn repeats(&self) -> Repeats {
        if self.is_parsed() { self.parse.repeats } else { Repeats::default() }
    }

    pub fn token_numbers(&self) -> usize {
        ROW_TOKEN * self.tokens.len()
    }

    /// Numbers that a call needs of the parse's buffers.
    pub fn needs(&self, setting: u32) -> Lengths {
        if self.is_parsed() { self.parse.needs(setting) } else { [0; BUFFERS] }
    }

    pub fn expected(&mut self, call: &TextCall) -> TextAnswer {
        let refused = self.refused.or_else(|| text::no_room(&self.tokens, call.room));
        if let Some((number, place)) = refused {
            let answer = Answer { number, place, ..Answer::default() };
            return TextAnswer { answer, token_count: 0 };
        }
        (self.of_tokens.setting, self.of_tokens.lengths) = (call.setting, call.lengths);
        let answer = self.parse.expected(Input::Parsed, &self.of_tokens);
        TextAnswer { answer, token_count: if answer.number == ACCEPTED { self.tokens.len() } else { 0 } }
    }

    /// What the buffer of tokens must hold beside that answer.
    pub fn held_tokens(&self, expected: TextAnswer) -> Held<&[u32]> {
        match expected.answer.number {
            ACCEPTED => Held::Rows(&self.of_tokens.tokens),
            n if is_early(n) => Held::AsItWas,
            _ => Held::Zero,
        }
    }

    /// Calls the library over garbage that starts with that number, and compares.
    pub fn call(&mut self, call: &TextCall, garbage: u32) -> TextVerdict {
        let expected = self.expected(call);
        self.parse.buffers.fill(call.lengths, garbage);
        self.token_buffer.fill(call.room, garbage ^ 0x55AA_0000);
        self.bytes.clone_from(&call.bytes);
        let null = garbage & 2 == 0;
        let (tokens, lent) = (self.token_buffer.lent(null), self.parse.buffers.lent(null));
        // Safety: each lent buffer has its length, and they are six vectors
        let given = unsafe { ffi::parse_text_lent(call.entry, call.setting, &self.bytes, tokens, lent) };
        let wrong = if given != expected {
            Some(Wrong::Answer)
        } else if self.bytes != call.bytes {
            Some(Wrong::Input)
        } else if !self.token_buffer.is_right(self.held_tokens(expected)) {
            Some(Wrong::Tokens)
        } else {
            self.parse.wrong_buffer(call.setting, expected.answer)
        };
        TextVerdict { expected, given, wrong }
    }

    /// Everything for a call whose buffers are chosen.
    pub fn whole(&mut self, call: &TextCall, also: bool) -> TextVerdict {
        match self.input(call, also) {
            Ok(_) => self.call(call, 0x5A5A5A59),
            Err(wrong) => {
                let none = TextAnswer::default();
                TextVerdict { expected: none, given: none, wrong: Some(wrong) }
            }
        }
    }
}
