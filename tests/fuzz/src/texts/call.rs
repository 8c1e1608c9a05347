//! One call over a text: as a line and back.
use crate::call::numbers;
use crate::strict::is_strict;
use dt_parser_layout::{Lengths, SETTING_OLD};
use oracle::case::{esc, unesc};

#[derive(Clone, Default, PartialEq)]
pub struct TextCall {
    pub entry: u32,
    pub setting: u32,
    pub bytes: Vec<u8>,
    /// Length of the buffer that is lent for the tokens, in numbers.
    pub room: usize,
    pub lengths: Lengths,
}

impl TextCall {
    /// `ENTRY room N caps N,N,N,N,N text BYTES`, in the strict setting `ENTRY setting N room ..`.
    pub fn line(&self) -> String {
        let lengths: Vec<_> = self.lengths.iter().map(usize::to_string).collect();
        let setting = if is_strict(self.setting) { format!(" setting {}", self.setting) } else { String::new() };
        format!("{}{setting} room {} caps {} text {}", self.entry, self.room, lengths.join(","), esc(&self.bytes))
    }

    pub fn read(line: &str) -> Option<TextCall> {
        let (front, text) = line.split_once(" text ")?;
        let (mut words, mut call) = (front.split(' '), TextCall { bytes: unesc(text), ..TextCall::default() });
        call.entry = words.next()?.parse().ok()?;
        let mut word = words.next()?;
        call.setting = SETTING_OLD;
        if word == "setting" {
            call.setting = words.next()?.parse().ok()?;
            word = words.next()?
        }
        call.room = words.next().filter(|_| word == "room")?.parse().ok()?;
        call.lengths = numbers(words.nth(1)?)?.try_into().ok()?;
        Some(call)
    }
}
