//! Makes a call over a text that differs small, as long as it differs.
use super::call::TextCall;
use super::judge::TextJudge;
use std::time::{Duration, Instant};

/// A text of a million bytes that must be so long is not made smaller byte by byte.
const MOST: Duration = Duration::from_secs(20);

/// Bytes left out, then simpler bytes, and buffers with room or exactly fitting.
pub fn shrink(judge: &mut TextJudge, call: TextCall) -> TextCall {
    if judge.whole(&call, true).wrong.is_none() {
        println!("the call alone does not differ: it is printed as it is");
        return call;
    }
    let mut s = Shrinker { judge, call, end: Instant::now() + MOST };
    loop {
        let before = s.call.clone();
        s.room();
        s.shorter();
        if s.call.bytes.len() < 400 {
            s.simpler()
        }
        if s.call == before || s.is_late() {
            return s.call;
        }
    }
}

struct Shrinker<'a> {
    judge: &'a mut TextJudge,
    call: TextCall,
    end: Instant,
}

impl Shrinker<'_> {
    fn is_late(&self) -> bool {
        Instant::now() > self.end
    }

    /// Takes the smaller call if it differs still.
    fn take(&mut self, smaller: TextCall) -> bool {
        let differs = smaller != self.call && self.judge.whole(&smaller, true).wrong.is_some();
        if differs {
            self.call = smaller
        }
        differs
    }

    /// Bytes left out, many at a time and then one by one.
    fn shorter(&mut self) {
        let mut width = (self.call.bytes.len() / 2).max(1);
        loop {
            let mut at = 0;
            while at < self.call.bytes.len() && !self.is_late() {
                let to = (at + width).min(self.call.bytes.len());
                let mut smaller = self.call.clone();
                smaller.bytes.drain(at..to);
                if !self.take(smaller) {
                    at = to
                }
            }
            if width == 1 {
                return;
            }
            width /= 2
        }
    }

    /// Each byte as one that is a token of its own, or a letter, digit or blank.
    fn simpler(&mut self) {
        for at in 0..self.call.bytes.len() {
            for byte in *b";a1 " {
                if self.call.bytes[at] == byte {
                    break;
                }
                let mut smaller = self.call.clone();
                smaller.bytes[at] = byte;
                if self.take(smaller) {
                    break;
                }
            }
        }
    }

    /// The usual entry and setting; buffers with room, or that fit exactly; else each buffer alone that can be so.
    fn room(&mut self) {
        self.take(TextCall { setting: 0, ..self.call.clone() });
        self.take(TextCall { entry: 1, ..self.call.clone() });
        if self.judge.input(&self.call, false).is_err() {
            return;
        }
        let (needs, tokens) = (self.judge.needs(self.call.setting), self.judge.token_numbers());
        for (room, lengths) in [(tokens + 4, needs.map(|n| n + 9)), (tokens, needs)] {
            let smaller = TextCall { room, lengths, ..self.call.clone() };
            if smaller == self.call || self.take(smaller) {
                return;
            }
        }
        self.take(TextCall { room: tokens, ..self.call.clone() });
        for (i, need) in needs.into_iter().enumerate() {
            let mut smaller = self.call.clone();
            smaller.lengths[i] = need;
            self.take(smaller);
        }
    }
}
