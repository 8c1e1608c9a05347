//! The lent buffers: filled with garbage before a call, guarded on both sides, and looked at whole afterwards.
use dt_parser_ffi::Lent;
use dt_parser_layout::{BUFFERS, Lengths};

const GUARD: usize = 16;

/// One of them.
#[derive(Default)]
pub struct Buffer {
    store: Vec<u32>,
    length: usize,
    garbage: u32,
}

/// What a buffer, or each of five, must hold after a call.
#[derive(Clone, Copy)]
pub enum Held<T> {
    /// A cause that is met before a parse.
    AsItWas,
    /// All zero, or its rows and then zero.
    Zero,
    Rows(T),
}

/// The number that stands at a place before the call: never zero, and another one at each place.
fn garbage(first: u32, i: usize) -> u32 {
    first.wrapping_add((i as u32).wrapping_mul(0x9E3779B2)) | 1
}

fn is_garbage(first: u32, from: usize, part: &[u32]) -> bool {
    part.iter().enumerate().fold(0, |bad, (i, &x)| bad | (x ^ garbage(first, from + i))) == 0
}

impl Buffer {
    pub fn fill(&mut self, length: usize, first: u32) {
        (self.length, self.garbage) = (length, first);
        let whole = length + 2 * GUARD;
        if self.store.len() < whole {
            self.store.resize(whole, 0)
        }
        for (i, x) in self.store[..whole].iter_mut().enumerate() {
            *x = garbage(first, i)
        }
    }

    /// A buffer of length 0 has no address if `null` is set.
    pub fn lent(&mut self, null: bool) -> Lent {
        let (numbers, len) = (&mut self.store[GUARD], self.length);
        Lent { numbers: if null && len == 0 { std::ptr::null_mut() } else { numbers }, len }
    }

    pub fn get(&self) -> &[u32] {
        &self.store[GUARD..GUARD + self.length]
    }

    /// It is as it should be, and so are its guards.
    pub fn is_right(&self, held: Held<&[u32]>) -> bool {
        self.is_guarded() && self.holds(held)
    }

    fn is_guarded(&self) -> bool {
        let after = GUARD + self.length;
        let (front, back) = (&self.store[..GUARD], &self.store[after..after + GUARD]);
        is_garbage(self.garbage, 0, front) && is_garbage(self.garbage, after, back)
    }

    fn holds(&self, held: Held<&[u32]>) -> bool {
        let all = self.get();
        let rest = match held {
            Held::AsItWas => return is_garbage(self.garbage, GUARD, all),
            Held::Rows(rows) => match all.strip_prefix(rows) {
                Some(rest) => rest,
                None => return false,
            },
            Held::Zero => all,
        };
        rest.iter().fold(0, |any, x| any | x) == 0
    }
}

impl<'a> Held<&'a [Vec<u32>; BUFFERS]> {
    /// What one of the five must hold.
    pub fn of(self, i: usize) -> Held<&'a [u32]> {
        match self {
            Held::AsItWas => Held::AsItWas,
            Held::Zero => Held::Zero,
            Held::Rows(rows) => Held::Rows(&rows[i]),
        }
    }
}

/// The five of a parse.
#[derive(Default)]
pub struct Buffers([Buffer; BUFFERS]);

impl Buffers {
    pub fn fill(&mut self, lengths: Lengths, first: u32) {
        self.0.iter_mut().zip(lengths).for_each(|(buffer, length)| buffer.fill(length, first))
    }

    /// As `Buffer::lent`.
    pub fn lent(&mut self, null: bool) -> [Lent; BUFFERS] {
        self.0.each_mut().map(|buffer| buffer.lent(null))
    }

    pub fn get(&self, i: usize) -> &[u32] {
        self.0[i].get()
    }

    /// The first buffer that is not as it should be, or whose guards are not.
    pub fn wrong(&self, held: Held<&[Vec<u32>; BUFFERS]>) -> Option<usize> {
        (0..BUFFERS).find(|&i| !self.0[i].is_right(held.of(i)))
    }
}
