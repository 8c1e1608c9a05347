//! The exported calls, as bindings/rust declares them, over memory that need not be Rust's own. For the programs that try
//! the static library.

use dt_parser::raw::{dt_caret, dt_parse, dt_parse_text, dt_parts_in_range};
use dt_parser_layout::{ACCEPTED, BUFFERS, Lengths, ROW};

pub use dt_parser::raw::{Answer, ListAnswer, TextAnswer};

/// An answer's counts as lengths of buffers.
pub trait Counts {
    /// The answer to an accepted call that wrote so many numbers to each buffer.
    fn accepted(used: Lengths) -> Self;
    /// How many numbers of each buffer hold the answer's rows; events are work only.
    fn used(&self) -> Lengths;
}

impl Counts for Answer {
    fn accepted(used: Lengths) -> Answer {
        let [_, tree_count, error_count, report_count, expectation_count] = std::array::from_fn(|i| used[i] / ROW[i]);
        Answer { number: ACCEPTED, place: 0, tree_count, error_count, report_count, expectation_count }
    }

    fn used(&self) -> Lengths {
        let rows = [0, self.tree_count, self.error_count, self.report_count, self.expectation_count];
        std::array::from_fn(|i| ROW[i] * rows[i])
    }
}

/// What is asked of a source file.
#[derive(Clone, Copy, Debug, PartialEq, Eq)]
pub enum Query {
    /// The rows from the root to the leaf at this offset: `dt_caret`.
    Caret(u64),
    /// The parts that share a byte with a range, from the first offset up to the second: `dt_parts_in_range`.
    Parts(u64, u64),
}

/// A slice as C passes it.
#[derive(Clone, Copy)]
pub struct Lent {
    pub numbers: *mut u32,
    pub len: usize,
}

/// One call over memory of any kind, also such as was never written.
///
/// # Safety
/// Each buffer is as long as it says, and none lies over another or over the input.
#[inline]
pub unsafe fn parse_lent(entry: u32, setting: u32, bytes: &[u8], tokens: &[u32], lent: [Lent; BUFFERS]) -> Answer {
    let [events, trees, errors, reports, pool] = lent;
    unsafe {
        dt_parse(
            entry,
            setting,
            bytes.as_ptr(),
            bytes.len(),
            tokens.as_ptr(),
            tokens.len(),
            events.numbers,
            events.len,
            trees.numbers,
            trees.len,
            errors.numbers,
            errors.len,
            reports.numbers,
            reports.len,
            pool.numbers,
            pool.len,
        )
    }
}

/// One call over a text, whose tokens are read into a buffer of their own; memory as that of `parse_lent`.
///
/// # Safety
/// As that of `parse_lent`, for the buffer of the tokens too.
#[inline]
pub unsafe fn parse_text_lent(
    entry: u32,
    setting: u32,
    bytes: &[u8],
    tokens: Lent,
    lent: [Lent; BUFFERS],
) -> TextAnswer {
    let [events, trees, errors, reports, pool] = lent;
    unsafe {
        dt_parse_text(
            entry,
            setting,
            bytes.as_ptr(),
            bytes.len(),
            tokens.numbers,
            tokens.len,
            events.numbers,
            events.len,
            trees.numbers,
            trees.len,
            errors.numbers,
            errors.len,
            reports.numbers,
            reports.len,
            pool.numbers,
            pool.len,
        )
    }
}

/// One query of a source file, whose row numbers are written to a buffer of their own; memory as that of `parse_lent`.
///
/// # Safety
/// As that of `parse_lent`, for the buffer of the list too.
#[inline]
pub unsafe fn query_lent(
    query: Query,
    setting: u32,
    bytes: &[u8],
    tokens: &[u32],
    lent: [Lent; BUFFERS],
    list: Lent,
) -> ListAnswer {
    let [events, trees, errors, reports, pool] = lent;
    /// The call with its own arguments first, and then those that both calls have.
    macro_rules! call {
        ($call:ident($($own:expr),*)) => {
            $call(
                setting,
                $($own,)*
                bytes.as_ptr(),
                bytes.len(),
                tokens.as_ptr(),
                tokens.len(),
                events.numbers,
                events.len,
                trees.numbers,
                trees.len,
                errors.numbers,
                errors.len,
                reports.numbers,
                reports.len,
                pool.numbers,
                pool.len,
                list.numbers,
                list.len,
            )
        };
    }
    unsafe {
        match query {
            Query::Caret(offset) => call!(dt_caret(offset)),
            Query::Parts(start, end) => call!(dt_parts_in_range(start, end)),
        }
    }
}

/// One call over five vectors, each as long as what is lent.
#[inline]
pub fn parse(entry: u32, setting: u32, bytes: &[u8], tokens: &[u32], buffers: &mut [Vec<u32>; BUFFERS]) -> Answer {
    let lent = buffers.each_mut().map(|b| Lent { numbers: b.as_mut_ptr(), len: b.len() });
    // Safety: five vectors of those lengths, borrowed alone
    unsafe { parse_lent(entry, setting, bytes, tokens, lent) }
}
