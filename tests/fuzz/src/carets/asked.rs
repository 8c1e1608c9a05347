//! What is asked of a file: offsets and ranges in it, at its borders and past it.
use crate::rng::Rng;
use dt_parser_ffi::Query;

/// Of a longer file not every offset is asked for.
const LONG: u64 = 400;
/// Of a shorter file every range is asked for, up to one byte past its length.
const SHORT: u64 = 12;
/// How many drawn offsets of a long file, and drawn ranges of any.
const DRAWN: usize = 12;

const PAST_32_BITS: u64 = 1 << 32;

/// Such as are in the file, or at its length, in their low 32 or 63 bits alone; and one more than which is 0.
fn far(r: &mut Rng, length: u64) -> [u64; 8] {
    let mut inside = || r.n(length as usize + 1) as u64;
    let (low, other) = (PAST_32_BITS + inside(), (1 << 63) + inside());
    [u64::from(u32::MAX), PAST_32_BITS, low, PAST_32_BITS + length, 1 << 63, other, u64::MAX - inside(), u64::MAX]
}

/// Every offset up to one past the length, and far ones.
pub fn offsets(r: &mut Rng, length: u64) -> Vec<u64> {
    let mut offsets: Vec<u64> = if length <= LONG {
        (0..=length + 1).collect()
    } else {
        let drawn: Vec<u64> = (0..DRAWN).map(|_| r.n(length as usize) as u64).collect();
        [&drawn[..], &[0, length - 1, length, length + 1]].concat()
    };
    offsets.extend(far(r, length));
    offsets
}

/// An end of a range: in the file mostly, or far.
fn end(r: &mut Rng, length: u64) -> u64 {
    let near = r.n(length as usize + 3) as u64;
    let far = far(r, length);
    if r.p(75) { near } else { r.pick(&[&far[..], &[0, length]].concat()) }
}

/// Empty ones, reversed ones, and such as are a byte long among them.
fn range(r: &mut Rng, length: u64) -> (u64, u64) {
    let (one, other) = (end(r, length), end(r, length));
    match r.n(8) {
        0 => (one, one),
        1 => (one, one.saturating_add(1)),
        2 => (one.max(other), one.min(other)),
        _ => (one.min(other), one.max(other)),
    }
}

pub fn ranges(r: &mut Rng, length: u64) -> Vec<(u64, u64)> {
    let mut ranges: Vec<_> = (0..DRAWN).map(|_| range(r, length)).collect();
    ranges.extend([(0, length), (0, u64::MAX)]);
    if length <= SHORT {
        ranges.extend((0..=length + 1).flat_map(|start| (0..=length + 1).map(move |end| (start, end))))
    }
    ranges
}

pub fn queries(r: &mut Rng, length: u64) -> Vec<Query> {
    let carets = offsets(r, length).into_iter().map(Query::Caret);
    let parts = ranges(r, length).into_iter().map(|(start, end)| Query::Parts(start, end));
    carets.chain(parts).collect()
}

/// A few of them.
pub fn some(r: &mut Rng, length: u64, count: usize) -> Vec<Query> {
    let all = queries(r, length);
    (0..count).map(|_| r.pick(&all)).collect()
}
