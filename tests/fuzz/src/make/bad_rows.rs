//! Rows with more than one of request 4/14's causes: in one row, in two, beside an odd count, a short total or wrong
//! bytes; and ends that pass 32 bits and come back.
use super::bad::{no_kind, text};
use crate::call::Call;
use crate::rng::Rng;
use dt_parser_layout::{COL_TOKEN_KIND, COL_TOKEN_LENGTH, ROW_TOKEN};
use oracle::token::TokenKind::Ident;

pub fn several(r: &mut Rng, call: &mut Call) {
    if call.tokens.len() < ROW_TOKEN {
        call.tokens = vec![Ident as u32, 1];
        call.bytes = vec![b'a']
    }
    match r.n(10) {
        0..2 => one_row(r, call),
        2..4 => (0..2 + r.n(2)).for_each(|_| cause(r, call, 0)),
        4..6 => {
            cause(r, call, 0);
            call.tokens.push(r.n(80) as u32)
        }
        6 => {
            cause(r, call, 0);
            call.bytes.resize(call.bytes.len() + 1 + r.n(3), b';')
        }
        7..9 => wrong_bytes_first(r, call),
        _ => passing_32_bits(r, call),
    }
}

fn rows(call: &Call) -> usize {
    call.tokens.len() / ROW_TOKEN
}

/// The number of a row, from one of the rows on; where there is none, of a new row at the end.
fn row_from(r: &mut Rng, call: &mut Call, first: usize) -> usize {
    if first >= rows(call) {
        call.tokens.extend([Ident as u32, 1]);
        call.bytes.push(b'a')
    }
    let first = first.min(rows(call) - 1);
    first + r.n(rows(call) - first)
}

/// The byte at which a row's token starts, by the rows' lengths.
fn start(call: &Call, row: usize) -> u64 {
    let lengths = call.tokens.chunks_exact(ROW_TOKEN).map(|row| row[COL_TOKEN_LENGTH] as u64);
    lengths.take(row).sum()
}

fn length_of(call: &mut Call, row: usize) -> &mut u32 {
    &mut call.tokens[ROW_TOKEN * row + COL_TOKEN_LENGTH]
}

fn set_no_kind(r: &mut Rng, call: &mut Call, row: usize) {
    let index = ROW_TOKEN * row + COL_TOKEN_KIND;
    call.tokens[index] = no_kind(r, call.tokens[index])
}

/// A length that ends past the input: by a byte, by some, or only in more than 32 bits.
fn set_past(r: &mut Rng, call: &mut Call, row: usize) {
    let start = start(call, row) as u32;
    let left = (call.bytes.len() as u32).wrapping_sub(start);
    let some = r.n(40) as u32;
    let past = [left.wrapping_add(1), left.wrapping_add(some), 1 << 31, u32::MAX - some, start.wrapping_neg()];
    *length_of(call, row) = r.pick(&past)
}

/// One of the three causes, in one of the rows from that one on.
fn cause(r: &mut Rng, call: &mut Call, first: usize) {
    let row = row_from(r, call, first);
    match r.n(3) {
        0 => set_no_kind(r, call, row),
        1 => *length_of(call, row) = 0,
        _ => set_past(r, call, row),
    }
}

fn one_row(r: &mut Rng, call: &mut Call) {
    let row = row_from(r, call, 0);
    set_no_kind(r, call, row);
    if r.p(50) { *length_of(call, row) = 0 } else { set_past(r, call, row) }
}

/// Wrong bytes under a row, then one of the three causes in a later row, or a short total.
fn wrong_bytes_first(r: &mut Rng, call: &mut Call) {
    let Some(row) = text(r, call) else { return cause(r, call, 0) };
    if r.p(75) { cause(r, call, row + 1) } else { call.bytes.push(b';') }
}

/// In 32 bits no row ends past the input, and the total is right: one end comes back to a byte before the row's start,
/// and a later row makes up for it.
fn passing_32_bits(r: &mut Rng, call: &mut Call) {
    let row = row_from(r, call, 1);
    let later = row_from(r, call, row + 1);
    let back = 1 + r.n(start(call, row) as usize) as u32;
    let length = std::mem::replace(length_of(call, row), back.wrapping_neg());
    let more = length_of(call, later);
    *more = more.wrapping_add(length).wrapping_add(back)
}

#[cfg(test)]
mod tests {
    use super::super::Maker;
    use super::*;
    use oracle::token::fixed_text;
    use std::collections::BTreeSet;

    /// The causes of each row that has any, and whether the last row's end is in 32 bits what the input's is.
    fn causes(call: &Call) -> (Vec<Vec<u32>>, bool) {
        let (mut all, mut end, mut low_end, mut low_fits) = (vec![], 0u64, 0u32, true);
        for row in call.tokens.chunks_exact(ROW_TOKEN) {
            end += row[COL_TOKEN_LENGTH] as u64;
            low_end = low_end.wrapping_add(row[COL_TOKEN_LENGTH]);
            low_fits &= low_end as usize <= call.bytes.len();
            let kind_is_good = matches!(row[COL_TOKEN_KIND], 0..=24 | 27..=60 | 64..=74);
            let has = [!kind_is_good, row[COL_TOKEN_LENGTH] == 0, end > call.bytes.len() as u64];
            all.push((11..=13).zip(has).filter(|cause| cause.1).map(|cause| cause.0).collect())
        }
        (all, low_fits && low_end as usize == call.bytes.len())
    }

    /// Whether a row before that one has wrong bytes.
    fn wrong_before(call: &Call, row: usize) -> bool {
        let wrong = |i: usize| {
            let from = start(call, i) as usize;
            let text = call.bytes.get(from..from + call.tokens[ROW_TOKEN * i + COL_TOKEN_LENGTH] as usize);
            let fixed = fixed_text(call.tokens[ROW_TOKEN * i + COL_TOKEN_KIND]);
            fixed.is_some_and(|fixed| text.is_some_and(|text| fixed.as_bytes() != text))
        };
        (0..row).any(wrong)
    }

    /// What is telling about a call.
    fn facts(call: &Call, found: &mut BTreeSet<String>) {
        let (all, low_fits) = causes(call);
        let bad: Vec<usize> = (0..all.len()).filter(|&row| !all[row].is_empty()).collect();
        let short = start(call, all.len()) < call.bytes.len() as u64;
        let Some(&first) = bad.first() else {
            if short && wrong_before(call, all.len()) {
                found.insert("4 and a short total".into());
            }
            return;
        };
        let number = all[first][0];
        found.extend(all[first].get(1).map(|second| format!("{number} and {second} in a row")));
        found.extend(bad.get(1).map(|&second| format!("{number}, later {}", all[second][0])));
        let beside = [
            (!call.tokens.len().is_multiple_of(ROW_TOKEN), format!("{number} and an odd count")),
            (short, format!("{number} and a short total")),
            (wrong_before(call, first), format!("4, later {number}")),
            (low_fits && all.concat().iter().all(|&cause| cause == 13), "13 in more than 32 bits alone".into()),
        ];
        found.extend(beside.into_iter().filter(|fact| fact.0).map(|fact| fact.1))
    }

    #[test]
    fn causes_are_drawn_together() {
        let (mut maker, mut call, mut found) = (Maker::new(), Call::default(), BTreeSet::new());
        for case in 0..20_000 {
            let mut r = Rng::of_case(1, case);
            maker.call_of(&mut r, 1, &mut call);
            several(&mut r, &mut call);
            facts(&call, &mut found)
        }
        let mut missing: Vec<String> = vec!["4 and a short total".into(), "13 in more than 32 bits alone".into()];
        missing.extend([12, 13].map(|second| format!("11 and {second} in a row")));
        for number in [11, 12, 13] {
            missing.extend([11, 12, 13].map(|later| format!("{number}, later {later}")));
            missing.extend(["an odd count", "a short total"].map(|beside| format!("{number} and {beside}")));
            missing.push(format!("4, later {number}"))
        }
        // with a token past the input, the total is not short
        missing.retain(|fact| !found.contains(fact) && fact != "13 and a short total");
        assert_eq!(missing, Vec::<String>::new())
    }
}
