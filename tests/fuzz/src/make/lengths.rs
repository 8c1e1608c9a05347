//! Lengths of the lent buffers, around what a run needs.
use crate::rng::Rng;
use dt_parser_layout::{
    BUFFERS, ERRORS, Lengths, REPORTS, ROW, ROW_ERROR, ROW_REPORT, ROW_TOKEN, ROW_TREE, TREES, bound,
};

/// For a call that is refused before it is parsed.
pub fn small(r: &mut Rng) -> Lengths {
    std::array::from_fn(|_| if r.p(20) { 0 } else { r.n(40) })
}

/// Of the buffer for a text's tokens, where so many numbers are needed: mostly that, or with room, an odd number too;
/// else too short.
pub fn room(r: &mut Rng, need: usize) -> usize {
    match r.n(20) {
        0..8 => need,
        8..17 => need + slack(r, ROW_TOKEN),
        17 => need.saturating_sub(1),
        18 => need.saturating_sub(ROW_TOKEN),
        _ => r.n(need),
    }
}

/// Of the buffer for a query's list, where so many numbers are needed: exactly that, with room or much of it, or too
/// short.
pub fn list(r: &mut Rng, need: usize) -> usize {
    match r.n(10) {
        0..3 => need,
        3..5 => need + 1 + r.n(6),
        5 => need + 64 + r.n(300),
        6..8 => need.saturating_sub(1),
        8 => 0,
        _ => r.n(need),
    }
}

/// Each buffer has what is needed, or some numbers more.
pub fn fitting(r: &mut Rng, needs: Lengths) -> Lengths {
    if r.p(60) { needs } else { std::array::from_fn(|i| needs[i] + slack(r, ROW[i])) }
}

/// A length below `need`, or `need` if that is 0: one number less, one row less, none, or any.
fn short(r: &mut Rng, need: usize, row: usize) -> usize {
    match r.n(6) {
        0..2 => need.saturating_sub(1),
        2..4 => need.saturating_sub(row),
        4 => r.n(need),
        _ if r.p(30) => 0,
        _ => r.n(need),
    }
}

fn slack(r: &mut Rng, row: usize) -> usize {
    r.pick(&[0, 1, row - 1, row, row + 1, 2 * row, 20])
}

/// The report buffer ends at one of so many reports of labels, the last that the run needs; in half of the draws the
/// tree does not fit either, or there is no room for an event or an expectation more.
pub fn short_of_labels(r: &mut Rng, needs: Lengths, labels: usize) -> Lengths {
    let mut l = needs;
    let fitting = needs[REPORTS] / ROW_REPORT - labels + r.n(labels);
    l[REPORTS] = ROW_REPORT * fitting + r.pick(&[0, 1, ROW_REPORT - 1]);
    match r.n(4) {
        0 => l[TREES] = short(r, needs[TREES], ROW_TREE),
        1 => (0..BUFFERS).filter(|&i| i != REPORTS).for_each(|i| l[i] += slack(r, ROW[i])),
        2 => {
            l[TREES] = r.n(ROW_TREE + 1);
            l[ERRORS] = short(r, needs[ERRORS], ROW_ERROR)
        }
        _ => {}
    }
    l
}

pub fn around(r: &mut Rng, needs: Lengths, tokens: usize) -> Lengths {
    let mut l = needs;
    match r.n(20) {
        0..6 => {}
        6..10 => (0..BUFFERS).for_each(|i| l[i] += slack(r, ROW[i])),
        10..16 => {
            // one of the five is short; one that is needed, if the first draw is not
            let drawn = r.n(BUFFERS);
            let i = (0..BUFFERS).map(|k| (drawn + k) % BUFFERS).find(|&k| needs[k] > 0).unwrap_or(drawn);
            (0..BUFFERS).filter(|&k| k != i).for_each(|k| l[k] += slack(r, ROW[k]));
            l[i] = short(r, needs[i], ROW[i])
        }
        16..18 => {
            for i in 0..BUFFERS {
                l[i] = if r.p(30) { short(r, needs[i], ROW[i]) } else { needs[i] + slack(r, ROW[i]) }
            }
        }
        18 if tokens <= 4 => l = bound(tokens),
        18 => l = needs.map(|n| n + r.n(60)),
        _ => l = small(r),
    }
    l
}
