use super::*;
use crate::call::Call;
use crate::judge::Judge;
use crate::make::Maker;
use crate::rng::Rng;

/// What is pending where these were pushed, by some reading.
type Reading = fn(&[u32]) -> Vec<u32>;

fn right(pushed: &[u32]) -> Vec<u32> {
    Pending::of(pushed).0
}

/// Drops a code if one before it is the same to `key`.
fn by_key(pushed: &[u32], key: impl Fn(u32) -> u32) -> Vec<u32> {
    let mut kept: Vec<u32> = vec![];
    for &code in pushed {
        if kept.iter().all(|&other| key(other) != key(code)) {
            kept.push(code)
        }
    }
    kept
}

fn last_arrivals(pushed: &[u32]) -> Vec<u32> {
    let backwards: Vec<u32> = pushed.iter().rev().copied().collect();
    right(&backwards).into_iter().rev().collect()
}

fn in_order_of_codes(pushed: &[u32]) -> Vec<u32> {
    let mut codes = right(pushed);
    codes.sort();
    codes
}

fn only_neighbours(pushed: &[u32]) -> Vec<u32> {
    let mut codes = pushed.to_vec();
    codes.dedup();
    codes
}

/// A set of 64 bits alone: codes from 101 on are taken for kinds.
fn low_six_bits(pushed: &[u32]) -> Vec<u32> {
    by_key(pushed, |code| code & 63)
}

fn repeats_of_others_kept(pushed: &[u32]) -> Vec<u32> {
    let mut kept = vec![];
    for &code in pushed {
        if code > 100 || !kept.contains(&code) {
            kept.push(code)
        }
    }
    kept
}

const WRONG: [(&str, Reading); 6] = [
    ("last arrivals", last_arrivals),
    ("in the order of codes", in_order_of_codes),
    ("only neighbours dropped", only_neighbours),
    ("by the low six bits", low_six_bits),
    ("repeats of the others kept", repeats_of_others_kept),
    ("all repeats kept", <[u32]>::to_vec),
];

#[test]
fn first_arrivals_keep_their_order() {
    assert_eq!(right(&[29, 29, 2]), [29, 2]);
    assert_eq!(right(&[2, 29, 2]), [2, 29]);
    // Name, Ident and LabelName are three; no list was seen that has two of them
    assert_eq!(right(&[26, 27, 105, 26]), [26, 27, 105])
}

/// `a ;`: at the semicolon by what is pending, and after the last token.
#[test]
fn ranges() {
    let tokens = Tokens::of(&vec![(27, 1), (0, 2), (29, 1)]);
    let range = |mark, pushed: &[u32]| tokens.range(mark, &Pending::of(pushed));
    assert_eq!(range(1, &[29, 29]), (1, 2));
    assert_eq!(range(1, &[2, 29, 2]), (1, 2));
    assert_eq!(range(1, &[29, 2]), (3, 4));
    assert_eq!(range(1, &[]), (3, 4));
    assert_eq!(range(3, &[29]), (3, 4));
    assert_eq!(Tokens::of(&vec![]).range(0, &Pending::of(&[29])), (0, 0))
}

/// Random cases tell each wrong reading from the right one, whose rows are those of the oracle in all of them.
#[test]
fn wrong_readings_give_other_lists() {
    let (mut maker, mut judge, mut call) = (Maker::new(), Judge::default(), Call::default());
    let mut told = WRONG.map(|_| 0);
    for case in 0..20_000 {
        maker.call(&mut Rng::of_case(1, case), &mut call);
        assert!(judge.input(&call, false).is_ok(), "{}", call.line());
        if judge.repeats.longest == 0 {
            continue;
        }
        for_reports(|recorded| {
            let pushed = &recorded.pending;
            for ((_, wrong), told) in WRONG.iter().zip(&mut told) {
                *told += (wrong(pushed) != right(pushed)) as u64
            }
        })
    }
    for ((name, _), told) in WRONG.iter().zip(told) {
        assert!(told > 20, "{name}: {told}")
    }
}
