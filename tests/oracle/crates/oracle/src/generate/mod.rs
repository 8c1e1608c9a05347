//! Random cases. Hand-written; of the repository it uses the kinds' names and the lexer.
use crate::case::Case;
use crate::rng::{STEP, SplitMix64};
use crate::token::fixed_text;
use dt_parser_layout::{ENTRY_CELLS, ENTRY_SOURCE_FILE, TOKEN_FIRST_LEX_ERROR, TOKEN_LAST_LEX_ERROR};

mod big;
mod damage;
mod grammar;
mod samples;
pub use big::big;
pub use samples::{ERROR_SAMPLE, SAMPLES, SNIPPETS};

/// What the cases are drawn from.
pub struct Rng(SplitMix64);

impl Rng {
    pub fn new(seed: u64) -> Self {
        Rng(SplitMix64(seed.wrapping_mul(STEP) ^ 0xD1B54A32D192ED03))
    }
    /// A number below `k`.
    fn n(&mut self, k: usize) -> usize {
        (self.0.next_u64() % k.max(1) as u64) as usize
    }
    /// True in `pct` of a hundred draws.
    fn p(&mut self, pct: usize) -> bool {
        self.n(100) < pct
    }
    fn pick<T: Copy>(&mut self, v: &[T]) -> T {
        v[self.n(v.len())]
    }
}

/// Tokens with their texts.
type Toks = Vec<(u32, String)>;

fn sample(r: &mut Rng) -> (u32, String) {
    let (kind, text) = r.pick(SAMPLES);
    (kind, text.to_string())
}

fn text(t: &Toks) -> String {
    t.iter().map(|x| x.1.as_str()).collect()
}

fn toks(t: &Toks) -> Case {
    Case::Toks(t.iter().map(|x| (x.0, x.1.len())).collect(), text(t).into_bytes())
}

/// What the grammar would give, damaged at up to `most` places.
fn damaged(r: &mut Rng, entry: u32, most: usize) -> Toks {
    let mut t = grammar::tokens(r, entry);
    let times = 1 + r.n(most);
    damage::tokens(r, &mut t, times);
    t
}

/// Tokens from a small random alphabet, as text or as rows.
fn random_tokens(r: &mut Rng) -> Case {
    let alphabet: Toks = (0..2 + r.n(6)).map(|_| sample(r)).collect();
    let t: Toks = (0..r.n(24)).map(|_| alphabet[r.n(alphabet.len())].clone()).collect();
    if r.p(50) { toks(&t) } else { Case::Text(text(&t)) }
}

/// A random lexical error's number.
fn lexical_error(r: &mut Rng) -> u32 {
    TOKEN_FIRST_LEX_ERROR + r.n((TOKEN_LAST_LEX_ERROR - TOKEN_FIRST_LEX_ERROR + 1) as usize) as u32
}

/// Rows that no lexer gives: any kind with any length, error kinds 64 to 74, runs of trivia. Fixed texts stay right.
fn unlexable(r: &mut Rng) -> Case {
    let (mut rows, mut bytes) = (vec![], vec![]);
    for _ in 0..r.n(16) {
        // none but the last is an error
        let (kind, text) = r.pick(&SAMPLES[..SAMPLES.len() - 1]);
        if r.p(25) {
            let n = 1 + r.n(4);
            rows.push((lexical_error(r), n));
            bytes.extend((0..n).map(|_| r.pick(b"?x ;")))
        } else if fixed_text(kind).is_some() {
            rows.push((kind, text.len()));
            bytes.extend_from_slice(text.as_bytes())
        } else {
            let n = 1 + r.n(5);
            rows.push((kind, n));
            bytes.extend((0..n).map(|_| r.pick(b"a1 ;\n")))
        }
    }
    Case::Toks(rows, bytes)
}

/// A value of some property of a realistic file, for the small entries.
fn fragment(r: &mut Rng, file: &str, entry: u32) -> Vec<u8> {
    let value = |l| str::split_once(l, '=').map(|x| x.1.trim());
    let values: Vec<&str> = file.split([';', '\n']).filter_map(value).collect();
    let mut s = if values.is_empty() { b"<1 2>, \"x\"".to_vec() } else { r.pick(&values).as_bytes().to_vec() };
    if entry == ENTRY_CELLS {
        s.retain(|c| !b"<>".contains(c))
    }
    s
}

/// A damaged realistic text.
fn realistic(r: &mut Rng, entry: u32) -> Case {
    let file = r.pick(SNIPPETS);
    let mut s = if entry != ENTRY_SOURCE_FILE && r.p(70) { fragment(r, file, entry) } else { file.as_bytes().to_vec() };
    for _ in 0..r.n(5) {
        damage::bytes(r, &mut s)
    }
    Case::Text(String::from_utf8(s).unwrap())
}

/// One random case, for one entry or for any.
pub fn one(r: &mut Rng, only: Option<u32>) -> (u32, Case) {
    let entry = only.unwrap_or_else(|| r.pick(&[1, 1, 1, 2, 3, 3, 4, 4]));
    let case = match r.n(20) {
        0..4 => Case::Text(text(&grammar::tokens(r, entry))),
        4..10 => Case::Text(text(&damaged(r, entry, 4))),
        10..12 => toks(&damaged(r, entry, 6)),
        12..16 => random_tokens(r),
        16 => unlexable(r),
        _ => realistic(r, entry),
    };
    (entry, case)
}
