//! Random damage to a token list or a text.
use super::{Rng, SAMPLES, Toks, sample};

pub fn tokens(r: &mut Rng, t: &mut Toks, times: usize) {
    for _ in 0..times {
        let n = t.len();
        match r.n(7) {
            0 if n > 0 => {
                t.remove(r.n(n));
            }
            1 if n > 0 => {
                let i = r.n(n);
                t.insert(i, t[i].clone());
            }
            2 if n > 0 => {
                let i = r.n(n);
                t[i] = sample(r);
            }
            3 if n > 1 => {
                let i = r.n(n - 1);
                t.swap(i, i + 1);
            }
            4 if n > 0 && r.p(40) => t.truncate(r.n(n)),
            5 if n > 1 => {
                let (i, j) = (r.n(n), r.n(n));
                let (from, to) = (i.min(j), i.max(j).min(i.min(j) + 6));
                let cut = t[from..to].to_vec();
                let at = r.n(n + 1);
                t.splice(at..at, cut);
            }
            _ => {
                let i = r.n(n + 1);
                t.insert(i, sample(r))
            }
        }
    }
}

/// Damages an ASCII text at one place.
pub fn bytes(r: &mut Rng, s: &mut Vec<u8>) {
    let n = s.len();
    if n == 0 {
        return;
    }
    let i = r.n(n);
    match r.n(6) {
        0 => {
            let j = (i + 1 + r.n(6)).min(n);
            s.drain(i..j);
        }
        1 => {
            let text = r.pick(SAMPLES).1;
            s.splice(i..i, text.bytes());
        }
        2 => {
            let cut = s[i..(i + r.n(30)).min(n)].to_vec();
            let to = r.n(n);
            s.splice(to..to, cut);
        }
        3 if r.p(30) => s.truncate(i),
        4 => {
            s.remove(i);
        }
        _ => s[i] = r.pick(b";{}<>()=,&@:#/\\\"'[]+-*?! \n1a"),
    }
}
