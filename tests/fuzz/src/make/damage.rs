//! Random damage to a token list or a text.
use super::corpus::{Corpus, Tok, lexical_error};
use crate::rng::Rng;

pub fn tokens(r: &mut Rng, c: &Corpus, t: &mut Vec<Tok>, times: usize) {
    for _ in 0..times {
        let n = t.len();
        let (i, j) = (r.n(n), r.n(n + 1));
        match r.n(9) {
            0 if n > 0 => {
                t.remove(i);
            }
            1 if n > 0 => t.insert(j, t[i]),
            2 if n > 0 => t[i] = c.sample(r),
            3 if n > 1 => t.swap(i, (i + 1) % n),
            4 if n > 0 && r.p(30) => t.truncate(i),
            5 if n > 0 => {
                let part = i..(i + 1 + r.n(8)).min(n);
                copy_part(t, part, j)
            }
            6 if n > 0 => {
                t.drain(i..(i + 1 + r.n(5)).min(n));
            }
            7 if n > 0 => t[i] = Tok { kind: lexical_error(r), ..t[i] },
            _ => t.insert(j, c.sample(r)),
        }
    }
}

/// A copy of a part is put in front of `to`.
fn copy_part(t: &mut Vec<Tok>, part: std::ops::Range<usize>, to: usize) {
    let n = part.len();
    t.extend_from_within(part);
    t[to..].rotate_right(n)
}

/// Damages a text once; the result may not be UTF-8.
pub fn bytes(r: &mut Rng, s: &mut Vec<u8>) {
    let n = s.len();
    if n == 0 {
        return s.push(b';');
    }
    let i = r.n(n);
    match r.n(6) {
        0 => {
            s.drain(i..(i + 1 + r.n(6)).min(n));
        }
        1 => {
            let part = s[i..(i + r.n(20)).min(n)].to_vec();
            let to = r.n(n);
            s.splice(to..to, part);
        }
        2 if r.p(30) => s.truncate(i),
        3 => s.insert(i, r.pick(b"\"'[]/*\\#\xc3\x00")),
        _ => s[i] = r.pick(b";{}<>()=,&@:#/\\\"'[]+-*?! \n1a"),
    }
}
