//! Two heads that end in a semicolon, and a tail: two source files that agree after these semicolons.
use crate::call::Call;
use crate::make::Maker;
use crate::rng::Rng;
use dt_parser_layout::{COL_TOKEN_KIND, COL_TOKEN_LENGTH, ENTRY_SOURCE_FILE, ROW_TOKEN, bound};
use oracle::case::Case;
use oracle::token::{self, TokenKind};

/// The most tokens of a drawn head, and of a tail.
const MOST: usize = 60;

/// What can end a head: properties, nodes and directives, with labels that the strict setting reports among them.
const STATEMENTS: [&str; 10] = [
    "a;",
    "a,b-c=<1 (2+3)>,\"s\";",
    "/{};",
    "/ {\n\ta;\n\tb { };\n};",
    "x: &a{b;};",
    "1a:n@0{p=<&2b>;};",
    "/dts-v1/;",
    "/memreserve/ 1 2;",
    "/delete-node/ &a;",
    "#if A\nb;\n#endif\nc;",
];

/// A token's kind and text.
type Token = (u32, Vec<u8>);

#[derive(Clone, PartialEq)]
pub struct Pair {
    /// The last token of each is a semicolon.
    heads: [Vec<Token>; 2],
    tail: Vec<Token>,
}

fn tokens_of(numbers: &[u32], mut bytes: &[u8]) -> Vec<Token> {
    let token = |row: &[u32]| {
        let (text, rest) = bytes.split_at(row[COL_TOKEN_LENGTH] as usize);
        bytes = rest;
        (row[COL_TOKEN_KIND], text.to_vec())
    };
    numbers.chunks_exact(ROW_TOKEN).map(token).collect()
}

fn statement(r: &mut Rng) -> Vec<Token> {
    let (rows, text) = token::rows(&Case::Text(r.pick(&STATEMENTS).into()));
    tokens_of(&crate::call::flat(&rows), text.as_bytes())
}

fn drawn(r: &mut Rng, maker: &mut Maker) -> Vec<Token> {
    let mut call = Call::default();
    maker.good_file(r, MOST, &mut call);
    tokens_of(&call.tokens, &call.bytes)
}

/// A file up to one of its semicolons, a file with a statement after it, or statements.
fn head(r: &mut Rng, maker: &mut Maker) -> Vec<Token> {
    let mut head = drawn(r, maker);
    let is_semicolon = |&i: &usize| head[i].0 == TokenKind::Semicolon as u32;
    let semicolons: Vec<usize> = (0..head.len()).filter(is_semicolon).collect();
    match r.n(10) {
        0..5 if !semicolons.is_empty() => head.truncate(r.pick(&semicolons) + 1),
        0..7 => head.extend(statement(r)),
        _ => head = (0..=r.n(3)).flat_map(|_| statement(r)).collect(),
    }
    head
}

impl Pair {
    pub fn draw(r: &mut Rng, maker: &mut Maker) -> Pair {
        let (heads, mut tail) = ([head(r, maker), head(r, maker)], drawn(r, maker));
        if r.p(40) {
            tail.drain(..r.n(tail.len() + 1));
        }
        Pair { heads, tail }
    }

    /// One of the two files as a call, in buffers with room for all and some numbers more.
    pub fn call(&self, which: usize, setting: u32, more: usize) -> Call {
        let mut call = Call { entry: ENTRY_SOURCE_FILE, setting, ..Call::default() };
        for (kind, text) in self.heads[which].iter().chain(&self.tail) {
            call.tokens.extend([*kind, text.len() as u32]);
            call.bytes.extend_from_slice(text)
        }
        call.lengths = bound(call.tokens.len() / ROW_TOKEN).map(|length| length + more);
        call
    }

    /// Token index and start of a head's last semicolon.
    pub fn semicolon(&self, which: usize) -> (u32, u32) {
        let before = &self.heads[which][..self.heads[which].len() - 1];
        (before.len() as u32, before.iter().map(|token| token.1.len() as u32).sum())
    }

    /// The pair without one token, for each but the two semicolons.
    pub fn smaller(&self) -> impl Iterator<Item = Pair> {
        let heads = (0..2).flat_map(|which| (0..self.heads[which].len() - 1).map(move |at| (which, at)));
        let tails = (0..self.tail.len()).map(|at| (2, at));
        heads.chain(tails).map(|(which, at)| {
            let mut pair = self.clone();
            if which == 2 {
                pair.tail.remove(at)
            } else {
                pair.heads[which].remove(at)
            };
            pair
        })
    }
}
