//! What random token lists are made of: lexed files, their values, cells and references, and single tokens.
use crate::rng::Rng;
use dt_parser_layout::{ENTRY_CELLS, ENTRY_PROP_VALUES, ENTRY_REFERENCE_NOAMP, ENTRY_SOURCE_FILE};
use dt_parser_layout::{TOKEN_FIRST_LEX_ERROR, TOKEN_LAST_LEX_ERROR};
use oracle::generate::{SAMPLES, SNIPPETS};
use oracle::token::TokenKind::{self, Ampersand, Comma, Equals, LAngle, RAngle, Semicolon, Whitespace};
use oracle::token::{self, code, fixed_text, lexed};

#[derive(Clone, Copy)]
pub struct Tok {
    pub kind: u32,
    pub text: &'static [u8],
}

impl Tok {
    fn is(&self, kind: TokenKind) -> bool {
        self.kind == kind as u32
    }

    fn is_trivia(&self) -> bool {
        token::kind(self.kind).is_ok_and(TokenKind::is_trivia)
    }
}

/// Realistic files beside the oracle's small ones.
const SEEDS: &[&str] = &[
    include_str!("../../seeds/soc.dts"),
    include_str!("../../seeds/board.dts"),
    include_str!("../../seeds/overlay.dts"),
    include_str!("../../seeds/pins.dts"),
    include_str!("../../seeds/expr.dts"),
    include_str!("../../seeds/regulator.dts"),
    include_str!("../../seeds/broken.dts"),
];

/// What a source looks like that a user has.
const EXAMPLES: &[&str] = &[
    include_str!("../../../../examples/board.dts"),
    include_str!("../../../../examples/overlay.dts"),
    include_str!("../../../../examples/labels.dts"),
];

/// Every source as it is.
pub fn sources() -> Vec<&'static str> {
    [SEEDS, EXAMPLES, SNIPPETS].concat()
}

/// Bytes of tokens that have no fixed text.
const FILL: &[u8] = b"ab1 ;\n{\xff\x80x\"0";

pub struct Corpus {
    texts: Vec<&'static str>,
    files: Vec<Vec<Tok>>,
    /// What stands in files between `=` and `;`, between `<` and `>`, and after `&`.
    values: Vec<Vec<Tok>>,
    cells: Vec<Vec<Tok>>,
    references: Vec<Vec<Tok>>,
    samples: Vec<Tok>,
}

fn lex(text: &'static str) -> Vec<Tok> {
    lexed(text).iter().map(|t| Tok { kind: code(&t.kind), text: t.text.as_bytes() }).collect()
}

/// A random lexical error's number.
pub fn lexical_error(r: &mut Rng) -> u32 {
    TOKEN_FIRST_LEX_ERROR + r.n((TOKEN_LAST_LEX_ERROR - TOKEN_FIRST_LEX_ERROR + 1) as usize) as u32
}

/// The parts of files that follow a token of kind `from`, up to one of `to` or 24 tokens.
fn parts(files: &[Vec<Tok>], from: TokenKind, to: &[TokenKind]) -> Vec<Vec<Tok>> {
    let mut out = vec![];
    for file in files {
        for i in (0..file.len()).filter(|&i| file[i].is(from)) {
            let rest = &file[i + 1..];
            let end = rest.iter().position(|t| to.iter().any(|&k| t.is(k))).unwrap_or(rest.len());
            out.push(rest[..end.min(24)].to_vec())
        }
    }
    out
}

impl Corpus {
    pub fn load() -> Self {
        let texts: Vec<&'static str> = SEEDS.iter().chain(SNIPPETS).copied().collect();
        let files: Vec<_> = texts.iter().map(|t| lex(t)).collect();
        let (values, cells) = (parts(&files, Equals, &[Semicolon]), parts(&files, LAngle, &[RAngle]));
        let references = parts(&files, Ampersand, &[Whitespace, Semicolon, RAngle, Comma]);
        let mut samples: Vec<Tok> = SAMPLES.iter().map(|&(kind, s)| Tok { kind, text: s.as_bytes() }).collect();
        let errors = TOKEN_FIRST_LEX_ERROR..=TOKEN_LAST_LEX_ERROR;
        samples.extend(errors.map(|kind| Tok { kind, text: &FILL[..1 + kind as usize % 3] }));
        Corpus { texts, files, values, cells, references, samples }
    }

    pub fn sample(&self, r: &mut Rng) -> Tok {
        r.pick(&self.samples)
    }

    /// One token of that kind.
    pub fn kind(&self, r: &mut Rng, kind: TokenKind) -> Tok {
        let start = r.n(self.samples.len());
        let (after, before) = (&self.samples[start..], &self.samples[..start]);
        *after.iter().chain(before).find(|t| t.is(kind)).expect("a sample of each kind")
    }

    fn list(&self, r: &mut Rng, entry: u32) -> &[Tok] {
        let from = match if r.p(15) { 1 + r.n(4) as u32 } else { entry } {
            ENTRY_REFERENCE_NOAMP => &self.references,
            ENTRY_PROP_VALUES => &self.values,
            ENTRY_CELLS => &self.cells,
            _ => &self.files,
        };
        &from[r.n(from.len())]
    }

    /// A piece of a file, or a part of one that is right for the entry.
    pub fn piece(&self, r: &mut Rng, entry: u32, out: &mut Vec<Tok>) {
        let list = self.list(r, entry);
        let length = match r.n(10) {
            0..6 => 1 + r.n(12),
            6..9 => 1 + r.n(36),
            _ => 1 + r.n(100),
        };
        let start = if list.len() <= length && r.p(80) { 0 } else { r.n(list.len() + 1) };
        let rest = &list[start..];
        out.extend_from_slice(&rest[..length.min(rest.len())]);
        if r.p(25) {
            out.retain(|t| !t.is_trivia())
        }
    }

    pub fn file(&self, r: &mut Rng, out: &mut Vec<Tok>) {
        out.extend_from_slice(&self.files[r.n(self.files.len())])
    }

    /// Tokens of a small random alphabet.
    pub fn random_tokens(&self, r: &mut Rng, out: &mut Vec<Tok>) {
        let size = 2 + r.n(6);
        let alphabet: [Tok; 8] = std::array::from_fn(|_| self.sample(r));
        for _ in 0..r.n(22) {
            out.push(alphabet[r.n(size)])
        }
    }

    /// Any kind with any length where its text is not fixed, and many error tokens.
    pub fn unlexable(&self, r: &mut Rng, out: &mut Vec<Tok>) {
        for _ in 0..r.n(16) {
            let mut t = self.sample(r);
            if r.p(20) {
                t.kind = lexical_error(r)
            }
            if fixed_text(t.kind).is_none() {
                let start = r.n(FILL.len() - 1);
                let length = 1 + r.n((FILL.len() - start).min(5));
                t.text = &FILL[start..start + length.min(FILL.len() - start)]
            }
            out.push(t)
        }
    }

    /// Some lines of a file, or what they assign if the entry is not that of a file.
    pub fn lines(&self, r: &mut Rng, entry: u32) -> &'static str {
        let text: &'static str = self.texts[r.n(self.texts.len())];
        let starts: Vec<usize> = std::iter::once(0).chain(text.match_indices('\n').map(|x| x.0 + 1)).collect();
        let first = r.n(starts.len());
        let last = (first + 1 + r.n(6)).min(starts.len());
        let end = starts.get(last).copied().unwrap_or(text.len());
        let lines = &text[starts[first]..end];
        match lines.split_once('=') {
            Some((_, value)) if entry > ENTRY_SOURCE_FILE && r.p(70) => value.split(';').next().unwrap_or(""),
            _ => lines,
        }
    }
}
