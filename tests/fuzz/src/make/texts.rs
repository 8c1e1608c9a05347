//! Random texts for the text entry.
use super::{Maker, corpus, damage, limits};
use crate::call::Call;
use crate::rng::Rng;
use crate::text::is_directive;

/// The ways of making a text, with how many of a thousand are made so.
const WAYS: &[(&str, usize)] = &[
    ("pieces of sources", 280),
    ("telling pieces", 230),
    ("bytes of token lists", 180),
    ("numbers", 90),
    ("a few telling bytes", 90),
    ("any bytes", 60),
    ("line ends, comments and quotes", 60),
    ("whole sources", 10),
];

/// Where a token could be cut otherwise, or a word be taken for a directive.
#[rustfmt::skip]
const PIECES: &[&str] = &[
    "a", "_", "x1", "u8", "l", "ul", "e", "f", ".", "#", "#a", "#address-cells", "#size-cells", "a,b", "a-b", "]", "`",
    "$", "\u{0}", "\u{1}", "\u{7f}", "0", "1", "9", "0x", "0X1f", "0x_", "0xg", "0b", "0B1", "0b12", "0b2", "0o", "0O7",
    "0o78", "08", "1_", "1__0", "1u", "1u1", "1ul8", "1lul", "1i128", "1u12", "1U8", "0x1u8", "0xfu64", "1LLU", "1uLL",
    "1lLu", "1ull", "/bits/", "/omit-if-no-ref/", "/include/", "/memreserve/", "/delete-node/", "/delete-property/",
    "/dts-v1/", "/plugin/", "/bits", "/bit/", "/delete-", "/delete-node", "/dts-v", "/i", "/omit-if-no-ref", "/*", "*/",
    "/**/", "/*/", "/***/", "//", "//\r", "// a\n", "//\\\n", "/", "*", "\"", "\"a\"", "\"\\\"\"", "\"\\\\\"", "\"\\",
    "'", "'a'", "'\\''", "'\\\\'", "'\\", "[", "[00]", "[a\n]", "\\]", " ", "\t", "\n", "\r", "\r\n", "\\\n", "\\\r\n",
    "\\\r", "\\", "\\\\", "\\\\\n", "\\ \n", "#if", "# if", "#\tif", "# \t if", "#ifdef", "#ifndef", "#iface-cells",
    "#elif", "#else", "#elsewhere", "#endif", "#pragma", "#define", "#undef", "#include", "#error", "#i", "#e", "#el",
    "#en", "#er", "#in", "#un", "#de", "#p", "#IF", "#\nif", "#\rif", "#\\\nif", "#/**/if", "##if", "# #if", "#_if",
    "#\u{b}if", "if", "else", "=", ";", "&", ":", "@", "{", "}", "<", ">", "(", ")", "+", "-", "%", "|", "^", "~", "<<",
    ">>", "&&", "||", "!", "<=", ">=", "==", "!=", "?", "<<=", ">>=", "===", "!==", "&&&", "|||", "a=<1>;", "b{};",
    "&c{", "};", "/{", "l:n@1{", "1l:", "&{/a", "=<", ">;", "(1+2)", ",",
];

/// Directives, to be put into other texts.
const DIRECTIVES: &[&str] = &[
    "#if",
    "\n#if 0\n",
    "# if",
    "#\t\telif",
    "#else\n",
    "\n#endif",
    "#pragma",
    "#define a",
    "#undef",
    "#include <a>",
    "# error",
    "\n#ifdef A\n",
];

const LINE_ENDS: &[&str] = &[
    "\r", "\n", "\r\n", "\\", "\\\n", "\\\r\n", "\\\r", " ", "\t", "//", "/*", "*/", "*", "/", "\"", "'", "[", "]",
    "a", "//a", "#", "if", ";",
];

/// Bytes that rules name, and some beside them.
const TELLING: &[u8] = b"0178xXbBoOuUlLi_afFeg#/*\\\r\n\t \"'[]&<>=;:,-+!|~^@{}().?%1264\x00\x01\x7f";

const BASES: &[&str] = &["", "", "0", "0x", "0X", "0b", "0B", "0o", "0O", "00"];
const SUFFIXES: &[&str] = &[
    "", "u", "U", "l", "L", "ul", "UL", "uLl", "ull", "lu", "LLU", "lul", "u8", "u16", "i32", "u64", "i128", "u1",
    "u12", "i", "i6", "U8", "I8", "lll", "uu", "ulul", "lu8",
];
const BETWEEN: &[&str] = &["", "", " ", ",", "-", "_", ";", "a", "\n", "/"];

pub fn ways() -> impl Iterator<Item = &'static str> {
    WAYS.iter().map(|w| w.0)
}

pub struct TextMaker {
    maker: Maker,
    call: Call,
    sources: Vec<&'static str>,
    /// The same without lines that are directives.
    plain: Vec<String>,
}

/// The text without the lines that start with a directive.
fn without_directives(text: &str) -> String {
    text.split_inclusive('\n').filter(|line| !is_directive(line.trim_start().as_bytes())).collect()
}

/// Some of these, one after the other.
fn joined(r: &mut Rng, pieces: &[&str], most: usize, out: &mut Vec<u8>) {
    for _ in 0..r.n(most + 1) {
        out.extend_from_slice(r.pick(pieces).as_bytes())
    }
}

fn numbers(r: &mut Rng, out: &mut Vec<u8>) {
    for _ in 0..1 + r.n(5) {
        out.extend_from_slice(r.pick(BASES).as_bytes());
        let digits: &[u8] = r.pick(&[b"01" as &[u8], b"01_", b"017_", b"0189_", b"09afAF_", b"12468uUlLi_x"]);
        for _ in 0..r.n(6) {
            out.push(r.pick(digits))
        }
        out.extend_from_slice(r.pick(SUFFIXES).as_bytes());
        out.extend_from_slice(r.pick(BETWEEN).as_bytes())
    }
}

/// Bytes of a small random alphabet.
fn few(r: &mut Rng, out: &mut Vec<u8>) {
    let size = 2 + r.n(6);
    let alphabet: [u8; 8] = std::array::from_fn(|_| r.pick(TELLING));
    for _ in 0..r.n(24) {
        out.push(alphabet[r.n(size)])
    }
}

fn any(r: &mut Rng, out: &mut Vec<u8>) {
    let below = if r.p(85) { 128 } else { 256 };
    for _ in 0..r.n(24) {
        out.push(r.n(below) as u8)
    }
}

fn put(r: &mut Rng, text: &mut Vec<u8>, piece: &[u8]) {
    let at = r.n(text.len() + 1);
    text.splice(at..at, piece.iter().copied());
}

impl TextMaker {
    pub fn new() -> Self {
        let sources = corpus::sources();
        let plain = sources.iter().map(|s| without_directives(s)).collect();
        TextMaker { maker: Maker::new(), call: Call::default(), sources, plain }
    }

    /// An entry and a text, and the number of the way that made it.
    pub fn call(&mut self, r: &mut Rng, entry: &mut u32, text: &mut Vec<u8>) -> usize {
        *entry = r.pick(&[1, 1, 1, 1, 2, 3, 3, 4, 4]);
        let way = self.text(r, *entry, text);
        if r.n(80) == 0 {
            *entry = super::bad::entry(r)
        }
        if r.n(20_000) == 0 {
            limits::huge_text(r, text)
        }
        way
    }

    /// A text for the entry, and its way.
    pub fn text(&mut self, r: &mut Rng, entry: u32, text: &mut Vec<u8>) -> usize {
        text.clear();
        let way = super::drawn_way(r, WAYS);
        match way {
            0 => self.piece(r, text),
            1 => joined(r, PIECES, 12, text),
            2 => self.token_list(r, entry, text),
            3 => numbers(r, text),
            4 => few(r, text),
            5 => any(r, text),
            6 => joined(r, LINE_ENDS, 14, text),
            _ => text.extend_from_slice(self.source(r).as_bytes()),
        }
        let times = match way {
            0 | 7 if r.p(60) => r.n(5),
            2 if r.p(30) => r.n(3),
            _ if r.p(15) => 1,
            _ => 0,
        };
        (0..times).for_each(|_| damage::bytes(r, text));
        if r.p(12) {
            let piece = r.pick(PIECES);
            put(r, text, piece.as_bytes())
        }
        if r.p(4) {
            let piece = r.pick(DIRECTIVES);
            put(r, text, piece.as_bytes())
        }
        if r.p(4) {
            let byte = r.pick(&[128, 129, 0xc3, 0xe2, 0xff]);
            put(r, text, &[byte])
        }
        way
    }

    fn source(&self, r: &mut Rng) -> &str {
        let i = r.n(self.sources.len());
        if r.p(85) { &self.plain[i] } else { self.sources[i] }
    }

    fn piece(&self, r: &mut Rng, text: &mut Vec<u8>) {
        let source = self.source(r).as_bytes();
        let length = match r.n(10) {
            0..5 => r.n(24),
            5..9 => r.n(90),
            _ => r.n(400),
        };
        let start = r.n(source.len() + 1);
        let rest = &source[start..];
        text.extend_from_slice(&rest[..length.min(rest.len())])
    }

    /// What stands under the token rows of a call that `Maker` draws: expressions, labels, nesting and so on.
    fn token_list(&mut self, r: &mut Rng, entry: u32, text: &mut Vec<u8>) {
        self.maker.call_of(r, entry, &mut self.call);
        text.extend_from_slice(&self.call.bytes)
    }
}
