//! Cases as lines of text: `ENTRY [caps N,N,N,N,N] (text ESCAPED | toks K[:LEN],.. ESCAPED | file PATH)`.
use dt_parser_layout::{BUFFERS, Lengths};

/// Token rows: kind and length in bytes.
pub type Rows = Vec<(u32, usize)>;

#[derive(Clone)]
pub enum Case {
    /// Text that the lexer reads.
    Text(String),
    /// Ready token rows and the bytes they lie over.
    Toks(Rows, Vec<u8>),
}

/// Lent buffers that hold any answer.
pub const ROOM: Lengths = [usize::MAX; BUFFERS];

pub struct Line {
    pub entry: u32,
    /// What stands after `caps`.
    pub lengths: Option<Lengths>,
    pub case: Case,
}

pub fn esc(b: &[u8]) -> String {
    let mut o = String::new();
    for &c in b {
        match c {
            b'\n' => o.push_str("\\n"),
            b'\t' => o.push_str("\\t"),
            b'\r' => o.push_str("\\r"),
            b'\\' => o.push_str("\\\\"),
            32..=126 => o.push(c as char),
            _ => o.push_str(&format!("\\x{c:02x}")),
        }
    }
    o
}

pub fn unesc(s: &str) -> Vec<u8> {
    let b = s.as_bytes();
    let (mut o, mut i) = (vec![], 0);
    while i < b.len() {
        if b[i] == b'\\' {
            i += 1;
            match b[i] {
                b'n' => o.push(b'\n'),
                b't' => o.push(b'\t'),
                b'r' => o.push(b'\r'),
                b'x' => {
                    o.push(u8::from_str_radix(&s[i + 1..i + 3], 16).unwrap());
                    i += 2
                }
                c => o.push(c),
            }
        } else {
            o.push(b[i])
        }
        i += 1;
    }
    o
}

pub fn case_line(entry: u32, case: &Case) -> String {
    match case {
        Case::Text(t) => format!("{entry} text {}", esc(t.as_bytes())),
        Case::Toks(rows, bytes) => {
            format!("{entry} toks {} {}", rows_words(rows), esc(bytes))
        }
    }
}

/// Lengths of the lent buffers; room enough where no number stands.
pub fn parse_lengths(s: &str) -> Lengths {
    let mut lengths = ROOM;
    for (n, x) in lengths.iter_mut().zip(s.split(',')) {
        *n = x.parse().unwrap_or(usize::MAX)
    }
    lengths
}

/// `KIND:LENGTH,..`, a length of 1 left out.
pub fn rows_words(rows: &[(u32, usize)]) -> String {
    let row = |(k, n): &(u32, usize)| if *n == 1 { format!("{k}") } else { format!("{k}:{n}") };
    rows.iter().map(row).collect::<Vec<_>>().join(",")
}

/// None where a number is missing or too large.
pub fn parse_rows(s: &str) -> Option<Rows> {
    let row = |x: &str| {
        let (k, n) = x.split_once(':').unwrap_or((x, "1"));
        Some((k.parse().ok()?, n.parse().ok()?))
    };
    s.split(',').filter(|x| !x.is_empty()).map(row).collect()
}

fn word(s: &str) -> (&str, &str) {
    s.split_once(' ').unwrap_or((s, ""))
}

/// Reads a line; the entry stands in front unless it is given. None for an empty line and for a remark (`%`).
pub fn parse_line(line: &str, entry: Option<u32>) -> Option<Line> {
    if line.is_empty() || line.starts_with('%') {
        return None;
    }
    let (entry, mut rest) = match entry {
        Some(e) => (e, line),
        None => {
            let (e, rest) = word(line);
            (e.parse().expect("a case starts with its entry"), rest)
        }
    };
    let mut lengths = None;
    if let Some(r) = rest.strip_prefix("caps ") {
        let (numbers, r) = word(r);
        lengths = Some(parse_lengths(numbers));
        rest = r;
    }
    let (what, rest) = word(rest);
    let case = match what {
        "text" => Case::Text(String::from_utf8(unesc(rest)).expect("text must be UTF-8")),
        "file" => Case::Text(std::fs::read_to_string(rest).unwrap()),
        "toks" => {
            let (rows, bytes) = word(rest);
            Case::Toks(parse_rows(rows).expect("KIND:LENGTH,.."), unesc(bytes))
        }
        _ => panic!("text, toks or file: {line}"),
    };
    Some(Line { entry, lengths, case })
}
