//! Makes the calls that lines of standard input name and prints each answer, with all buffers, as one line of JSON.
//! tools/check-docs asks so for the inputs that documents show.
//!
//! A line: CALL ENTRY SETTING LENGTHS TOKENS BYTES. CALL is `parse`, `text`, `caret:OFFSET` or `parts:START:END`.
//! LENGTHS are those of the five lent buffers and of the token rows' (`text`) or the list's (queries), with commas; `-`
//! is room enough. TOKENS are the numbers of token rows with commas, `none`, or `-` for those that the text has. BYTES
//! are in hexadecimal.
use dt_parser::TokenKind;
use dt_parser_ffi::{Answer, Counts, Lent, Query, parse_lent, parse_text_lent, query_lent};
use dt_parser_layout::*;
use std::io::{BufRead, Write};

/// What each number of a buffer is before a call. No row holds it.
const LENT: u32 = 4042322160;
const ALL: usize = BUFFERS + 1;
const NAMES: [&str; ALL] = ["events", "trees", "errors", "reports", "pool", "list"];
type Buffers = [Vec<u32>; ALL];

struct Call<'a> {
    what: &'a str,
    entry: u32,
    setting: u32,
    bytes: &'a [u8],
    tokens: &'a [u32],
}

fn lend(lengths: [usize; ALL]) -> Buffers {
    lengths.map(|n| vec![LENT; n])
}

/// Buffers in which every call over these bytes and tokens has room. A text has no more tokens than bytes.
fn room(what: &str, bytes: usize, tokens: usize) -> [usize; ALL] {
    let count = if what == "text" { bytes } else { tokens.div_ceil(ROW_TOKEN) };
    let [events, trees, errors, reports, pool] = bound(count);
    let list = match what {
        "parse" => 0,
        "text" => ROW_TOKEN * bytes,
        _ => trees,
    };
    [events, trees, errors, reports, pool, list]
}

/// The answer, and how many rows it has in the sixth buffer.
fn make(call: &Call, buffers: &mut Buffers) -> (Answer, usize) {
    let [events, trees, errors, reports, pool, list] =
        buffers.each_mut().map(|b| Lent { numbers: b.as_mut_ptr(), len: b.len() });
    let lent = [events, trees, errors, reports, pool];
    let query = |query| {
        // Safety: six vectors of those lengths, borrowed alone
        let a = unsafe { query_lent(query, call.setting, call.bytes, call.tokens, lent, list) };
        (a.answer, a.list_count)
    };
    let words: Vec<&str> = call.what.split(':').collect();
    let offset = |i: usize| words[i].parse().expect("an offset");
    match words[0] {
        // Safety: as above
        "parse" => (unsafe { parse_lent(call.entry, call.setting, call.bytes, call.tokens, lent) }, 0),
        "text" => {
            // Safety: as above
            let a = unsafe { parse_text_lent(call.entry, call.setting, call.bytes, list, lent) };
            (a.answer, ROW_TOKEN * a.token_count)
        }
        "caret" => query(Query::Caret(offset(1))),
        "parts" => query(Query::Parts(offset(1), offset(2))),
        other => panic!("no call {other:?}"),
    }
}

/// The tokens of a text as the library reads them: entry 2 opens no call, so that no nesting is refused.
fn plain_tokens(bytes: &[u8]) -> Result<Vec<u32>, Answer> {
    let call = Call { what: "text", entry: ENTRY_REFERENCE_NOAMP, setting: SETTING_OLD, bytes, tokens: &[] };
    let mut buffers = lend(room("text", bytes.len(), 0));
    let (answer, used) = make(&call, &mut buffers);
    if answer.number == ACCEPTED { Ok(buffers[BUFFERS][..used].to_vec()) } else { Err(answer) }
}

/// The kind and length of the directive that stands at the start: one token, up to the end of its line. Of words that
/// begin alike the longest.
fn directive(bytes: &[u8]) -> [u32; ROW_TOKEN] {
    let end = bytes.iter().position(|&b| b == b'\n').unwrap_or(bytes.len());
    let word = bytes[1..end].trim_ascii_start();
    let name = |kind: &TokenKind| kind.preprocessor_directive_name().filter(|n| word.starts_with(n.as_bytes()));
    let kind = TokenKind::ALL.iter().max_by_key(|kind| name(kind).map_or(0, str::len)).expect("kinds");
    [kind.number(), end as u32]
}

/// The tokens of a text that may have directives, at which the library's own reading stops.
fn tokens_of(mut bytes: &[u8]) -> Vec<u32> {
    let mut out = Vec::new();
    loop {
        match plain_tokens(bytes) {
            Ok(rest) => return [out, rest].concat(),
            Err(a) if a.number == REFUSAL_DIRECTIVE => {
                let (before, after) = bytes.split_at(a.place);
                let row = directive(after);
                out.extend(plain_tokens(before).expect("what is before the directive is plain"));
                out.extend(row);
                bytes = &after[row[COL_TOKEN_LENGTH] as usize..];
            }
            Err(a) => panic!("no tokens: refusal {}, place {}", a.number, a.place),
        }
    }
}

/// What stands after the counted rows.
fn rest(after: &[u32]) -> &'static str {
    match after {
        [] => "nothing",
        b if b.iter().all(|&n| n == 0) => "zero",
        b if b.iter().all(|&n| n == LENT) => "as lent",
        _ => "other numbers",
    }
}

fn print(tokens: &[u32], a: Answer, listed: usize, buffers: &Buffers) -> String {
    let [events, trees, errors, reports, pool] = a.used();
    let used = [events, trees, errors, reports, pool, listed];
    let mut out = format!("{{\"number\":{},\"place\":{},\"tokens\":{tokens:?}", a.number, a.place);
    for ((buffer, used), name) in buffers.iter().zip(used).zip(NAMES) {
        out += &format!(",\"{name}\":{:?}", &buffer[..used]);
    }
    let after: Vec<&str> = buffers.iter().zip(used).map(|(b, n)| rest(&b[n..])).collect();
    out + &format!(",\"after\":{after:?}}}")
}

fn bytes_of(hex: &str) -> Vec<u8> {
    (0..hex.len()).step_by(2).map(|i| u8::from_str_radix(&hex[i..i + 2], 16).expect("hexadecimal")).collect()
}

fn asked(line: &str) -> String {
    let words: Vec<&str> = line.split(' ').collect();
    let [what, entry, setting, lengths, tokens, hex] = words[..] else { panic!("not six words: {line}") };
    let number = |text: &str| text.parse::<u32>().expect("a number");
    let bytes = bytes_of(hex);
    let tokens = match tokens {
        "none" => vec![],
        "-" if what == "text" => vec![],
        "-" => tokens_of(&bytes),
        given => given.split(',').map(number).collect(),
    };
    let mut lent = room(what, bytes.len(), tokens.len());
    for (length, given) in lent.iter_mut().zip(lengths.split(',')).filter(|(_, given)| *given != "-") {
        *length = given.parse().expect("a length");
    }
    let mut buffers = lend(lent);
    let call = Call { what, entry: number(entry), setting: number(setting), bytes: &bytes, tokens: &tokens };
    let (answer, listed) = make(&call, &mut buffers);
    print(&tokens, answer, listed, &buffers)
}

fn main() -> std::io::Result<()> {
    let mut out = std::io::BufWriter::new(std::io::stdout().lock());
    for line in std::io::stdin().lock().lines() {
        writeln!(out, "{}", asked(&line?))?
    }
    out.flush()
}
