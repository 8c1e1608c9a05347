//! Given files: every offset of each, in one of the settings by turns, and drawn ranges.
use super::asked;
use super::call::QueryCall;
use super::judge::QueryJudge;
use super::{rust, show};
use crate::call::{Call, flat};
use crate::caret::File;
use crate::judge::Input;
use crate::rng::Rng;
use dt_parser_ffi::Query;
use dt_parser_layout::{ENTRY_SOURCE_FILE, SETTING_OLD, SETTING_STRICT, TOKEN_FIRST_LEX_ERROR, TOKEN_LAST_LEX_ERROR};
use dt_parser_layout::{ROW_TOKEN, TREES};
use oracle::case::Case;
use oracle::token;

const GARBAGE: u32 = 0x5A5A5A59;
const RANGES: usize = 50;

/// The number of a kind or a lexical error, by its name or as it is.
fn kind(word: &str) -> Option<u32> {
    let errors = (TOKEN_FIRST_LEX_ERROR..=TOKEN_LAST_LEX_ERROR).filter_map(|n| Some((n, token::kind(n).err()?)));
    let mut named = errors.map(|(n, error)| (n, format!("LexError::{error:?}")));
    let known = token::kinds().iter().find(|kind| format!("{kind:?}") == word).map(|&kind| kind as u32);
    known.or_else(|| named.find(|x| x.1 == word).map(|x| x.0)).or_else(|| word.parse().ok())
}

/// A file of token rows (docs/TOKENS.md); none if its first lines or its rows are not as they should be.
fn of_rows(data: &[u8]) -> Option<Call> {
    let at = data.windows(6).position(|w| w == b"\ntext ")? + 1;
    let front = std::str::from_utf8(&data[..at]).ok()?;
    let end = at + data[at..].iter().position(|&b| b == b'\n')? + 1;
    let mut tokens = vec![];
    for row in front.lines().skip_while(|line| !line.starts_with("rows ")).skip(1) {
        let (name, length) = row.split_once(' ')?;
        tokens.extend([kind(name)?, length.parse().ok()?])
    }
    Some(Call { entry: ENTRY_SOURCE_FILE, tokens, bytes: data[end..].to_vec(), ..Call::default() })
}

fn read(path: &str) -> Call {
    let data = std::fs::read(path).unwrap_or_else(|why| panic!("{path}: {why}"));
    if path.ends_with(".rows") {
        return of_rows(&data).unwrap_or_else(|| panic!("{path}: not a file of token rows"));
    }
    let text = String::from_utf8(data).unwrap_or_else(|why| panic!("{path}: {why}"));
    let (rows, text) = token::rows(&Case::Text(text));
    Call { entry: ENTRY_SOURCE_FILE, tokens: flat(&rows), bytes: text.into_bytes(), ..Call::default() }
}

/// True if no answer differed.
pub fn run(paths: &[String]) -> bool {
    paths.iter().all(|path| file(path, read(path)))
}

fn file(path: &str, parse: Call) -> bool {
    let (mut judge, length) = (QueryJudge::default(), parse.bytes.len());
    let Ok((Input::Parsed, _)) = judge.input(&parse, true) else {
        println!("{path}: not parsed, or the Rust's own answers differ");
        return false;
    };
    let trees = &judge.parse.rows(SETTING_OLD)[TREES];
    if rust::agrees(&parse, &File::new(trees), trees, 0..=length) == Some(false) {
        println!("{path}: the Rust's own search finds another leaf");
        return false;
    }
    let (mut call, mut count) = (QueryCall { parse, ..QueryCall::new(Query::Caret(0)) }, 0);
    for query in queries(path, length as u64) {
        call.query = query;
        count += 1;
        if !one(&mut judge, &mut call, count) {
            println!("{path} differs");
            return show::both(&mut judge, &call);
        }
    }
    let tokens = call.parse.tokens.len() / ROW_TOKEN;
    println!("{path}: {length} bytes, {tokens} tokens, every offset: {count} queries, no difference");
    true
}

/// Every offset, far ones, and ranges that follow from the path.
fn queries(path: &str, length: u64) -> impl Iterator<Item = Query> {
    let mut r = Rng::of_case(1, path.len() as u64);
    let far = asked::offsets(&mut r, length).into_iter().filter(move |&offset| offset > length);
    let ranges: Vec<_> = (0..RANGES).flat_map(|_| asked::ranges(&mut r, length)).collect();
    let carets = (0..=length).chain(far).map(Query::Caret);
    carets.chain(ranges.into_iter().map(|(start, end)| Query::Parts(start, end)))
}

/// Where all just fits.
fn one(judge: &mut QueryJudge, call: &mut QueryCall, count: u64) -> bool {
    call.parse.setting = if count.is_multiple_of(2) { SETTING_OLD } else { SETTING_STRICT };
    call.parse.lengths = judge.parse.needs(call.parse.setting);
    call.room = judge.listed(call.query).len();
    judge.call(call, Input::Parsed, GARBAGE).wrong.is_none()
}
