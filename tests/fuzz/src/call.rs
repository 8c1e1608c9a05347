//! One call: its input as a line of text and back.
use crate::strict::is_strict;
use dt_parser_layout::{COL_TOKEN_KIND, COL_TOKEN_LENGTH, Lengths, ROW_TOKEN, SETTING_OLD};
use oracle::case::{Rows, esc, parse_rows, rows_words, unesc};

#[derive(Clone, Default, PartialEq)]
pub struct Call {
    pub entry: u32,
    pub setting: u32,
    /// Kind and length of each token, as the call takes them; the count may be odd.
    pub tokens: Vec<u32>,
    pub bytes: Vec<u8>,
    pub lengths: Lengths,
}

pub fn numbers<T: std::str::FromStr>(s: &str) -> Option<Vec<T>> {
    s.split(',').filter(|x| !x.is_empty()).map(|x| x.parse().ok()).collect()
}

/// Token rows as the call takes them.
pub fn flat(rows: &Rows) -> Vec<u32> {
    rows.iter().flat_map(|&(k, n)| [k, n as u32]).collect()
}

impl Call {
    /// `ENTRY caps N,N,N,N,N toks KIND[:LENGTH],.. BYTES`, as the oracle reads it too; with an odd count of token
    /// numbers `.. nums N,.. BYTES`. In the strict setting `ENTRY setting N caps ..`, which the oracle does not have.
    pub fn line(&self) -> String {
        let lengths: Vec<_> = self.lengths.iter().map(usize::to_string).collect();
        let (word, rows) = if self.tokens.len().is_multiple_of(ROW_TOKEN) {
            ("toks", rows_words(&self.rows()))
        } else {
            ("nums", self.tokens.iter().map(u32::to_string).collect::<Vec<_>>().join(","))
        };
        let setting = if is_strict(self.setting) { format!(" setting {}", self.setting) } else { String::new() };
        format!("{}{setting} caps {} {word} {rows} {}", self.entry, lengths.join(","), esc(&self.bytes))
    }

    /// The whole rows, as the oracle takes them.
    pub fn rows(&self) -> Rows {
        let row = |x: &[u32]| (x[COL_TOKEN_KIND], x[COL_TOKEN_LENGTH] as usize);
        self.tokens.chunks_exact(ROW_TOKEN).map(row).collect()
    }

    pub fn read(line: &str) -> Option<Call> {
        let (entry, rest) = line.split_once(' ')?;
        let entry = entry.parse().ok()?;
        let (setting, rest) = match rest.strip_prefix("setting ") {
            Some(rest) => rest.split_once(' ').and_then(|(n, rest)| Some((n.parse().ok()?, rest)))?,
            None => (SETTING_OLD, rest),
        };
        let mut words = rest.splitn(5, ' ');
        if words.next()? != "caps" {
            return None;
        }
        let lengths = numbers(words.next()?)?.try_into().ok()?;
        let (form, rows) = (words.next()?, words.next()?);
        let bytes = unesc(words.next().unwrap_or(""));
        let tokens = match form {
            "nums" => numbers(rows)?,
            "toks" => flat(&parse_rows(rows).filter(|r| r.iter().all(|x| x.1 <= u32::MAX as usize))?),
            _ => return None,
        };
        Some(Call { entry, setting, tokens, bytes, lengths })
    }
}
