//! Request 6/14 of document 02, each expectation once, as a plain reading of its words over all that the Rust pushes,
//! which the patched copy records. It shares nothing with the definitions, nor with oracle::once, which makes the rows.
//!
//! "A pending expectation that is already there isn't pushed again; first arrivals keep their order. The row's pool
//! count is the number of different ones. Ranges that look at the pending list see the shortened list .."
use dt_parser_layout::{
    BUFFERS, COL_REPORT_END, COL_REPORT_MARK, COL_REPORT_POOL_COUNT, COL_REPORT_POOL_FIRST, COL_REPORT_START,
    MAX_EXPECTATIONS, POOL, REPORTS, ROW_REPORT,
};
use oracle::case::Rows;
use oracle::doc01::{Recorded, for_reports};
use oracle::token::{self, TokenKind};

const COMMA: u32 = TokenKind::Comma as u32;
const SEMICOLON: u32 = TokenKind::Semicolon as u32;

/// What is pending, in the order of first arrivals.
#[derive(Default)]
struct Pending(Vec<u32>);

impl Pending {
    /// "A pending expectation that is already there isn't pushed again."
    fn push(&mut self, code: u32) {
        if !self.0.contains(&code) {
            self.0.push(code)
        }
    }

    fn of(pushed: &[u32]) -> Self {
        let mut pending = Pending::default();
        pushed.iter().for_each(|&code| pending.push(code));
        pending
    }

    /// Document 01: "if pending is exactly [Semicolon], [Comma] or [Comma, Semicolon]".
    fn is_separators(&self) -> bool {
        matches!(self.0[..], [SEMICOLON] | [COMMA] | [COMMA, SEMICOLON])
    }
}

/// A file's tokens, for the ranges of reports: start and end of each, and whether it is trivia.
struct Tokens(Vec<(u32, u32, bool)>);

impl Tokens {
    fn of(rows: &Rows) -> Self {
        let mut end = 0;
        let token = |&(kind, length): &(u32, usize)| {
            let start = end;
            end += length as u32;
            (start, end, token::kind(kind).is_ok_and(TokenKind::is_trivia))
        };
        Tokens(rows.iter().map(token).collect())
    }

    /// Document 01: "at the end of input the last token's final byte, or 0..0 without tokens; else, if pending is ..,
    /// one byte at the start of the raw token after the last one taken; else the current token".
    fn range(&self, mark: usize, pending: &Pending) -> (u32, u32) {
        let current = self.0[mark..].iter().find(|token| !token.2);
        match (current, self.0.last()) {
            (None, None) => (0, 0),
            (None, Some(&(_, end, _))) => (end - 1, end),
            (Some(_), _) if pending.is_separators() => (self.0[mark].0, self.0[mark].0 + 1),
            (Some(&(start, end, _)), _) => (start, end),
        }
    }
}

/// Figures of one run or of many.
#[derive(Clone, Copy, Default)]
pub struct Repeats {
    /// Reports whose list the Rust had with repeats.
    pub reports: u64,
    /// The longest list of the Rust, with repeats; and the longest one that a row has.
    pub longest: usize,
    pub most: usize,
}

impl Repeats {
    pub fn add(&mut self, other: Repeats) {
        self.reports += other.reports;
        self.longest = self.longest.max(other.longest);
        self.most = self.most.max(other.most)
    }

    fn list(&mut self, pushed: usize, listed: usize) {
        self.add(Repeats { reports: (pushed > listed) as u64, longest: pushed, most: listed })
    }
}

/// Whether the report rows and the pool of the run that was last recorded are as the request has them: of each report
/// the range, and its part of the pool. None if not.
pub fn read(rows: &[Vec<u32>; BUFFERS], toks: &Rows) -> Option<Repeats> {
    let (tokens, mut repeats) = (Tokens::of(toks), Repeats::default());
    let (mut reports, mut pool) = (rows[REPORTS].chunks_exact(ROW_REPORT), &rows[POOL][..]);
    let (mut first, mut right) = (0, true);
    for_reports(|recorded| {
        let pending = Pending::of(&recorded.pending);
        let listed = if recorded.lists { &pending.0[..] } else { &[] };
        right &= reports.next().is_some_and(|row| is_right(row, recorded, &tokens, &pending, first, listed.len()));
        right &= listed.len() <= MAX_EXPECTATIONS && pool.starts_with(listed);
        pool = pool.get(listed.len()..).unwrap_or(&[]);
        first += listed.len();
        if recorded.lists {
            repeats.list(recorded.pending.len(), listed.len())
        }
    });
    (right && reports.next().is_none() && pool.is_empty()).then_some(repeats)
}

fn is_right(row: &[u32], recorded: &Recorded, tokens: &Tokens, pending: &Pending, first: usize, count: usize) -> bool {
    let range = (row[COL_REPORT_START], row[COL_REPORT_END]);
    let numbers = [COL_REPORT_MARK, COL_REPORT_POOL_FIRST, COL_REPORT_POOL_COUNT].map(|column| row[column] as usize);
    range == tokens.range(recorded.mark, pending) && numbers == [recorded.mark, first, count]
}

#[cfg(test)]
mod tests;
