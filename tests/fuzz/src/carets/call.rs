//! One query: as a line and back.
use crate::call::Call;
use dt_parser_ffi::Query;

#[derive(Clone, PartialEq)]
pub struct QueryCall {
    pub query: Query,
    /// Length of the buffer that is lent for the list, in numbers.
    pub room: usize,
    /// The parse of the file.
    pub parse: Call,
}

impl QueryCall {
    pub fn new(query: Query) -> QueryCall {
        QueryCall { query, room: 0, parse: Call::default() }
    }

    /// `at OFFSET room N CALL` or `from START to END room N CALL`, the call as a line of its own.
    pub fn line(&self) -> String {
        let query = match self.query {
            Query::Caret(offset) => format!("at {offset}"),
            Query::Parts(start, end) => format!("from {start} to {end}"),
        };
        format!("{query} room {} {}", self.room, self.parse.line())
    }

    pub fn read(line: &str) -> Option<QueryCall> {
        let (query, rest) = line.split_once(" room ")?;
        let words: Vec<_> = query.split(' ').collect();
        let query = match words[..] {
            ["at", offset] => Query::Caret(offset.parse().ok()?),
            ["from", start, "to", end] => Query::Parts(start.parse().ok()?, end.parse().ok()?),
            _ => return None,
        };
        let (room, parse) = rest.split_once(' ')?;
        Some(QueryCall { query, room: room.parse().ok()?, parse: Call::read(parse)? })
    }
}
