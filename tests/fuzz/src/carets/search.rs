//! Whether a file differs in anything that is asked of it, so that a file that does can be made small.
use super::asked;
use super::call::QueryCall;
use super::judge::QueryJudge;
use crate::call::Call;
use crate::judge::{Input, Judge};
use crate::rng::Rng;
use crate::shrink::Differs;

/// Garbage that the buffers start with.
const GARBAGE: u32 = 0x5A5A5A59;

pub struct Search {
    pub judge: QueryJudge,
    /// The last query that differed.
    pub found: QueryCall,
}

impl Search {
    pub fn new(judge: QueryJudge, found: QueryCall) -> Search {
        Search { judge, found }
    }

    /// Whether a query differs where the list's buffer has room, just fits, is one number short, or has none.
    fn in_some_room(&mut self, input: Input, call: &mut QueryCall) -> bool {
        let rows = self.judge.listed(call.query).len();
        let rooms = [call.room, rows + 4, rows, rows.saturating_sub(1), 0];
        rooms.into_iter().any(|room| {
            call.room = room;
            self.judge.call(call, input, GARBAGE).wrong.is_some()
        })
    }
}

impl Differs for Search {
    fn judge(&mut self) -> &mut Judge {
        &mut self.judge.parse
    }

    /// The query that differed last is tried first, as it was.
    fn differs(&mut self, parse: &Call) -> bool {
        let mut call = QueryCall { parse: parse.clone(), ..self.found.clone() };
        let Ok((input, _)) = self.judge.input(parse, true) else {
            self.found = call;
            return true;
        };
        let queries = asked::queries(&mut Rng::of_case(1, 0), parse.bytes.len() as u64);
        let found = [call.query].into_iter().chain(queries).any(|query| {
            call.query = query;
            self.in_some_room(input, &mut call)
        });
        if found {
            self.found = call
        }
        found
    }
}
