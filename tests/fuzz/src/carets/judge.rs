//! One query against the reading of its request (../caret.rs) over the Rust's tree: the answer and every buffer whole.
use super::call::QueryCall;
use super::rust;
use crate::buffers::{Buffer, Held};
use crate::call::Call;
use crate::caret::File;
use crate::judge::{Input, Judge, Wrong, is_early};
use crate::parent;
use crate::unchanged::Unchanged;
use dt_parser_ffi::{self as ffi, Answer, ListAnswer, Query};
use dt_parser_layout::{ACCEPTED, REFUSAL_NO_TREE_ROOM, SETTING_OLD, TREES};

/// At about so many offsets of a longer file, and at every one of a shorter file, the Rust's own search is asked too.
const OFFSETS: usize = 400;

#[derive(Default)]
pub struct QueryJudge {
    /// The parse of the file.
    pub parse: Judge,
    /// Its tree, if it was parsed.
    file: Option<File>,
    pub list: Buffer,
    tokens: Vec<u32>,
    bytes: Vec<u8>,
}

/// What is expected of a query.
#[derive(Default)]
pub struct Expected {
    pub answer: ListAnswer,
    /// The rows, where they are given.
    pub rows: Vec<u32>,
}

pub struct QueryVerdict {
    pub expected: Expected,
    pub given: ListAnswer,
    pub wrong: Option<Wrong>,
}

impl QueryJudge {
    /// What is known of a file before something is asked: a refusal, or the Rust's run; `also`: the unchanged Rust too.
    pub fn input(&mut self, parse: &Call, also: bool) -> Result<(Input, Option<Unchanged>), Wrong> {
        let known = self.parse.input(parse, also)?;
        let trees = &self.parse.rows(SETTING_OLD)[TREES];
        self.file = matches!(known.0, Input::Parsed).then(|| File::new(trees));
        let length = parse.bytes.len();
        let offsets = (0..=length).step_by(1 + length / OFFSETS);
        let own = self.file.as_ref().filter(|_| also).map(|file| rust::agrees(parse, file, trees, offsets));
        if own == Some(Some(false)) { Err(Wrong::Finder) } else { Ok(known) }
    }

    /// How many labels the strict setting reports.
    pub fn labels(&self) -> usize {
        self.file.as_ref().map_or(0, |_| self.parse.broken.len())
    }

    /// The rows that a query lists, if the file is parsed.
    pub fn listed(&self, query: Query) -> Vec<u32> {
        self.file.as_ref().map_or(vec![], |file| file.listed(query))
    }

    /// The parse's refusals first; then "a list that doesn't fit is refusal 8".
    pub fn expected(&self, input: Input, call: &QueryCall) -> Expected {
        let answer = self.parse.expected(input, &call.parse);
        let without_list = |answer| Expected { answer: ListAnswer { answer, list_count: 0 }, rows: vec![] };
        if answer.number != ACCEPTED {
            return without_list(answer);
        }
        let rows = self.listed(call.query);
        if rows.len() > call.room {
            return without_list(Answer { number: REFUSAL_NO_TREE_ROOM, ..Answer::default() });
        }
        Expected { answer: ListAnswer { answer, list_count: rows.len() }, rows }
    }

    /// What the buffer of the list must hold beside that answer.
    pub fn held_list<'a>(&self, expected: &'a Expected) -> Held<&'a [u32]> {
        match expected.answer.answer.number {
            ACCEPTED => Held::Rows(&expected.rows),
            n if is_early(n) => Held::AsItWas,
            _ => Held::Zero,
        }
    }

    /// Calls the library over garbage that starts with that number, and compares.
    pub fn call(&mut self, call: &QueryCall, input: Input, garbage: u32) -> QueryVerdict {
        let (expected, parse) = (self.expected(input, call), &call.parse);
        self.parse.buffers.fill(parse.lengths, garbage);
        self.list.fill(call.room, garbage ^ 0x55AA_0000);
        self.tokens.clone_from(&parse.tokens);
        self.bytes.clone_from(&parse.bytes);
        let null = garbage & 2 == 0;
        let (lent, list) = (self.parse.buffers.lent(null), self.list.lent(null));
        // Safety: each lent buffer has its length, and they are six vectors
        let given = unsafe { ffi::query_lent(call.query, parse.setting, &self.bytes, &self.tokens, lent, list) };
        let answer = expected.answer.answer;
        let wrong = if given != expected.answer {
            Some(Wrong::Answer)
        } else if self.tokens != parse.tokens || self.bytes != parse.bytes {
            Some(Wrong::Input)
        } else if !self.list.is_right(self.held_list(&expected)) {
            Some(Wrong::List)
        } else if answer.number == ACCEPTED && !self.agree(call.query, expected.answer) {
            Some(Wrong::Parents("the list of the query has other parents"))
        } else {
            self.parse.wrong_buffer(parse.setting, answer)
        };
        QueryVerdict { expected, given, wrong }
    }

    /// Whether the library's list and the parents in its rows agree.
    fn agree(&self, query: Query, given: ListAnswer) -> bool {
        parent::agrees(self.parse.written_trees(given.answer), query, &self.list.get()[..given.list_count])
    }

    /// Everything for a call whose buffers are chosen.
    pub fn whole(&mut self, call: &QueryCall, also: bool) -> QueryVerdict {
        match self.input(&call.parse, also) {
            Ok((input, _)) => self.call(call, input, 0x5A5A5A59),
            Err(wrong) => {
                QueryVerdict { expected: Expected::default(), given: ListAnswer::default(), wrong: Some(wrong) }
            }
        }
    }
}
