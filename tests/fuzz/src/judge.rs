//! One call against the Rust, in the strict setting with the reports that it lacks: the answer and every buffer whole.
use crate::buffers::{Buffers, Held};
use crate::call::Call;
use crate::once::{self, Repeats};
use crate::parent;
use crate::row_causes;
use crate::strict::{self, Broken, is_strict};
use crate::unchanged::Unchanged;
use dt_parser_ffi::{self as ffi, Answer, Counts};
use dt_parser_layout::{
    ACCEPTED, BUFFERS, Lengths, POOL, REFUSAL_NO_TREE_ROOM, REFUSAL_TOO_DEEP, REPORTS, ROW_REPORT, ROW_TREE, TREES,
};
use oracle::checks::refusal;
use oracle::doc01::{Run, first_misfit};
use oracle::token::ascii;

#[derive(Default)]
pub struct Judge {
    run: Run,
    /// Of the run: how many lists the Rust had with repeats.
    pub repeats: Repeats,
    /// The labels of the run that the strict setting reports, and what an accepted call then writes.
    pub broken: Vec<Broken>,
    strict_rows: [Vec<u32>; BUFFERS],
    pub buffers: Buffers,
    tokens: Vec<u32>,
    bytes: Vec<u8>,
}

/// What is known of a call before its buffers are chosen.
#[derive(Clone, Copy)]
pub enum Input {
    /// One of causes 1 to 4 and 11 to 13, and its place.
    Bad(u32, usize),
    /// It was parsed; `Judge::run` has what came out.
    Parsed,
}

/// What was wrong.
#[derive(Clone, Debug, PartialEq)]
pub enum Wrong {
    Answer,
    /// Which buffer.
    Buffer(usize),
    /// The buffer of a text's tokens.
    Tokens,
    /// The buffer of a query's list.
    List,
    /// The bytes or the tokens were written to.
    Input,
    /// The parents in the tree rows are not as request 7/14 has them, by the rows alone; or a list and they disagree.
    Parents(&'static str),
    /// The unchanged Rust and the patched copy differ, or a list in a text of the unchanged one and the pool, or the
    /// parents in its rows and in its red tree.
    Oracle,
    /// The rows and what request 6/14 makes of all that the Rust pushed differ: a list, its place or a range.
    Lists,
    /// The Rust's own search for what stands at an offset and the reading of request 5/14 differ.
    Finder,
    /// Document 01's cause 3 and what request 4/14 makes of it are not related as the request says.
    Readings,
    /// The patched copy panicked.
    Panic(String),
}

impl Wrong {
    /// What to say of what was found before the library was called; none of what the call did.
    pub fn before_call(&self) -> Option<String> {
        Some(match self {
            Wrong::Panic(text) => format!("the patched Rust panics: {text}"),
            Wrong::Oracle => "the unchanged Rust differs from the patched copy, the pool or the parents in rows".into(),
            Wrong::Lists => "the rows and what request 6/14 makes of the Rust's lists do not agree".into(),
            Wrong::Readings => "the readings of bad rows by document 01 and by request 4/14 do not agree".into(),
            Wrong::Finder => "the Rust's own search finds another leaf at one of the offsets".into(),
            Wrong::Answer | Wrong::Buffer(_) | Wrong::Tokens | Wrong::List | Wrong::Input | Wrong::Parents(_) => {
                return None;
            }
        })
    }
}

/// A cause that is met before a parse and leaves every buffer as it was: each but 5 to 8.
pub fn is_early(number: u32) -> bool {
    number != ACCEPTED && !(REFUSAL_TOO_DEEP..=REFUSAL_NO_TREE_ROOM).contains(&number)
}

pub struct Verdict {
    pub expected: Answer,
    pub given: Answer,
    pub wrong: Option<Wrong>,
}

impl Judge {
    /// Causes 1 to 4 and 11 to 13, else the Rust's run; `also`: the unchanged Rust too.
    pub fn input(&mut self, call: &Call, also: bool) -> Result<(Input, Option<Unchanged>), Wrong> {
        let refused = refusal(call.entry, &call.bytes, &call.tokens);
        let before = row_causes::before(call.entry, &call.bytes, &call.tokens);
        if !row_causes::are_related(&call.tokens, before, refused) {
            return Err(Wrong::Readings);
        }
        if let Some((number, place)) = refused {
            self.repeats = Repeats::default();
            return Ok((Input::Bad(number, place), None));
        }
        // the Rust takes text, and a row may cut a character
        let (entry, rows, text) = (call.entry, &call.rows(), &ascii(&call.bytes));
        let parsed = self.run.of(entry, rows, text, false).map_err(Wrong::Panic)?;
        self.repeats = once::read(&self.run.rows, rows).ok_or(Wrong::Lists)?;
        self.add_labels(&call.bytes);
        let unchanged = also.then(|| Unchanged::of(&self.run, &parsed, entry, rows, text));
        if unchanged == Some(Unchanged::Differs) { Err(Wrong::Oracle) } else { Ok((Input::Parsed, unchanged)) }
    }

    fn add_labels(&mut self, bytes: &[u8]) {
        let rows = &self.run.rows;
        self.broken = strict::broken(bytes, &rows[TREES]);
        self.strict_rows.clone_from(rows);
        let reports = self.broken.iter().flat_map(|name| name.report(rows[POOL].len()));
        self.strict_rows[REPORTS].extend(reports)
    }

    /// What an accepted call writes to each buffer.
    pub fn rows(&self, setting: u32) -> &[Vec<u32>; BUFFERS] {
        if is_strict(setting) { &self.strict_rows } else { &self.run.rows }
    }

    /// Numbers that a call needs of each buffer.
    pub fn needs(&self, setting: u32) -> Lengths {
        let mut needs = self.run.needs();
        if is_strict(setting) {
            needs[REPORTS] += ROW_REPORT * self.broken.len()
        }
        needs
    }

    /// Causes 5 to 8: the first that the run meets, then a label's report that does not fit, then the tree.
    fn misfit(&self, setting: u32, lengths: Lengths) -> Option<(u32, usize)> {
        let others = self.run.rows[REPORTS].len();
        let label = || strict::misfit(&self.broken, others, lengths[REPORTS]).filter(|_| is_strict(setting));
        first_misfit(lengths).or_else(label).or_else(|| self.run.refusal(lengths))
    }

    pub fn expected(&self, input: Input, call: &Call) -> Answer {
        let refused = match input {
            Input::Bad(number, place) => Some((number, place)),
            Input::Parsed => self.misfit(call.setting, call.lengths),
        };
        match refused {
            Some((number, place)) => Answer { number, place, ..Answer::default() },
            None => Answer::accepted(self.rows(call.setting).each_ref().map(Vec::len)),
        }
    }

    /// What the buffers must hold beside that answer.
    pub fn held(&self, setting: u32, expected: Answer) -> Held<&[Vec<u32>; BUFFERS]> {
        match expected.number {
            ACCEPTED => Held::Rows(self.rows(setting)),
            n if is_early(n) => Held::AsItWas,
            _ => Held::Zero,
        }
    }

    /// Calls the library over garbage that starts with that number, and compares.
    pub fn call(&mut self, call: &Call, input: Input, garbage: u32) -> Verdict {
        let expected = self.expected(input, call);
        self.buffers.fill(call.lengths, garbage);
        self.tokens.clone_from(&call.tokens);
        self.bytes.clone_from(&call.bytes);
        let lent = self.buffers.lent(garbage & 2 == 0);
        // Safety: each lent buffer has its length, and they are five vectors
        let given = unsafe { ffi::parse_lent(call.entry, call.setting, &self.bytes, &self.tokens, lent) };
        let wrong = if given != expected {
            Some(Wrong::Answer)
        } else if self.tokens != call.tokens || self.bytes != call.bytes {
            Some(Wrong::Input)
        } else {
            self.wrong_buffer(call.setting, expected)
        };
        Verdict { expected, given, wrong }
    }

    /// The tree rows that the library wrote with that answer.
    pub fn written_trees(&self, answer: Answer) -> &[u32] {
        &self.buffers.get(TREES)[..ROW_TREE * answer.tree_count]
    }

    /// What is wrong with the buffers beside an answer that is right: first by the rows alone, then against the Rust.
    pub fn wrong_buffer(&self, setting: u32, answer: Answer) -> Option<Wrong> {
        let parents = (answer.number == ACCEPTED).then(|| parent::wrong(self.written_trees(answer))).flatten();
        let against_rust = || self.buffers.wrong(self.held(setting, answer)).map(Wrong::Buffer);
        parents.map(Wrong::Parents).or_else(against_rust)
    }

    /// Everything for a call whose buffers are chosen.
    pub fn whole(&mut self, call: &Call, also: bool) -> Verdict {
        match self.input(call, also) {
            Ok((input, _)) => self.call(call, input, 0x5A5A5A59),
            Err(wrong) => Verdict { expected: Answer::default(), given: Answer::default(), wrong: Some(wrong) },
        }
    }
}
