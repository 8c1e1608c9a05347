//! The loop over random files, and one query again.
use super::asked;
use super::call::QueryCall;
use super::judge::QueryJudge;
use super::search::Search;
use super::show;
use crate::judge::Input;
use crate::make::{self, Maker, lengths};
use crate::rng::Rng;
use crate::run::{Plan, chosen};
use crate::shrink;
use crate::tally::Tally;
use dt_parser_ffi::Query;
use dt_parser_layout::{ACCEPTED, REFUSAL_NO_TREE_ROOM, SETTING_OLD};

/// Queries of a file that is refused before it is parsed, or that is long.
const FEW: usize = 8;
/// Of a longer file a few queries are drawn.
const MOST: usize = 4_000;

/// Figures of the queries beside those of the calls.
#[derive(Default)]
pub struct Figures {
    carets: u64,
    ranges: u64,
    rows: u64,
    /// Refused with 8 for the list alone.
    no_room: u64,
}

impl Figures {
    pub fn add(&mut self, query: Query, rows: usize, no_room: bool) {
        match query {
            Query::Caret(_) => self.carets += 1,
            Query::Parts(..) => self.ranges += 1,
        }
        self.rows += rows as u64;
        self.no_room += no_room as u64
    }

    pub fn write(&self) {
        println!("queries: {} offsets, {} ranges; rows listed: {}", self.carets, self.ranges, self.rows);
        println!("refused with 8 for the list alone: {}", self.no_room)
    }
}

struct Run {
    judge: QueryJudge,
    tally: Tally,
    figures: Figures,
}

/// True if no answer differed. The first difference is made small and printed.
pub fn run(plan: &Plan) -> bool {
    println!("seed {}, {} files from number {}", plan.seed, plan.cases, plan.first);
    let (mut maker, mut call) = (Maker::new(), QueryCall::new(Query::Caret(0)));
    let tally = Tally::new("files", make::ways().collect());
    let mut run = Run { judge: QueryJudge::default(), tally, figures: Figures::default() };
    for i in plan.first..plan.first + plan.cases {
        let mut r = Rng::of_case(plan.seed, i);
        let way = maker.file(&mut r, &mut call.parse);
        let also = plan.unchanged > 0 && i % plan.unchanged == 0;
        if !run.file(&mut r, way, &mut call, also) {
            return differs(plan, i, run.judge, call);
        }
        run.tally.progress(plan.cases)
    }
    run.tally.write();
    run.figures.write();
    println!("{} files, no difference", plan.cases);
    true
}

impl Run {
    /// All that is asked of a file, in both settings.
    fn file(&mut self, r: &mut Rng, way: usize, call: &mut QueryCall, also: bool) -> bool {
        call.parse.setting = SETTING_OLD;
        let Ok((input, unchanged)) = self.judge.input(&call.parse, also) else { return false };
        self.tally.case(way, &call.parse, unchanged, self.judge.parse.repeats);
        let few = matches!(input, Input::Bad(..)) || call.parse.bytes.len() > MOST;
        [SETTING_OLD, make::strict_setting(r)].into_iter().all(|setting| {
            call.parse.setting = setting;
            let length = call.parse.bytes.len() as u64;
            let queries = if few { asked::some(r, length, FEW) } else { asked::queries(r, length) };
            self.see(input, call);
            queries.into_iter().all(|query| {
                call.query = query;
                self.query(r, input, call)
            })
        })
    }

    /// The codes of an accepted parse.
    fn see(&mut self, input: Input, call: &mut QueryCall) {
        let (parse, setting) = (&self.judge.parse, call.parse.setting);
        call.parse.lengths = parse.needs(setting);
        if parse.expected(input, &call.parse).number == ACCEPTED {
            self.tally.seen.add(parse.rows(setting))
        }
    }

    /// One query where all fits, and now and then one more over buffers that are drawn for it.
    fn query(&mut self, r: &mut Rng, input: Input, call: &mut QueryCall) -> bool {
        let rows = self.judge.listed(call.query).len();
        if let Input::Parsed = input {
            call.parse.lengths = lengths::fitting(r, self.judge.parse.needs(call.parse.setting));
            call.room = rows + r.pick(&[0, 0, 1, 3, 64]);
            if !self.one(r, input, call) {
                return false;
            }
            if r.p(75) {
                return true;
            }
        }
        call.parse.lengths = chosen(r, &self.judge.parse, input, &call.parse);
        call.room = lengths::list(r, rows);
        self.one(r, input, call)
    }

    fn one(&mut self, r: &mut Rng, input: Input, call: &QueryCall) -> bool {
        let verdict = self.judge.call(call, input, r.next() as u32);
        let expected = verdict.expected.answer;
        let parse = self.judge.parse.expected(input, &call.parse);
        let no_room = expected.answer.number == REFUSAL_NO_TREE_ROOM && parse.number == ACCEPTED;
        self.tally.call(&call.parse, expected.answer, self.judge.labels());
        self.figures.add(call.query, expected.list_count, no_room);
        verdict.wrong.is_none()
    }
}

fn differs(plan: &Plan, number: u64, judge: QueryJudge, call: QueryCall) -> bool {
    println!("file {number} of seed {} differs ({} bytes)", plan.seed, call.parse.bytes.len());
    let mut search = Search::new(judge, call);
    let parse = search.found.parse.clone();
    shrink::shrink(&mut search, parse);
    let Search { mut judge, found } = search;
    show::both(&mut judge, &found);
    println!("\nto repeat it:\n    tests/fuzz/run.sh repeat {}", crate::show::quoted(&show::line(&found)));
    println!("the file as it was drawn:\n    tests/fuzz/run.sh carets --seed {} --first {number} --count 1", plan.seed);
    false
}

/// A query of a line; none if it is not one.
pub fn repeat(line: &str) -> Option<bool> {
    let call = QueryCall::read(line)?;
    Some(show::both(&mut QueryJudge::default(), &call))
}
