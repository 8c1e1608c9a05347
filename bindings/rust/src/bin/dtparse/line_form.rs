//! A line for each report and refusal: `FILE:LINE:COLUMN: error: TEXT`.

use crate::forms::Shown;
use crate::lines::Lines;
use crate::outcome::{Outcome, Parsed};
use crate::problems::{self, Problem};
use crate::read::place_name;
use crate::refused::{LINE_MARKS, Refused, line_mark};
use dt_parser::Position;

const START: Position = Position { line: 0, column: 0 };

pub fn file(shown: &Shown) -> String {
    match &shown.outcome {
        Outcome::Parsed(parsed) => of_parsed(parsed),
        Outcome::Refused(refused) => of_refused(refused, shown),
        Outcome::Unreadable(why) => match why.line {
            Some(line) => {
                let position = Position { line: line - 1, column: 0 };
                format!("{}:{position}: error: {}\n", place_name(shown.source), why.message)
            }
            None => String::new(),
        },
    }
}

/// A refusal that has no place stands at the start of the file.
fn of_refused(refused: &Refused, shown: &Shown) -> String {
    let position = refused.range.map_or(START, |range| Lines::new(shown.bytes).position(range.start));
    format!("{}:{position}: error: {}\n", place_name(shown.source), refused.text())
}

fn of_parsed(parsed: &Parsed) -> String {
    let mut out: String = problems::all(&parsed.parse).iter().map(|problem| of_problem(problem, parsed)).collect();
    if let Some(line) = line_mark(parsed.text).filter(|_| parsed.has_line_marks()) {
        let position = Position { line, column: 0 };
        out += &format!("{}:{position}: note: {LINE_MARKS}\n", parsed.place_name);
    }
    out
}

/// A hint follows the report's text; another place that a report speaks of is a note.
fn of_problem(problem: &Problem, parsed: &Parsed) -> String {
    let place = |offset: usize| format!("{}:{}", parsed.place_name, parsed.lines.position(offset));
    let Some((own, others)) = problem.underlines.split_first() else {
        return String::new();
    };
    let hint = if own.text.is_empty() { String::new() } else { format!(" ({})", own.text) };
    let mut out = format!("{}: {}: {}{hint}\n", place(own.range.start), problem.word(), problem.text);
    out.extend(others.iter().map(|other| format!("{}: note: {}\n", place(other.range.start), other.text)));
    out
}
