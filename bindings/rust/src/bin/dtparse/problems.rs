//! Reports, lexical errors and what has no report, each with its source lines; and the summary.

use crate::counts::{Counts, plural};
use crate::page::Page;
use crate::snippet::{Underline, snippet};
use crate::style::Ink;
use dt_parser::{LexicalError, Node, Parse, Report, TextRange};

pub const UNREPORTED: &str =
    "Not understood. The parser makes no report for this part; often a `;` is missing after it";

/// A problem to print: its heading, and the ranges with what is said there. The first range is its own.
pub struct Problem {
    pub ink: Ink,
    pub text: String,
    pub underlines: Vec<Underline>,
}

impl Problem {
    fn new(ink: Ink, text: String, range: TextRange) -> Self {
        Self { ink, text, underlines: vec![Underline { range, text: String::new(), ink }] }
    }

    fn of_lexical_error(error: &LexicalError) -> Self {
        Self::new(Ink::Error, error.to_string(), error.range)
    }

    /// A hint stands after the report's own underline; the unclosed brace has one of its own.
    fn of_report(report: &Report) -> Self {
        let mut problem = Self::new(Ink::Error, report.text(), report.range);
        for label in report.labels() {
            if label.range == report.range && report.hint.is_some() {
                problem.underlines[0].text = label.text.to_string();
            } else {
                let (range, text) = (label.range, label.text.to_string());
                problem.underlines.push(Underline { range, text, ink: Ink::Frame });
            }
        }
        problem
    }

    fn of_unreported(node: &Node) -> Self {
        Self::new(Ink::Note, UNREPORTED.to_string(), node.range())
    }

    pub fn range(&self) -> TextRange {
        self.underlines[0].range
    }

    pub const fn word(&self) -> &'static str {
        if matches!(self.ink, Ink::Note) { "note" } else { "error" }
    }
}

/// All problems in the order of the text.
pub fn all(parse: &Parse) -> Vec<Problem> {
    let mut problems: Vec<Problem> = parse.lexical_errors.iter().map(Problem::of_lexical_error).collect();
    problems.extend(parse.reports.iter().map(Problem::of_report));
    problems.extend(parse.unreported().iter().map(Problem::of_unreported));
    problems.sort_by_key(|problem| problem.range().start);
    problems
}

/// Errors at the same place are shown together: one mistake often has several.
pub fn print(page: &Page) -> String {
    let problems = all(page.parse);
    let together = |a: &Problem, b: &Problem| a.range().start == b.range().start && a.ink == b.ink;
    let printed: Vec<String> = problems.chunk_by(together).map(|group| print_group(group, page)).collect();
    printed.join("\n")
}

fn print_group(group: &[Problem], page: &Page) -> String {
    let heading = |problem: &Problem| {
        let text = page.style.paint(Ink::Strong, &format!(": {}", problem.text));
        format!("{}{text}\n", page.style.paint(problem.ink, problem.word()))
    };
    let headings: String = group.iter().map(heading).collect();
    headings + &snippet(page.name, page.lines, &underlines(group), page.style)
}

/// The underlines of all, each once; one without a text only where no other has its range.
fn underlines(group: &[Problem]) -> Vec<&Underline> {
    let all: Vec<&Underline> = group.iter().flat_map(|problem| &problem.underlines).collect();
    let mut kept: Vec<&Underline> = Vec::new();
    for one in &all {
        let is_said = one.text.is_empty() && all.iter().any(|other| other.range == one.range && !other.text.is_empty());
        if !is_said && !kept.contains(one) {
            kept.push(one);
        }
    }
    kept
}

/// One line: how many errors, what was read, and how much was not.
pub fn summary(page: &Page, counts: &Counts) -> String {
    let errors = match counts.errors() {
        0 => page.style.paint(Ink::Strong, "no errors"),
        n => page.style.paint(Ink::Error, &plural(n, "error", "errors")),
    };
    format!("{}: {errors}; {}\n", page.name, counts.text())
}
