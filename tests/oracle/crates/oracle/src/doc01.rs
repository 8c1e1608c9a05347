//! A run of the patched copy as document 01's numbers, each expectation once, and what becomes of it in buffers of
//! given lengths. Entry, bytes and tokens were found good before (`checks`).
use crate::case::Rows;
use crate::once::once;
use crate::parsed::{Parsed, Report};
use crate::parsers::patched;
use dt_parser_layout::{
    self as layout, BUFFERS, ERRORS, EVENTS, Lengths, POOL, REPORTS, ROW, ROW_EVENT, ROW_REPORT, TREES,
};
pub use parser_doc01::record::Report as Recorded;
use parser_doc01::record::{self, Step};

#[derive(Default)]
pub struct Run {
    /// What an accepted call writes to each buffer; no events, which are work only.
    pub rows: [Vec<u32>; BUFFERS],
    /// Rows of events, reports and pool that were pushed before a limit of refusal 5, by buffer.
    pub pushed: [usize; BUFFERS],
}

impl Run {
    /// Runs a call. An error is a panic's text; `pushed` is right then too.
    pub fn of(&mut self, entry: u32, toks: &Rows, text: &str, unit_immediate: bool) -> Result<Parsed, String> {
        record::reset(unit_immediate);
        let answer = patched::parse(entry, toks, text);
        self.pushed = pushed();
        let parsed = answer?;
        self.rows.iter_mut().for_each(Vec::clear);
        let [_, trees, errors, reports, pool] = &mut self.rows;
        parsed.tree_rows(toks, trees);
        errors.extend_from_slice(&parsed.lexical);
        let mut of_rust = parsed.reports.iter();
        for_reports(|recorded| {
            let (report, codes) = (of_rust.next().expect("each is recorded once"), listed(recorded));
            reports.extend(report_row(report, recorded, pool.len(), codes.len()));
            pool.extend(codes)
        });
        assert!(of_rust.next().is_none(), "each is recorded");
        Ok(parsed)
    }

    /// Numbers that the run needs of each buffer, up to a limit of refusal 5 if it meets one.
    pub fn needs(&self) -> Lengths {
        let mut needs = std::array::from_fn(|i| ROW[i] * self.pushed[i]);
        needs[TREES] = self.rows[TREES].len();
        needs[ERRORS] = self.rows[ERRORS].len();
        needs
    }

    /// Refusal and place in buffers of these lengths; None if the call is accepted.
    pub fn refusal(&self, lengths: Lengths) -> Option<(u32, usize)> {
        let fits = |i: usize| self.rows[i].len() <= lengths[i];
        let tree_fits = fits(TREES) && fits(ERRORS);
        first_misfit(lengths).or((!tree_fits).then_some((layout::REFUSAL_NO_TREE_ROOM, 0)))
    }
}

/// What was recorded of each report of the last run, in order.
pub fn for_reports(mut f: impl FnMut(&Recorded)) {
    record::with_log(|log| {
        for step in log {
            if let Step::Report(recorded) = step {
                f(recorded)
            }
        }
    })
}

/// A report's part of the pool: "its pool count is the pending list's length for message 1 and 0 for every other
/// message".
fn listed(recorded: &Recorded) -> Vec<u32> {
    if recorded.lists { once(&recorded.pending) } else { vec![] }
}

fn report_row(r: &Report, recorded: &Recorded, first: usize, count: usize) -> [u32; ROW_REPORT] {
    let message = if recorded.lists { layout::MESSAGE_EXPECTED } else { message_number(&r.message) };
    let (mut hint, mut label) = (layout::HINT_NONE, (0, 0));
    for (range, text) in &r.labels {
        match hint_number(text) {
            Some(n) => hint = n,
            None => label = (range.start as u32, range.end as u32),
        }
    }
    let (start, end) = (r.range.start as u32, r.range.end as u32);
    [message, start, end, recorded.mark as u32, first as u32, count as u32, hint, label.0, label.1]
}

fn pushed() -> [usize; BUFFERS] {
    let mut n = [0; BUFFERS];
    record::with_log(|log| {
        for step in log {
            match step {
                Step::Limit(_) => break,
                Step::Event(_) => n[EVENTS] += 1,
                Step::Report(recorded) => {
                    n[REPORTS] += 1;
                    n[POOL] += listed(recorded).len()
                }
            }
        }
    });
    n
}

/// The first of refusals 5 to 7 that the recorded run meets in buffers of these lengths.
pub fn first_misfit(lengths: Lengths) -> Option<(u32, usize)> {
    let [event_len, _, _, report_len, pool_len] = lengths;
    let (mut events, mut reports, mut pool) = (0, 0, 0);
    record::with_log(|log| {
        log.iter().find_map(|s| match s {
            Step::Limit(mark) => Some((layout::REFUSAL_TOO_DEEP, *mark)),
            Step::Event(mark) => {
                events += ROW_EVENT;
                (events > event_len).then_some((layout::REFUSAL_NO_EVENT_ROOM, *mark))
            }
            Step::Report(recorded) => {
                reports += ROW_REPORT;
                pool += listed(recorded).len();
                (reports > report_len || pool > pool_len).then_some((layout::REFUSAL_NO_REPORT_ROOM, recorded.mark))
            }
        })
    })
}

fn message_number(text: &str) -> u32 {
    match text {
        "Unmatched `}`" => layout::MESSAGE_UNMATCHED_RCURLY,
        "Unmatched `;`" => layout::MESSAGE_UNMATCHED_SEMICOLON,
        "Unmatched `#endif`" => layout::MESSAGE_UNMATCHED_ENDIF,
        "Preprocessor conditional continuation without preceding `#if` or equivalent." => {
            layout::MESSAGE_STRAY_CONTINUATION
        }
        "Label names can't contain an `@`" => layout::MESSAGE_AT_SIGN_IN_LABEL,
        "Expected `}`, but reached end of input" => layout::MESSAGE_UNCLOSED_NODE,
        x => panic!("unknown message: {x}"),
    }
}

/// A hint's number; none for the one label that is not a hint.
fn hint_number(text: &str) -> Option<u32> {
    Some(match text {
        "Unclosed delimiter" => return None,
        "Recovered as unnamed property" => layout::HINT_UNNAMED_PROPERTY,
        "Recovered as unnamed node" => layout::HINT_UNNAMED_NODE,
        "Wrap expressions in parenthesis" => layout::HINT_MISSING_PARENTHESES,
        "in cells()" => layout::HINT_IN_CELLS,
        "Property not allowed" => layout::HINT_PROPERTY_NOT_ALLOWED,
        "Recovered as expression with missing left-hand-side expression" => layout::HINT_MISSING_LEFT_SIDE,
        x => panic!("unknown hint: {x}"),
    })
}
