//! What document 01 adds to the Rust, recorded while the patched parser runs. Hand-written.
use crate::parser::{Event, Expected};
use dt_parser_layout::{self as layout, MAX_OPEN_CALLS};
use std::cell::{Cell, RefCell};

/// What the run does, in order. Refusals 5 to 7 under given buffer sizes follow from it.
pub enum Step {
    /// A 65th open call, with the mark.
    Limit(usize),
    /// An event pushed, with the mark.
    Event(usize),
    /// A report row.
    Report(Report),
}

/// What a report's row has beside the Rust's own fields.
pub struct Report {
    pub mark: usize,
    /// Whether its message lists what is pending: message 1.
    pub lists: bool,
    /// All that was pushed since a token or name was taken, as document 01's numbers: with its repeats.
    pub pending: Vec<u32>,
}

thread_local! {
    /// The mark of document 01: the index just past the last token taken.
    static MARK: Cell<usize> = const { Cell::new(0) };
    static OPEN: Cell<usize> = const { Cell::new(0) };
    static LOG: RefCell<Vec<Step>> = const { RefCell::new(Vec::new()) };
    static MOST: RefCell<Most> = const { RefCell::new(Most { open: 0, pending: 0, steps: 0 }) };
    /// Whether a unit address is tested without passing trivia (document 01's words) or as the Rust does.
    static UNIT_IMMEDIATE: Cell<bool> = const { Cell::new(false) };
}

/// The most that a run reached.
#[derive(Clone, Copy)]
pub struct Most {
    pub open: usize,
    /// With repeats.
    pub pending: usize,
    /// Steps without progress; the unchanged Rust panics at 1,000.
    pub steps: u32,
}

/// Starts the record of a new run.
pub fn reset(unit_immediate: bool) {
    MARK.set(0);
    OPEN.set(0);
    LOG.take();
    MOST.set(Most { open: 0, pending: 0, steps: 0 });
    UNIT_IMMEDIATE.set(unit_immediate);
}

pub fn most() -> Most {
    MOST.with_borrow(|m| *m)
}

pub fn with_log<T>(f: impl FnOnce(&[Step]) -> T) -> T {
    LOG.with_borrow(|l| f(l))
}

/// Whether the run met refusal 5.
pub fn met_limit() -> bool {
    with_log(|l| l.iter().any(|s| matches!(s, Step::Limit(_))))
}

fn log(s: Step) {
    LOG.with_borrow_mut(|l| l.push(s))
}

pub(crate) fn taken(cursor: usize) {
    MARK.set(cursor)
}

pub(crate) fn steps(n: u32) {
    MOST.with_borrow_mut(|m| m.steps = m.steps.max(n))
}

pub(crate) fn report(mark: usize, lists: bool, pending: Vec<u32>) {
    log(Step::Report(Report { mark, lists, pending }))
}

pub(crate) fn unit_immediate() -> bool {
    UNIT_IMMEDIATE.get()
}

/// One open call of `item`, `propvalues`, `eat_cell` or `expr_binding_power`, from its first line to its end.
pub(crate) struct Open;

impl Open {
    pub(crate) fn new() -> Self {
        let n = OPEN.get() + 1;
        OPEN.set(n);
        MOST.with_borrow_mut(|m| m.open = m.open.max(n));
        if n > MAX_OPEN_CALLS {
            log(Step::Limit(MARK.get()))
        }
        Open
    }
}

impl Drop for Open {
    fn drop(&mut self) {
        OPEN.set(OPEN.get() - 1)
    }
}

/// The events, each push recorded.
#[derive(Debug)]
pub(crate) struct Events(pub(crate) Vec<Event>);

impl Events {
    pub(crate) fn push(&mut self, e: Event) {
        log(Step::Event(MARK.get()));
        self.0.push(e)
    }
}

impl std::ops::Deref for Events {
    type Target = Vec<Event>;
    fn deref(&self) -> &Self::Target {
        &self.0
    }
}

impl std::ops::DerefMut for Events {
    fn deref_mut(&mut self) -> &mut Self::Target {
        &mut self.0
    }
}

/// The pending expectations with their repeats, which the Rust drops when it formats a message. Document 02 drops them
/// too (6/14), but not here: this is what the Rust pushed, and `oracle::once` reads the request over it.
#[derive(Debug, Default)]
pub(crate) struct Pending(Vec<Expected>);

impl Pending {
    pub(crate) fn push(&mut self, e: Expected) {
        self.0.push(e);
        MOST.with_borrow_mut(|m| m.pending = m.pending.max(self.0.len()))
    }
    pub(crate) fn extend(&mut self, it: impl Iterator<Item = Expected>) {
        for e in it {
            self.push(e)
        }
    }
    pub(crate) fn clear(&mut self) {
        self.0.clear()
    }
    pub(crate) fn as_slice(&self) -> &[Expected] {
        &self.0
    }
    pub(crate) fn codes(&self) -> Vec<u32> {
        self.0.iter().map(code).collect()
    }
}

/// Document 01's number of an expectation.
fn code(e: &Expected) -> u32 {
    match e {
        Expected::Kind(k) => *k as u32,
        Expected::PreprocessorDirective => layout::EXPECTED_PREPROCESSOR_DIRECTIVE,
        Expected::PreprocessorDefinedOperator => layout::EXPECTED_PREPROCESSOR_DEFINED_OPERATOR,
        Expected::Value => layout::EXPECTED_VALUE,
        Expected::Cell => layout::EXPECTED_CELL,
        Expected::LabelName => layout::EXPECTED_LABEL_NAME,
        Expected::InfixOperator => layout::EXPECTED_INFIX_OPERATOR,
        Expected::PrefixOperator => layout::EXPECTED_PREFIX_OPERATOR,
        Expected::End => layout::EXPECTED_END,
    }
}
