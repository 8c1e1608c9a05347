//! The exported calls as C has them, for callers who lend memory of their own and for what tests the library.
//!
//! `include/dt_parser.h` says what each argument is, what each buffer holds after a call, and what the memory must be. A
//! slice is a pointer and a length in elements. [`Parser`](crate::Parser) makes the same calls, without `unsafe`. The
//! declarations are printed from the code by `tools/numbers`.

/// What the call returns: its number (0, or a refusal's), a place, and the counts of rows that it wrote.
#[repr(C)]
#[derive(Clone, Copy, Debug, Default, PartialEq, Eq)]
pub struct Answer {
    /// 0, or the number of a refusal.
    pub number: u32,
    /// Where: what it counts hangs on the number.
    pub place: usize,
    /// Tree rows written.
    pub tree_count: usize,
    /// Lexical errors written.
    pub error_count: usize,
    /// Reports written.
    pub report_count: usize,
    /// Expectations written to the pool.
    pub expectation_count: usize,
}

/// What the call with a text returns: the answer to its tokens, and how many token rows it wrote.
#[repr(C)]
#[derive(Clone, Copy, Debug, Default, PartialEq, Eq)]
pub struct TextAnswer {
    /// The answer to the tokens.
    pub answer: Answer,
    /// Token rows written.
    pub token_count: usize,
}

/// What a query returns: the answer to its tokens, and how many row numbers it wrote.
#[repr(C)]
#[derive(Clone, Copy, Debug, Default, PartialEq, Eq)]
pub struct ListAnswer {
    /// The answer to the tokens.
    pub answer: Answer,
    /// Row numbers written.
    pub list_count: usize,
}

unsafe extern "C" {
    /// Token rows to tree rows, lexical errors and reports.
    pub fn dt_parse(
        entry: u32,
        setting: u32,
        bytes: *const u8,
        bytes_len: usize,
        tokens: *const u32,
        tokens_len: usize,
        events: *mut u32,
        events_len: usize,
        trees: *mut u32,
        trees_len: usize,
        errors: *mut u32,
        errors_len: usize,
        reports: *mut u32,
        reports_len: usize,
        pool: *mut u32,
        pool_len: usize,
    ) -> Answer;

    /// The same for a text, whose token rows it writes.
    pub fn dt_parse_text(
        entry: u32,
        setting: u32,
        bytes: *const u8,
        bytes_len: usize,
        tokens: *mut u32,
        tokens_len: usize,
        events: *mut u32,
        events_len: usize,
        trees: *mut u32,
        trees_len: usize,
        errors: *mut u32,
        errors_len: usize,
        reports: *mut u32,
        reports_len: usize,
        pool: *mut u32,
        pool_len: usize,
    ) -> TextAnswer;

    /// The rows of a source file from the root to the leaf at an offset, by number.
    pub fn dt_caret(
        setting: u32,
        offset: u64,
        bytes: *const u8,
        bytes_len: usize,
        tokens: *const u32,
        tokens_len: usize,
        events: *mut u32,
        events_len: usize,
        trees: *mut u32,
        trees_len: usize,
        errors: *mut u32,
        errors_len: usize,
        reports: *mut u32,
        reports_len: usize,
        pool: *mut u32,
        pool_len: usize,
        list: *mut u32,
        list_len: usize,
    ) -> ListAnswer;

    /// The top-level parts of a source file that share a byte with a range, by row number.
    pub fn dt_parts_in_range(
        setting: u32,
        start: u64,
        end: u64,
        bytes: *const u8,
        bytes_len: usize,
        tokens: *const u32,
        tokens_len: usize,
        events: *mut u32,
        events_len: usize,
        trees: *mut u32,
        trees_len: usize,
        errors: *mut u32,
        errors_len: usize,
        reports: *mut u32,
        reports_len: usize,
        pool: *mut u32,
        pool_len: usize,
        list: *mut u32,
        list_len: usize,
    ) -> ListAnswer;
}
