//! The numbers of include/dt_parser.h, for the programs in Rust that try the parser: ffi, oracle, fuzz, bench and
//! tests/link. A constant `NAME` is `DT_NAME` there; tools/numbers prints both. Kinds of tokens and nodes and lexical
//! errors are not here: the Rust has them by name. bindings/rust, which is for callers, has rows of its own.

/// The lent buffers, in the order in which a call takes them.
pub const EVENTS: usize = 0;
pub const TREES: usize = 1;
pub const ERRORS: usize = 2;
pub const REPORTS: usize = 3;
pub const POOL: usize = 4;
/// How many there are.
pub const BUFFERS: usize = 5;

/// Of each lent buffer how many numbers.
pub type Lengths = [usize; BUFFERS];

/// Numbers in a row.
pub const ROW_TOKEN: usize = 2;
pub const ROW_EVENT: usize = 3;
pub const ROW_TREE: usize = 5;
pub const ROW_ERROR: usize = 3;
pub const ROW_REPORT: usize = 9;

/// Numbers in a row of each buffer. An expectation in the pool is one number.
pub const ROW: Lengths = [ROW_EVENT, ROW_TREE, ROW_ERROR, ROW_REPORT, 1];

/// What crates/bounds proves to be enough for n tokens, whatever they are, in either setting.
pub fn bound(n: usize) -> Lengths {
    let mut rows = [0; BUFFERS];
    rows[EVENTS] = 13 * n + 1;
    rows[TREES] = 6 * n + 1;
    rows[ERRORS] = n;
    rows[REPORTS] = 4 * n + 1;
    rows[POOL] = 207 * n + 69;
    std::array::from_fn(|i| ROW[i] * rows[i])
}

/// Where a number stands in its row.
pub const COL_TOKEN_KIND: usize = 0;
pub const COL_TOKEN_LENGTH: usize = 1;
pub const COL_TREE_CLASS: usize = 0;
pub const COL_TREE_KIND: usize = 1;
pub const COL_TREE_WIDTH: usize = 2;
pub const COL_TREE_COUNT: usize = 3;
pub const COL_TREE_PARENT: usize = 4;
pub const COL_ERROR_NUMBER: usize = 0;
pub const COL_ERROR_START: usize = 1;
pub const COL_ERROR_END: usize = 2;
pub const COL_REPORT_MESSAGE: usize = 0;
pub const COL_REPORT_START: usize = 1;
pub const COL_REPORT_END: usize = 2;
pub const COL_REPORT_MARK: usize = 3;
pub const COL_REPORT_POOL_FIRST: usize = 4;
pub const COL_REPORT_POOL_COUNT: usize = 5;
pub const COL_REPORT_HINT: usize = 6;
pub const COL_REPORT_LABEL_START: usize = 7;
pub const COL_REPORT_LABEL_END: usize = 8;

/// The class of a tree row.
pub const CLASS_NODE: u32 = 0;
pub const CLASS_LEAF: u32 = 1;

/// What is parsed.
pub const ENTRY_SOURCE_FILE: u32 = 1;
pub const ENTRY_REFERENCE_NOAMP: u32 = 2;
pub const ENTRY_PROP_VALUES: u32 = 3;
pub const ENTRY_CELLS: u32 = 4;

/// What is reported; any other number is the strict setting too.
pub const SETTING_OLD: u32 = 0;
pub const SETTING_STRICT: u32 = 1;

/// Limits of a call: over the first two it is refused with 2, over the third with 5.
pub const MAX_BYTES: usize = 1_048_576;
pub const MAX_TOKEN_NUMBERS: usize = 131_072;
pub const MAX_OPEN_CALLS: usize = 64;
/// The second as a count of rows.
pub const MAX_TOKENS: usize = MAX_TOKEN_NUMBERS / ROW_TOKEN;
/// No limit: there are so many different expectations, and each is pending once (document 02, 6/14).
pub const MAX_EXPECTATIONS: usize = 69;

/// The answer's number: 0, or why a call was refused.
pub const ACCEPTED: u32 = 0;
pub const REFUSAL_UNKNOWN_ENTRY: u32 = 1;
pub const REFUSAL_TOO_LONG: u32 = 2;
pub const REFUSAL_ODD_COUNT: u32 = 3;
pub const REFUSAL_BAD_TEXT: u32 = 4;
pub const REFUSAL_TOO_DEEP: u32 = 5;
pub const REFUSAL_NO_EVENT_ROOM: u32 = 6;
pub const REFUSAL_NO_REPORT_ROOM: u32 = 7;
pub const REFUSAL_NO_TREE_ROOM: u32 = 8;
/// Of a text alone.
pub const REFUSAL_HIGH_BYTE: u32 = 9;
pub const REFUSAL_DIRECTIVE: u32 = 10;
/// Of token rows alone.
pub const REFUSAL_BAD_KIND: u32 = 11;
pub const REFUSAL_ZERO_LENGTH: u32 = 12;
pub const REFUSAL_BAD_END: u32 = 13;
/// How many numbers an answer can have.
pub const ANSWERS: usize = REFUSAL_BAD_END as usize + 1;

/// A token row's kind is that of a token below the first, and one of the lexical errors from there to the last.
pub const TOKEN_FIRST_LEX_ERROR: u32 = 64;
pub const TOKEN_LAST_LEX_ERROR: u32 = 74;

/// A report's message.
pub const MESSAGE_EXPECTED: u32 = 1;
pub const MESSAGE_UNMATCHED_RCURLY: u32 = 2;
pub const MESSAGE_UNMATCHED_SEMICOLON: u32 = 3;
pub const MESSAGE_UNMATCHED_ENDIF: u32 = 4;
pub const MESSAGE_STRAY_CONTINUATION: u32 = 5;
pub const MESSAGE_AT_SIGN_IN_LABEL: u32 = 6;
pub const MESSAGE_UNCLOSED_NODE: u32 = 7;
/// Of the strict setting alone.
pub const MESSAGE_NOT_A_LABEL: u32 = 8;

/// A report's hint.
pub const HINT_NONE: u32 = 0;
pub const HINT_UNNAMED_PROPERTY: u32 = 1;
pub const HINT_UNNAMED_NODE: u32 = 2;
pub const HINT_MISSING_PARENTHESES: u32 = 3;
pub const HINT_IN_CELLS: u32 = 4;
pub const HINT_PROPERTY_NOT_ALLOWED: u32 = 5;
pub const HINT_MISSING_LEFT_SIDE: u32 = 6;

/// An expectation that is not a token's kind.
pub const EXPECTED_PREPROCESSOR_DIRECTIVE: u32 = 101;
pub const EXPECTED_PREPROCESSOR_DEFINED_OPERATOR: u32 = 102;
pub const EXPECTED_VALUE: u32 = 103;
pub const EXPECTED_CELL: u32 = 104;
pub const EXPECTED_LABEL_NAME: u32 = 105;
pub const EXPECTED_INFIX_OPERATOR: u32 = 106;
pub const EXPECTED_PREFIX_OPERATOR: u32 = 107;
pub const EXPECTED_END: u32 = 108;
