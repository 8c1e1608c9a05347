//! Every list of a few token rows over telling kinds and lengths, with a number over and without, over short texts; and
//! counts of numbers and bytes at the limits of cause 2. Most are refused: the library is compared with the reading of
//! document 02's request 4/14 (oracle::checks), where the rows are good with the Rust, in both settings, buffers whole.
//! As many semicolons as a call takes have twice as many tree rows: their numbers, and so parents, pass 16 bits.
use crate::call::Call;
use crate::judge::{Input, Judge};
use crate::show;
use dt_parser_layout::{
    ANSWERS, BUFFERS, COL_TOKEN_KIND, COL_TOKEN_LENGTH, ENTRY_CELLS, ENTRY_SOURCE_FILE, MAX_BYTES, MAX_TOKEN_NUMBERS,
    ROW_TOKEN, SETTING_OLD, SETTING_STRICT, TOKEN_FIRST_LEX_ERROR, TOKEN_LAST_LEX_ERROR,
};
use oracle::token::TokenKind::{self, Ident, Name, QuestionMark, Semicolon, String, Unrecognized, Whitespace};
use std::ops::RangeInclusive;

/// Both ends of each range that rows may have, the numbers beside these, a fixed text of one byte, and numbers that are
/// a kind in their low byte or half alone.
const KINDS: [u32; 17] = [
    Whitespace as u32,
    Unrecognized as u32 - 1,
    Unrecognized as u32,
    Name as u32,
    Ident as u32,
    Semicolon as u32,
    QuestionMark as u32,
    QuestionMark as u32 + 1,
    QuestionMark as u32 + 2,
    TOKEN_FIRST_LEX_ERROR - 1,
    TOKEN_FIRST_LEX_ERROR,
    TOKEN_LAST_LEX_ERROR,
    TOKEN_LAST_LEX_ERROR + 1,
    TOKEN_LAST_LEX_ERROR + 2,
    Ident as u32 + (1 << 8),
    Ident as u32 + (1 << 16),
    u32::MAX,
];

/// Up to a byte more than any of the texts has, and such as pass 32 bits together.
const LENGTHS: [u32; 11] = [0, 1, 2, 3, 4, (1 << 31) - 1, 1 << 31, (1 << 31) + 1, u32::MAX - 2, u32::MAX - 1, u32::MAX];

/// With right and wrong bytes for a semicolon in each place.
const TEXTS: [&[u8]; 7] = [b"", b";", b"a", b"a;", b";;", b";a;", b"a;a"];

/// A number over after the rows, or none.
const OVER: [Option<u32>; 2] = [None, Some(Ident as u32)];

/// Numbers of a buffer that is lent to a call which is refused.
const LENT: usize = 5;

#[derive(Default)]
struct Every {
    judge: Judge,
    by_number: [u64; ANSWERS],
}

/// True if no call differed.
pub fn run(most: u32) -> bool {
    let mut every = Every::default();
    // the shortest first, for the sake of what is printed where they differ
    if !every.lists(0..=most.min(1)) || !every.limits() || !every.lists(2..=most) {
        return false;
    }
    let calls: u64 = every.by_number.iter().sum();
    let rows = KINDS.len() * LENGTHS.len();
    println!("every list of up to {most} of {rows} rows, over {} texts: {calls} calls, no difference", TEXTS.len());
    let numbers = every.by_number.iter().enumerate().filter(|(_, n)| **n > 0);
    let numbers: Vec<_> = numbers.map(|(i, n)| format!("{i}: {n}")).collect();
    println!("answers by number: {}", numbers.join(", "));
    true
}

/// The token numbers of the list with that number, its digits being kinds and lengths.
fn list(length: u32, mut number: usize, tokens: &mut Vec<u32>) {
    tokens.clear();
    for _ in 0..length {
        tokens.extend([KINDS[number % KINDS.len()], LENGTHS[number / KINDS.len() % LENGTHS.len()]]);
        number /= KINDS.len() * LENGTHS.len()
    }
}

impl Every {
    fn lists(&mut self, lengths: RangeInclusive<u32>) -> bool {
        let mut call = Call::default();
        for length in lengths {
            for number in 0..(KINDS.len() * LENGTHS.len()).pow(length) {
                call.entry = ENTRY_SOURCE_FILE + number as u32 % ENTRY_CELLS;
                list(length, number, &mut call.tokens);
                for over in OVER {
                    call.tokens.truncate(ROW_TOKEN * length as usize);
                    call.tokens.extend(over);
                    if !TEXTS.iter().all(|text| self.over(text, &mut call)) {
                        println!("list {number} of {length} rows differs");
                        show::both(&mut self.judge, &call);
                        return false;
                    }
                }
            }
        }
        true
    }

    fn over(&mut self, text: &[u8], call: &mut Call) -> bool {
        call.bytes.clear();
        call.bytes.extend_from_slice(text);
        self.both(call)
    }

    /// The call in both settings.
    fn both(&mut self, call: &mut Call) -> bool {
        let Ok((input, _)) = self.judge.input(call, false) else { return false };
        [SETTING_OLD, SETTING_STRICT].into_iter().all(|setting| {
            call.setting = setting;
            call.lengths = match input {
                Input::Bad(..) => [LENT; BUFFERS],
                Input::Parsed => self.judge.needs(setting),
            };
            let verdict = self.judge.call(call, input, 0x5A5A5A59);
            self.by_number[verdict.expected.number as usize] += 1;
            verdict.wrong.is_none()
        })
    }

    /// Counts of numbers around the limit, of good rows and with one number of the first or the last row changed; then
    /// counts of bytes.
    fn limits(&mut self) -> bool {
        for numbers in MAX_TOKEN_NUMBERS - 2..=MAX_TOKEN_NUMBERS + 2 {
            let last = ROW_TOKEN * (numbers / ROW_TOKEN - 1);
            let changes = [0, last].map(|row| {
                [(row + COL_TOKEN_KIND, u32::MAX), (row + COL_TOKEN_LENGTH, 0), (row + COL_TOKEN_LENGTH, 2)]
            });
            if !self.both(&mut repeated(numbers, Semicolon, b';')) {
                println!("a count of {numbers} numbers, of semicolons, differs");
                println!("call: semicolons");
                return false;
            }
            for change in changes.as_flattened().iter().map(Some).chain([None]) {
                let mut call = repeated(numbers, Whitespace, b' ');
                change.into_iter().for_each(|&(index, number)| call.tokens[index] = number);
                if !self.both(&mut call) {
                    println!("a count of {numbers} numbers differs");
                    println!("call: blanks, where index and number were changed: {change:?}");
                    return false;
                }
            }
        }
        (MAX_BYTES - 1..=MAX_BYTES + 1).all(|bytes| OVER.into_iter().all(|over| self.string(bytes, over)))
    }

    /// A string of so many bytes.
    fn string(&mut self, bytes: usize, over: Option<u32>) -> bool {
        let mut call = Call { entry: ENTRY_SOURCE_FILE, bytes: vec![b's'; bytes], ..Call::default() };
        call.tokens.extend([String as u32, bytes as u32]);
        call.tokens.extend(over);
        let same = self.both(&mut call);
        if !same {
            println!("a string of {bytes} bytes, with {over:?} over, differs")
        }
        same
    }
}

/// So many numbers of rows of one such token each, a byte long; after an odd count a byte has no row.
fn repeated(numbers: usize, kind: TokenKind, byte: u8) -> Call {
    let tokens = (0..numbers).map(|i| if i % ROW_TOKEN == COL_TOKEN_KIND { kind as u32 } else { 1 }).collect();
    let bytes = vec![byte; numbers.div_ceil(ROW_TOKEN)];
    Call { entry: ENTRY_SOURCE_FILE, tokens, bytes, ..Call::default() }
}
