//! The lent buffers, and how much room is tried.

use crate::rows::{EVENT_ROW, ErrorRow, ReportRow, TokenRow, TreeRow};
use crate::{Input, LexError, Refusal};

/// The buffers that a call writes. Token rows are written by a call with a text alone, and the list by a query.
#[derive(Debug, Default)]
pub(crate) struct Buffers {
    pub tokens: Vec<u32>,
    pub events: Vec<u32>,
    pub trees: Vec<u32>,
    pub errors: Vec<u32>,
    pub reports: Vec<u32>,
    pub pool: Vec<u32>,
    pub list: Vec<u32>,
}

impl Buffers {
    /// Gives each buffer the length that the room asks for. What they hold does not matter: no answer depends on it.
    pub fn set_room(&mut self, room: Room) {
        self.tokens.resize(TokenRow::SIZE * room.tokens, 0);
        self.events.resize(EVENT_ROW * room.events, 0);
        self.trees.resize(TreeRow::SIZE * room.trees, 0);
        self.errors.resize(ErrorRow::SIZE * room.errors, 0);
        self.reports.resize(ReportRow::SIZE * room.reports, 0);
        self.pool.resize(room.pool, 0);
    }

    /// Gives the list a number for each tree row that there is room for: no row is in it twice, so that it fits where
    /// the tree does. Refusal 8 is then never about the list.
    pub fn set_list_room(&mut self) {
        self.list.resize(self.trees.len() / TreeRow::SIZE, 0);
    }
}

/// How many rows, or expectations in the pool, fit each buffer.
#[derive(Debug, Clone, Copy, PartialEq, Eq)]
pub(crate) struct Room {
    pub tokens: usize,
    pub events: usize,
    pub trees: usize,
    pub errors: usize,
    pub reports: usize,
    pub pool: usize,
}

impl Room {
    /// What suffices for nearly every file with these token rows.
    pub fn first(rows: &[u32]) -> Self {
        let most = Self::most(rows);
        Self::usual(token_count(rows)).at_most(most)
    }

    /// What suffices for every run on these token rows. There are as many lexical errors as error tokens.
    pub fn most(rows: &[u32]) -> Self {
        let n = token_count(rows);
        let is_error = |row: &&[u32; TokenRow::SIZE]| LexError::from_number(TokenRow::from(**row).kind).is_some();
        let errors = rows.as_chunks().0.iter().take(n).filter(is_error).count();
        Self { errors, ..Self::bound(n) }
    }

    /// What suffices for nearly every text: sources have about three bytes to a token.
    pub fn first_for_text(text: &[u8]) -> Self {
        let most = Self::most_for_text(text);
        let n = most.tokens / 2 + 16;
        Self { tokens: n, ..Self::usual(n) }.at_most(most)
    }

    /// What suffices for every text of that length: a token has at least one byte (crates/lexing). A text that is too
    /// long needs none, since no room helps it.
    pub fn most_for_text(text: &[u8]) -> Self {
        let n = if text.len() > Input::MAX_BYTES { 0 } else { text.len().min(Input::MAX_TOKENS) };
        Self { tokens: n, ..Self::bound(n) }
    }

    /// What so many tokens usually need: sources without mistakes have about 1.4 events and 1.3 tree rows to a token.
    const fn usual(n: usize) -> Self {
        Self { tokens: 0, events: 2 * n + 16, trees: 2 * n + 8, errors: n, reports: n / 8 + 8, pool: n / 2 + 64 }
    }

    /// What so many tokens can need: the theorem of crates/bounds. Of the reports n are those of the strict setting, and
    /// each of the others has at most [`Input::MAX_EXPECTATIONS`] in the pool.
    const fn bound(n: usize) -> Self {
        Self { tokens: 0, events: 13 * n + 1, trees: 6 * n + 1, errors: n, reports: 4 * n + 1, pool: 207 * n + 69 }
    }

    fn at_most(self, most: Self) -> Self {
        Self {
            tokens: self.tokens.min(most.tokens),
            events: self.events.min(most.events),
            trees: self.trees.min(most.trees),
            errors: self.errors.min(most.errors),
            reports: self.reports.min(most.reports),
            pool: self.pool.min(most.pool),
        }
    }

    /// The next room to try after this refusal; 2 can be about a text's token rows. None where more room would not help:
    /// the refusal is about something else, or the room is the most already.
    pub fn after(self, refusal: Refusal, most: Self) -> Option<Self> {
        let mut next = self;
        match refusal {
            Refusal::TooLong => next.tokens = 2 * self.tokens + 1,
            Refusal::NoEventRoom(_) => next.events = 2 * self.events + 1,
            Refusal::NoReportRoom(_) => {
                next.reports = 2 * self.reports + 1;
                next.pool = 2 * self.pool + 1;
            }
            Refusal::NoTreeRoom => {
                next.trees = 2 * self.trees + 1;
                next.errors = 2 * self.errors + 1;
            }
            _ => return None,
        }
        let next = next.at_most(most);
        (next != self).then_some(next)
    }
}

/// How many whole rows there are; rows that are too many are refused, and need no room.
fn token_count(rows: &[u32]) -> usize {
    (rows.len() / TokenRow::SIZE).min(Input::MAX_TOKENS)
}

#[cfg(test)]
mod tests {
    use super::*;
    use crate::TokenKind;

    fn blanks(n: usize) -> Vec<u32> {
        [TokenKind::Whitespace.number(), 1].repeat(n)
    }

    #[test]
    fn room_grows_up_to_the_theorem_and_no_further() {
        let most = Room::most(&blanks(100));
        assert_eq!((most.events, most.trees, most.errors), (1301, 601, 0));
        assert_eq!((most.reports, most.pool), (401, 20769));
        for refusal in [Refusal::NoEventRoom(0), Refusal::NoReportRoom(0), Refusal::NoTreeRoom] {
            let mut room = Room::first(&blanks(100));
            let mut turns = 0;
            while let Some(next) = room.after(refusal, most) {
                room = next;
                turns += 1;
            }
            assert!(turns > 0 && turns < 20, "{refusal}: {turns}");
        }
    }

    #[test]
    fn the_pool_has_room_for_every_expectation_of_each_report_of_a_run() {
        for n in [0, 1, 1000] {
            let most = Room::most(&blanks(n));
            assert_eq!(most.pool, (most.reports - n) * Input::MAX_EXPECTATIONS);
        }
    }

    #[test]
    fn more_room_is_no_help_against_bad_input() {
        let room = Room { tokens: 0, events: 0, trees: 0, errors: 0, reports: 0, pool: 0 };
        let most = Room::most(&blanks(1));
        for number in [1, 2, 3, 4, 5, 9, 10, 11, 12, 13] {
            let refusal = Refusal::from_number(number, 0).unwrap();
            assert_eq!(room.after(refusal, most), None);
        }
    }

    #[test]
    fn room_for_a_text_grows_up_to_a_token_a_byte() {
        let text = b" ".repeat(1000);
        let most = Room::most_for_text(&text);
        assert_eq!(most, Room { tokens: 1000, errors: 1000, ..Room::most(&blanks(1000)) });
        for refusal in [Refusal::TooLong, Refusal::NoTreeRoom] {
            let first = Room::first_for_text(&text);
            assert!(first.tokens < 1000 && first.errors < 1000);
            let last = std::iter::successors(Some(first), |room| room.after(refusal, most)).last().unwrap();
            let grown = if refusal == Refusal::TooLong { last.tokens } else { last.errors };
            assert_eq!(grown, 1000, "{refusal}");
        }
        for short in [b"".as_slice(), b"a", b"ab"] {
            assert_eq!(Room::first_for_text(short).tokens, short.len());
        }
        let (longest, longer) = (b" ".repeat(Input::MAX_BYTES), b" ".repeat(Input::MAX_BYTES + 1));
        assert_eq!(Room::most_for_text(&longest).tokens, Input::MAX_TOKENS);
        assert_eq!(Room::most_for_text(&longer).tokens, 0);
    }

    #[test]
    fn there_is_room_for_each_error_token_and_none_for_half_a_row() {
        let rows = [64, 1, 0, 1, 74, 1, 75, 1, 64];
        assert_eq!(Room::most(&rows), Room { errors: 2, ..Room::most(&blanks(4)) });
        assert_eq!(Room::first(&rows).errors, 2);
    }

    #[test]
    fn no_room_is_taken_for_input_that_is_too_long() {
        assert_eq!(Room::most(&blanks(Input::MAX_TOKENS + 9)), Room::most(&blanks(Input::MAX_TOKENS)));
    }
}
