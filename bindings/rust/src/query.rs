//! The proved queries of a source file: which rows of its tree are under a caret, and which top-level parts a range
//! shares a byte with.

use crate::buffers::Buffers;
use crate::parser::bad_count;
use crate::raw::ListAnswer;
use crate::sys;
use crate::{Error, Input, Parser, Setting, TextRange};

/// What is asked of a source file. [`Parser::query`] gives the rows, by number.
#[derive(Debug, Clone, Copy, PartialEq, Eq, Hash)]
#[non_exhaustive]
pub enum Query {
    /// The rows from the root to the leaf at this offset. [`Tree::at_offset`](crate::Tree::at_offset) says which they
    /// are.
    Caret(usize),
    /// The top-level parts that share a byte with this range. [`Tree::parts_in`](crate::Tree::parts_in) says which they
    /// are.
    Parts(TextRange),
}

impl Parser {
    /// The rows that a query lists, by number and in order, of the tree that
    /// [`Entrypoint::SourceFile`](crate::Entrypoint::SourceFile) gives for this input. They are what the proved call
    /// answers; no tree is made of them, but [`Tree::item`](crate::Tree::item) turns a number into the item of a tree
    /// that is there already. The buffers grow as for [`Parser::parse`].
    ///
    /// The [setting](Setting) makes no difference: it adds reports, and no row.
    ///
    /// ```
    /// use dt_parser::{Entrypoint, Parser, Query};
    ///
    /// let read = Entrypoint::SourceFile.parse_text(b"a; b;")?;
    /// let mut parser = Parser::new();
    /// // the root, the property `a;`, and the `;` that owns the byte at 1
    /// assert_eq!(parser.query(Query::Caret(1), &read.input)?, [0, 1, 3]);
    /// // the property `a;`, the blank, and the property `b;`
    /// assert_eq!(parser.query(Query::Parts((1..4).into()), &read.input)?, [1, 4, 5]);
    /// assert_eq!(read.parse.tree.item(5).expect("a row of the tree").text(), b"b;");
    /// # Ok::<(), Box<dyn std::error::Error>>(())
    /// ```
    ///
    /// # Errors
    ///
    /// If the call is refused for its input: see [`Error`].
    pub fn query(&mut self, query: Query, input: &Input<'_>) -> Result<Vec<usize>, Error> {
        self.query_rows(query, input.text, &input.rows())
    }

    /// The same of a text with its tokens as plain numbers, a kind and a length each.
    ///
    /// # Errors
    ///
    /// If the call is refused for its input: see [`Error`], and of bad rows [`RowError`](crate::RowError).
    pub fn query_rows(&mut self, query: Query, text: &[u8], rows: &[u32]) -> Result<Vec<usize>, Error> {
        self.query_by(sys::call_query, query, text, rows)
    }

    /// Asks by any call of that form.
    fn query_by(
        &mut self,
        mut call: impl FnMut(Query, u32, &[u8], &[u32], &mut Buffers) -> ListAnswer,
        query: Query,
        text: &[u8],
        rows: &[u32],
    ) -> Result<Vec<usize>, Error> {
        let call = |lent: &mut Buffers| {
            lent.set_list_room();
            let ListAnswer { answer, list_count } = call(query, Setting::Old.number(), text, rows, lent);
            (answer, list_count)
        };
        let (answer, count) = self.answer_by(call, text, rows)?;
        let list = self.buffers.list.get(..count).ok_or(bad_count("count of row numbers"))?;
        let one = |(i, row): (usize, &u32)| {
            let bad = Error::BadAnswer { what: "list number", row: Some(i), expected: "a row of the tree" };
            Some(*row as usize).filter(|row| *row < answer.tree_count).ok_or(bad)
        };
        list.iter().enumerate().map(one).collect()
    }
}

#[cfg(test)]
mod tests;
