//! The proved devicetree parser of Butrezsan, for Rust.
//!
//! A text goes in, with or without its tokens; a lossless tree comes out, with reports that do not stop the parser. The
//! parser is the static library of the crate `dt_parser` of this repository, which is proved; this crate gives it types,
//! buffers that grow, a tree to walk and the texts of dt-tools' messages.
//!
//! # Example
//!
//! A source with a property that lacks its value:
//!
//! ```
//! use dt_parser::{Entrypoint, NodeKind};
//!
//! let parse = Entrypoint::SourceFile.parse_text(b"a=;")?.parse;
//!
//! let first = &parse.reports[0];
//! assert_eq!(first.range.byte_range(), 2..3);
//! assert_eq!(first.text(), "Expected value, ‘/include/‘ or preprocessor directive, but found ‘;’");
//!
//! let property = parse.tree.root().child(NodeKind::DtProperty).expect("it is kept");
//! assert_eq!(property.text(), b"a=;");
//! for (item, depth) in parse.tree.root().walk() {
//!     println!("{:depth$}{item}", "");
//! }
//! # Ok::<(), dt_parser::TextError>(())
//! ```
//!
//! # Texts and tokens
//!
//! [`Entrypoint::parse_text`] reads the tokens itself, by the rules of dt-tools' lexer. The text must be plain ASCII, and
//! directives of the preprocessor are not read: such a source goes through `cpp -P` first. [`TextError`] says which byte
//! is refused, where it stands and what to do. [`Entrypoint::parse`] takes the tokens of another lexer, those of
//! directives too, and [`Entrypoint::parse_rows`] takes them as plain numbers, for instance from a file of token rows
//! ([`rowsfile`]):
//!
//! ```
//! use dt_parser::{Entrypoint, rowsfile::RowsFile};
//!
//! let file = RowsFile::read(b"devicetree tokens 1\nrows 2\nIdent 1\nSemicolon 1\ntext 2\na;")?;
//! let of_rows = file.entry.parse_rows(file.text, &file.rows)?;
//! let of_text = Entrypoint::SourceFile.parse_text(file.text)?;
//! assert_eq!(of_rows.input, of_text.input);
//! assert_eq!(of_rows.parse.tree.to_string(), of_text.parse.tree.to_string());
//! # Ok::<(), Box<dyn std::error::Error>>(())
//! ```
//!
//! Rows that are not tokens over the whole text are refused. [`RowError`] says which row it is, which number of it is
//! wrong and what is allowed.
//!
//! # Labels
//!
//! dt-tools takes any name for a label. In the [strict setting](Setting::Strict) a label that the Devicetree
//! Specification does not allow is reported too, and nothing else changes:
//!
//! ```
//! use dt_parser::{Entrypoint, Message, Setting};
//!
//! let old = Entrypoint::SourceFile.parse_text(b"1:;")?.parse;
//! let strict = Entrypoint::SourceFile.parse_text_in(Setting::Strict, b"1:;")?.parse;
//!
//! let (last, others) = strict.reports.split_last().expect("the label's");
//! assert_eq!(others, old.reports);
//! assert_eq!((last.message, last.range.byte_range()), (Message::NotALabel, 0..1));
//! # Ok::<(), dt_parser::TextError>(())
//! ```
//!
//! # Lines and columns, and trees to keep
//!
//! A range is in bytes. [`LineIndex`] turns an offset into a line and a column, counted in bytes, in characters or, as
//! editors want it, in units of UTF-16; and back. A [`Parse`] borrows the text that it was made from;
//! [`Parse::into_owned`] gives one that can be kept without it, sent to another thread, and asked for the
//! [node at a range](Tree::covering_node) or the [leaf at an offset](Tree::leaf_at) later.
//!
//! ```
//! use dt_parser::{Columns, Entrypoint, LineIndex, OwnedParse};
//!
//! let kept: OwnedParse = Entrypoint::SourceFile.parse_text(b"a;\n}")?.parse.into_owned();
//! let index = LineIndex::new(kept.tree.text());
//!
//! let range = kept.reports[0].range; // of the `}` that closes nothing
//! let position = index.position(range.start, Columns::Characters).expect("it lies in the text");
//! assert_eq!(format!("{position}: {}", kept.reports[0]), "2:1: Unmatched `}`");
//! # Ok::<(), dt_parser::TextError>(())
//! ```
//!
//! # What is under a caret
//!
//! [`Tree::at_offset`] has the items from the root to the leaf at an offset, and [`Tree::parts_in`] the top-level parts
//! that share a byte with a range. Both are proved calls of their own too, which a [`Parser`] makes without a tree in
//! Rust: [`Parser::query`] gives the same rows, by number. The way up, as an outline goes it, is [`Item::nodes_above`]:
//! every row names its parent.
//!
//! ```
//! use dt_parser::{Entrypoint, Parser, Query};
//!
//! let read = Entrypoint::SourceFile.parse_text(b"/dts-v1/;\n/ { a; };\n")?;
//! let items = read.parse.tree.at_offset(14); // of the `a`
//! let kinds: Vec<String> = items.iter().map(|item| item.to_string()).collect();
//! assert_eq!(kinds, ["SourceFile@0..20", "DtNode@10..19", "DtProperty@14..16", "Name@14..15 \"a\""]);
//!
//! let rows: Vec<usize> = items.iter().map(|item| item.row()).collect();
//! assert_eq!(Parser::new().query(Query::Caret(14), &read.input)?, rows);
//!
//! let up: Vec<usize> = items[3].nodes_above().map(|node| node.row()).collect();
//! assert!(up.iter().rev().eq(&rows[..3]));
//! # Ok::<(), Box<dyn std::error::Error>>(())
//! ```
//!
//! # What is proved and what is not
//!
//! The calls that this crate makes are proved to answer every input as the definitions say (docs/READING.md). Not proved
//! is what is written here in Rust: it passes slices, gives names to numbers and checks that the rows are one tree. The
//! three `unsafe` blocks are in src/sys.rs; [`raw`] declares the calls.

#![deny(unsafe_op_in_unsafe_fn)]
#![deny(unsafe_code)]
#![deny(missing_docs)]

mod buffers;
mod entrypoint;
mod error;
mod expected;
mod input;
mod lex_error;
mod lexical;
mod line_index;
mod message;
mod navigate;
mod node_kind;
mod numbered;
mod parser;
mod query;
mod range;
#[allow(unsafe_code)]
pub mod raw;
mod report;
mod row_error;
mod rows;
pub mod rowsfile;
mod setting;
mod sys;
mod text;
mod token_kind;
mod tree;
mod unreported;
mod walk;

pub use entrypoint::Entrypoint;
pub use error::{Error, Refusal};
pub use expected::Expected;
pub use input::{Input, Token};
pub use lex_error::LexError;
pub use lexical::LexicalError;
pub use line_index::{Columns, LineEnds, LineIndex, Position};
pub use message::{Hint, Message};
pub use node_kind::NodeKind;
pub use parser::{OwnedParse, Parse, Parser};
pub use query::Query;
pub use range::TextRange;
pub use report::{Label, Report};
pub use row_error::{RowError, RowErrorKind};
pub use setting::Setting;
pub use text::{TextError, TextParse};
pub use token_kind::TokenKind;
pub use tree::{OwnedTree, Tree};
pub use walk::{Item, Leaf, Node};
