//! What becomes of a file: it is parsed, its call is refused, or it cannot be read.

use crate::args::Args;
use crate::files::Source;
use crate::lines::Lines;
use crate::name::escaped;
use crate::read::place_name;
use crate::refused::{Refused, of_text};
use crate::refused_rows::Rows;
use dt_parser::rowsfile::RowsFile;
use dt_parser::{Entrypoint, Parse, Parser};

pub enum Outcome<'b> {
    Parsed(Parsed<'b>),
    Refused(Refused),
    Unreadable(Unreadable),
}

pub struct Parsed<'b> {
    pub is_rows: bool,
    pub entry: Entrypoint,
    /// The text's name as bytes: that of the file, or the one that token rows give.
    pub name: Vec<u8>,
    /// The same for positions.
    pub place_name: String,
    pub text: &'b [u8],
    pub lines: Lines<'b>,
    pub parse: Parse<'b>,
}

/// No call was made.
pub struct Unreadable {
    pub message: String,
    /// The line of a file of token rows that is not as it should be, from 1.
    pub line: Option<usize>,
}

/// The call on a source, or on a file of token rows.
pub fn of<'b>(source: &Source, bytes: &'b [u8], is_rows: bool, args: &Args, parser: &mut Parser) -> Outcome<'b> {
    if is_rows { of_rows(source, bytes, args, parser) } else { of_source(source, bytes, args, parser) }
}

fn of_source<'b>(source: &Source, text: &'b [u8], args: &Args, parser: &mut Parser) -> Outcome<'b> {
    let entry = args.entry.unwrap_or(Entrypoint::SourceFile);
    match parser.parse_text_in(args.setting, entry, text) {
        Ok(read) => Outcome::Parsed(Parsed {
            is_rows: false,
            entry,
            name: source.name().to_vec(),
            place_name: place_name(source),
            text,
            lines: Lines::new(text),
            parse: read.parse,
        }),
        Err(why) => Outcome::Refused(of_text(source, text, &why)),
    }
}

fn of_rows<'b>(source: &Source, bytes: &'b [u8], args: &Args, parser: &mut Parser) -> Outcome<'b> {
    let file = match RowsFile::read(bytes) {
        Ok(file) => file,
        Err(why) => {
            let message = format!("expected {}, found {}", why.expected, why.found);
            return Outcome::Unreadable(Unreadable { message, line: Some(why.line) });
        }
    };
    let entry = args.entry.unwrap_or(file.entry);
    match parser.parse_rows_in(args.setting, entry, file.text, &file.rows) {
        Ok(read) => {
            let given = file.name.as_ref().filter(|name| !name.is_empty());
            let unnamed = || format!("(text of {})", escaped(source.name()));
            Outcome::Parsed(Parsed {
                is_rows: true,
                entry,
                name: given.map_or(source.name(), |name| name.as_bytes()).to_vec(),
                place_name: given.map_or_else(unnamed, |name| escaped(name.as_bytes())),
                text: file.text,
                lines: Lines::new(file.text),
                parse: read.parse,
            })
        }
        Err(why) => Outcome::Refused(Rows { bytes, file: &file }.explain(why)),
    }
}
