//! The bytes of a file, up to the limit.

use crate::files::Source;
use crate::name::escaped;
use crate::output::complain;
use dt_parser::Input;
use dt_parser::rowsfile::is_rows;
use std::fs::File;
use std::io::{self, IsTerminal, Read};

/// The most bytes that a file of token rows can have. The longest that the parser takes, of 65,536 rows with the longest
/// names over 1,048,576 bytes, has less than a quarter of it.
pub const MOST_ROWS_BYTES: usize = 16 << 20;

/// The bytes of a file, and whether they are token rows. A source is read up to the first byte too many, so that the
/// parser refuses it.
pub fn read(source: &Source) -> Result<(Vec<u8>, bool), String> {
    match source {
        Source::StandardInput => bytes(io::stdin().lock(), false),
        Source::File(path) => {
            let is_named_rows = path.as_os_str().as_encoded_bytes().ends_with(b".rows");
            File::open(path).map_err(|why| why.to_string()).and_then(|file| bytes(file, is_named_rows))
        }
        Source::BadFolder(_, why) => Err(why.clone()),
    }
}

/// The content decides what it is. A file of that name with another first line is a bad one of token rows.
fn bytes(mut from: impl Read, is_named_rows: bool) -> Result<(Vec<u8>, bool), String> {
    let mut bytes = Vec::new();
    read_past(&mut from, Input::MAX_BYTES, &mut bytes)?;
    let is_rows = is_named_rows || is_rows(&bytes);
    if is_rows {
        read_past(&mut from, MOST_ROWS_BYTES, &mut bytes)?;
    }
    if bytes.len() > MOST_ROWS_BYTES {
        return Err(format!("over {MOST_ROWS_BYTES} bytes, more than a file of token rows can have"));
    }
    Ok((bytes, is_rows))
}

/// Reads on, up to one byte more than the limit.
fn read_past(from: &mut impl Read, limit: usize, bytes: &mut Vec<u8>) -> Result<(), String> {
    let more = (limit + 1).saturating_sub(bytes.len()) as u64;
    from.by_ref().take(more).read_to_end(bytes).map(drop).map_err(|why| why.to_string())
}

/// Someone who sits before a terminal is told what is waited for.
pub fn tell_that_it_waits(source: &Source) {
    if *source == Source::StandardInput && io::stdin().is_terminal() {
        let text = "waiting for a source on the standard input; Ctrl-D on a line of its own ends it, `dtparse --help` \
                    says more";
        complain(&format!("dtparse: {text}\n"));
    }
}

/// The name of what is read, for positions in it.
pub fn place_name(source: &Source) -> String {
    match source {
        Source::StandardInput => "(standard input)".to_string(),
        _ => escaped(source.name()),
    }
}

#[cfg(test)]
mod tests {
    use super::*;

    #[test]
    fn reading_stops_past_the_limit() {
        let (text, is_rows) = bytes(io::repeat(0), false).unwrap();
        assert_eq!((text.len(), is_rows), (Input::MAX_BYTES + 1, false));
        let why = "over 16777216 bytes, more than a file of token rows can have";
        assert_eq!(bytes(io::repeat(0), true), Err(why.to_string()));
        let rows = b"devicetree tokens 1\n".chain(io::repeat(b'0'));
        assert_eq!(bytes(rows, false), Err(why.to_string()));
        let rows = b"devicetree tokens 1\n".chain(io::repeat(b'0')).take(MOST_ROWS_BYTES as u64);
        assert_eq!(bytes(rows, false).map(|(bytes, _)| bytes.len()), Ok(MOST_ROWS_BYTES));
    }

    #[test]
    fn the_longest_rows_that_are_taken_fit() {
        use dt_parser::rowsfile::RowsFile;
        use dt_parser::{Entrypoint, LexError, TokenKind};
        let errors = LexError::ALL.iter().map(|error| format!("LexError::{}", error.name()));
        let names = TokenKind::ALL.iter().map(|kind| kind.name().to_string()).chain(errors);
        let longest = names.map(|name| name.len()).max().unwrap();
        let most = Input::MAX_TOKENS * (longest + " 1048576\n".len()) + Input::MAX_BYTES;
        assert!(4 * (most + 5000) < MOST_ROWS_BYTES, "{most}");
        let text = b"x".repeat(Input::MAX_BYTES);
        let rows = [LexError::UnexpectedEndBlockComment.number(), 16].repeat(Input::MAX_TOKENS);
        let file = RowsFile { entry: Entrypoint::SourceFile, name: None, text: &text, rows, first_row_line: 0 };
        let (read, is_rows) = bytes(file.write().as_slice(), false).unwrap();
        assert!(is_rows && RowsFile::read(&read).unwrap().row_count() == Input::MAX_TOKENS);
    }
}
