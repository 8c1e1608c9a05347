//! What the help and the man page say beside the options.

use crate::read::MOST_ROWS_BYTES;
use dt_parser::{Input, TextError};

pub const ABOUT: &str = "shows what the proved devicetree parser makes of a source";

/// A paragraph, or a command to type.
pub enum Block {
    Text(String),
    Command(String),
}

pub struct Section {
    pub title: &'static str,
    pub blocks: Vec<Block>,
}

/// What is read, before the options. The command is how dtparse is called.
pub fn description(command: &str) -> Section {
    let files = "FILE is a devicetree source in plain ASCII, or a file of token rows (docs/TOKENS.md), which is told by \
                 its first line or the ending .rows. A folder stands for all files below it whose names end in .dts or \
                 .dtsi, in the order of the bytes of their paths; links to folders are not followed. `-` or no FILE is \
                 the standard input, in either form. Files are read in the order given, and one that has no answer does \
                 not stop the others.";
    let directives = "A source with preprocessor directives, as #include or #define, goes through the preprocessor \
                      first, with -I for each folder that it includes from:";
    let usual = format!("{} FILE.dts | {command} -", TextError::PREPROCESSOR);
    let blocks = vec![Block::Text(files.to_string()), Block::Text(directives.to_string()), Block::Command(usual)];
    Section { title: "Description", blocks }
}

/// What follows the options.
pub fn after_options() -> [Section; 2] {
    let status = "0 no report and no lexical error; 1 there are some; 2 a call was refused, or a file or an argument is \
                  invalid. Of several files it is the worst. A note shows a part that was not understood and for which \
                  the parser makes no report; it does not change the status.";
    let limits = format!(
        "a source has at most {} bytes and {} tokens, blanks and comments among them; a file of token rows has at most \
         {MOST_ROWS_BYTES} bytes. Reading stops there.",
        Input::MAX_BYTES,
        Input::MAX_TOKENS
    );
    [
        Section { title: "Exit status", blocks: vec![Block::Text(status.to_string())] },
        Section { title: "Limits", blocks: vec![Block::Text(limits)] },
    ]
}
