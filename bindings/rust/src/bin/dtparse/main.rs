//! dtparse: shows what the parser makes of sources and of files of token rows. `dtparse --help` says how,
//! docs/DTPARSE.md more.

mod args;
mod at;
mod complete;
mod counts;
mod files;
mod forms;
mod help;
mod json;
mod json_form;
mod json_parse;
mod line_form;
mod lines;
mod man;
mod name;
mod nodes;
mod options;
mod outcome;
mod output;
mod page;
mod problems;
mod prose;
mod read;
mod refused;
mod refused_rows;
mod shown;
mod snippet;
mod style;
mod text_form;
mod tree;

use args::{AT_ONE_FILE, Args, Asked, Form};
use counts::{Counts, Totals};
use dt_parser::Parser;
use files::Source;
use forms::{Said, Shown, Speaker};
use outcome::{Outcome, Unreadable};
use output::{Output, complain};
use std::io::{self, IsTerminal};
use std::process::ExitCode;
use style::Style;
use text_form::Styles;

/// There is a report or a lexical error.
const STATUS_REPORTS: u8 = 1;
/// There is no answer: the call is refused, or the file or an argument is invalid.
const STATUS_NO_ANSWER: u8 = 2;

fn main() -> ExitCode {
    let given: Vec<_> = std::env::args_os().skip(1).collect();
    let mut output = Output::default();
    let status = match args::read(&given) {
        Ok(Asked::Show(args)) => show(&args, &mut output),
        Ok(asked) => {
            output.write(&about(&asked));
            0
        }
        Err(why) => misused(&format!("{why}\nTry `dtparse --help`.")),
    };
    ExitCode::from(match output.error() {
        Some(why) => misused(&format!("standard output: {why}")),
        None => status,
    })
}

fn misused(why: &str) -> u8 {
    complain(&format!("dtparse: {why}\n"));
    STATUS_NO_ANSWER
}

/// What is asked for of the command itself.
fn about(asked: &Asked) -> String {
    match asked {
        Asked::Version => format!("dtparse {}\n", env!("CARGO_PKG_VERSION")),
        Asked::Print("man") => man::print(),
        Asked::Print("bash") => complete::bash(),
        Asked::Print("zsh") => complete::zsh(),
        Asked::Print("fish") => complete::fish(),
        Asked::Print(_) | Asked::Help | Asked::Show(_) => help::print(own_name()),
    }
}

/// How the command is called: by its name where it was found on the path, else by the script at the repository's root.
fn own_name() -> &'static str {
    let is_on_path = std::env::args_os().next().is_some_and(|name| name == "dtparse");
    if is_on_path { "dtparse" } else { "./dtparse" }
}

/// Reads all files and says what became of them. Gives the worst status.
fn show(args: &Args, output: &mut Output) -> u8 {
    let sources = files::find(&args.files);
    if sources.several && args.has_position() {
        return misused(&format!("{AT_ONE_FILE}, not for a folder\nTry `dtparse --help`."));
    }
    let styles = Styles { out: style(args, io::stdout().is_terminal()), err: style(args, io::stderr().is_terminal()) };
    let mut speaker = Speaker::new(args, sources.several, styles);
    let (mut parser, mut totals, mut status) = (Parser::new(), Totals::default(), 0);
    for source in &sources.list {
        let (said, of_file) = show_one(source, &mut parser, &mut speaker, &mut totals);
        output.say(&said);
        status = status.max(of_file);
    }
    output.write(&speaker.end(&totals, status));
    status
}

fn show_one(source: &Source, parser: &mut Parser, speaker: &mut Speaker, totals: &mut Totals) -> (Said, u8) {
    let args = speaker.args;
    read::tell_that_it_waits(source);
    let read = read::read(source);
    let outcome = match &read {
        Ok((bytes, is_rows)) => outcome::of(source, bytes, *is_rows, args, parser),
        Err(why) => Outcome::Unreadable(Unreadable { message: why.clone(), line: None }),
    };
    let counts = match &outcome {
        Outcome::Parsed(parsed) if matches!(args.form, Form::Text | Form::Json) => Counts::of(&parsed.parse),
        _ => Counts::default(),
    };
    let bytes = read.as_ref().map_or([].as_slice(), |(bytes, _)| bytes);
    let shown = Shown { source, bytes, outcome, counts };
    totals.add(&shown);
    (speaker.file(&shown), shown.status(args))
}

fn style(args: &Args, is_terminal: bool) -> Style {
    let set = |name| std::env::var_os(name).unwrap_or_default();
    let wanted = set("NO_COLOR").is_empty() && set("TERM") != "dumb";
    Style::new(args.color.unwrap_or(wanted && is_terminal))
}
