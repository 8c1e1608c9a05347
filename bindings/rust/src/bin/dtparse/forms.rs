//! A file with what became of it, and what is said of it in the form that was asked for.

use crate::args::{Args, Form, View};
use crate::counts::{Counts, Totals};
use crate::files::Source;
use crate::json_form::Document;
use crate::name::escaped;
use crate::outcome::{Outcome, Parsed};
use crate::text_form::Styles;
use crate::{STATUS_NO_ANSWER, STATUS_REPORTS, at, line_form, text_form};

/// A file with what became of it.
pub struct Shown<'b> {
    pub source: &'b Source,
    pub bytes: &'b [u8],
    pub outcome: Outcome<'b>,
    pub counts: Counts,
}

/// What is written to the standard output and then to the standard error.
pub struct Said {
    pub out: String,
    pub err: String,
}

impl Said {
    pub const fn out(out: String) -> Self {
        Self { out, err: String::new() }
    }

    pub const fn err(err: String) -> Self {
        Self { out: String::new(), err }
    }
}

impl Shown<'_> {
    pub fn status(&self, args: &Args) -> u8 {
        match &self.outcome {
            Outcome::Parsed(parsed) if bad_position(parsed, args).is_some() => STATUS_NO_ANSWER,
            Outcome::Parsed(parsed) if !parsed.parse.is_clean() => STATUS_REPORTS,
            Outcome::Parsed(_) => 0,
            Outcome::Refused(_) | Outcome::Unreadable(_) => STATUS_NO_ANSWER,
        }
    }

    /// Why there was no call: the file, not what stands in it.
    fn bad_file(&self) -> Option<String> {
        match &self.outcome {
            Outcome::Unreadable(why) if why.line.is_none() => Some(self.complaint(&why.message)),
            _ => None,
        }
    }

    fn complaint(&self, why: &str) -> String {
        format!("dtparse: {}: {why}\n", escaped(self.source.name()))
    }
}

/// Why the text does not have a position that it is asked for.
fn bad_position(parsed: &Parsed, args: &Args) -> Option<String> {
    let why = |view: &View| match view {
        View::At(position) => {
            let why = at::items(&parsed.lines, &parsed.parse, *position).err()?;
            Some(format!("--at {position}: {why}"))
        }
        _ => None,
    };
    args.views.iter().find_map(why)
}

/// Says what became of files, one after the other.
pub struct Speaker<'a> {
    pub args: &'a Args,
    pub several: bool,
    pub styles: Styles,
    document: Document,
}

impl<'a> Speaker<'a> {
    pub fn new(args: &'a Args, several: bool, styles: Styles) -> Self {
        Self { args, several, styles, document: Document::new(args) }
    }

    pub fn file(&mut self, shown: &Shown) -> Said {
        match self.args.form {
            Form::Text => text_form::file(shown, self.args, self.several, self.styles),
            Form::Json => Said::out(self.document.file(shown, self.args)),
            Form::Lines => Said { out: line_form::file(shown), err: shown.bad_file().unwrap_or_default() },
            Form::Quiet => Said::err(
                match &shown.outcome {
                    Outcome::Parsed(parsed) => bad_position(parsed, self.args).map(|why| shown.complaint(&why)),
                    _ => shown.bad_file(),
                }
                .unwrap_or_default(),
            ),
        }
    }

    /// What follows the last file.
    pub fn end(self, totals: &Totals, status: u8) -> String {
        match self.args.form {
            Form::Text if self.several => format!("{}\n", totals.text()),
            Form::Json => self.document.end(totals, status),
            _ => String::new(),
        }
    }
}
