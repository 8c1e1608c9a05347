//! The JSON document that docs/DTPARSE.md describes: the files, then what is counted of all of them. What a parse gives
//! is written in json_parse.rs.

use crate::args::Args;
use crate::counts::{Counts, Totals};
use crate::forms::Shown;
use crate::json::{Json, Layout};
use crate::json_parse;
use crate::lines::Lines;
use crate::outcome::{Outcome, Unreadable};
use crate::refused::Refused;
use dt_parser::TextRange;

/// Raised where a field goes or gets another meaning, not where one is added.
const FORMAT: usize = 1;

pub struct Document {
    json: Json,
}

impl Document {
    /// Opens the document, up to its first file.
    pub fn new(args: &Args) -> Self {
        let mut json = Json::default();
        json.object(Layout::Lines);
        json.key("format").number(FORMAT);
        json.key("dtparse").string(env!("CARGO_PKG_VERSION"));
        json.key("setting").string(args.setting.name());
        json.key("files").list(Layout::Lines);
        Self { json }
    }

    /// What is new in the document with this file.
    pub fn file(&mut self, shown: &Shown, args: &Args) -> String {
        let json = &mut self.json;
        json.object(Layout::Lines);
        let name = shown.source.name();
        json.key("name").bytes(name);
        let is_utf8 = std::str::from_utf8(name).is_ok();
        json.key("name_bytes").option((!is_utf8).then_some(name), byte_numbers);
        let (status, refused, unreadable) = match &shown.outcome {
            Outcome::Parsed(_) => ("parsed", None, None),
            Outcome::Refused(refused) => ("refused", Some(refused), None),
            Outcome::Unreadable(why) => ("unreadable", None, Some(why)),
        };
        json.key("status").string(status);
        json.key("refusal").option(refused, |json, refused| refusal(json, refused, shown.bytes));
        json.key("unreadable").option(unreadable, why);
        json_parse::write(json, &shown.outcome, args);
        json.key("counts");
        counts(json, &shown.counts);
        json.end();
        json.take()
    }

    /// The rest of the document.
    pub fn end(mut self, totals: &Totals, status: u8) -> String {
        let json = &mut self.json;
        json.end();
        json.key("totals").object(Layout::Line);
        json.key("files").number(totals.files);
        json.key("with_errors").number(totals.with_errors);
        json.key("refused").number(totals.refused);
        json.key("unreadable").number(totals.unreadable);
        json.end();
        json.key("counts");
        counts(json, &totals.counts);
        json.key("exit_status").number(status.into());
        json.end();
        json.take()
    }
}

fn byte_numbers(json: &mut Json, bytes: &[u8]) {
    json.list(Layout::Line);
    for byte in bytes {
        json.number((*byte).into());
    }
    json.end();
}

fn refusal(json: &mut Json, refused: &Refused, bytes: &[u8]) {
    json.object(Layout::Lines);
    json.key("number").option(refused.refusal, |json, refusal| json.number(refusal.number() as usize));
    json.key("name").option(refused.name(), |json, name| json.string(&name));
    json.key("place").option(refused.refusal, |json, refusal| json.number(refusal.place()));
    json.key("message").string(&refused.message);
    json.key("range").option(refused.range, |json, of_file| range(json, &Lines::new(bytes), of_file));
    json.key("help").option(refused.help.as_deref(), |json, help| json.string(help));
    json.end();
}

fn why(json: &mut Json, unreadable: &Unreadable) {
    json.object(Layout::Line);
    json.key("message").string(&unreadable.message);
    json.key("line").option(unreadable.line, |json, line| json.number(line));
    json.end();
}

/// Bytes from 0, lines and columns from 1.
pub fn range(json: &mut Json, lines: &Lines, range: TextRange) {
    let (start, end) = (lines.position(range.start), lines.position(range.end));
    json.object(Layout::Line);
    json.key("start").number(range.start);
    json.key("end").number(range.end);
    json.key("line").number(start.line + 1);
    json.key("column").number(start.column + 1);
    json.key("end_line").number(end.line + 1);
    json.key("end_column").number(end.column + 1);
    json.end();
}

fn counts(json: &mut Json, counts: &Counts) {
    json.object(Layout::Lines);
    json.key("reports").number(counts.reports);
    json.key("lexical_errors").number(counts.lexical_errors);
    json.key("not_understood").number(counts.notes);
    json.key("nodes").number(counts.nodes);
    json.key("properties").number(counts.properties);
    json.key("bytes").number(counts.bytes);
    json.key("bytes_not_understood").number(counts.bytes_not_understood);
    json.end();
}
