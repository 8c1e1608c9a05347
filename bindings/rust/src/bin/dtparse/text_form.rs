//! The output for people.

use crate::args::{Args, View};
use crate::forms::{Said, Shown};
use crate::lines::Lines;
use crate::name::escaped;
use crate::outcome::{Outcome, Parsed};
use crate::page::Page;
use crate::read::place_name;
use crate::refused::{LINE_MARKS, Refused, line_mark};
use crate::snippet::{Underline, snippet};
use crate::style::{Ink, Style};
use crate::{at, nodes, problems, tree};
use dt_parser::Entrypoint;

/// How the two streams are coloured.
#[derive(Clone, Copy)]
pub struct Styles {
    pub out: Style,
    pub err: Style,
}

/// What is said of a file: its parts on the standard output, or why it has no answer on the standard error.
pub fn file(shown: &Shown, args: &Args, several: bool, styles: Styles) -> Said {
    let name = escaped(shown.source.name());
    let said = match &shown.outcome {
        Outcome::Parsed(parsed) => parts(parsed, shown, args, styles.out),
        Outcome::Refused(refused) => Err(explain(refused, shown, styles.err)),
        Outcome::Unreadable(why) => Err(match why.line {
            Some(line) => format!("line {line}: {}", why.message),
            None => why.message.clone(),
        }),
    };
    match said {
        Ok(text) if several => Said::out(format!("{}\n{text}\n", styles.out.paint(Ink::Strong, &heading(&name)))),
        Ok(text) => Said::out(text),
        Err(why) => Said::err(format!("dtparse: {name}: {why}\n{}", if several { "\n" } else { "" })),
    }
}

/// What stands before a file's parts where there are several files.
fn heading(name: &str) -> String {
    format!("==> {name} <==")
}

/// What is asked for; or why there is no answer, where it is asked for a position that the text does not have.
fn parts(parsed: &Parsed, shown: &Shown, args: &Args, style: Style) -> Result<String, String> {
    let usual = match parsed.entry {
        Entrypoint::SourceFile => [View::Reports, View::Nodes],
        _ => [View::Reports, View::Tree],
    };
    let views = if args.views.is_empty() { usual.as_slice() } else { &args.views };
    let page = Page { name: &parsed.place_name, lines: &parsed.lines, parse: &parsed.parse, style };
    let mut parts = Vec::new();
    if views.contains(&View::Reports) {
        parts.push(problems::print(&page));
    }
    if views.contains(&View::Nodes) {
        parts.push(nodes::print(&page));
    }
    if views.contains(&View::Tree) {
        parts.push(tree::print(&page));
    }
    for view in views {
        if let View::At(position) = view {
            parts.push(at::print(&page, *position)?);
        }
    }
    if views.contains(&View::Reports) || views.contains(&View::Nodes) {
        parts.push(problems::summary(&page, &shown.counts));
    }
    if parsed.has_line_marks() {
        parts.push(format!("note: {LINE_MARKS}\n"));
    }
    parts.retain(|part| !part.is_empty());
    Ok(parts.join("\n"))
}

impl Parsed<'_> {
    /// Whether lines of the preprocessor's own can be the reason for reports.
    pub fn has_line_marks(&self) -> bool {
        !self.is_rows && !self.parse.is_clean() && line_mark(self.text).is_some()
    }
}

/// What is wrong, the line of it with what it is about underlined, and what to do.
fn explain(refused: &Refused, shown: &Shown, style: Style) -> String {
    let mut out = refused.text();
    if let Some(range) = refused.range {
        let underline = Underline { range, text: String::new(), ink: Ink::Error };
        let lines = Lines::new(shown.bytes);
        out += &format!("\n{}", snippet(&place_name(shown.source), &lines, &[&underline], style).trim_end());
    }
    if let Some(help) = &refused.help {
        out += &format!("\n{help}");
    }
    out
}
