//! The man page, in the man macros of troff.

use crate::options::{GROUPS, Opt};
use crate::prose::{ABOUT, Block, Section, after_options, description};

pub fn print() -> String {
    let version = env!("CARGO_PKG_VERSION");
    let mut out = format!(".TH DTPARSE 1 \"\" \"dtparse {version}\" \"User Commands\"\n");
    out += &format!(".SH NAME\ndtparse \\- {}\n", prose(ABOUT));
    out += ".SH SYNOPSIS\n.B dtparse\n[\\fIOPTION\\fR..] [\\fIFILE\\fR..]\n";
    out += &section(&description("dtparse"));
    out += ".SH OPTIONS\n";
    for group in GROUPS {
        out += &format!(".SS {}\n", prose(group.heading));
        out.extend(group.options.iter().map(option));
        if !group.after.is_empty() {
            out += &format!(".PP\n{}\n", prose(group.after));
        }
    }
    out.extend(after_options().iter().map(section));
    out
}

fn section(section: &Section) -> String {
    let mut out = format!(".SH {}\n", section.title.to_uppercase());
    for block in &section.blocks {
        out += &match block {
            Block::Text(text) => format!(".PP\n{}\n", prose(&capital(text))),
            Block::Command(command) => format!(".PP\n.RS 4\n.EX\n{}\n.EE\n.RE\n", exact(command)),
        };
    }
    out
}

fn option(option: &Opt) -> String {
    let short = option.short.map_or(String::new(), |short| format!(", \\fB\\-{short}\\fR"));
    let value = option.value.as_ref().map_or(String::new(), |value| format!(" \\fI{}\\fR", exact(value.name)));
    format!(".TP\n\\fB\\-\\-{}\\fR{value}{short}\n{}\n", exact(option.long), prose(&option.help()))
}

/// A text as troff shows it: what stands between backquotes, and every option, in bold.
fn prose(text: &str) -> String {
    let bold = |(i, part): (usize, &str)| if i % 2 == 1 { format!("\\fB{}\\fR", exact(part)) } else { words(part) };
    let text: String = text.split('`').enumerate().map(bold).collect();
    // such a sign at the start of a line would be a request
    if text.starts_with(['.', '\'']) { format!("\\&{text}") } else { text }
}

fn words(text: &str) -> String {
    let word = |word: &str| if word.starts_with("--") { format!("\\fB{}\\fR", exact(word)) } else { escaped(word) };
    text.split(' ').map(word).collect::<Vec<_>>().join(" ")
}

fn capital(text: &str) -> String {
    let (first, rest) = text.split_at(text.len().min(1));
    first.to_ascii_uppercase() + rest
}

/// A text with every sign as it is typed.
fn exact(text: &str) -> String {
    escaped(text).replace('-', "\\-").replace('\'', "\\(aq")
}

fn escaped(text: &str) -> String {
    text.replace('\\', "\\e")
}

#[cfg(test)]
mod tests {
    use super::*;

    #[test]
    fn signs_of_troff_are_escaped() {
        assert_eq!(prose(".a `-` \\"), "\\&.a \\fB\\-\\fR \\e");
        assert_eq!(prose("well-known --tree"), "well-known \\fB\\-\\-tree\\fR");
        assert_eq!(exact("it's a-b"), "it\\(aqs a\\-b");
    }
}
