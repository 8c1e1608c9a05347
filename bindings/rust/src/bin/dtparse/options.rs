//! The table of options. The arguments are read by it, and the help, the man page and the completions are printed from
//! it.

use dt_parser::Entrypoint;

/// What an option is for.
#[derive(Debug, Clone, Copy, PartialEq, Eq)]
pub enum Action {
    Reports,
    Nodes,
    Tree,
    At,
    Lines,
    Json,
    Quiet,
    Strict,
    Entry,
    Color,
    Print,
    Version,
    Help,
}

/// A word after an option.
#[derive(Debug)]
pub struct Value {
    /// What stands for it in the help.
    pub name: &'static str,
    /// The words that it can be; none where it is not one of a few.
    pub words: &'static [&'static str],
}

#[derive(Debug)]
pub struct Opt {
    pub action: Action,
    /// Its name without the dashes.
    pub long: &'static str,
    pub short: Option<char>,
    pub value: Option<Value>,
    /// What it does in a few words, for completions too; without signs that a shell could take for its own.
    pub brief: &'static str,
    /// What else there is to say, right after that.
    pub more: &'static str,
}

/// Options that the help shows together.
pub struct Group {
    pub heading: &'static str,
    pub options: &'static [Opt],
    /// What is said after them.
    pub after: &'static str,
}

/// The option with this name, `--tree` or `-q`.
pub fn find(name: &str) -> Option<&'static Opt> {
    let is_named = |option: &&Opt| match name.strip_prefix("--") {
        Some(long) => long == option.long,
        None => option.short.is_some_and(|short| name == format!("-{short}")),
    };
    all().find(is_named)
}

pub fn all() -> impl Iterator<Item = &'static Opt> {
    GROUPS.iter().flat_map(|group| group.options)
}

impl Opt {
    /// The option as it is written, with what stands for its value: `--at LINE:COLUMN`, `--quiet, -q`.
    pub fn usage(&self) -> String {
        let value = self.value.as_ref().map_or(String::new(), |value| format!(" {}", value.name));
        let short = self.short.map_or(String::new(), |short| format!(", -{short}"));
        format!("--{}{value}{short}", self.long)
    }

    pub fn help(&self) -> String {
        format!("{}{}", self.brief, self.more)
    }

    /// The words that its value can be.
    pub fn words(&self) -> &'static [&'static str] {
        self.value.as_ref().map_or(&[], |value| value.words)
    }
}

/// An option without a value.
const fn plain(action: Action, long: &'static str, brief: &'static str, more: &'static str) -> Opt {
    Opt { action, long, short: None, value: None, brief, more }
}

/// The same with a short form.
const fn short(action: Action, long: &'static str, short: char, brief: &'static str, more: &'static str) -> Opt {
    Opt { action, long, short: Some(short), value: None, brief, more }
}

const ENTRIES: &[&str] = &[
    Entrypoint::SourceFile.name(),
    Entrypoint::ReferenceNoamp.name(),
    Entrypoint::PropValues.name(),
    Entrypoint::Cells.name(),
];

pub const GROUPS: &[Group] = &[
    Group {
        heading: "What is shown, one or more of",
        options: &[
            plain(Action::Reports, "reports", "each report and lexical error with its source line", ""),
            plain(Action::Nodes, "nodes", "the devicetree nodes, each with the line that it starts on", ""),
            plain(Action::Tree, "tree", "the whole tree, a line for each node and token", ""),
            Opt {
                action: Action::At,
                long: "at",
                short: None,
                value: Some(Value { name: "LINE:COLUMN", words: &[] }),
                brief: "what stands there",
                more: ": the rows of the tree from the root to the token, each with its number. Both are counted from 1, \
                       columns in characters, as positions are shown; the end of the last line has the last token. For \
                       one file alone",
            },
        ],
        after: "Without any of them: --reports --nodes for a source file, --reports --tree for another entry.",
    },
    Group {
        heading: "In which form, one of",
        options: &[
            plain(
                Action::Lines,
                "lines",
                "a line for each report",
                ", FILE:LINE:COLUMN: error: TEXT, and so for each refusal; notes have note: there. Nothing else is \
                 printed, for editors and grep",
            ),
            plain(
                Action::Json,
                "json",
                "one JSON document",
                " with the reports and nodes of all files, and with --tree and --at their rows; docs/DTPARSE.md \
                 describes it",
            ),
            short(
                Action::Quiet,
                "quiet",
                'q',
                "nothing but the exit status",
                "; an argument that is invalid and a file that cannot be read are still told",
            ),
        ],
        after: "Without any of them: a text for people.",
    },
    Group {
        heading: "How it is read and written",
        options: &[
            plain(
                Action::Strict,
                "strict",
                "also report labels that the Devicetree Specification does not allow",
                ": others than letters, digits and underscores, or a digit first",
            ),
            Opt {
                action: Action::Entry,
                long: "entry",
                short: None,
                value: Some(Value { name: "NAME", words: ENTRIES }),
                brief: "what the text is read as",
                more: ": SourceFile, ReferenceNoamp, PropValues or Cells; without it a file of token rows decides, and a \
                       source is a SourceFile",
            },
            Opt {
                action: Action::Color,
                long: "color",
                short: None,
                value: Some(Value { name: "WHEN", words: &["auto", "always", "never"] }),
                brief: "colours in the text for people",
                more: ": auto (on a terminal, unless NO_COLOR is set), always or never",
            },
        ],
        after: "",
    },
    Group {
        heading: "About the command",
        options: &[
            Opt {
                action: Action::Print,
                long: "print",
                short: None,
                value: Some(Value { name: "WHAT", words: &["man", "bash", "zsh", "fish"] }),
                brief: "the man page, or completions for a shell",
                more: ": man, bash, zsh or fish",
            },
            short(Action::Version, "version", 'V', "name and version", ""),
            short(Action::Help, "help", 'h', "this text", ""),
        ],
        after: "",
    },
];

#[cfg(test)]
mod tests {
    use super::*;

    #[test]
    fn every_option_is_found_by_its_names() {
        for option in all() {
            assert_eq!(find(&format!("--{}", option.long)).map(|found| found.action), Some(option.action));
            let short = option.short.map_or_else(|| "-".to_string(), |short| format!("-{short}"));
            assert_eq!(find(&short).map(|found| found.action), option.short.map(|_| option.action));
        }
        for name in ["--", "-", "", "--q", "-quiet", "quiet", "--Tree"] {
            assert!(find(name).is_none(), "{name}");
        }
    }

    #[test]
    fn completions_have_no_sign_to_quote() {
        let is_plain = |c: char| c.is_ascii_alphanumeric() || " ,".contains(c);
        assert!(all().all(|option| option.brief.chars().all(is_plain)));
    }

    #[test]
    fn words_are_all_there_are_and_stand_in_the_help() {
        let entries: Vec<&str> = Entrypoint::ALL.iter().map(|entry| entry.name()).collect();
        assert_eq!(find("--entry").unwrap().words(), entries);
        for option in all() {
            assert!(option.words().iter().all(|word| option.help().contains(word)), "--{}", option.long);
        }
    }
}
