//! The command's arguments, read by the table of options.

use crate::name::{STANDARD_INPUT, escaped};
use crate::options::{self, Action, Opt};
use dt_parser::{Entrypoint, Position, Setting};
use std::ffi::{OsStr, OsString};
use std::os::unix::ffi::OsStrExt;

/// A part of the output.
#[derive(Debug, Clone, Copy, PartialEq, Eq)]
pub enum View {
    Reports,
    Nodes,
    Tree,
    At(Position),
}

/// How the output is written.
#[derive(Debug, Clone, Copy, PartialEq, Eq)]
pub enum Form {
    Text,
    Lines,
    Json,
    Quiet,
}

#[derive(Debug, PartialEq, Eq)]
pub struct Args {
    /// As they were given, not none.
    pub files: Vec<OsString>,
    pub views: Vec<View>,
    pub form: Form,
    pub entry: Option<Entrypoint>,
    pub setting: Setting,
    /// Colours or none; not said, the output decides.
    pub color: Option<bool>,
}

#[derive(Debug, PartialEq, Eq)]
pub enum Asked {
    Help,
    Version,
    Print(&'static str),
    Show(Args),
}

pub fn read(given: &[OsString]) -> Result<Asked, String> {
    let mut args = Args {
        files: Vec::new(),
        views: Vec::new(),
        form: Form::Text,
        entry: None,
        setting: Setting::Old,
        color: None,
    };
    let mut rest = given.iter();
    let mut options = true;
    while let Some(argument) = rest.next() {
        if !options || argument == STANDARD_INPUT || !argument.as_bytes().starts_with(b"-") {
            args.files.push(file(argument)?);
        } else if argument == "--" {
            options = false;
        } else if let Some(asked) = args.option(argument, &mut rest)? {
            return Ok(asked);
        }
    }
    if args.files.is_empty() {
        args.files.push(STANDARD_INPUT.into());
    }
    args.check()?;
    Ok(Asked::Show(args))
}

impl Args {
    /// Takes an option, with its value where it has one. What it asks for in place of a file, if it does so.
    fn option<'g>(
        &mut self,
        argument: &OsStr,
        rest: &mut impl Iterator<Item = &'g OsString>,
    ) -> Result<Option<Asked>, String> {
        let (option, given) = known(argument)?;
        let name = format!("--{}", option.long);
        let value = match (&option.value, given) {
            (None, None) => String::new(),
            (None, Some(_)) => return Err(format!("{name} takes no value")),
            (Some(_), Some(value)) => value,
            (Some(_), None) => utf8(rest.next().ok_or_else(|| format!("{name} needs a value after it"))?)?,
        };
        let word = word(option, &value)?;
        match option.action {
            Action::Help => return Ok(Some(Asked::Help)),
            Action::Version => return Ok(Some(Asked::Version)),
            Action::Print => return Ok(Some(Asked::Print(word))),
            Action::Reports => self.views.push(View::Reports),
            Action::Nodes => self.views.push(View::Nodes),
            Action::Tree => self.views.push(View::Tree),
            Action::At => self.views.push(View::At(position(&value)?)),
            Action::Lines => self.set_form(Form::Lines)?,
            Action::Json => self.set_form(Form::Json)?,
            Action::Quiet => self.set_form(Form::Quiet)?,
            Action::Strict => self.setting = Setting::Strict,
            Action::Entry => self.entry = Entrypoint::from_name(word),
            Action::Color => self.color = color(word),
        }
        Ok(None)
    }

    fn set_form(&mut self, form: Form) -> Result<(), String> {
        if self.form != Form::Text && self.form != form {
            return Err("--lines, --json and --quiet are forms of the same output: choose one".to_string());
        }
        self.form = form;
        Ok(())
    }

    /// What does not go together.
    fn check(&self) -> Result<(), String> {
        if self.files.iter().filter(|file| *file == STANDARD_INPUT).count() > 1 {
            return Err("the standard input can be read once, and `-` is given twice".to_string());
        }
        if self.files.len() > 1 && self.has_position() {
            return Err(format!("{AT_ONE_FILE}, not for {}", self.files.len()));
        }
        if self.form == Form::Lines && self.views.iter().any(|view| *view != View::Reports) {
            return Err("--lines has reports alone; --nodes, --tree and --at have no such form".to_string());
        }
        Ok(())
    }

    /// Whether it is asked for a position, which is one of a single file.
    pub fn has_position(&self) -> bool {
        self.views.iter().any(|view| matches!(view, View::At(_)))
    }
}

pub const AT_ONE_FILE: &str = "--at LINE:COLUMN is for one file";

/// A file's name. An empty one comes of a variable that a shell does not have.
fn file(name: &OsStr) -> Result<OsString, String> {
    if name.is_empty() { Err("a file's name is empty".to_string()) } else { Ok(name.to_os_string()) }
}

/// The option of an argument, and the value that it holds itself, as `--color=never`.
fn known(argument: &OsStr) -> Result<(&'static Opt, Option<String>), String> {
    let bytes = argument.as_bytes();
    let end = bytes.iter().position(|byte| *byte == b'=' && bytes.starts_with(b"--")).unwrap_or(bytes.len());
    let option = std::str::from_utf8(&bytes[..end]).ok().and_then(options::find);
    let option = option.ok_or_else(|| format!("{} is not an option", escaped(&bytes[..end])))?;
    let value = bytes.get(end + 1..).map(|value| utf8(OsStr::from_bytes(value)));
    Ok((option, value.transpose()?))
}

fn utf8(value: &OsStr) -> Result<String, String> {
    value.to_str().map(String::from).ok_or_else(|| format!("{} is not UTF-8", escaped(value.as_bytes())))
}

/// The value as a word of the option's, if it has some.
fn word(option: &Opt, value: &str) -> Result<&'static str, String> {
    let words = option.words();
    let Some((last, others)) = words.split_last() else {
        return Ok("");
    };
    let found = words.iter().copied().find(|word| *word == value);
    found.ok_or_else(|| {
        format!("--{} is {} or {last}, not {}", option.long, others.join(", "), escaped(value.as_bytes()))
    })
}

/// A line and a column, both from 1.
fn position(given: &str) -> Result<Position, String> {
    let number = |text: &str| text.parse::<usize>().ok()?.checked_sub(1);
    let read = |(line, column)| Some(Position { line: number(line)?, column: number(column)? });
    given
        .split_once(':')
        .and_then(read)
        .ok_or_else(|| format!("--at is LINE:COLUMN, both counted from 1, as 49:20, not {}", escaped(given.as_bytes())))
}

fn color(when: &str) -> Option<bool> {
    match when {
        "always" => Some(true),
        "never" => Some(false),
        _ => None,
    }
}

#[cfg(test)]
mod tests {
    use super::*;

    fn asked(line: &str) -> Result<Asked, String> {
        let given: Vec<OsString> = line.split_whitespace().map(OsString::from).collect();
        read(&given)
    }

    fn args(line: &str) -> Args {
        match asked(line) {
            Ok(Asked::Show(args)) => args,
            other => panic!("{other:?}"),
        }
    }

    #[test]
    fn options_stand_anywhere() {
        let all = args("--tree a.rows --entry Cells --color=always --reports b --tree");
        assert_eq!(all.files, ["a.rows", "b"]);
        assert_eq!(all.views, [View::Tree, View::Reports, View::Tree]);
        assert_eq!((all.entry, all.color), (Some(Entrypoint::Cells), Some(true)));
        assert_eq!((all.setting, args("a --strict").setting), (Setting::Old, Setting::Strict));
        assert_eq!((args("-").files, args("--strict").files), (vec!["-".into()], vec!["-".into()]));
        assert_eq!(args("-- --tree -q -").files, ["--tree", "-q", "-"]);
        assert_eq!(args("--color always --color auto x").color, None);
        let at = |line, column| View::At(Position { line, column });
        assert_eq!(args("--at 1:1 a --tree --at=49:20").views, [at(0, 0), View::Tree, at(48, 19)]);
        assert_eq!(asked("a --help b c --no"), Ok(Asked::Help));
        assert_eq!((asked("-V"), asked("--print=zsh")), (Ok(Asked::Version), Ok(Asked::Print("zsh"))));
        assert_eq!((args("-q --quiet a").form, args("--json").form), (Form::Quiet, Form::Json));
        assert_eq!(args("--lines --reports").form, Form::Lines);
    }

    #[test]
    fn invalid_arguments_are_reported() {
        for (line, why) in [
            ("a --trees", "--trees is not an option"),
            ("a -x", "-x is not an option"),
            ("a -q=1", "-q=1 is not an option"),
            ("a --tree=1", "--tree takes no value"),
            ("a --strict=", "--strict takes no value"),
            ("a --at", "--at needs a value after it"),
            ("a --at 1", "--at is LINE:COLUMN, both counted from 1, as 49:20, not 1"),
            ("a --at 0:1", "--at is LINE:COLUMN, both counted from 1, as 49:20, not 0:1"),
            ("a --at=1:0", "--at is LINE:COLUMN, both counted from 1, as 49:20, not 1:0"),
            ("a --at 1:-1", "--at is LINE:COLUMN, both counted from 1, as 49:20, not 1:-1"),
            ("a --at a.dts:1:1", "--at is LINE:COLUMN, both counted from 1, as 49:20, not a.dts:1:1"),
            ("a --at 1:1 b", "--at LINE:COLUMN is for one file, not for 2"),
            ("a --entry", "--entry needs a value after it"),
            ("a --entry Name", "--entry is SourceFile, ReferenceNoamp, PropValues or Cells, not Name"),
            ("a --color blue", "--color is auto, always or never, not blue"),
            ("--print ps", "--print is man, bash, zsh or fish, not ps"),
            ("- a -", "the standard input can be read once, and `-` is given twice"),
            ("--json -q", "--lines, --json and --quiet are forms of the same output: choose one"),
            ("--lines --tree", "--lines has reports alone; --nodes, --tree and --at have no such form"),
        ] {
            assert_eq!(asked(line), Err(why.to_string()));
        }
        assert_eq!(read(&["".into()]), Err("a file's name is empty".to_string()));
    }

    #[test]
    fn what_is_repeated_moves_no_cursor() {
        let why = |bytes: &[&[u8]]| {
            let given: Vec<OsString> = bytes.iter().map(|one| OsStr::from_bytes(one).to_os_string()).collect();
            read(&given).unwrap_err()
        };
        assert_eq!(why(&[b"--\x1b[31m\xff"]), r"--\x1b[31m\xff is not an option");
        assert!(why(&[b"--entry", b"\x1b[31m"]).ends_with(r", not \x1b[31m"));
        assert!(why(&[b"--color=\x07\n"]).ends_with(r", not \x07\n"));
        assert!(why(&[b"--at", "\u{9b}1\u{202e}".as_bytes()]).ends_with(r", not \xc2\x9b1\xe2\x80\xae"));
        assert_eq!(why(&[b"--entry", b"\xff"]), r"\xff is not UTF-8");
    }
}
