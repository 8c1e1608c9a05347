//! The text of `--help`.

use crate::options::{GROUPS, Group};
use crate::prose::{ABOUT, Block, Section, after_options, description};

const WIDTH: usize = 100;

pub fn print(command: &str) -> String {
    let mut out = format!("dtparse {ABOUT}.\n\nusage: dtparse [OPTION..] [FILE..]\n\n");
    out += &blocks(&description(command), "");
    for group in GROUPS {
        out += &options(group);
    }
    for section in after_options() {
        out += &blocks(&section, &format!("{}: ", section.title));
    }
    out.truncate(out.trim_end().len());
    out + "\n"
}

/// The paragraphs of a section, the first with its title before it. A command follows its paragraph at once.
fn blocks(section: &Section, title: &str) -> String {
    let mut out = String::new();
    for block in &section.blocks {
        match block {
            Block::Text(text) => out += &format!("{}\n\n", wrapped(&format!("{title}{text}"), 0)),
            Block::Command(command) => {
                out.truncate(out.trim_end().len());
                out += &format!("\n  {command}\n\n");
            }
        }
    }
    out
}

fn options(group: &Group) -> String {
    let heads: Vec<String> = group.options.iter().map(|option| format!("  {}", option.usage())).collect();
    let column = GROUPS.iter().flat_map(|group| group.options).map(|option| option.usage().len() + 4).max();
    let column = column.unwrap_or(0);
    let mut out = format!("{}:\n", group.heading);
    for (head, option) in heads.iter().zip(group.options) {
        out += &format!("{head:column$}{}\n", wrapped(&option.help(), column));
    }
    if !group.after.is_empty() {
        out += &format!("{}\n", wrapped(group.after, 0));
    }
    out + "\n"
}

/// A text in lines of at most so many characters, each but the first with an indent.
fn wrapped(text: &str, indent: usize) -> String {
    let mut out = String::new();
    let mut column = indent;
    for word in text.split(' ') {
        let width = word.chars().count();
        if column == indent {
            // the first of its line
        } else if column + 1 + width > WIDTH {
            out += &format!("\n{:indent$}", "");
            column = indent;
        } else {
            out.push(' ');
            column += 1;
        }
        out += word;
        column += width;
    }
    out
}

#[cfg(test)]
mod tests {
    use super::*;

    #[test]
    fn lines_are_wrapped_between_words() {
        let long = "x".repeat(60);
        assert_eq!(wrapped(&format!("a {long} {long} b"), 2), format!("a {long}\n  {long} b"));
        assert_eq!(wrapped("", 2), "");
        assert!(print("dtparse").lines().all(|line| line.len() <= WIDTH && line == line.trim_end()));
    }
}
