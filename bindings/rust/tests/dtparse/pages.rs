//! Help, man page and completions: printed from one table, and taken by those who read them.

use crate::{folder, golden, piped, run};
use std::process::Command;

const SHELLS: [&str; 3] = ["bash", "zsh", "fish"];

fn page(what: &str) -> String {
    let (status, out, err) = run(&["--print", what]);
    assert_eq!((status, err.as_str()), (Some(0), ""));
    out
}

/// The options that the help lists, and the words that each can have after it.
fn options() -> Vec<String> {
    let help = run(&["--help"]).1;
    let lines = help.lines().filter_map(|line| line.strip_prefix("  --"));
    let names: Vec<String> = lines.map(|line| line.split([' ', ',']).next().unwrap().to_string()).collect();
    assert!(names.len() > 12, "{names:?}");
    names
}

#[test]
fn the_pages_are_these() {
    golden("help.txt", &run(&["--help"]).1);
    for shell in SHELLS {
        golden(&format!("completions.{shell}"), &page(shell));
    }
    golden("man.1", &page("man").replace(env!("CARGO_PKG_VERSION"), "VERSION"));
}

#[test]
fn every_option_is_in_every_page() {
    for option in options() {
        for shell in ["bash", "zsh"] {
            assert!(page(shell).contains(&format!("--{option}")), "{shell}: {option}");
        }
        assert!(page("fish").contains(&format!(" -l {option} ")), "{option}");
        assert!(page("man").contains(&format!("\n\\fB\\-\\-{option}\\fR")), "{option}");
    }
    for word in ["SourceFile", "PropValues", "always", "never", "fish"] {
        assert!(SHELLS.iter().all(|shell| page(shell).contains(word)), "{word}");
    }
}

#[test]
fn every_option_of_the_help_is_taken() {
    for option in options() {
        let (_, _, err) = run(&[format!("--{option}=no such value")]);
        assert!(!err.contains("is not an option"), "{err}");
    }
}

#[test]
fn the_man_page_is_set_without_a_warning() {
    let arguments = ["-man", "-ww", "-Tutf8", "-P-cbou"];
    if Command::new("groff").arg("--version").output().is_err() {
        println!("no groff");
        return;
    }
    let (status, set, warnings) = piped(Command::new("groff").args(arguments), page("man").as_bytes());
    assert_eq!((status, warnings.as_str()), (Some(0), ""));
    for section in ["NAME", "SYNOPSIS", "DESCRIPTION", "OPTIONS", "EXIT STATUS", "LIMITS"] {
        assert!(set.contains(&format!("\n{section}\n")), "{section}");
    }
    assert!(set.contains("cpp -P -nostdinc -undef -x assembler-with-cpp FILE.dts | dtparse -"), "{set}");
    assert!(set.contains(&format!("dtparse {}", env!("CARGO_PKG_VERSION"))));
}

#[test]
fn shells_read_their_completions() {
    for shell in SHELLS {
        let read = Command::new(shell).arg("--version").output();
        if read.is_err() {
            println!("no {shell}");
            continue;
        }
        let (status, _, err) = piped(Command::new(shell).arg("-n"), page(shell).as_bytes());
        assert_eq!((status, err.as_str()), (Some(0), ""), "{shell}");
    }
}

/// What bash completes after these words, the last of which is under way.
fn completed(words: &[&str]) -> Vec<String> {
    let script = format!(
        "{}\nCOMP_WORDS=({}) COMP_CWORD={}\n_dtparse\nprintf '%s\\n' \"${{COMPREPLY[@]}}\"",
        page("bash"),
        words.iter().map(|word| format!("'{word}'")).collect::<Vec<_>>().join(" "),
        words.len() - 1
    );
    let output = Command::new("bash").args(["-c", &script]).current_dir(crate::root()).output().unwrap();
    String::from_utf8(output.stdout).unwrap().lines().map(String::from).collect()
}

#[test]
fn bash_completes_options_words_and_files() {
    if Command::new("bash").arg("--version").output().is_err() {
        println!("no bash");
        return;
    }
    assert_eq!(completed(&["dtparse", "--re"]), ["--reports"]);
    assert_eq!(completed(&["dtparse", "--color", "a"]), ["auto", "always"]);
    assert_eq!(completed(&["dtparse", "--color", "=", "n"]), ["never"], "as bash splits --color=n");
    assert_eq!(completed(&["dtparse", "--entry", "="]).len(), 4);
    let below = folder("completed");
    std::fs::create_dir(below.join("soc")).unwrap();
    for name in ["a b.dts", "b.dtsi", "c.rows", "c.txt", "dts"] {
        std::fs::write(below.join(name), "").unwrap();
    }
    let start = format!("{}/", below.display());
    let files = completed(&["dtparse", "--tree", &start]);
    assert_eq!(files, ["soc", "a b.dts", "b.dtsi", "c.rows"].map(|name| format!("{start}{name}")));
}
