//! docs/DTPARSE.md: what it shows is what the command prints.

use crate::root;
use std::process::Command;

/// The commands that the document shows, each with the output below it: indented lines, of which those that begin with
/// `$ ` are commands.
fn shown() -> Vec<(String, String)> {
    let document = std::fs::read_to_string(root().join("docs/DTPARSE.md")).unwrap();
    let mut all: Vec<(String, String)> = Vec::new();
    let mut is_inside = false;
    for line in document.lines() {
        let indented = line.strip_prefix("    ");
        if let Some(command) = indented.and_then(|line| line.strip_prefix("$ ")) {
            all.push((command.to_string(), String::new()));
            is_inside = true;
        } else if let (true, Some((_, output))) = (is_inside, all.last_mut()) {
            is_inside = indented.is_some() || line.is_empty();
            *output += &indented.map_or(String::new(), |line| format!("{line}\n"));
            if line.is_empty() {
                output.push('\n');
            }
        }
    }
    all.iter().map(|(command, output)| (command.clone(), format!("{}\n", output.trim_end()))).collect()
}

#[test]
fn its_commands_print_what_it_says() {
    let shown = shown();
    assert_eq!(shown.len(), 3, "{shown:?}");
    for (command, output) in shown {
        let binary = format!("'{}'", env!("CARGO_BIN_EXE_dtparse"));
        let script = command.replace("./dtparse", &binary);
        let said = Command::new("sh").args(["-c", &script]).current_dir(root()).output().unwrap();
        let version = format!("\"dtparse\": \"{}\"", env!("CARGO_PKG_VERSION"));
        let out = String::from_utf8_lossy(&said.stdout).replace(&version, "\"dtparse\": \"VERSION\"");
        assert_eq!(out, output, "{command}");
        assert_eq!(String::from_utf8_lossy(&said.stderr), "", "{command}");
    }
}

/// Every field that stands in the document's tables is one that is written.
#[test]
fn its_fields_are_those_of_the_output() {
    let document = std::fs::read_to_string(root().join("docs/DTPARSE.md")).unwrap();
    let arguments = ["--json", "--tree", "--at=1:1", "bindings/rust/tests/golden/mistakes.dts"];
    let mut printed = crate::run(&arguments).1;
    printed += &crate::run(&["--json", "examples/overlay.dts", "no/such"]).1;
    let rows = document.lines().filter_map(|line| line.strip_prefix("| `"));
    let fields: Vec<&str> = rows.flat_map(|row| row.split('|').next().unwrap().split('`').step_by(2)).collect();
    assert!(fields.len() > 30, "{fields:?}");
    for field in &fields {
        assert!(printed.contains(&format!("\"{field}\": ")), "`{field}` is not written");
    }
    let keys = printed.split("\": ").filter_map(|before| before.rsplit('"').next());
    for key in keys.filter(|key| key.chars().all(|c| c.is_ascii_lowercase() || c == '_') && !key.is_empty()) {
        assert!(fields.contains(&key), "`{key}` is not described");
    }
}
