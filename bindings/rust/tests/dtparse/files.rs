//! Several files, and folders.

use crate::{folder, golden, no_answer, piped, root, run};
use std::fs;
use std::os::unix::fs::symlink;
use std::path::Path;

const CLEAN: &str = "examples/overlay.rows";
const REPORTS: &str = "examples/board.dts";
const REFUSED: &str = "examples/overlay.dts";

#[test]
fn each_file_is_named_and_the_last_line_counts() {
    let (status, out, err) = run(&[REPORTS, CLEAN, "examples/labels.dts"]);
    golden("several.txt", &out);
    assert_eq!((status, err.as_str()), (Some(1), ""));
    let (_, one, _) = run(&[REPORTS]);
    assert!(out.starts_with(&format!("==> {REPORTS} <==\n{one}\n==> {CLEAN} <==\n")), "each as it is alone");
}

#[test]
fn the_status_is_the_worst_and_no_file_stops_the_others() {
    let status = |files: &[&str]| run(files).0.unwrap();
    assert_eq!(status(&[CLEAN, CLEAN]), 0);
    assert_eq!(status(&[REPORTS, CLEAN]), 1);
    assert_eq!(status(&[CLEAN, REFUSED]), 2);
    assert_eq!(status(&["no/such.dts", CLEAN]), 2);
    let (status, out, err) = run(&["no/such.dts", REFUSED, REPORTS]);
    assert_eq!(status, Some(2));
    assert!(out.starts_with(&format!("==> {REPORTS} <==\n")), "{out}");
    let totals = "\n3 files: 2 errors in 1 file, 1 refused, 1 not read; 13 nodes and 29 properties read; \
                  18 of 1251 bytes not understood\n";
    assert!(out.ends_with(totals), "{out}");
    assert!(err.starts_with("dtparse: no/such.dts: No such file"), "{err}");
    assert!(err.contains(&format!("\n\ndtparse: {REFUSED}: refusal 10: ")), "{err}");
}

#[test]
fn files_are_read_in_their_order_and_twice_if_given_twice() {
    let headings = |files: &[&str]| -> Vec<String> {
        let out = run(files).1;
        out.lines().filter(|line| line.starts_with("==>")).map(String::from).collect()
    };
    let all = [REPORTS, CLEAN, REPORTS];
    assert_eq!(headings(&all), all.map(|file| format!("==> {file} <==")));
    let (_, out, _) = run(&[REPORTS, REPORTS]);
    assert!(
        out.contains("\n2 files: 4 errors in 2 files; 26 nodes and 58 properties read; 36 of 2502 bytes "),
        "{out}"
    );
}

#[test]
fn the_standard_input_may_be_among_them_once() {
    let (status, out, err) = piped(&mut crate::dtparse(&["--reports", CLEAN, "-", REPORTS]), b"}");
    assert_eq!((status, err.as_str()), (Some(1), ""));
    assert!(out.contains("\n==> - <==\nerror: Unmatched `}`\n --> (standard input):1:1\n"), "{out}");
    assert!(out.contains("\n3 files: 3 errors in 2 files; "), "{out}");
    let why = "dtparse: the standard input can be read once, and `-` is given twice\nTry `dtparse --help`.\n";
    assert_eq!(no_answer(run(&["-", CLEAN, "-"])), why);
}

#[test]
fn a_position_is_for_one_file() {
    let start = "dtparse: --at LINE:COLUMN is for one file, not for";
    assert_eq!(no_answer(run(&["--at", "1:1", CLEAN, CLEAN])), format!("{start} 2\nTry `dtparse --help`.\n"));
    assert_eq!(no_answer(run(&["--at", "1:1", "examples"])), format!("{start} a folder\nTry `dtparse --help`.\n"));
}

/// Writes files, each with the folders that it lies in.
fn write(folder: &Path, files: &[(&str, &[u8])]) {
    for (name, text) in files {
        let path = folder.join(name);
        fs::create_dir_all(path.parent().unwrap()).unwrap();
        fs::write(path, text).unwrap();
    }
}

/// The files that dtparse reads below a folder, by their paths in it; in the order of its output.
fn read_below(folder: &Path) -> Vec<String> {
    let (_, out, _) = run(&[folder]);
    let start = format!("==> {}/", folder.display());
    let name = |line: &str| line.strip_prefix(&start)?.strip_suffix(" <==").map(String::from);
    out.lines().filter_map(name).collect()
}

#[test]
fn a_folder_stands_for_the_sources_below_it_by_the_bytes_of_their_paths() {
    let below = folder("folders");
    let names = ["b/z.dts", "b-a.dts", "B.dtsi", "b/a/c.dtsi", "a.dts", "é.dts", ".hidden.dts", "x.dts/y.dts"];
    write(&below, &names.map(|name| (name, b"a;".as_slice())));
    write(
        &below,
        &[("a.rows", b"?"), ("b/readme", b"#if"), ("dts", b"#if"), ("a.dts.orig", b"#if"), ("a.DTS", b"#if")],
    );
    let sorted = [".hidden.dts", "B.dtsi", "a.dts", "b-a.dts", "b/a/c.dtsi", "b/z.dts", "x.dts/y.dts", "é.dts"];
    assert_eq!(read_below(&below), sorted);
    let (status, out, err) = run(&[&below]);
    assert_eq!((status, err.as_str()), (Some(0), ""));
    assert!(out.ends_with("\n8 files: no errors; 0 nodes and 8 properties read\n"), "{out}");
    let one = below.join("b/a");
    let (_, out, _) = run(&[&one]);
    assert!(out.starts_with("==> ") && out.contains("\n1 file: no errors; "), "one file of a folder too: {out}");
}

#[test]
fn links_to_folders_are_not_followed_and_other_files_are_no_sources() {
    let below = folder("links");
    write(&below, &[("real/a.dts", b"a;"), ("text", b"b;")]);
    symlink("..", below.join("real/loop")).unwrap();
    symlink("real", below.join("again")).unwrap();
    symlink("real", below.join("named.dts")).unwrap();
    symlink("text", below.join("link.dts")).unwrap();
    let pipe = std::process::Command::new("mkfifo").arg(below.join("pipe.dts")).status();
    assert!(pipe.is_ok_and(|status| status.success()) || cfg!(not(unix)));
    assert_eq!(read_below(&below), ["link.dts", "real/a.dts"]);
    assert_eq!(read_below(&below.join("again")), ["a.dts"], "a link that is given itself is followed");
    symlink("nothing", below.join("real/b.dts")).unwrap();
    let (status, out, err) = run(&[&below]);
    assert_eq!(status, Some(2));
    assert!(
        err.contains("real/b.dts: No such file") && out.contains("\n3 files: no errors, 1 not read; "),
        "{err}{out}"
    );
}

#[test]
fn a_folder_without_sources_is_an_error() {
    let empty = folder("empty");
    write(&empty, &[("a/b.rows", b"")]);
    let (status, out, err) = run(&[&empty]);
    assert_eq!(status, Some(2));
    assert_eq!(out, "1 file: no errors, 1 not read; 0 nodes and 0 properties read\n");
    let why = "no file below this folder ends in .dts or .dtsi";
    assert_eq!(err, format!("dtparse: {}: {why}\n\n", empty.display()));
    let (status, out, _) = run(&[empty.as_os_str(), root().join(CLEAN).as_os_str()]);
    assert!(status == Some(2) && out.contains("\n2 files: no errors, 1 not read; 6 nodes "), "{out}");
}
