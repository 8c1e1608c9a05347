//! The static library against the Rust, and in the strict setting, over texts, for binding powers, for bad rows, for
//! what is under the caret and for parents against a plain reading of their requests, in one process; and two files
//! with a shared tail against each other. ../../docs/FUZZING.md says what is compared and how it is run.
mod buffers;
mod call;
mod caret;
mod carets;
mod exact;
mod expressions;
mod judge;
mod levels;
mod lists;
mod make;
mod once;
mod parent;
mod rng;
mod row_causes;
mod rows;
mod run;
mod seen;
mod show;
mod shrink;
mod small;
mod strict;
mod subtrees;
mod tails;
mod tally;
mod text;
mod texts;
mod unchanged;
mod unwritten;
mod words;

use oracle::case::unesc;
use oracle::parsers::on_large_stack;

const USAGE: &str = "fuzz run [--seed N] [--cases N] [--first N] [--unchanged N]
    compares; --unchanged N: in one of N cases with the unchanged Rust too (default 1, 0: never)
fuzz text [--seed N] [--cases N] [--first N] [--unchanged N]
    the same over random texts
fuzz repeat 'LINE'
    one call, as a difference prints it
fuzz small [--tokens N]
    every list of up to N tokens (default 4) that labels and references are made of
fuzz lists [--tokens N]
    every list of up to N tokens (default 3) of all sorts, in every length of the pool
fuzz expressions [--operators N]
    every expression of up to N operators (default 3)
fuzz rows [--rows N]
    every list of up to N rows (default 3) over telling kinds and lengths, good and bad
fuzz texts [--bytes N] [--of BYTES]
    every text of up to N bytes (default 4) over an alphabet of telling bytes, or over these
fuzz carets [--seed N] [--count N] [--first N] [--unchanged N]
    every offset of so many random files (default 100000), and ranges
fuzz files FILE..
    every offset of these, sources or files of token rows
fuzz tails [--seed N] [--cases N] [--first N]
    pairs of random files that agree after a semicolon: what is later agrees, once places are moved
fuzz exact [--seed N] [--cases N]
    calls over memory that was never written, each buffer as long as it says: for valgrind";

/// The number after a flag.
fn flag(args: &[String], name: &str, other: u64) -> u64 {
    let Some(i) = args.iter().position(|a| a == name) else { return other };
    let number = args.get(i + 1).and_then(|n| n.parse().ok());
    number.unwrap_or_else(|| panic!("{name} takes a number"))
}

/// The bytes after a flag.
fn bytes_of(args: &[String], name: &str) -> Option<Vec<u8>> {
    let i = args.iter().position(|a| a == name)?;
    Some(unesc(args.get(i + 1).unwrap_or_else(|| panic!("{name} takes bytes"))))
}

fn command(args: &[String]) -> bool {
    let number = |name, other| flag(args, name, other);
    let seed = number("--seed", 1);
    let plan = |cases| run::Plan {
        seed,
        cases: number(cases, 100_000),
        first: number("--first", 0),
        unchanged: number("--unchanged", 1),
    };
    match args.first().map(String::as_str) {
        Some("run") => run::run(&plan("--cases")),
        Some("text") => texts::run::run(&plan("--cases")),
        Some("carets") => carets::run::run(&plan("--count")),
        Some("files") => carets::files::run(&args[1..]),
        Some("tails") => tails::run::run(&plan("--cases")),
        Some("exact") => {
            let cases = number("--cases", 2_000);
            exact::run(seed, cases) && texts::exact::run(seed, cases) && carets::exact::run(seed, cases)
        }
        Some("small") => small::run(number("--tokens", 4) as u32),
        Some("lists") => lists::run(number("--tokens", 3) as u32),
        Some("expressions") => expressions::run(number("--operators", 3) as u32),
        Some("rows") => rows::run(number("--rows", 3) as u32),
        Some("texts") => texts::every::run(number("--bytes", 4) as u32, bytes_of(args, "--of").as_deref()),
        Some("repeat") if args.len() == 2 => {
            let again = run::repeat(&args[1]).or_else(|| texts::run::repeat(&args[1]));
            let again = again.or_else(|| carets::run::repeat(&args[1]));
            again.unwrap_or_else(|| {
                eprintln!("not a call: {}", args[1]);
                false
            })
        }
        _ => {
            eprintln!("{USAGE}");
            false
        }
    }
}

fn main() {
    let args: Vec<String> = std::env::args().skip(1).collect();
    let good = on_large_stack(move || command(&args));
    std::process::exit(if good { 0 } else { 1 })
}
