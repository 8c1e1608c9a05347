//! The two parsers over ready tokens: the unchanged Rust and its patched copy.
use crate::case::Rows;
use crate::token;
use std::panic::{UnwindSafe, set_hook, take_hook};

/// Runs a program's work in a thread with a large stack: the Rust parses and frees its tree by recursion. Its own
/// panics are answers and stay quiet; any other is said and ends the program with status 2.
pub fn on_large_stack<T: Send + 'static>(work: impl FnOnce() -> T + Send + 'static) -> T {
    let said = take_hook();
    set_hook(Box::new(move |p| {
        let of_the_rust = |file: &str| file.contains("crates/parser") || file.contains("shims/");
        if !p.location().is_some_and(|l| of_the_rust(l.file())) {
            said(p)
        }
    }));
    let worker = std::thread::Builder::new().stack_size(1 << 30).spawn(work);
    worker.expect("a thread").join().unwrap_or_else(|_| std::process::exit(2))
}

/// Runs a parser over these tokens; a panic is its text.
fn over<T>(toks: &Rows, parse: impl FnOnce() -> T + UnwindSafe) -> Result<T, String> {
    token::inject(Some(toks));
    let answer = std::panic::catch_unwind(parse);
    token::inject(None);
    answer.map_err(|p| match p.downcast::<String>() {
        Ok(text) => *text,
        Err(p) => p.downcast_ref::<&str>().unwrap_or(&"").to_string(),
    })
}

/// What is written alike for both, since their own types have the same names.
macro_rules! parser {
    ($parser:ident) => {
        use crate::parsed::{Parsed, Report};
        use dt_parser_layout::{ENTRY_CELLS, ENTRY_PROP_VALUES, ENTRY_REFERENCE_NOAMP, ENTRY_SOURCE_FILE};
        use $parser::parser::{Entrypoint, Parse};

        /// The entry with that number, 1 to 4.
        pub fn entrypoint(entry: u32) -> Entrypoint {
            match entry {
                ENTRY_SOURCE_FILE => Entrypoint::SourceFile,
                ENTRY_REFERENCE_NOAMP => Entrypoint::ReferenceNoamp,
                ENTRY_PROP_VALUES => Entrypoint::PropValues,
                ENTRY_CELLS => Entrypoint::Cells,
                _ => panic!("entry 1 to 4"),
            }
        }

        fn parsed(p: Parse) -> Parsed {
            let (mut lexical, mut reports) = (Vec::new(), Vec::with_capacity(p.errors.len()));
            for x in &p.lex_errors {
                let (number, range) = (crate::token::lexical_code(x.inner), x.text_range);
                lexical.extend([number, range.start as u32, range.end as u32])
            }
            for r in p.errors {
                let (range, labels) = (r.primary_text_range, r.span_labels);
                reports.push(Report { message: r.message, range, labels })
            }
            Parsed { green: p.green_node, lexical, reports }
        }
    };
}

/// The unchanged Rust.
pub mod rust {
    parser!(dt_tools_parser);

    pub fn parse(entry: u32, toks: &super::Rows, text: &str) -> Result<Parsed, String> {
        super::over(toks, || entrypoint(entry).parse(text)).map(parsed)
    }
}

/// The patched copy. A run of it is recorded (`parser_doc01::record`), from `record::reset` on.
pub mod patched {
    parser!(parser_doc01);

    pub fn parse(entry: u32, toks: &super::Rows, text: &str) -> Result<Parsed, String> {
        super::over(toks, || entrypoint(entry).parse(text)).map(parsed)
    }
}
