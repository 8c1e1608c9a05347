//! queries facts INPUT               its tokens, bytes and tree rows, and how many rows each query lists
//! queries once WHAT INPUT LENGTHS   one run inside `measured`, for callgrind --toggle-collect
//! WHAT is parse (`dt_parse`), or a query: end (the caret at the file's length), middle (at half of it), last (the part
//! of the file's last byte) or parts (those of the whole file). LENGTHS are the five by `bench lengths port` and that of
//! the list.
use bench::input::Input;
use bench::port::{Port, QueryPort};
use dt_parser_ffi::Query;
use dt_parser_layout::{ACCEPTED, BUFFERS, SETTING_OLD};
use oracle::parsers::on_large_stack;
use std::hint::black_box;

const QUERIES: [&str; 4] = ["end", "middle", "last", "parts"];

fn input(name: &str) -> Input {
    name.parse().expect("an input")
}

/// None is the parse alone.
fn query(what: &str, input: &Input) -> Option<Query> {
    let length = input.text.len() as u64;
    match what {
        "end" => Some(Query::Caret(length)),
        "middle" => Some(Query::Caret(length / 2)),
        "last" => Some(Query::Parts(length - 1, length)),
        "parts" => Some(Query::Parts(0, length)),
        "parse" => None,
        _ => panic!("parse, end, middle, last or parts"),
    }
}

/// Columns: input, tokens, bytes, tree rows, rows listed by each query.
fn facts(name: &str) {
    let input = input(name);
    let (lengths, n) = (Port::fitting(SETTING_OLD, &input).lengths(), input.rows.len());
    let tree_rows = Port::with(SETTING_OLD, lengths).parse(&input).tree_count;
    let listed = QUERIES.map(|what| {
        let query = query(what, &input).expect("a query");
        let answer = QueryPort::with(tree_rows, lengths).ask(query, &input);
        assert_eq!(answer.answer.number, ACCEPTED, "{what} {name}");
        answer.list_count.to_string()
    });
    println!("{name},{n},{},{tree_rows},{}", input.text.len(), listed.join(","))
}

#[unsafe(no_mangle)]
#[inline(never)]
extern "C" fn measured(query: &Option<Query>, input: &Input, port: &mut QueryPort) -> u32 {
    match *query {
        Some(query) => black_box(port.ask(query, input)).answer.number,
        None => black_box(port.port.parse(input)).number,
    }
}

fn once(what: &str, name: &str, lengths: &str) {
    let input = input(name);
    let mut list: Vec<usize> = lengths.split(',').map(|n| n.parse().expect("a length")).collect();
    let room = list.pop().filter(|_| list.len() == BUFFERS).expect("six lengths");
    let mut port = QueryPort::with(room, list.try_into().expect("five lengths"));
    let number = measured(&query(what, &input), &input, &mut port);
    assert_eq!(number, ACCEPTED, "{what} {name}")
}

fn run() {
    let args: Vec<String> = std::env::args().skip(1).collect();
    match args.first().map(String::as_str) {
        Some("facts") if args.len() == 2 => facts(&args[1]),
        Some("once") if args.len() == 4 => once(&args[1], &args[2], &args[3]),
        _ => panic!("queries facts INPUT | once WHAT INPUT LENGTHS"),
    }
}

fn main() {
    on_large_stack(run)
}
