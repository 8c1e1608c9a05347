//! texts facts INPUT                 its bytes and tokens, after a test that the port reads the Rust's tokens
//! texts times ROUNDS INPUT..        a line for each input: medians of so many interleaved rounds
//! texts once WHAT INPUT [LENGTHS]   one run inside `measured`, for callgrind --toggle-collect
//! texts repeats COUNT BYTES         all texts that repeat so many bytes, each lexed inside `measured`; prints them
//! WHAT is first (the first pass of lexing), lexing (both) or text (all of the call; LENGTHS by `bench lengths port`)
use bench::clock::{median, ns};
use bench::input::Input;
use bench::port::{Port, TextPort};
use bench::text;
use dt_parser_layout::{
    ACCEPTED, MAX_TOKENS, REFUSAL_NO_EVENT_ROOM, REFUSAL_NO_TREE_ROOM, REFUSAL_TOO_LONG, SETTING_OLD,
};
use oracle::parsers::on_large_stack;
use std::hint::black_box;

/// The answer's number after the first pass, and after both; blanks alone need no events.
const FIRST_PASS: &[u32] = &[REFUSAL_TOO_LONG];
const LEXED: &[u32] = &[REFUSAL_NO_EVENT_ROOM, REFUSAL_NO_TREE_ROOM];

fn input(name: &str) -> Input {
    name.parse().expect("an input")
}

/// Columns: input, bytes, tokens.
fn facts(name: &str) {
    let input = input(name);
    let n = input.rows.len();
    if n <= MAX_TOKENS {
        let mut port = TextPort::fitting(&input);
        let answer = port.parse(&input);
        assert_eq!((answer.answer.number, answer.token_count), (ACCEPTED, n), "{name}");
        assert!(port.tokens() == input.tokens, "{name}: other tokens");
    }
    println!("{name},{},{n}", input.text.len())
}

/// Times of one text, a number for each round.
struct Timed {
    input: Input,
    /// Both passes of lexing, the whole call, and that over ready tokens.
    ports: (TextPort, TextPort, Port),
    lexing: Vec<f64>,
    text: Vec<f64>,
    rows: Vec<f64>,
}

impl Timed {
    fn new(name: &str) -> Timed {
        let input = input(name);
        let ports = (TextPort::lexing(&input), TextPort::fitting(&input), Port::fitting(SETTING_OLD, &input));
        Timed { input, ports, lexing: vec![], text: vec![], rows: vec![] }
    }

    fn round(&mut self) {
        let (lexing, text, rows) = &mut self.ports;
        self.lexing.push(ns(|| lexing.parse(&self.input)));
        self.text.push(ns(|| text.parse(&self.input)));
        self.rows.push(ns(|| rows.parse(&self.input)))
    }

    /// Columns: input; medians in ns: lexing, the whole call, the call over ready tokens; the ratio of the last two.
    fn write(self) {
        let ratio = median((0..self.text.len()).map(|i| self.text[i] / self.rows[i]).collect());
        let times = [self.lexing, self.text, self.rows].map(|v| format!("{:.0}", median(v)));
        println!("{},{},{ratio:.3}", self.input.name, times.join(","))
    }
}

/// In each round every input has its turn, so that whatever else the machine does falls on all alike.
fn times(rounds: usize, names: &[String]) {
    let mut all: Vec<_> = names.iter().map(|n| Timed::new(n)).collect();
    for _ in 0..rounds {
        all.iter_mut().for_each(Timed::round)
    }
    all.into_iter().for_each(Timed::write)
}

#[unsafe(no_mangle)]
#[inline(never)]
extern "C" fn measured(input: &Input, port: &mut TextPort) -> u32 {
    black_box(port.parse(input)).answer.number
}

fn once(what: &str, name: &str, lengths: Option<&String>) {
    let input = input(name);
    let (mut port, numbers) = match what {
        "first" => (TextPort::first_pass(), FIRST_PASS),
        "lexing" => (TextPort::lexing(&input), LEXED),
        _ => {
            let list = lengths.expect("lengths").split(',').map(|n| n.parse().expect("a length"));
            let list: Vec<usize> = list.collect();
            let port = TextPort::with(input.tokens.len(), list.try_into().expect("five lengths"));
            (port, &[ACCEPTED][..])
        }
    };
    let number = measured(&input, &mut port);
    assert!(numbers.contains(&number), "{what} {name}: {number}")
}

fn repeats(count: usize, bytes: usize) {
    for (piece, text) in text::repeats(count, bytes) {
        let input = Input::read(piece, text);
        let number = measured(&input, &mut TextPort::lexing(&input));
        assert!(LEXED.contains(&number), "{:?}: {number}", input.name);
        println!("{:?},{},{}", input.name, input.text.len(), input.rows.len())
    }
}

fn run() {
    let args: Vec<String> = std::env::args().skip(1).collect();
    let number = |i: usize| args[i].parse().expect("a number");
    match args.first().map(String::as_str) {
        Some("facts") if args.len() == 2 => facts(&args[1]),
        Some("times") if args.len() > 2 => times(number(1), &args[2..]),
        Some("once") if args.len() > 2 => once(&args[1], &args[2], args.get(3)),
        Some("repeats") if args.len() == 3 => repeats(number(1), number(2)),
        _ => panic!("texts facts INPUT | times ROUNDS INPUT.. | once WHAT INPUT [LENGTHS] | repeats COUNT BYTES"),
    }
}

fn main() {
    on_large_stack(run)
}
