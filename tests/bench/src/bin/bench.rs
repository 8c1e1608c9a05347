//! bench facts INPUT                 its tokens and bytes, the rows of its answer, bytes of the lent buffers
//! bench times ROUNDS INPUT..        a line for each input: medians of so many interleaved rounds
//! bench lengths WHAT INPUT          lengths of the lent buffers that just suffice
//! bench once WHAT INPUT LENGTHS     one run inside `measured`, for callgrind --toggle-collect
//! WHAT is port (the old setting, which all else is in too), strict, copy or rust
use bench::clock::{median, ns};
use bench::input::Input;
use bench::port::Port;
use bench::rust;
use dt_parser_layout::{SETTING_OLD, SETTING_STRICT, bound};
use oracle::parsers::on_large_stack;
use std::hint::black_box;

/// Columns: input, tokens, bytes, tree rows, lexical errors, reports, expectations, bytes of the lent buffers, bytes by
/// the bound.
fn facts(name: &str) {
    let input: Input = name.parse().expect("an input");
    let mut port = Port::fitting(SETTING_OLD, &input);
    let (n, a) = (input.rows.len(), port.parse(&input));
    let bound_bytes = 4 * bound(n).iter().sum::<usize>();
    print!("{name},{n},{},{},{},{},", input.text.len(), a.tree_count, a.error_count, a.report_count);
    println!("{},{},{bound_bytes}", a.expectation_count, port.bytes())
}

/// Times of one input, a number for each round.
struct Timed {
    input: Input,
    port: Port,
    ours: Vec<f64>,
    copy: Vec<f64>,
    whole: Vec<f64>,
    freed: Vec<f64>,
}

impl Timed {
    fn new(name: &str) -> Timed {
        let input: Input = name.parse().expect("an input");
        let port = Port::fitting(SETTING_OLD, &input);
        Timed { input, port, ours: vec![], copy: vec![], whole: vec![], freed: vec![] }
    }

    fn round(&mut self) {
        rust::ready(&self.input);
        self.ours.push(ns(|| self.port.parse(&self.input)));
        self.copy.push(ns(|| rust::copy(&self.input)));
        self.whole.push(ns(|| rust::parse(&self.input)));
        self.freed.push(ns(|| drop(rust::parse(&self.input))))
    }

    /// The median over the rounds of port / (Rust less the copy of its tokens).
    fn ratio(&self, rust: &[f64]) -> f64 {
        median((0..self.ours.len()).map(|i| self.ours[i] / (rust[i] - self.copy[i])).collect())
    }

    /// Columns: input; medians in ns: port, Rust's copy of the tokens, Rust with that copy, Rust with copy and freeing;
    /// the ratios to the last two; the port's ns in buffers as long as the bound says.
    fn write(self) {
        let ratios = [&self.whole, &self.freed].map(|v| format!("{:.3}", self.ratio(v)));
        let mut large = Port::with(SETTING_OLD, bound(self.input.rows.len()));
        let in_bound = (0..7).map(|_| ns(|| large.parse(&self.input))).collect();
        let times = [self.ours, self.copy, self.whole, self.freed].map(|v| format!("{:.0}", median(v)));
        println!("{},{},{},{:.0}", self.input.name, times.join(","), ratios.join(","), median(in_bound))
    }
}

/// In each round every input has its turn, so that whatever else the machine does falls on all alike.
fn times(rounds: usize, names: &[String]) {
    let mut all: Vec<_> = names.iter().map(|n| Timed::new(n)).collect();
    for _ in 0..rounds {
        all.iter_mut().for_each(Timed::round)
    }
    all.into_iter().for_each(Timed::write)
}

#[unsafe(no_mangle)]
#[inline(never)]
extern "C" fn measured(what: u32, input: &Input, port: &mut Port) {
    match what {
        0 => {
            black_box(port.parse(input));
        }
        1 => std::mem::forget(black_box(rust::copy(input))),
        _ => std::mem::forget(black_box(rust::parse(input))),
    }
}

fn setting(what: &str) -> u32 {
    if what == "strict" { SETTING_STRICT } else { SETTING_OLD }
}

fn once(what: &str, name: &str, lengths: &str) {
    let input: Input = name.parse().expect("an input");
    let lengths: Vec<usize> = lengths.split(',').map(|n| n.parse().expect("a length")).collect();
    let mut port = Port::with(setting(what), lengths.try_into().expect("five lengths"));
    rust::ready(&input);
    drop(rust::copy(&input)); // the first lexer builds its tables, which are not part of a parse
    let number = match what {
        "copy" => 1,
        "rust" => 2,
        _ => 0,
    };
    measured(number, &input, &mut port);
    black_box(port.lengths());
}

fn lengths(what: &str, name: &str) {
    let list = Port::fitting(setting(what), &name.parse().expect("an input")).lengths();
    println!("{}", list.map(|n| n.to_string()).join(","))
}

fn run() {
    let args: Vec<String> = std::env::args().skip(1).collect();
    match args.first().map(String::as_str) {
        Some("times") if args.len() > 2 => {
            let rounds = args[1].parse().expect("a number of rounds");
            times(rounds, &args[2..])
        }
        Some("facts") if args.len() == 2 => facts(&args[1]),
        Some("lengths") if args.len() == 3 => lengths(&args[1], &args[2]),
        Some("once") if args.len() == 4 => once(&args[1], &args[2], &args[3]),
        _ => {
            panic!("bench facts INPUT | times ROUNDS INPUT.. | lengths WHAT INPUT | once WHAT INPUT LENGTHS")
        }
    }
}

fn main() {
    on_large_stack(run)
}
