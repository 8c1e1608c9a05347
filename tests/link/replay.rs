//! Runs the cases of a list, in the form that crates/replay says, over the static library and prints what the gate's
//! program prints.
use dt_parser_ffi::{Answer, Counts, parse};
use dt_parser_layout::BUFFERS;
use std::io::Write;

/// What each number of a buffer is before a call. No row holds it.
const LENT: u32 = 4042322160;
const LETTERS: [&str; BUFFERS] = ["-", "t", "x", "r", "e"];

type Buffers = [Vec<u32>; BUFFERS];

/// What stands after the counted rows: 0 zeros or nothing, 1 only what was lent, 2 anything else.
fn rest(after: &[u32]) -> u32 {
    match after {
        b if b.iter().all(|&n| n == 0) => 0,
        b if b.iter().all(|&n| n == LENT) => 1,
        _ => 2,
    }
}

fn print(out: &mut impl Write, name: &str, a: Answer, buffers: &Buffers) -> std::io::Result<()> {
    let used = a.used();
    write!(out, "{name} {} {} {} ", a.number, a.place, a.tree_count)?;
    write!(out, "{} {} {}", a.error_count, a.report_count, a.expectation_count)?;
    for (b, n) in buffers.iter().zip(used) {
        write!(out, " {}", rest(&b[n..]))?
    }
    writeln!(out)?;
    for ((b, n), letter) in buffers.iter().zip(used).zip(LETTERS).filter(|x| x.0.1 > 0) {
        let numbers: Vec<String> = b[..n].iter().map(u32::to_string).collect();
        writeln!(out, "{letter} {}", numbers.join(" "))?
    }
    Ok(())
}

fn main() -> std::io::Result<()> {
    let list = std::fs::read(std::env::args().nth(1).expect("usage: replay LIST"))?;
    let mut out = std::io::BufWriter::new(std::io::stdout().lock());
    let mut start = 0;
    while start < list.len() {
        let end = start + list[start..].iter().position(|&b| b == b'\n').expect("a line");
        let line = std::str::from_utf8(&list[start..end]).expect("a line of text");
        let (name, numbers) = line.split_once(' ').expect("a name");
        let numbers: Vec<u32> = numbers.split(' ').map(|n| n.parse().expect("a number")).collect();
        let (head, tokens) = numbers.split_at(4 + BUFFERS);
        let bytes = &list[end + 1..end + 1 + head[1] as usize];
        let mut buffers: Buffers = std::array::from_fn(|i| vec![LENT; head[4 + i] as usize]);
        let a = parse(head[2], head[3], bytes, tokens, &mut buffers);
        print(&mut out, name, a, &buffers)?;
        start = end + 1 + bytes.len() + 1;
    }
    out.flush()
}
