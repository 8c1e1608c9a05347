//! Figures of a run.
use crate::call::Call;
use crate::once::Repeats;
use crate::seen::Seen;
use crate::strict::is_strict;
use crate::unchanged::Unchanged;
use dt_parser_ffi::Answer;
use dt_parser_layout::{ANSWERS, ENTRY_CELLS, ROW_TOKEN};
use std::time::Instant;

pub struct Tally {
    /// What the cases are called.
    name: &'static str,
    ways: Vec<&'static str>,
    start: Instant,
    said: Instant,
    pub cases: u64,
    tokens: u64,
    bytes: u64,
    /// In the old setting, and in the strict one.
    by_number: [[u64; ANSWERS]; 2],
    /// At 0 those with an unknown entry.
    by_entry: [u64; ENTRY_CELLS as usize + 1],
    by_way: Vec<u64>,
    reports: [u64; 2],
    /// Calls of the strict setting in which it has something to report.
    with_labels: u64,
    unchanged: u64,
    panics: u64,
    repeats: Repeats,
    pub seen: Seen,
}

impl Tally {
    pub fn new(name: &'static str, ways: Vec<&'static str>) -> Self {
        let now = Instant::now();
        Tally {
            by_way: vec![0; ways.len()],
            name,
            ways,
            start: now,
            said: now,
            cases: 0,
            tokens: 0,
            bytes: 0,
            by_number: Default::default(),
            by_entry: Default::default(),
            reports: Default::default(),
            with_labels: 0,
            unchanged: 0,
            panics: 0,
            repeats: Repeats::default(),
            seen: Seen::default(),
        }
    }

    /// A call, its answer, and how many labels break the rule.
    pub fn call(&mut self, call: &Call, answer: Answer, labels: usize) {
        let strict = is_strict(call.setting);
        self.by_number[strict as usize][answer.number as usize] += 1;
        self.reports[strict as usize] += answer.report_count as u64;
        self.with_labels += (strict && labels > 0) as u64
    }

    pub fn case(&mut self, way: usize, call: &Call, unchanged: Option<Unchanged>, repeats: Repeats) {
        self.cases += 1;
        self.repeats.add(repeats);
        self.tokens += (call.tokens.len() / ROW_TOKEN) as u64;
        self.bytes += call.bytes.len() as u64;
        self.by_entry[if call.entry <= ENTRY_CELLS { call.entry as usize } else { 0 }] += 1;
        self.by_way[way] += 1;
        self.unchanged += (unchanged == Some(Unchanged::Same)) as u64;
        self.panics += (unchanged == Some(Unchanged::Panics)) as u64
    }

    fn rate(&self) -> f64 {
        self.cases as f64 / self.start.elapsed().as_secs_f64()
    }

    /// A line every few seconds.
    pub fn progress(&mut self, of: u64) {
        if self.said.elapsed().as_secs() >= 10 {
            self.said = Instant::now();
            let percent = 100 * self.cases / of;
            eprintln!("{} of {of} {1} ({percent}%), {2:.0} {1}/s, no difference", self.cases, self.name, self.rate())
        }
    }

    pub fn write(&self) {
        let seconds = self.start.elapsed().as_secs_f64();
        let [old, strict] = self.reports;
        let (name, mean) = (self.name, |n: u64| n as f64 / self.cases as f64);
        println!("{} {name} in {seconds:.0} s, {:.0} {name}/s, each in both settings", self.cases, self.rate());
        println!(
            "tokens: {} ({:.1} on average), bytes: {} ({:.1})",
            self.tokens,
            mean(self.tokens),
            self.bytes,
            mean(self.bytes)
        );
        println!("reports: {old} in the old setting, {strict} in the strict one");
        println!("with labels to report: {}", self.with_labels);
        let list = |v: &[u64]| {
            let seen = v.iter().enumerate().filter(|(_, n)| **n > 0);
            seen.map(|(i, n)| format!(" {i}: {n}")).collect::<Vec<_>>().join(",")
        };
        println!("answers by number, old setting:{}", list(&self.by_number[0]));
        println!("answers by number, strict setting:{}", list(&self.by_number[1]));
        println!("by entry (0: none):{}", list(&self.by_entry));
        for (name, n) in self.ways.iter().zip(&self.by_way) {
            println!("  {name}: {n}")
        }
        self.seen.write();
        let Repeats { reports, longest, most } = self.repeats;
        println!(
            "reports whose list the Rust had with repeats: {reports}; its longest list {longest}, of the rows {most}"
        );
        println!("with the unchanged Rust too: {} the same, {} where it panics", self.unchanged, self.panics)
    }
}
