//! The loop over random pairs.
use super::later::{Later, Places};
use super::pair::Pair;
use crate::buffers::Buffers;
use crate::make::{self, Maker};
use crate::rng::Rng;
use crate::run::Plan;
use crate::show;
use dt_parser_ffi::{self as ffi, Counts};
use dt_parser_layout::{
    ACCEPTED, BUFFERS, COL_TREE_PARENT, ERRORS, POOL, REPORTS, ROW_ERROR, ROW_REPORT, ROW_TREE, SETTING_OLD, TREES,
};
use std::time::Instant;

/// The second file's buffers are longer by so many numbers: what is lent must not show.
const MORE: usize = 13;
const GARBAGE: u32 = 0x5A5A5A59;

type Found = (Places, Later);

/// Figures, of both settings.
#[derive(Default)]
struct Figures {
    pairs: u64,
    /// Whose semicolons both end a top-level property, node or directive, in accepted files.
    named: u64,
    /// Of these, where row numbers move.
    moved: u64,
    rows: u64,
    /// Rows whose parent is not the root, so that it moves.
    parents: u64,
    errors: u64,
    reports: u64,
}

impl Figures {
    fn add(&mut self, first: &Found, second: &Found) {
        let parents = first.1.trees.chunks_exact(ROW_TREE).filter(|row| row[COL_TREE_PARENT] != 0);
        self.named += 1;
        self.moved += (first.0.row != second.0.row) as u64;
        self.rows += (first.1.trees.len() / ROW_TREE) as u64;
        self.parents += parents.count() as u64;
        self.errors += (first.1.errors.len() / ROW_ERROR) as u64;
        self.reports += (first.1.reports.len() / ROW_REPORT) as u64
    }

    fn write(&self, seconds: f64) {
        let Figures { pairs, named, moved, rows, parents, errors, reports } = self;
        println!("{pairs} pairs in {seconds:.0} s, each in both settings");
        println!("{named} where both semicolons end such a part; in {moved} of them row numbers move");
        println!("later in the first file of these: {rows} tree rows, of which {parents} do not name the root,");
        println!("{errors} lexical errors, {reports} reports")
    }
}

#[derive(Default)]
struct Library(Buffers);

impl Library {
    /// What is later in one of the two files; none if the file is refused or the semicolon ends no such part.
    fn later(&mut self, pair: &Pair, which: usize, setting: u32) -> Option<Found> {
        let call = pair.call(which, setting, MORE * which);
        self.0.fill(call.lengths, GARBAGE);
        // Safety: each lent buffer has its length, and they are five vectors
        let answer = unsafe { ffi::parse_lent(call.entry, setting, &call.bytes, &call.tokens, self.0.lent(false)) };
        let used = answer.used();
        let rows: [&[u32]; BUFFERS] = std::array::from_fn(|i| &self.0.get(i)[..used[i]]);
        let (token, byte) = pair.semicolon(which);
        if answer.number == ACCEPTED { Later::of(&rows, token, byte) } else { None }
    }

    fn both(&mut self, pair: &Pair, setting: u32) -> Option<[Found; 2]> {
        Some([self.later(pair, 0, setting)?, self.later(pair, 1, setting)?])
    }

    fn differs(&mut self, pair: &Pair, setting: u32) -> bool {
        self.both(pair, setting).is_some_and(|[first, second]| !agree(&first, &second))
    }
}

fn moved(first: &Found, second: &Found) -> Later {
    first.1.clone().moved(first.0, second.0)
}

fn agree(first: &Found, second: &Found) -> bool {
    moved(first, second) == second.1
}

/// True if no pair differed. The first that does is made small and printed.
pub fn run(plan: &Plan) -> bool {
    println!("seed {}, {} pairs from number {}", plan.seed, plan.cases, plan.first);
    let (mut maker, mut library, mut figures) = (Maker::new(), Library::default(), Figures::default());
    let (start, mut said) = (Instant::now(), Instant::now());
    for i in plan.first..plan.first + plan.cases {
        let mut r = Rng::of_case(plan.seed, i);
        let pair = Pair::draw(&mut r, &mut maker);
        for setting in [SETTING_OLD, make::strict_setting(&mut r)] {
            let Some([first, second]) = library.both(&pair, setting) else { continue };
            if !agree(&first, &second) {
                println!("pair {i} of seed {} differs", plan.seed);
                return differs(&mut library, pair, setting);
            }
            figures.add(&first, &second)
        }
        figures.pairs += 1;
        if said.elapsed().as_secs() >= 10 {
            said = Instant::now();
            eprintln!("{} of {} pairs, no difference", figures.pairs, plan.cases)
        }
    }
    figures.write(start.elapsed().as_secs_f64());
    println!("{} pairs, no difference", figures.pairs);
    true
}

/// Tokens are left out as long as the two differ.
fn differs(library: &mut Library, mut pair: Pair, setting: u32) -> bool {
    loop {
        let smaller = pair.smaller().find(|smaller| library.differs(smaller, setting));
        match smaller {
            Some(smaller) => pair = smaller,
            None => break,
        }
    }
    (0..2).for_each(|which| println!("call: {}", pair.call(which, setting, MORE * which).line()));
    let Some([first, second]) = library.both(&pair, setting) else { return false };
    println!("later in the first file, moved:");
    print(&moved(&first, &second));
    println!("later in the second file, from row {} on:", second.0.row + 1);
    print(&second.1);
    false
}

fn print(later: &Later) {
    println!("  parts: {}", later.parts);
    let buffers = [(TREES, &later.trees), (ERRORS, &later.errors), (REPORTS, &later.reports), (POOL, &later.codes)];
    buffers.into_iter().for_each(|(i, numbers)| show::rows(i, numbers))
}
