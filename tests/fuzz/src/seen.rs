//! Which codes the accepted calls of a run gave: a run that never gives one says nothing of it.
use dt_parser_layout::{BUFFERS, CLASS_NODE, ERRORS, POOL, REPORTS, ROW_ERROR, ROW_REPORT, ROW_TREE, TREES};
use dt_parser_layout::{COL_ERROR_NUMBER, COL_REPORT_HINT, COL_REPORT_MESSAGE};
use dt_parser_layout::{COL_TREE_CLASS, COL_TREE_KIND, COL_TREE_PARENT};

/// A bit for each code.
#[derive(Default)]
pub struct Seen {
    nodes: u128,
    leaves: u128,
    lexical: u128,
    messages: u128,
    hints: u128,
    expectations: u128,
    rows: u64,
    /// Rows whose parent is the root.
    under_root: u64,
    /// The most steps from parent to parent up to the root.
    longest: usize,
}

/// The codes of a set, `6-24` for those from 6 to 24.
fn list(set: u128) -> String {
    let has = |i: u32| i < 128 && set >> i & 1 == 1;
    let starts = (0..128).filter(|&i| has(i) && (i == 0 || !has(i - 1)));
    let spans = starts.map(|a| (a, (a..).take_while(|&i| has(i)).last().unwrap_or(a)));
    let words = spans.map(|(a, b)| if a == b { a.to_string() } else { format!("{a}-{b}") });
    words.collect::<Vec<_>>().join(" ")
}

impl Seen {
    /// The rows of each buffer.
    pub fn add(&mut self, rows: &[Vec<u32>; BUFFERS]) {
        for row in rows[TREES].chunks_exact(ROW_TREE) {
            let set = if row[COL_TREE_CLASS] == CLASS_NODE { &mut self.nodes } else { &mut self.leaves };
            *set |= 1 << row[COL_TREE_KIND]
        }
        self.add_parents(&rows[TREES]);
        rows[ERRORS].chunks_exact(ROW_ERROR).for_each(|row| self.lexical |= 1 << row[COL_ERROR_NUMBER]);
        for row in rows[REPORTS].chunks_exact(ROW_REPORT) {
            self.messages |= 1 << row[COL_REPORT_MESSAGE];
            self.hints |= 1 << row[COL_REPORT_HINT]
        }
        rows[POOL].iter().for_each(|code| self.expectations |= 1 << code)
    }

    fn add_parents(&mut self, trees: &[u32]) {
        let mut steps: Vec<usize> = vec![];
        for row in trees.chunks_exact(ROW_TREE) {
            // the root comes first, and needs none
            let own = steps.get(row[COL_TREE_PARENT] as usize).map_or(0, |parent| parent + 1);
            self.rows += 1;
            self.under_root += (own == 1) as u64;
            self.longest = self.longest.max(own);
            steps.push(own)
        }
    }

    pub fn write(&self) {
        println!("codes given in accepted calls:");
        println!("  node kinds: {}", list(self.nodes));
        println!("  leaf kinds: {}", list(self.leaves));
        println!("  lexical errors: {}", list(self.lexical));
        println!("  messages: {}; hints: {}", list(self.messages), list(self.hints));
        println!("  expectations: {}", list(self.expectations));
        let Seen { rows, under_root, longest, .. } = self;
        println!("tree rows: {rows}, of which {under_root} name the root; the longest way up: {longest} steps")
    }
}
