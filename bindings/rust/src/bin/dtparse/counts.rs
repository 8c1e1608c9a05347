//! What is counted of a file and of all of them.

use crate::forms::Shown;
use crate::outcome::Outcome;
use dt_parser::{NodeKind, Parse};

/// What is counted of a file; nothing of one that has no answer.
#[derive(Debug, Clone, Copy, Default, PartialEq, Eq)]
pub struct Counts {
    pub reports: usize,
    pub lexical_errors: usize,
    /// Parts that were not understood and have no report.
    pub notes: usize,
    pub nodes: usize,
    pub properties: usize,
    pub bytes: usize,
    pub bytes_not_understood: usize,
}

/// What became of all files, and their counts.
#[derive(Debug, Default)]
pub struct Totals {
    pub files: usize,
    /// Those with reports or lexical errors.
    pub with_errors: usize,
    pub refused: usize,
    pub unreadable: usize,
    pub counts: Counts,
}

impl Counts {
    pub fn of(parse: &Parse) -> Self {
        let (mut nodes, mut properties) = (0, 0);
        for node in parse.tree.root().nodes_below() {
            match node.kind() {
                NodeKind::DtNode => nodes += 1,
                NodeKind::DtProperty => properties += 1,
                _ => {}
            }
        }
        Self {
            reports: parse.reports.len(),
            lexical_errors: parse.lexical_errors.len(),
            notes: parse.unreported().len(),
            nodes,
            properties,
            bytes: parse.tree.text().len(),
            bytes_not_understood: parse.outermost_errors().iter().map(|node| node.range().len()).sum(),
        }
    }

    pub const fn errors(&self) -> usize {
        self.reports + self.lexical_errors
    }

    /// What was read, and how much was not.
    pub fn text(&self) -> String {
        let nodes = plural(self.nodes, "node", "nodes");
        let properties = plural(self.properties, "property", "properties");
        let lost = match (self.bytes_not_understood, plural(self.bytes, "byte", "bytes")) {
            (0, _) => String::new(),
            (lost, bytes) => format!("; {lost} of {bytes} not understood"),
        };
        format!("{nodes} and {properties} read{lost}")
    }

    pub const fn add(&mut self, other: &Self) {
        self.reports += other.reports;
        self.lexical_errors += other.lexical_errors;
        self.notes += other.notes;
        self.nodes += other.nodes;
        self.properties += other.properties;
        self.bytes += other.bytes;
        self.bytes_not_understood += other.bytes_not_understood;
    }
}

impl Totals {
    pub fn add(&mut self, shown: &Shown) {
        self.files += 1;
        self.with_errors += usize::from(shown.counts.errors() > 0);
        self.refused += usize::from(matches!(shown.outcome, Outcome::Refused(_)));
        self.unreadable += usize::from(matches!(shown.outcome, Outcome::Unreadable(_)));
        self.counts.add(&shown.counts);
    }

    /// One line: how many files, what became of them, and what was read.
    pub fn text(&self) -> String {
        let mut parts = vec![match self.counts.errors() {
            0 => "no errors".to_string(),
            errors => format!("{} in {}", plural(errors, "error", "errors"), plural(self.with_errors, "file", "files")),
        }];
        for (count, what) in [(self.refused, "refused"), (self.unreadable, "not read")] {
            if count > 0 {
                parts.push(format!("{count} {what}"));
            }
        }
        format!("{}: {}; {}", plural(self.files, "file", "files"), parts.join(", "), self.counts.text())
    }
}

/// A count with its word.
pub fn plural(n: usize, one: &str, more: &str) -> String {
    format!("{n} {}", if n == 1 { one } else { more })
}

#[cfg(test)]
mod tests {
    use super::*;

    #[test]
    fn one_is_not_many() {
        let counts =
            Counts { reports: 1, nodes: 1, properties: 2, bytes: 1, bytes_not_understood: 1, ..Counts::default() };
        assert_eq!(counts.text(), "1 node and 2 properties read; 1 of 1 byte not understood");
        let totals = Totals { files: 3, with_errors: 1, refused: 1, unreadable: 1, counts };
        let lost = "1 of 1 byte not understood";
        let said = format!("3 files: 1 error in 1 file, 1 refused, 1 not read; 1 node and 2 properties read; {lost}");
        assert_eq!(totals.text(), said);
        let none = Totals { files: 1, ..Totals::default() };
        assert_eq!(none.text(), "1 file: no errors; 0 nodes and 0 properties read");
    }
}
