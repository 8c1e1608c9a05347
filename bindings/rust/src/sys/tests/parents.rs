//! Tree rows as the calls write them: five numbers each, the last of which is the parent's row number.

use super::*;

const ROW: usize = 5;

/// The rows of `a;`: SourceFile, DtProperty, Name, Semicolon.
const PROPERTY: [u32; 4 * ROW] = [0, 0, 2, 1, 0, 0, 16, 2, 2, 0, 1, 26, 1, 1, 1, 1, 29, 1, 1, 1];

#[test]
fn a_tree_needs_five_numbers_a_row() {
    for length in 0..PROPERTY.len() + 2 * ROW {
        let mut buffers = lent(4, ROOM);
        buffers.trees = vec![LENT; length];
        let answer = call_text(SOURCE_FILE, OLD, b"a;", &mut buffers).answer;
        if length < PROPERTY.len() {
            assert_eq!((answer.number, answer.place, answer.tree_count), (8, 0, 0), "{length}");
            assert!(buffers.all_hold(0), "{length}");
        } else {
            assert_eq!((answer.number, answer.place, answer.tree_count), (0, 0, 4), "{length}");
            assert_eq!(buffers.trees, [PROPERTY.as_slice(), &vec![0; length - PROPERTY.len()]].concat());
        }
    }
}

/// The parents that classes and counts give: each row is a child of the last node before it that still lacks one.
fn by_counts(rows: &[[u32; ROW]]) -> Vec<u32> {
    let mut lacking: Vec<(u32, u32)> = Vec::new();
    let mut parents = Vec::new();
    for (row, [class, _, _, count, _]) in (0..).zip(rows) {
        while lacking.last().is_some_and(|(_, children)| *children == 0) {
            lacking.pop();
        }
        parents.push(lacking.last_mut().map_or(0, |(parent, children)| {
            *children -= 1;
            *parent
        }));
        if *class == 0 {
            lacking.push((row, *count));
        }
    }
    parents
}

#[test]
fn parents_are_those_that_the_counts_give() {
    let nested = [b"/{a=<".as_slice(), &b"(1+".repeat(20), b"\\>;b{c;};};&d{"].concat();
    let texts = [TEXT, b"a{b;}; /delete-node/", b"/{a=<1 \\ (2?3:4)>;b", b"}};;a", b" ", b"", &nested];
    for (text, entry) in texts.into_iter().flat_map(|text| (1..=4).map(move |entry| (text, entry))) {
        for setting in [0, 1] {
            let mut buffers = lent(2 * text.len(), 2 * ROOM);
            let answer = call_text(entry, setting, text, &mut buffers).answer;
            assert_eq!(answer.number, 0, "{entry}");
            let rows = &buffers.trees.as_chunks::<ROW>().0[..answer.tree_count];
            let parents: Vec<u32> = rows.iter().map(|row| row[4]).collect();
            assert_eq!(parents, by_counts(rows), "{entry}");
            assert_eq!(parents[0], 0, "the root names itself");
        }
    }
}
