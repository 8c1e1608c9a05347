//! What is under a caret, and the parts that share a byte with a range: a tree's answers against those of the proved
//! calls, in the sources of the project and the oracle's cases. A tree's answers against a plain reading of its rows
//! are in navigate.rs; the calls by themselves, in lists of every length and refused, in src/sys/tests/queries.rs.

#[path = "common/answers.rs"]
mod answers;
#[path = "common/random.rs"]
mod random;

use dt_parser::rowsfile::RowsFile;
use dt_parser::{Entrypoint, Input, Item, Parser, Query, Setting, TextRange, Tree};
use random::Random;
use std::path::PathBuf;

/// A source file whose tree is asked, in either setting, as the proved calls are.
struct Source<'i> {
    input: &'i Input<'i>,
    trees: [Tree<'i>; 2],
    parser: Parser,
    /// How many queries were made, and how many rows they listed.
    queries: usize,
    rows: usize,
}

impl<'i> Source<'i> {
    fn new(input: &'i Input<'i>) -> Self {
        let tree = |setting| Entrypoint::SourceFile.parse_in(setting, input).unwrap().tree;
        let trees = [Setting::Old, Setting::Strict].map(tree);
        Self { input, trees, parser: Parser::new(), queries: 0, rows: 0 }
    }

    fn check(&mut self, query: Query) {
        let listed = self.parser.query(query, self.input).unwrap();
        for tree in &self.trees {
            let items: Vec<Item<'_>> = match query {
                Query::Caret(offset) => tree.at_offset(offset),
                Query::Parts(range) => tree.parts_in(range).collect(),
                _ => unreachable!("a query of the two"),
            };
            assert!(items.into_iter().map(Item::row).eq(listed.iter().copied()), "{query:?}: {listed:?} in\n{tree}");
        }
        self.queries += 1;
        self.rows += listed.len();
    }

    /// Offsets: every one, or so many; and those past the text.
    fn check_offsets(&mut self, some: Option<usize>) {
        let length = self.input.text.len();
        let step = some.map_or(1, |some| length / some);
        let wrapped = [1 << 32, (1 << 32) + length / 2, (1 << 32) + length];
        let far = [length, length + 1, u32::MAX as usize, usize::MAX].into_iter().chain(wrapped);
        for offset in (0..length).step_by(step.max(1)).chain(far) {
            self.check(Query::Caret(offset));
        }
    }

    /// Ranges: every one of a small file, else so many; and those that are far from the text.
    fn check_ranges(&mut self, random: &mut Random, some: usize) {
        let most = self.input.text.len() + 3;
        let every = (0..most).flat_map(|start| (0..most).map(move |end| (start, end)));
        let mut one = || {
            let start = random.below(most);
            let end = if random.below(2) == 0 { start + random.below(20) } else { random.below(most) };
            (start, end)
        };
        let ranges: Vec<(usize, usize)> = if most < 16 { every.collect() } else { (0..some).map(|_| one()).collect() };
        let far = [(0, usize::MAX), (most / 2, usize::MAX), (usize::MAX, 1), (1 << 32, usize::MAX)];
        for (start, end) in ranges.into_iter().chain(far) {
            self.check(Query::Parts(TextRange { start, end }));
        }
    }
}

fn root() -> PathBuf {
    PathBuf::from(env!("CARGO_MANIFEST_DIR")).join("../..")
}

#[test]
fn a_tree_answers_as_the_proved_calls_do_in_the_oracles_cases() {
    let mut random = Random(362_436_069);
    let (mut cases, mut queries, mut rows) = (0, 0, 0);
    for case in answers::all().into_iter().filter(|case| case.entry == Entrypoint::SourceFile) {
        let input = Input::new(&case.text, case.tokens);
        let mut source = Source::new(&input);
        assert_eq!(source.trees[0].item_count(), answers::tree_rows(&case.answer).len(), "{}", case.line);
        source.check_offsets(None);
        source.check_ranges(&mut random, 60);
        cases += 1;
        queries += source.queries;
        rows += source.rows;
    }
    assert!(cases > 50 && queries > 10_000 && rows > queries, "{cases} {queries} {rows}");
}

#[test]
fn a_tree_answers_as_the_proved_calls_do_in_the_examples() {
    let mut random = Random(521_288_629);
    for name in ["board", "labels", "overlay"] {
        let bytes = std::fs::read(root().join(format!("examples/{name}.rows"))).unwrap();
        let file = RowsFile::read(&bytes).unwrap();
        let input = Input::from_rows(file.text, &file.rows).unwrap();
        let mut source = Source::new(&input);
        source.check_offsets(None);
        source.check_ranges(&mut random, 1000);
        assert!(source.rows > source.queries);
    }
}

#[test]
fn a_tree_answers_as_the_proved_calls_do_in_boards() {
    let mut random = Random(88_675_123);
    for (name, offsets) in [("kestrel-lantern", None), ("rk3328-rock64", Some(300))] {
        let text = std::fs::read(root().join(format!("examples/cpp/{name}.plain.dts"))).unwrap();
        let read = Entrypoint::SourceFile.parse_text(&text).unwrap();
        let mut source = Source::new(&read.input);
        source.check_offsets(offsets);
        source.check_ranges(&mut random, 200);
    }
}

#[test]
fn a_file_without_text_has_its_root() {
    let input = Input::new(b"", Vec::new());
    let mut source = Source::new(&input);
    source.check_offsets(None);
    source.check_ranges(&mut Random(1), 0);
    let mut parser = Parser::new();
    assert_eq!(parser.query(Query::Caret(0), &input), Ok(vec![0]));
    assert_eq!(parser.query(Query::Caret(1), &input), Ok(vec![]));
}

#[test]
fn a_parser_goes_from_one_call_to_another() {
    let long = Entrypoint::SourceFile.parse_text(b"/ { a = <1 2 3>; b { c; }; };\n").unwrap();
    let short = Entrypoint::SourceFile.parse_text(b"a;").unwrap();
    let mut parser = Parser::new();
    for _ in 0..2 {
        for read in [&long, &short] {
            let end = Query::Caret(read.input.text.len());
            let rows: Vec<usize> = read.parse.tree.at_offset(read.input.text.len()).iter().map(|i| i.row()).collect();
            assert_eq!(parser.query(end, &read.input), Ok(rows.clone()));
            assert_eq!(parser.query_rows(end, read.input.text, &read.input.rows()), Ok(rows));
            let parse = parser.parse(Entrypoint::SourceFile, &read.input).unwrap();
            assert_eq!(parse.tree.to_string(), read.parse.tree.to_string());
        }
    }
}
