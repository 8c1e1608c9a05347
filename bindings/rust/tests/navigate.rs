//! Steps and walks against a plain reading of the tree rows (common/model.rs): in the trees of files, which are the
//! oracle's snippets and cases, the examples and the seeds of tests/fuzz/, with the rows that the Rust gave
//! (tests/oracle/answers.txt); and in random trees.

#[path = "common/answers.rs"]
mod answers;
#[path = "common/model.rs"]
mod model;
#[path = "common/random.rs"]
mod random;

use dt_parser::{Input, NodeKind, OwnedParse, Parser, TextRange, Token, TokenKind, Tree};
use random::Random;

/// All parses, after the texts that they were made from have gone.
fn parses() -> Vec<(OwnedParse, Vec<Vec<u32>>)> {
    let mut parser = Parser::new();
    let parse = |case: answers::Case| {
        let input = Input::new(&case.text, case.tokens);
        let parse = parser.parse(case.entry, &input).unwrap_or_else(|why| panic!("{}: {why}", case.line));
        (parse.into_owned(), answers::tree_rows(&case.answer))
    };
    answers::all().into_iter().map(parse).collect()
}

#[test]
fn every_source_of_the_project_is_among_the_cases() {
    let texts: Vec<Vec<u8>> = answers::stored().into_iter().map(|case| case.text).collect();
    for folder in ["examples", "tests/oracle/snippets", "tests/fuzz/seeds"] {
        for file in std::fs::read_dir(format!("{}/../../{folder}", env!("CARGO_MANIFEST_DIR"))).unwrap() {
            let path = file.unwrap().path();
            if path.extension().is_some_and(|extension| extension == "dts") {
                let text = std::fs::read(&path).unwrap();
                assert!(texts.contains(&text), "{} is not there: run tests/oracle/make.sh", path.display());
            }
        }
    }
}

#[test]
fn every_item_stands_where_the_rows_say() {
    let parses = parses();
    assert!(parses.len() > 100);
    for (parse, rows) in &parses {
        model::check_items(&parse.tree, &model::read(rows));
    }
}

#[test]
fn the_innermost_node_and_the_parts_of_a_range_are_found() {
    let mut random = Random(2_463_534_242);
    for (parse, rows) in &parses() {
        let known = model::read(rows);
        let most = parse.tree.text().len() + 2;
        for _ in 0..400 {
            let start = random.below(most);
            let end = if random.below(2) == 0 { start + random.below(20) } else { random.below(most) };
            model::check_covering(&parse.tree, &known, TextRange { start, end });
            model::check_parts(&parse.tree, &known, TextRange { start, end });
        }
    }
}

/// Class, kind, width, count, parent.
type Row = [u32; 5];

fn node(parent: usize, width: u32, count: u32) -> Row {
    [0, NodeKind::DtNode.number(), width, count, parent as u32]
}

fn leaf(parent: usize, width: u32) -> Row {
    [1, TokenKind::Ident.number(), width, 1, parent as u32]
}

/// A random subtree, added to the rows. Nodes may be empty; leaves have one to three bytes. Gives its width.
fn add_subtree(random: &mut Random, depth: usize, parent: usize, rows: &mut Vec<Row>) -> u32 {
    if depth == 0 || (depth < 6 && random.below(3) == 0) {
        let width = 1 + random.below(3) as u32;
        rows.push(leaf(parent, width));
        return width;
    }
    let count = if random.below(6) == 0 { 0 } else { 1 + random.below(4) as u32 };
    let row = rows.len();
    rows.push(node(parent, 0, count));
    let width = (0..count).map(|_| add_subtree(random, depth - 1, row, rows)).sum();
    rows[row] = node(parent, width, count);
    width
}

/// Checks the tree of these rows at every item, offset and range. Gives how many items it has.
fn check(rows: &[Row]) -> usize {
    let known = model::read(rows);
    let text = vec![b'x'; known[0].range.end];
    let leaves = known.iter().filter(|known| known.is_leaf);
    let tokens = leaves.map(|leaf| Token::new(TokenKind::Ident, leaf.range.len() as u32)).collect();
    let tree = Tree::read(rows, &Input::new(&text, tokens)).unwrap().into_owned();
    drop(text);
    model::check_items(&tree, &known);
    let most = tree.text().len() + 2;
    for range in (0..most).flat_map(|start| (0..most).map(move |end| TextRange { start, end })) {
        model::check_covering(&tree, &known, range);
        model::check_parts(&tree, &known, range);
    }
    known.len()
}

#[test]
fn random_trees_are_walked_as_the_model_says() {
    let mut random = Random(88_172_645_463_325_252);
    let mut items = 0;
    for turn in 0..300 {
        let mut rows = Vec::new();
        while rows.first().is_none_or(|root: &Row| root[0] == 1) {
            rows.clear();
            add_subtree(&mut random, 1 + turn % 5, 0, &mut rows);
        }
        items += check(&rows);
    }
    assert!(items > 3000, "{items}");
}

#[test]
fn nodes_without_text_are_passed_by() {
    check(&[node(0, 0, 0)]);
    check(&[node(0, 0, 2), node(0, 0, 0), node(0, 0, 1), node(2, 0, 0)]);
    let front = [node(0, 3, 5), node(0, 0, 0), leaf(0, 1), node(0, 0, 0)];
    check(&[front.as_slice(), &[node(0, 2, 2), leaf(4, 2), node(4, 0, 0), node(0, 0, 0)]].concat());
}

#[test]
fn what_is_kept_is_what_was_parsed() {
    let mut parser = Parser::new();
    for case in answers::all() {
        let input = Input::new(&case.text, case.tokens);
        let parse = parser.parse(case.entry, &input).unwrap();
        let kept = parse.clone().into_owned();
        assert_eq!(kept.tree.text(), parse.tree.text());
        assert_eq!(kept.tree.to_string(), parse.tree.to_string());
        assert_eq!((&kept.reports, &kept.lexical_errors), (&parse.reports, &parse.lexical_errors));
    }
}

#[test]
fn an_owned_parse_goes_to_other_threads() {
    fn is_free<T: Send + Sync + 'static>(_: &T) {}
    let kept: Vec<OwnedParse> = parses().into_iter().map(|(parse, _)| parse).collect();
    is_free(&kept);
    let here: usize = kept.iter().map(|parse| parse.tree.item_count()).sum();
    let there = std::thread::spawn(move || kept.iter().map(|parse| parse.tree.root().walk().count()).sum::<usize>());
    assert_eq!(there.join().unwrap(), here);
}
