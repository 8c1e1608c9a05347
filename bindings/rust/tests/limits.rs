//! The limits of a call, and buffers that must grow.

use dt_parser::{Entrypoint, Error, Input, Message, Parser, Refusal, Token, TokenKind};

fn repeated(kind: TokenKind, count: usize) -> Vec<Token> {
    let length = kind.static_text().map_or(1, str::len);
    vec![Token::new(kind, length as u32); count]
}

/// Brackets around `1`, for the entry of cells.
fn brackets(count: usize) -> Result<usize, Error> {
    let text = format!("{}1{}", "(".repeat(count), ")".repeat(count));
    let one = vec![Token::new(TokenKind::Number, 1)];
    let tokens = [repeated(TokenKind::LParen, count), one, repeated(TokenKind::RParen, count)].concat();
    let input = Input::new(text.as_bytes(), tokens);
    Entrypoint::Cells.parse(&input).map(|parse| parse.reports.len())
}

#[test]
fn sixty_four_open_calls_are_the_most() {
    assert_eq!(brackets(63), Ok(0));
    assert_eq!(brackets(64), Err(Error::Refused(Refusal::TooDeep(64))));
}

/// Conditionals in cells, one inside the other: token rows of kind 4 with no trivia between, and `;`.
fn conditionals(count: usize) -> Result<usize, Error> {
    let text = "#".repeat(count) + ";";
    let tokens = [repeated(TokenKind::IfDirective, count), repeated(TokenKind::Semicolon, 1)].concat();
    let input = Input::new(text.as_bytes(), tokens);
    let parse = Entrypoint::Cells.parse(&input)?;
    Ok(parse.reports.iter().map(|report| report.expected.len()).max().unwrap_or(0))
}

/// Each level that ends at the `;` has the same expected again: 51 levels push 260 expectations.
#[test]
fn the_same_expected_again_meets_no_limit() {
    for count in [2, 50, 51, 63] {
        assert_eq!(conditionals(count), Ok(5), "{count}");
    }
    assert_eq!(conditionals(64), Err(Error::Refused(Refusal::TooDeep(64))));
}

#[test]
fn the_longest_input_is_taken() {
    let blanks = |count: usize| {
        let text = " ".repeat(count);
        let input = Input::new(text.as_bytes(), repeated(TokenKind::Whitespace, count));
        Entrypoint::SourceFile.parse(&input).map(|parse| parse.tree.root().children().count())
    };
    assert_eq!(blanks(Input::MAX_TOKENS), Ok(65_536));
    assert_eq!(blanks(Input::MAX_TOKENS + 1), Err(Error::Refused(Refusal::TooLong)));
    let one_comment = |length: usize| {
        let text = "x".repeat(length);
        let input = Input::new(text.as_bytes(), vec![Token::new(TokenKind::LineComment, length as u32)]);
        Entrypoint::SourceFile.parse(&input).map(|_| ())
    };
    assert_eq!(one_comment(Input::MAX_BYTES), Ok(()));
    assert_eq!(one_comment(Input::MAX_BYTES + 1), Err(Error::Refused(Refusal::TooLong)));
}

#[test]
fn buffers_grow_for_many_reports_and_are_used_again() {
    let mut parser = Parser::new();
    for count in [20_000, 3, 65_536, 0, 7] {
        let text = ";".repeat(count);
        let input = Input::new(text.as_bytes(), repeated(TokenKind::Semicolon, count));
        let parse = parser.parse(Entrypoint::SourceFile, &input).unwrap();
        assert_eq!(parse.reports.len(), count);
        assert!(parse.reports.iter().all(|report| report.message == Message::UnmatchedSemicolon));
        assert_eq!(parse.outermost_errors().len(), count);
    }
}

#[test]
fn buffers_grow_for_many_expectations() {
    // each `=` is reported with a list of what could have stood there
    let text = "=".repeat(4_000);
    let input = Input::new(text.as_bytes(), repeated(TokenKind::Equals, 4_000));
    let parse = Entrypoint::SourceFile.parse(&input).unwrap();
    let pool: usize = parse.reports.iter().map(|report| report.expected.len()).sum();
    assert!(pool > 4_000, "{pool}");
}

#[test]
fn a_deep_tree_is_walked_without_recursion() {
    let count = 32_000;
    let text = format!("({}1)", "1+".repeat(count));
    let pair = [Token::new(TokenKind::Number, 1), Token::new(TokenKind::Plus, 1)];
    let mut tokens = vec![Token::new(TokenKind::LParen, 1)];
    tokens.extend(pair.iter().cycle().take(2 * count));
    tokens.extend([Token::new(TokenKind::Number, 1), Token::new(TokenKind::RParen, 1)]);
    let input = Input::new(text.as_bytes(), tokens);
    let parse = Entrypoint::Cells.parse(&input).unwrap();
    assert!(parse.is_clean());
    // root, DtExpr, the InfixExprs, LiteralExpr, leaf
    assert_eq!(parse.tree.root().walk().map(|(_, depth)| depth).max(), Some(count + 3));
    assert_eq!(parse.tree.root().leaves().count(), input.tokens.len());
    let first = parse.tree.leaf_at(1).unwrap();
    assert_eq!(first.text(), b"1");
    assert_eq!(first.nodes_above().count(), count + 3);
    let expr = parse.tree.root().child_nodes().next().unwrap();
    let close = expr.last_leaf().unwrap();
    // the sibling before the last bracket is the whole sum, whose first leaf is the deepest
    let sum = close.prev_sibling().and_then(|item| item.as_node()).unwrap();
    assert_eq!(sum.first_leaf(), Some(first));
    assert_eq!(parse.tree.covering_node((1..text.len() - 1).into()), Some(sum));
    assert_eq!(parse.tree.covering_node((0..text.len()).into()), Some(expr));
}
