//! Each expectation once (document 02, 6/14), where the Rust pushes some of them again while nothing is taken. That no
//! report of the oracle's cases lists one twice is in tests/oracle.rs.

use dt_parser::{Entrypoint, Expected, Input, Token, TokenKind};

/// What each report of a list of tokens expected; a token without a text of its own is a `?`.
fn expected(entry: Entrypoint, kinds: &[TokenKind]) -> Vec<Vec<Expected>> {
    let text_of = |kind: &TokenKind| kind.static_text().unwrap_or("?");
    let text: String = kinds.iter().map(text_of).collect();
    let tokens = kinds.iter().map(|kind| Token::new(*kind, text_of(kind).len() as u32)).collect();
    let parse = entry.parse(&Input::new(text.as_bytes(), tokens)).unwrap();
    parse.reports.into_iter().map(|report| report.expected).collect()
}

fn kind(kind: TokenKind) -> Expected {
    Expected::Kind(kind)
}

/// docs/DIFFERENCES.md has these lists as the Rust pushes them.
#[test]
fn lists_that_had_repeats() {
    use TokenKind::{DtIncludeDirective, ElseDirective, EndifDirective, IfDirective, Semicolon};
    let else_alone = expected(Entrypoint::SourceFile, &[ElseDirective]);
    assert_eq!(else_alone, [vec![], vec![kind(EndifDirective)]]);
    let inner = vec![kind(EndifDirective), Expected::Cell, kind(DtIncludeDirective), Expected::PreprocessorDirective];
    let outer = [inner.clone(), vec![Expected::End]].concat();
    let cells = expected(Entrypoint::Cells, &[IfDirective, IfDirective, Semicolon]);
    assert_eq!(cells, [inner.clone(), inner, outer.clone(), outer]);
}
