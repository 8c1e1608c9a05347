//! Texts without their tokens: which tokens they have, each with the reason, which are refused and where, and that all
//! else is what the tokens give.

#[path = "common/answers.rs"]
#[allow(dead_code)] // only texts and tokens are used
mod answers;

use dt_parser::rowsfile::RowsFile;
use dt_parser::{Entrypoint, Input, NodeKind, Parser, Refusal, Setting, TextError, TextParse, Token, TokenKind};

/// The tokens of a text, as `Ident 2, LexError::Default 1`.
fn tokens(text: &[u8]) -> String {
    let read = Entrypoint::SourceFile.parse_text(text).unwrap_or_else(|why| panic!("{}: {why}", text.escape_ascii()));
    assert_eq!(joined(&read), text);
    let name = |token: &Token| match token.kind {
        Ok(kind) => format!("{} {}", kind.name(), token.length),
        Err(error) => format!("LexError::{} {}", error.name(), token.length),
    };
    read.input.tokens.iter().map(name).collect::<Vec<_>>().join(", ")
}

/// The tokens' bytes side by side.
fn joined(read: &TextParse<'_>) -> Vec<u8> {
    read.input.ranges().flat_map(|range| read.input.text[range.byte_range()].to_vec()).collect()
}

/// Each text has these tokens, for this reason.
#[track_caller]
fn have(cases: &[(&[u8], &str, &str)]) {
    for (text, expected, why) in cases {
        assert_eq!(tokens(text), *expected, "`{}`: {why}", text.escape_ascii());
    }
}

#[test]
fn numbers_fall_back_to_the_longest_match() {
    have(&[
        (b"0x", "Number 1, Ident 1", "a base needs a digit, so the decimal rule has the longest match"),
        (b"0b", "Number 1, Ident 1", "the same"),
        (b"0x_", "Number 3", "an underscore is one of the digits"),
        (b"0b12", "Number 3, Number 1", "2 is no binary digit"),
        (b"0o8", "Number 1, Ident 2", "8 is no octal digit, and none stands before it"),
        (b"0XfG", "Number 3, Ident 1", "either case; G is no digit"),
        (b"1_000", "Number 5", "underscores after the first digit"),
        (b"_1", "Ident 2", "no digit first"),
        (b"1u1", "Number 2, Number 1", "u is a suffix, and u1 is none"),
        (b"1u12", "Number 2, Number 2", "the same; u128 would be one"),
        (b"1u128", "Number 5", "a suffix of five"),
        (b"1ul8", "Number 3, Number 1", "ul is the longest suffix"),
        (b"1lul", "Number 3, Ident 1", "lu is the longest suffix; a second l goes before the u"),
        (b"1llu", "Number 4", "as here"),
        (b"1i", "Number 1, Ident 1", "i alone is no suffix"),
        (b"1i8", "Number 3", "i8 is one"),
        (b"0x1u8", "Number 5", "a suffix after a base's digits"),
        (b"12.5", "Number 2, Ident 2", "a full stop begins a name"),
        (b"-1", "Minus 1, Number 1", "a sign is a token of its own"),
    ]);
}

#[test]
fn names_and_signs() {
    have(&[
        (b"#address-cells", "Ident 8, Minus 1, Ident 5", "a # is a letter, and a minus is none"),
        (b"a,b.c_d#e", "Ident 1, Comma 1, Ident 7", "a comma is a token of its own"),
        (b"]`$\x7f\0", "Ident 5", "all that is ASCII and not listed is a letter"),
        (b"&&&", "LogicalAnd 2, Ampersand 1", "two before one"),
        (b"<<=", "BitwiseShl 2, Equals 1", "the same; there is no <<="),
        (b">>=", "BitwiseShr 2, Equals 1", "the same"),
        (b"===", "RelationalEq 2, Equals 1", "the same"),
        (b"!==", "RelationalNeq 2, Equals 1", "the same"),
        (b"<=>", "RelationalLtEq 2, RAngle 1", "the same"),
        (b"/dts-v1/;", "V1Directive 8, Semicolon 1", "longer than the / alone"),
        (b"/dts-v1;", "Slash 1, Ident 3, Minus 1, Ident 2, Semicolon 1", "and without its end it is not there"),
        (b"/bits/8", "BitsDirective 6, Number 1", "no blank is needed"),
    ]);
}

#[test]
fn blanks_and_line_ends() {
    have(&[
        (b"", "", "no byte, no token"),
        (b" \t\r\n\n", "Whitespace 5", "all that follows one another is one"),
        (b" \\\n\\\r\n ", "Whitespace 7", "a backslash and a line end are blanks"),
        (b"\\\r", "LexError::Default 1, Whitespace 1", "CR alone is none of the line ends after a backslash"),
        (b"\\\ra", "LexError::Default 1, Whitespace 1, Ident 1", "the same"),
        (b"\\", "LexError::Default 1", "no line end follows"),
        (b"\\\\\n", "LexError::Default 1, Whitespace 2", "the second has its line end"),
        (b"a\\b", "Ident 1, LexError::Default 1, Ident 1", "a backslash is no letter"),
    ]);
}

#[test]
fn comments_and_literals() {
    have(&[
        (b"/*/", "LexError::UnexpectedEndBlockComment 3", "its * cannot be that of the end"),
        (b"/**/", "BlockComment 4", "the shortest"),
        (b"/*/**/*/", "BlockComment 6, Asterisk 1, Slash 1", "comments do not nest"),
        (b"/*a", "LexError::UnexpectedEndBlockComment 3", "up to the end"),
        (b"//a\rb", "LineComment 3, Whitespace 1, Ident 1", "up to CR"),
        (b"//a\nb", "LineComment 3, Whitespace 1, Ident 1", "up to LF"),
        (b"//a\\\nb", "LineComment 4, Whitespace 1, Ident 1", "a backslash does not join lines"),
        (b"//", "LineComment 2", "up to the end"),
        (b"///*", "LineComment 4", "what starts first"),
        (b"\"a\\\"b\"c", "String 6, Ident 1", "a quote after a backslash does not end it"),
        (b"\"a\\\\\"c", "String 5, Ident 1", "but the backslash may be escaped itself"),
        (b"\"a\nb\"", "String 5", "over a line end"),
        (b"\"a", "LexError::UnexpectedEndString 2", "up to the end"),
        (b"'''", "Char 2, LexError::UnexpectedEndChar 1", "an empty one, and one that does not end"),
        (b"'\\''", "Char 4", "an escaped quote"),
        (b"[ab \"]\"", "DtBytestring 6, LexError::UnexpectedEndString 1", "up to the first ], whatever stands before"),
        (b"[ab", "LexError::UnexpectedEndBytestring 3", "up to the end"),
    ]);
}

#[test]
fn what_is_not_a_directive() {
    have(&[
        (b"a#if", "Ident 4", "the # does not start a token"),
        (b"##if", "Ident 4", "the first # starts it, and no word follows that one"),
        (b"\"#if\"", "String 5", "in a string"),
        (b"/*#if*/", "BlockComment 7", "in a comment"),
        (b"//#if", "LineComment 5", "in a comment"),
        (b"[#if]", "DtBytestring 5", "in a bytestring"),
        (b"'#if", "LexError::UnexpectedEndChar 4", "in an error token"),
        (b"#\\\nif", "Ident 1, Whitespace 2, Ident 2", "only spaces and tabs may stand between"),
        (b"#\nif", "Ident 1, Whitespace 1, Ident 2", "the same"),
        (b"#\rif", "Ident 1, Whitespace 1, Ident 2", "the same"),
        (b"#/**/if", "Ident 1, BlockComment 4, Ident 2", "the same"),
        (b"#i", "Ident 2", "not the whole word"),
        (b"#elsif", "Ident 6", "neither else nor elif"),
        (b"#IF", "Ident 3", "words are in small letters"),
        (b"#warning", "Ident 8", "not one of the nine words"),
        (b"# 1 \"a\"", "Ident 1, Whitespace 1, Number 1, Whitespace 1, String 3", "the preprocessor's own marks"),
        (b"#", "Ident 1", "no word"),
    ]);
}

/// Each text is refused with this number at this offset, for this reason, for every entry and setting.
#[track_caller]
fn are_refused(cases: &[(&[u8], Refusal, &str)]) {
    for (text, expected, why) in cases {
        for entry in Entrypoint::ALL {
            for setting in Setting::ALL {
                let error = entry.parse_text_in(*setting, text).unwrap_err();
                assert_eq!(error.refusal(), Some(*expected), "`{}`: {why}", text.escape_ascii());
                assert_eq!(error.offset(), Some(expected.place()));
            }
        }
    }
}

#[test]
fn directives_are_refused_where_a_token_starts() {
    let at = Refusal::Directive;
    are_refused(&[
        (b"#if", at(0), "at the start"),
        (b"1#if", at(1), "a number has ended"),
        (b"a,#if", at(2), "a comma has"),
        (b"/**/#if", at(4), "a comment has"),
        (b"\"\"#if", at(2), "a string has"),
        (b"\\#if", at(1), "an error token has"),
        (b"a #if", at(2), "a blank has"),
        (b"a-#if", at(2), "a minus has"),
        (b"//\r#if", at(3), "CR ends a comment"),
        (b"# \t \tif", at(0), "spaces and tabs may stand between"),
        (b"#iface-cells", at(0), "the text begins with a word; it need not end there"),
        (b"#elseif", at(0), "the same"),
        (b"#ifdef", at(0), "if"),
        (b"#elif", at(0), "elif"),
        (b"#else", at(0), "else"),
        (b"#endif", at(0), "endif"),
        (b"#pragma", at(0), "pragma"),
        (b"#define", at(0), "define"),
        (b"#undef", at(0), "undef"),
        (b"#include", at(0), "include"),
        (b"#error", at(0), "error"),
        (b"a#if\n#else\n#if", at(5), "the first that starts a token"),
    ]);
}

#[test]
fn bytes_that_are_not_ascii_are_refused_wherever_they_stand() {
    let at = Refusal::HighByte;
    are_refused(&[
        (b"\x80", at(0), "the smallest"),
        (b"\xff", at(0), "the largest"),
        (b"/*\xc3\xa9*/", at(2), "in a comment"),
        (b"//\xc3\xa9", at(2), "in a comment"),
        (b"a=\"\xc3\xa9\";", at(3), "in a string"),
        (b"/*#if\x80", at(5), "in an error token"),
        (b"a\x80\x80", at(1), "the first of several"),
    ]);
}

#[test]
fn of_a_byte_and_a_directive_the_first_counts() {
    are_refused(&[
        (b"\x80#if", Refusal::HighByte(0), "the byte is first"),
        (b"\x80;#if", Refusal::HighByte(0), "and the directive starts a token"),
        (b"#if\x80", Refusal::Directive(0), "the # is first"),
        (b"# \x80if", Refusal::HighByte(2), "no word follows the #"),
        (b"a#if\x80\n#if", Refusal::HighByte(4), "the first #if is in a name"),
    ]);
}

#[test]
fn sizes_are_tried_before_and_after() {
    let refusal = |text: &[u8]| Entrypoint::SourceFile.parse_text(text).unwrap_err().refusal().unwrap();
    let long = |last: &[u8]| [b" ".repeat(Input::MAX_BYTES), last.to_vec()].concat();
    assert_eq!(refusal(&long(b" ")), Refusal::TooLong);
    assert_eq!(refusal(&long(b"\x80")), Refusal::TooLong, "2 for bytes comes before 9");
    let many = |last: &[u8]| [b",".repeat(Input::MAX_TOKENS), last.to_vec()].concat();
    assert_eq!(refusal(&many(b",")), Refusal::TooLong);
    assert_eq!(refusal(&many(b"\x80")), Refusal::HighByte(65_536), "9 comes before 2 for tokens");
    assert_eq!(refusal(&many(b"#if")), Refusal::Directive(65_536), "and so does 10");
    let most = Entrypoint::SourceFile.parse_text(&long(b"")[..]).map(|read| read.input.tokens.len());
    assert_eq!(most, Ok(1));
    let comments = b"/**/".repeat(Input::MAX_TOKENS);
    let most = Entrypoint::SourceFile.parse_text(&comments).map(|read| read.input.tokens.len());
    assert_eq!(most, Ok(65_536));
}

#[test]
fn a_name_with_a_sharp_and_a_minus_is_one() {
    let read = Entrypoint::SourceFile.parse_text(b"#address-cells = <1>;").unwrap();
    assert!(read.parse.is_clean());
    let property = read.parse.tree.root().child(NodeKind::DtProperty).unwrap();
    let name = property.child_leaf(TokenKind::Name).unwrap();
    assert_eq!((name.text(), name.tokens()), (b"#address-cells".as_slice(), 0..3));
}

/// Tree, errors and reports are those of the tokens, in both settings.
fn same_as_its_tokens(parser: &mut Parser, entry: Entrypoint, text: &[u8]) -> Result<Vec<Token>, TextError> {
    let read = parser.parse_text(entry, text)?;
    for setting in Setting::ALL {
        let again = parser.parse_text_in(*setting, entry, text)?;
        let parse = parser.parse_in(*setting, entry, &read.input).unwrap();
        assert_eq!(again.input, read.input);
        assert_eq!(again.parse.tree.to_string(), parse.tree.to_string());
        assert_eq!((again.parse.lexical_errors, again.parse.reports), (parse.lexical_errors, parse.reports));
    }
    assert_eq!(joined(&read), text);
    Ok(read.input.tokens)
}

#[test]
fn all_else_is_what_the_tokens_give() {
    let pieces: [&[u8]; 22] = [
        b"a", b"1", b" ", b"\n", b"\r", b"\\", b"\"", b"'", b"/", b"*", b"#", b"if", b"{", b"}", b";", b"<", b"(",
        b"=", b"&", b":", b"[", b"\x80",
    ];
    let mut parser = Parser::new();
    let (mut texts, mut accepted) = (vec![Vec::new()], 0);
    for _ in 0..4 {
        for (i, text) in texts.iter().enumerate() {
            let entry = Entrypoint::ALL[i % Entrypoint::ALL.len()];
            accepted += usize::from(same_as_its_tokens(&mut parser, entry, text).is_ok());
        }
        texts = texts.iter().flat_map(|text| pieces.map(|piece| [text, piece].concat())).collect();
    }
    assert!(accepted > 9_000, "{accepted}");
}

/// The Rust's lexer gave the tokens of these cases (tests/oracle/make.sh), except where a case has other rows on purpose.
#[test]
fn the_tokens_of_sources_are_those_of_the_rust() {
    let cases = answers::stored();
    let mut parser = Parser::new();
    let (mut read, mut refused) = (0, 0);
    for folder in ["examples", "tests/oracle/snippets", "tests/fuzz/seeds"] {
        for file in std::fs::read_dir(format!("{}/../../{folder}", env!("CARGO_MANIFEST_DIR"))).unwrap() {
            let path = file.unwrap().path();
            if path.extension().is_none_or(|extension| extension != "dts") {
                continue;
            }
            let text = std::fs::read(&path).unwrap();
            let case = cases.iter().find(|case| case.text == text).unwrap_or_else(|| panic!("{}", path.display()));
            let input = Input::new(&text, case.tokens.clone());
            let is_directive = |token: &Token| token.seen_kind().preprocessor_directive_name().is_some();
            let directive = input.tokens.iter().zip(input.ranges()).find(|(token, _)| is_directive(token));
            match (same_as_its_tokens(&mut parser, Entrypoint::SourceFile, &text), directive) {
                (Ok(tokens), None) => {
                    assert_eq!(tokens, case.tokens, "{}", path.display());
                    read += 1;
                }
                (Err(why), Some((_, range))) => {
                    assert_eq!(why.refusal(), Some(Refusal::Directive(range.start)), "{}", path.display());
                    refused += 1;
                }
                (answer, _) => panic!("{}: {answer:?}", path.display()),
            }
        }
    }
    assert!(read >= 10 && refused >= 5, "{read} read, {refused} refused");
}

#[test]
fn the_tokens_of_a_text_are_its_file_of_rows() {
    for name in ["board", "labels"] {
        let path = format!("{}/../../examples/{name}", env!("CARGO_MANIFEST_DIR"));
        let text = std::fs::read(format!("{path}.dts")).unwrap();
        let input = Entrypoint::SourceFile.parse_text(&text).unwrap().input;
        let name = Some(format!("examples/{name}.dts"));
        let (text, rows) = (input.text, input.rows());
        let file = RowsFile { entry: Entrypoint::SourceFile, name, text, rows, first_row_line: 5 };
        assert_eq!(file.write(), std::fs::read(format!("{path}.rows")).unwrap());
    }
}

#[test]
fn a_parser_is_used_again_after_any_text() {
    let mut parser = Parser::new();
    let (long, semicolons) = (b"\\".repeat(20_000), b";".repeat(5_000));
    for _ in 0..2 {
        // more lexical errors, reports and expectations than there is room for at first
        let errors = parser.parse_text(Entrypoint::Cells, &long).map(|read| read.parse.lexical_errors.len());
        assert_eq!(errors, Ok(20_000));
        assert!(parser.parse_text(Entrypoint::Cells, b"#if").is_err());
        assert_eq!(tokens(b"a;"), "Ident 1, Semicolon 1");
        let one = parser.parse_text(Entrypoint::Cells, b"1").unwrap();
        assert_eq!((one.input.tokens.len(), one.parse.is_clean()), (1, true));
        let many = parser.parse_text(Entrypoint::SourceFile, &semicolons).unwrap();
        assert_eq!((many.input.tokens.len(), many.parse.reports.len()), (5_000, 5_000));
    }
}
