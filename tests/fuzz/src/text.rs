//! Request 2/14 of document 02, the text entry, as a plain reading of its words over the tokens that lexer.rs gives
//! (the oracle's lexer: the rules and callbacks of the Rust). It shares nothing with the definitions.
//!
//! "Add a text entry for plain ASCII sources, by the rules of `lexer.rs`: the longest match wins; a line comment runs
//! up to CR, LF or the end; a byte where no rule matches is a Default error token of length 1. .. Token rows go into a
//! lent buffer, its rest zero, all of it zero at refusals 5 to 8. Joined, the tokens give back the input, and all else
//! is that of the tokens. After 1, refusal 2 for bytes comes first; for token numbers, over the limit or the buffer, it
//! comes after 9 and 10; these leave every buffer unchanged. Errors: 9, byte of 128 or more, place its offset; 10, `#`
//! at a token start, any spaces or tabs, then text that begins with if, elif, else, endif, pragma, define, undef,
//! include or error, place the `#`; the lower offset first."
//!
//! lexer.rs has rules for directives, and so for tokens that no text here has. They change nothing: a rule of these
//! matches at a token's start exactly if 10 holds there (a word more, such as `ifdef`, begins with one of the nine),
//! and it then wins over an Ident. So all tokens before the first of 10 are those of the other rules, and without a 10
//! no token is a directive's.
use dt_parser_layout::{
    ENTRY_CELLS, ENTRY_SOURCE_FILE, MAX_BYTES, MAX_TOKEN_NUMBERS, REFUSAL_DIRECTIVE, REFUSAL_HIGH_BYTE,
    REFUSAL_TOO_LONG, REFUSAL_UNKNOWN_ENTRY, ROW_TOKEN,
};
use oracle::case::Rows;
use oracle::token::{self, TokenKind, code, lexed};

/// Number and place.
pub type Refusal = (u32, usize);

const WORDS: [&str; 9] = ["if", "elif", "else", "endif", "pragma", "define", "undef", "include", "error"];

/// "`#` .., any spaces or tabs, then text that begins with if, .."
pub fn is_directive(text: &[u8]) -> bool {
    let Some(rest) = text.strip_prefix(b"#") else { return false };
    let blanks = rest.iter().take_while(|&&b| b == b' ' || b == b'\t').count();
    WORDS.iter().any(|word| rest[blanks..].starts_with(word.as_bytes()))
}

/// The first token that starts with a directive: its place.
fn directive(text: &[u8], tokens: &Rows) -> Option<usize> {
    let mut start = 0;
    tokens.iter().find_map(|&(_, length)| {
        let here = start;
        start += length;
        is_directive(&text[here..]).then_some(here)
    })
}

fn is_directive_kind(kind: u32) -> bool {
    token::kind(kind).is_ok_and(TokenKind::is_preprocessor_directive)
}

/// Tokens of an ASCII text, directives among them.
fn lex(text: &[u8]) -> Rows {
    let text = std::str::from_utf8(text).expect("ASCII");
    lexed(text).iter().map(|t| (code(&t.kind), t.text.len())).collect()
}

/// The tokens of a text, or why it is refused before they are counted.
///
/// The Rust takes text, which bytes of 128 or more need not be. So only what stands before the first of them is lexed.
/// That suffices: a directive counts only if it is lower, and up to the end of its word it is ASCII, so it stands
/// before that byte whole. And up to the first directive, tokens that start before the byte start at the same places in
/// the whole text:
/// - one that ends before the byte is the longest match there too, and the end that a callback finds is the same;
/// - if a match takes in the byte, it is an Ident's or a line comment's, for no other rule but a directive's has such
///   bytes; what of it stands before the byte is then a match of the same rule, and goes up to the end;
/// - a string, character, bytestring or comment that does not end before the byte is an error token up to the end.
pub fn read(entry: u32, bytes: &[u8]) -> Result<Rows, Refusal> {
    if !(ENTRY_SOURCE_FILE..=ENTRY_CELLS).contains(&entry) {
        return Err((REFUSAL_UNKNOWN_ENTRY, 0));
    }
    if bytes.len() > MAX_BYTES {
        return Err((REFUSAL_TOO_LONG, 0));
    }
    let high = bytes.iter().position(|&b| b >= 128);
    let before = &bytes[..high.unwrap_or(bytes.len())];
    let tokens = lex(before);
    let found = directive(before, &tokens);
    assert!(
        found.is_some() || !tokens.iter().any(|t| is_directive_kind(t.0)),
        "a directive that document 02 does not name"
    );
    match (found, high) {
        (Some(at), _) => Err((REFUSAL_DIRECTIVE, at)),
        (None, Some(at)) => Err((REFUSAL_HIGH_BYTE, at)),
        (None, None) => Ok(tokens),
    }
}

/// 2 "for token numbers, over the limit or the buffer", which has so many.
pub fn no_room(tokens: &Rows, buffer: usize) -> Option<Refusal> {
    let numbers = ROW_TOKEN * tokens.len();
    (numbers > MAX_TOKEN_NUMBERS || numbers > buffer).then_some((REFUSAL_TOO_LONG, 0))
}

#[cfg(test)]
mod tests {
    use super::*;
    use crate::make::texts::TextMaker;
    use crate::rng::Rng;
    use oracle::token::TokenKind::*;

    /// Tokens of a text that is not refused, as kind or lexical error and length.
    fn tokens(text: &str) -> Vec<(u32, usize)> {
        read(1, text.as_bytes()).unwrap_or_else(|why| panic!("{text:?}: {why:?}"))
    }

    fn kinds(text: &str, expected: &[(TokenKind, usize)]) {
        let expected: Vec<_> = expected.iter().map(|&(k, n)| (k as u32, n)).collect();
        assert_eq!(tokens(text), expected, "{text:?}")
    }

    #[test]
    fn longest_match_with_falling_back() {
        kinds("#address-cells", &[(Ident, 8), (Minus, 1), (Ident, 5)]);
        kinds("0x", &[(Number, 1), (Ident, 1)]);
        kinds("0x_", &[(Number, 3)]);
        kinds("0b12", &[(Number, 3), (Number, 1)]);
        kinds("1u1", &[(Number, 2), (Number, 1)]);
        kinds("1ul8", &[(Number, 3), (Number, 1)]);
        kinds("1lul", &[(Number, 3), (Ident, 1)]);
        kinds("/delete-", &[(Slash, 1), (Ident, 6), (Minus, 1)]);
        kinds("//a\rb", &[(LineComment, 3), (Whitespace, 1), (Ident, 1)]);
        kinds("//a\\\nb", &[(LineComment, 4), (Whitespace, 1), (Ident, 1)]);
        kinds("#\\\nif", &[(Ident, 1), (Whitespace, 2), (Ident, 2)]);
    }

    #[test]
    fn errors() {
        assert_eq!(tokens("\\"), [(74, 1)]);
        assert_eq!(tokens("\\\r"), [(74, 1), (Whitespace as u32, 1)]);
        assert_eq!(tokens("\\\\\n"), [(74, 1), (Whitespace as u32, 2)]);
        assert_eq!(tokens("/*/"), [(73, 3)]);
        assert_eq!(tokens("'\\'"), [(72, 3)]);
        assert_eq!(tokens("[0"), [(71, 2)]);
        assert_eq!(tokens("\"\\\""), [(70, 3)]);
    }

    #[test]
    fn a_directive_at_a_token_start() {
        let refused = [
            ("#if", 0),
            ("1#if", 1),
            ("a,#if", 2),
            ("/**/#if", 4),
            ("#iface-cells", 0),
            ("# \t \telse", 0),
            ("\\#error", 1),
            ("//\n#pragma", 3),
            ("\"\"#undef", 2),
            ("a #includes", 2),
        ];
        for (text, place) in refused {
            assert_eq!(read(1, text.as_bytes()), Err((10, place)), "{text:?}")
        }
        for text in
            ["a#if", "##if", "\"#if\"", "/*#if*/", "//#if", "[#if]", "'#if'", "\"#if", "#\nif", "#IF", "#el", "#"]
        {
            assert!(read(1, text.as_bytes()).is_ok(), "{text:?}")
        }
    }

    #[test]
    fn the_lower_offset_first() {
        assert_eq!(read(1, b"a\x80#if"), Err((9, 1)));
        assert_eq!(read(1, b",#if\x80"), Err((10, 1)));
        assert_eq!(read(1, b"a#if\x80"), Err((9, 4)));
        assert_eq!(read(1, b"\"\x80"), Err((9, 1)));
        assert_eq!(read(0, b"\x80"), Err((1, 0)));
        assert_eq!(read(1, &[128; MAX_BYTES]), Err((9, 0)));
        assert_eq!(read(1, &[128; MAX_BYTES + 1]), Err((2, 0)));
    }

    /// The places below `end` where tokens start, up to the first directive.
    fn starts(text: &[u8], end: usize) -> Vec<usize> {
        let tokens = lex(text);
        let last = directive(text, &tokens).unwrap_or(end);
        let all = tokens.iter().scan(0, |at, t| Some(std::mem::replace(at, *at + t.1)));
        all.filter(|&start| start < end && start <= last).collect()
    }

    /// What stands before the first byte of 128 or more has the tokens' starts of the whole text: as the Rust reads it
    /// with a character of two bytes there, and with a byte in place of each that no rule names either.
    #[test]
    fn what_stands_before_a_high_byte_suffices() {
        let (mut maker, mut text, mut tried) = (TextMaker::new(), vec![], 0);
        for case in 0..200_000 {
            let mut r = Rng::of_case(1, case);
            maker.text(&mut r, 1, &mut text);
            text.retain(|b| *b < 128);
            if text.len() > 400 {
                continue;
            }
            let at = r.n(text.len() + 1);
            text.splice(at..at, "é".bytes());
            let whole = std::str::from_utf8(&text).expect("UTF-8").to_string();
            let plain = whole.replace('é', "\u{1}\u{1}");
            let front = starts(&text[..at], at);
            for other in [&whole, &plain] {
                assert_eq!(front, starts(other.as_bytes(), at), "{whole:?}")
            }
            tried += 1
        }
        assert!(tried > 100_000)
    }
}
