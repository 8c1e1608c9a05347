//! What a text is read as.

use crate::numbered::numbered;
use crate::{Error, Input, Parse, Parser, Setting, TextError, TextParse};

numbered! {
    /// What a text is read as, 1 to 4 in a call. dt-tools' entries `Name` and `PreprocessorConditional` are left out.
    Entrypoint {
        /// A whole devicetree source.
        SourceFile = 1,
        /// A reference without its `&`.
        ReferenceNoamp = 2,
        /// A property's values.
        PropValues = 3,
        /// Cells, as between `<` and `>`.
        Cells = 4,
    }
}

impl Entrypoint {
    /// Parses the input in the [old setting](Setting::Old). To parse often, keep a [`Parser`], whose buffers are used
    /// again.
    ///
    /// ```
    /// use dt_parser::{Entrypoint, Input, Token, TokenKind};
    /// let tokens = vec![Token::new(TokenKind::Ident, 1), Token::new(TokenKind::Semicolon, 1)];
    /// let input = Input { text: b"a;", tokens };
    /// let parse = Entrypoint::SourceFile.parse(&input)?;
    /// assert!(parse.is_clean());
    /// # Ok::<(), dt_parser::Error>(())
    /// ```
    ///
    /// # Errors
    ///
    /// If the call is refused: see [`Error`].
    pub fn parse<'i>(self, input: &Input<'i>) -> Result<Parse<'i>, Error> {
        Parser::new().parse(self, input)
    }

    /// Parses the input in a setting.
    ///
    /// ```
    /// use dt_parser::{Entrypoint, Input, Message, Setting, Token, TokenKind};
    /// let input = Input::new(b"1a", vec![Token::new(TokenKind::Number, 1), Token::new(TokenKind::Ident, 1)]);
    /// assert!(Entrypoint::ReferenceNoamp.parse(&input)?.is_clean());
    /// let parse = Entrypoint::ReferenceNoamp.parse_in(Setting::Strict, &input)?;
    /// assert_eq!(parse.reports[0].message, Message::NotALabel);
    /// assert_eq!(parse.reports[0].range.byte_range(), 0..2);
    /// # Ok::<(), dt_parser::Error>(())
    /// ```
    ///
    /// # Errors
    ///
    /// If the call is refused: see [`Error`].
    pub fn parse_in<'i>(self, setting: Setting, input: &Input<'i>) -> Result<Parse<'i>, Error> {
        Parser::new().parse_in(setting, self, input)
    }

    /// Parses a text with its tokens as plain numbers, in the [old setting](Setting::Old): a kind and a length for each
    /// token, one after the other, as a lexer outside of Rust writes them. Any numbers may be passed. What is wrong with
    /// rows is said by [`RowError`](crate::RowError), and by the call itself: nothing is looked at before it.
    ///
    /// ```
    /// use dt_parser::{Entrypoint, Error, RowErrorKind, Token, TokenKind};
    /// let read = Entrypoint::SourceFile.parse_rows(b"a;", &[27, 1, 29, 1])?;
    /// assert!(read.parse.is_clean());
    /// assert_eq!(read.input.tokens[1], Token::new(TokenKind::Semicolon, 1));
    ///
    /// match Entrypoint::SourceFile.parse_rows(b"a;", &[27, 1, 26, 1]) {
    ///     Err(Error::BadRows(why)) => {
    ///         assert_eq!((why.row(), why.kind()), (1, RowErrorKind::BadKind { kind: 26 }));
    ///         assert_eq!(why.message(), "row 1, counted from 0, has kind 26 (Name), which only the parser makes");
    ///         assert_eq!(why.allowed(), "a row's kind is 0 to 24, 27 to 60 or 64 to 74");
    ///     }
    ///     other => panic!("{other:?}"),
    /// }
    /// # Ok::<(), Error>(())
    /// ```
    ///
    /// # Errors
    ///
    /// If the call is refused: see [`Error`].
    pub fn parse_rows<'i>(self, text: &'i [u8], rows: &[u32]) -> Result<TextParse<'i>, Error> {
        Parser::new().parse_rows(self, text, rows)
    }

    /// The same in a setting.
    ///
    /// ```
    /// use dt_parser::{Entrypoint, Message, Setting};
    /// let read = Entrypoint::ReferenceNoamp.parse_rows_in(Setting::Strict, b"1a", &[35, 1, 27, 1])?;
    /// assert_eq!(read.parse.reports[0].message, Message::NotALabel);
    /// # Ok::<(), dt_parser::Error>(())
    /// ```
    ///
    /// # Errors
    ///
    /// If the call is refused: see [`Error`].
    pub fn parse_rows_in<'i>(self, setting: Setting, text: &'i [u8], rows: &[u32]) -> Result<TextParse<'i>, Error> {
        Parser::new().parse_rows_in(setting, self, text, rows)
    }

    /// Parses a text in the [old setting](Setting::Old). Its tokens are read by the rules of dt-tools' lexer. It must be
    /// plain ASCII, without directives of the preprocessor.
    ///
    /// ```
    /// use dt_parser::{Entrypoint, TextError};
    /// let read = Entrypoint::SourceFile.parse_text(b"/dts-v1/;\n/ { };\n")?;
    /// assert!(read.parse.is_clean());
    /// assert_eq!(read.input.tokens.len(), 10);
    ///
    /// let refused = Entrypoint::SourceFile.parse_text(b"/dts-v1/;\n#include \"soc.dtsi\"\n").unwrap_err();
    /// assert_eq!(refused.to_string(), "refusal 10 at 2:1: `#include` is a preprocessor directive");
    /// let help = refused.help().expect("there is something to do");
    /// assert!(help.contains("cpp -P -nostdinc -undef -x assembler-with-cpp"));
    /// # Ok::<(), TextError>(())
    /// ```
    ///
    /// # Errors
    ///
    /// If the text is refused: see [`TextError`].
    pub fn parse_text(self, text: &[u8]) -> Result<TextParse<'_>, TextError> {
        Parser::new().parse_text(self, text)
    }

    /// Parses a text in a setting.
    ///
    /// ```
    /// use dt_parser::{Entrypoint, Setting, TextError};
    /// let read = Entrypoint::SourceFile.parse_text_in(Setting::Strict, b"1wire: bus { };")?;
    /// assert_eq!(read.parse.reports[0].range.byte_range(), 0..5);
    /// # Ok::<(), TextError>(())
    /// ```
    ///
    /// # Errors
    ///
    /// If the text is refused: see [`TextError`].
    pub fn parse_text_in(self, setting: Setting, text: &[u8]) -> Result<TextParse<'_>, TextError> {
        Parser::new().parse_text_in(setting, self, text)
    }
}
