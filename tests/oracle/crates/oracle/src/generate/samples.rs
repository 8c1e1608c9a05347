//! Texts that random cases are made of.
use crate::token::{LexError, TokenKind, TokenKind::*, lexical_code};

/// Tokens as the lexer would give them on their own: each kind with one text or several.
#[rustfmt::skip]
const OF_KINDS: [(TokenKind, &str); 65] = [
    (Whitespace, " "), (Whitespace, "\n"), (Whitespace, "\t"), (Whitespace, "\\\n"), (BlockComment, "/* c */"),
    (Comma, ","), (LineComment, "// x"), (IfDirective, "#if A"), (IfdefDirective, "#ifdef A"),
    (IfndefDirective, "#ifndef A"), (ElifDirective, "#elif B"), (ElifdefDirective, "#elifdef B"),
    (ElifndefDirective, "#elifndef B"), (ElseDirective, "#else"), (EndifDirective, "#endif"),
    (PragmaDirective, "#pragma p"), (DefineDirective, "#define X 1"), (UndefDirective, "#undef X"),
    (IncludeDirective, "#include <a.h>"), (ErrorDirective, "#error e"), (BitsDirective, "/bits/"),
    (OmitIfNoRefDirective, "/omit-if-no-ref/"), (DtIncludeDirective, "/include/"),
    (MemreserveDirective, "/memreserve/"), (DeleteNodeDirective, "/delete-node/"),
    (DeletePropertyDirective, "/delete-property/"), (V1Directive, "/dts-v1/"), (PluginDirective, "/plugin/"),
    (Ident, "a"), (Ident, "foo"), (Ident, "#cells"), (Equals, "="), (Semicolon, ";"), (Ampersand, "&"), (Colon, ":"),
    (AtSign, "@"), (String, "\"s\""), (Char, "'c'"), (Number, "1"), (Number, "0x10"), (DtBytestring, "[00 ff]"),
    (LCurly, "{"), (RCurly, "}"), (LAngle, "<"), (RAngle, ">"), (LParen, "("), (RParen, ")"), (Plus, "+"), (Minus, "-"),
    (Asterisk, "*"), (Slash, "/"), (Modulo, "%"), (BitwiseOr, "|"), (BitwiseXor, "^"), (BitwiseNot, "~"),
    (BitwiseShl, "<<"), (BitwiseShr, ">>"), (LogicalAnd, "&&"), (LogicalOr, "||"), (LogicalNot, "!"),
    (RelationalLtEq, "<="), (RelationalGtEq, ">="), (RelationalEq, "=="), (RelationalNeq, "!="), (QuestionMark, "?"),
];

/// A byte that the lexer does not take.
pub const ERROR_SAMPLE: (u32, &str) = (lexical_code(LexError::Default), "\\");

/// All of these by the kinds' numbers, the error last.
pub const SAMPLES: &[(u32, &str)] = &{
    let mut all = [ERROR_SAMPLE; OF_KINDS.len() + 1];
    let mut i = 0;
    while i < OF_KINDS.len() {
        all[i] = (OF_KINDS[i].0 as u32, OF_KINDS[i].1);
        i += 1
    }
    all
};

/// Small realistic files.
pub const SNIPPETS: &[&str] = &[
    include_str!("../../../../snippets/01-board.dts"),
    include_str!("../../../../snippets/02-labels.dts"),
    include_str!("../../../../snippets/03-cond.dts"),
    include_str!("../../../../snippets/04-expr.dts"),
    include_str!("../../../../snippets/05-delete.dts"),
    include_str!("../../../../snippets/06-bytes.dts"),
    include_str!("../../../../snippets/07-macros.dts"),
    include_str!("../../../../snippets/08-regulator.dts"),
    include_str!("../../../../snippets/09-overlay.dts"),
    include_str!("../../../../snippets/10-lex.dts"),
    include_str!("../../../../snippets/11-lex2.dts"),
    include_str!("../../../../snippets/12-flat.dts"),
    include_str!("../../../../snippets/13-gpio.dts"),
    include_str!("../../../../snippets/14-cond2.dts"),
    include_str!("../../../../snippets/15-broken.dts"),
];
