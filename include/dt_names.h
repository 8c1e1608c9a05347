/*
 * The numbers of dt_parser.h as text: their names, and the texts that dt-tools has for them. The one message that
 * dt-tools lacks, DT_MESSAGE_NOT_A_LABEL, has a text of the same style.
 *
 * Written by tools/numbers from docs/src, docs/01-scope.md and crates/definitions: change those, not this file.
 *
 * Names are those of docs/src where it has one (`Semicolon`), else those of the definitions with hyphens
 * (`unclosed-node`). Texts are UTF-8. No function returns NULL: for a number that has no name or text it is "?".
 */
#ifndef DT_NAMES_H
#define DT_NAMES_H

#include "dt_parser.h"

#ifdef __cplusplus
extern "C" {
#endif

/* What is parsed, of enum dt_entry. */
static inline const char *dt_entry_name(uint32_t entry)
{
    switch (entry) {
    case DT_ENTRY_SOURCE_FILE: return "SourceFile";
    case DT_ENTRY_REFERENCE_NOAMP: return "ReferenceNoamp";
    case DT_ENTRY_PROP_VALUES: return "PropValues";
    case DT_ENTRY_CELLS: return "Cells";
    default: return "?";
    }
}

/* Why a call was refused, of enum dt_refusal. */
static inline const char *dt_refusal_name(uint32_t number)
{
    switch (number) {
    case DT_ACCEPTED: return "accepted";
    case DT_REFUSAL_UNKNOWN_ENTRY: return "unknown-entry";
    case DT_REFUSAL_TOO_LONG: return "too-long";
    case DT_REFUSAL_ODD_COUNT: return "odd-count";
    case DT_REFUSAL_BAD_TEXT: return "bad-text";
    case DT_REFUSAL_TOO_DEEP: return "too-deep";
    case DT_REFUSAL_NO_EVENT_ROOM: return "no-event-room";
    case DT_REFUSAL_NO_REPORT_ROOM: return "no-report-room";
    case DT_REFUSAL_NO_TREE_ROOM: return "no-tree-room";
    case DT_REFUSAL_HIGH_BYTE: return "high-byte";
    case DT_REFUSAL_DIRECTIVE: return "directive";
    case DT_REFUSAL_BAD_KIND: return "bad-kind";
    case DT_REFUSAL_ZERO_LENGTH: return "zero-length";
    case DT_REFUSAL_BAD_END: return "bad-end";
    default: return "?";
    }
}

/* The cause as documents 01 and 02 have it. */
static inline const char *dt_refusal_text(uint32_t number)
{
    switch (number) {
    case DT_ACCEPTED: return "accepted";
    case DT_REFUSAL_UNKNOWN_ENTRY: return "entry not 1 to 4";
    case DT_REFUSAL_TOO_LONG: return "over 1,048,576 bytes or 131,072 token numbers";
    case DT_REFUSAL_ODD_COUNT: return "odd count of token numbers";
    case DT_REFUSAL_BAD_TEXT: return "bytes of a kind with a `static_text` differ from it";
    case DT_REFUSAL_TOO_DEEP: return "a 65th open call";
    case DT_REFUSAL_NO_EVENT_ROOM: return "next event doesn't fit";
    case DT_REFUSAL_NO_REPORT_ROOM: return "report row or its expectations don't fit";
    case DT_REFUSAL_NO_TREE_ROOM: return "tree, lexical errors or the list of a query don't fit";
    case DT_REFUSAL_HIGH_BYTE: return "byte of 128 or more";
    case DT_REFUSAL_DIRECTIVE: return "preprocessor directive at a token start";
    case DT_REFUSAL_BAD_KIND: return "bad kind of a token row";
    case DT_REFUSAL_ZERO_LENGTH: return "token row of length 0";
    case DT_REFUSAL_BAD_END: return "a token ends past the input, or the total is short";
    default: return "?";
    }
}

/* A token's kind, of enum dt_token. */
static inline const char *dt_token_name(uint32_t kind)
{
    switch (kind) {
    case DT_TOKEN_WHITESPACE: return "Whitespace";
    case DT_TOKEN_BLOCK_COMMENT: return "BlockComment";
    case DT_TOKEN_COMMA: return "Comma";
    case DT_TOKEN_LINE_COMMENT: return "LineComment";
    case DT_TOKEN_IF_DIRECTIVE: return "IfDirective";
    case DT_TOKEN_IFDEF_DIRECTIVE: return "IfdefDirective";
    case DT_TOKEN_IFNDEF_DIRECTIVE: return "IfndefDirective";
    case DT_TOKEN_ELIF_DIRECTIVE: return "ElifDirective";
    case DT_TOKEN_ELIFDEF_DIRECTIVE: return "ElifdefDirective";
    case DT_TOKEN_ELIFNDEF_DIRECTIVE: return "ElifndefDirective";
    case DT_TOKEN_ELSE_DIRECTIVE: return "ElseDirective";
    case DT_TOKEN_ENDIF_DIRECTIVE: return "EndifDirective";
    case DT_TOKEN_PRAGMA_DIRECTIVE: return "PragmaDirective";
    case DT_TOKEN_DEFINE_DIRECTIVE: return "DefineDirective";
    case DT_TOKEN_UNDEF_DIRECTIVE: return "UndefDirective";
    case DT_TOKEN_INCLUDE_DIRECTIVE: return "IncludeDirective";
    case DT_TOKEN_ERROR_DIRECTIVE: return "ErrorDirective";
    case DT_TOKEN_BITS_DIRECTIVE: return "BitsDirective";
    case DT_TOKEN_OMIT_IF_NO_REF_DIRECTIVE: return "OmitIfNoRefDirective";
    case DT_TOKEN_DT_INCLUDE_DIRECTIVE: return "DtIncludeDirective";
    case DT_TOKEN_MEMRESERVE_DIRECTIVE: return "MemreserveDirective";
    case DT_TOKEN_DELETE_NODE_DIRECTIVE: return "DeleteNodeDirective";
    case DT_TOKEN_DELETE_PROPERTY_DIRECTIVE: return "DeletePropertyDirective";
    case DT_TOKEN_V1_DIRECTIVE: return "V1Directive";
    case DT_TOKEN_PLUGIN_DIRECTIVE: return "PluginDirective";
    case DT_TOKEN_UNRECOGNIZED: return "Unrecognized";
    case DT_TOKEN_NAME: return "Name";
    case DT_TOKEN_IDENT: return "Ident";
    case DT_TOKEN_EQUALS: return "Equals";
    case DT_TOKEN_SEMICOLON: return "Semicolon";
    case DT_TOKEN_AMPERSAND: return "Ampersand";
    case DT_TOKEN_COLON: return "Colon";
    case DT_TOKEN_AT_SIGN: return "AtSign";
    case DT_TOKEN_STRING: return "String";
    case DT_TOKEN_CHAR: return "Char";
    case DT_TOKEN_NUMBER: return "Number";
    case DT_TOKEN_DT_BYTESTRING: return "DtBytestring";
    case DT_TOKEN_LCURLY: return "LCurly";
    case DT_TOKEN_RCURLY: return "RCurly";
    case DT_TOKEN_LANGLE: return "LAngle";
    case DT_TOKEN_RANGLE: return "RAngle";
    case DT_TOKEN_LPAREN: return "LParen";
    case DT_TOKEN_RPAREN: return "RParen";
    case DT_TOKEN_PLUS: return "Plus";
    case DT_TOKEN_MINUS: return "Minus";
    case DT_TOKEN_ASTERISK: return "Asterisk";
    case DT_TOKEN_SLASH: return "Slash";
    case DT_TOKEN_MODULO: return "Modulo";
    case DT_TOKEN_BITWISE_OR: return "BitwiseOr";
    case DT_TOKEN_BITWISE_XOR: return "BitwiseXor";
    case DT_TOKEN_BITWISE_NOT: return "BitwiseNot";
    case DT_TOKEN_BITWISE_SHL: return "BitwiseShl";
    case DT_TOKEN_BITWISE_SHR: return "BitwiseShr";
    case DT_TOKEN_LOGICAL_AND: return "LogicalAnd";
    case DT_TOKEN_LOGICAL_OR: return "LogicalOr";
    case DT_TOKEN_LOGICAL_NOT: return "LogicalNot";
    case DT_TOKEN_RELATIONAL_LT_EQ: return "RelationalLtEq";
    case DT_TOKEN_RELATIONAL_GT_EQ: return "RelationalGtEq";
    case DT_TOKEN_RELATIONAL_EQ: return "RelationalEq";
    case DT_TOKEN_RELATIONAL_NEQ: return "RelationalNeq";
    case DT_TOKEN_QUESTION_MARK: return "QuestionMark";
    default: return "?";
    }
}

/* The words for it in a message, with quotes where dt-tools has them. */
static inline const char *dt_token_text(uint32_t kind)
{
    switch (kind) {
    case DT_TOKEN_WHITESPACE: return "whitespace";
    case DT_TOKEN_BLOCK_COMMENT: return "block comment";
    case DT_TOKEN_COMMA: return "‘,’";
    case DT_TOKEN_LINE_COMMENT: return "line comment";
    case DT_TOKEN_IF_DIRECTIVE: return "‘#if‘ preprocessor directive";
    case DT_TOKEN_IFDEF_DIRECTIVE: return "‘#ifdef‘ preprocessor directive";
    case DT_TOKEN_IFNDEF_DIRECTIVE: return "‘#ifndef‘ preprocessor directive";
    case DT_TOKEN_ELIF_DIRECTIVE: return "‘#elif‘ preprocessor directive";
    case DT_TOKEN_ELIFDEF_DIRECTIVE: return "‘#elifdef‘ preprocessor directive";
    case DT_TOKEN_ELIFNDEF_DIRECTIVE: return "‘#elifndef‘ preprocessor directive";
    case DT_TOKEN_ELSE_DIRECTIVE: return "‘#else‘ preprocessor directive";
    case DT_TOKEN_ENDIF_DIRECTIVE: return "‘#endif‘ preprocessor directive";
    case DT_TOKEN_PRAGMA_DIRECTIVE: return "‘#pragma‘ preprocessor directive";
    case DT_TOKEN_DEFINE_DIRECTIVE: return "‘#define‘ preprocessor directive";
    case DT_TOKEN_UNDEF_DIRECTIVE: return "‘#undef‘ preprocessor directive";
    case DT_TOKEN_INCLUDE_DIRECTIVE: return "‘#include‘ preprocessor directive";
    case DT_TOKEN_ERROR_DIRECTIVE: return "‘#error‘ preprocessor directive";
    case DT_TOKEN_BITS_DIRECTIVE: return "‘/bits/‘";
    case DT_TOKEN_OMIT_IF_NO_REF_DIRECTIVE: return "‘/omit-if-no-ref/‘";
    case DT_TOKEN_DT_INCLUDE_DIRECTIVE: return "‘/include/‘";
    case DT_TOKEN_MEMRESERVE_DIRECTIVE: return "‘/memreserve/‘";
    case DT_TOKEN_DELETE_NODE_DIRECTIVE: return "‘/delete-node/‘";
    case DT_TOKEN_DELETE_PROPERTY_DIRECTIVE: return "‘/delete-property/‘";
    case DT_TOKEN_V1_DIRECTIVE: return "‘/dts-v1/‘";
    case DT_TOKEN_PLUGIN_DIRECTIVE: return "‘/plugin/‘";
    case DT_TOKEN_UNRECOGNIZED: return "unrecognized token";
    case DT_TOKEN_NAME: return "name";
    case DT_TOKEN_IDENT: return "identifier";
    case DT_TOKEN_EQUALS: return "‘=’";
    case DT_TOKEN_SEMICOLON: return "‘;’";
    case DT_TOKEN_AMPERSAND: return "‘&’";
    case DT_TOKEN_COLON: return "‘:’";
    case DT_TOKEN_AT_SIGN: return "‘@’";
    case DT_TOKEN_STRING: return "string literal";
    case DT_TOKEN_CHAR: return "character literal";
    case DT_TOKEN_NUMBER: return "number literal";
    case DT_TOKEN_DT_BYTESTRING: return "bytestring literal";
    case DT_TOKEN_LCURLY: return "‘{’";
    case DT_TOKEN_RCURLY: return "‘}’";
    case DT_TOKEN_LANGLE: return "‘<’";
    case DT_TOKEN_RANGLE: return "‘>’";
    case DT_TOKEN_LPAREN: return "‘(’";
    case DT_TOKEN_RPAREN: return "‘)’";
    case DT_TOKEN_PLUS: return "‘+’";
    case DT_TOKEN_MINUS: return "‘-’";
    case DT_TOKEN_ASTERISK: return "‘*’";
    case DT_TOKEN_SLASH: return "‘/’";
    case DT_TOKEN_MODULO: return "‘%’";
    case DT_TOKEN_BITWISE_OR: return "‘|’";
    case DT_TOKEN_BITWISE_XOR: return "‘^‘";
    case DT_TOKEN_BITWISE_NOT: return "‘~’";
    case DT_TOKEN_BITWISE_SHL: return "‘<<’";
    case DT_TOKEN_BITWISE_SHR: return "‘>>’";
    case DT_TOKEN_LOGICAL_AND: return "‘&&‘";
    case DT_TOKEN_LOGICAL_OR: return "‘||‘";
    case DT_TOKEN_LOGICAL_NOT: return "‘!‘";
    case DT_TOKEN_RELATIONAL_LT_EQ: return "‘<=‘";
    case DT_TOKEN_RELATIONAL_GT_EQ: return "‘>=‘";
    case DT_TOKEN_RELATIONAL_EQ: return "‘==‘";
    case DT_TOKEN_RELATIONAL_NEQ: return "‘!=‘";
    case DT_TOKEN_QUESTION_MARK: return "‘?‘";
    default: return "?";
    }
}

/* A lexical error, of enum dt_lex_error. */
static inline const char *dt_lex_error_name(uint32_t number)
{
    switch (number) {
    case DT_LEX_ERROR_UNEXPECTED_END_INCBIN: return "UnexpectedEndIncbin";
    case DT_LEX_ERROR_INCBIN_MISSING_LPAREN: return "IncbinMissingLParen";
    case DT_LEX_ERROR_INCBIN_MISSING_RPAREN: return "IncbinMissingRParen";
    case DT_LEX_ERROR_INCBIN_MISSING_NUMBER: return "IncbinMissingNumber";
    case DT_LEX_ERROR_INCBIN_MISSING_COMMA: return "IncbinMissingComma";
    case DT_LEX_ERROR_INCBIN_MISSING_STRING: return "IncbinMissingString";
    case DT_LEX_ERROR_UNEXPECTED_END_STRING: return "UnexpectedEndString";
    case DT_LEX_ERROR_UNEXPECTED_END_BYTESTRING: return "UnexpectedEndBytestring";
    case DT_LEX_ERROR_UNEXPECTED_END_CHAR: return "UnexpectedEndChar";
    case DT_LEX_ERROR_UNEXPECTED_END_BLOCK_COMMENT: return "UnexpectedEndBlockComment";
    case DT_LEX_ERROR_DEFAULT: return "Default";
    default: return "?";
    }
}

/* The message for it. */
static inline const char *dt_lex_error_text(uint32_t number)
{
    switch (number) {
    case DT_LEX_ERROR_UNEXPECTED_END_INCBIN: return "Unexpected end of input (hint: unterminated incbin directive)";
    case DT_LEX_ERROR_INCBIN_MISSING_LPAREN: return "Missing ( in incbin directive";
    case DT_LEX_ERROR_INCBIN_MISSING_RPAREN: return "Missing ) in incbin directive";
    case DT_LEX_ERROR_INCBIN_MISSING_NUMBER: return "Missing number in incbin directive";
    case DT_LEX_ERROR_INCBIN_MISSING_COMMA: return "Missing comma in incbin directive";
    case DT_LEX_ERROR_INCBIN_MISSING_STRING: return "Missing string in incbin directive";
    case DT_LEX_ERROR_UNEXPECTED_END_STRING: return "Unexpected end of input (hint: unterminated string literal)";
    case DT_LEX_ERROR_UNEXPECTED_END_BYTESTRING: return "Unexpected end of input (hint: unterminated bytestring literal)";
    case DT_LEX_ERROR_UNEXPECTED_END_CHAR: return "Unexpected end of input (hint: unterminated char literal)";
    case DT_LEX_ERROR_UNEXPECTED_END_BLOCK_COMMENT: return "Unexpected end of input (hint: unterminated block comment)";
    case DT_LEX_ERROR_DEFAULT: return "Unexpected input, or end of input";
    default: return "?";
    }
}

/* A node's kind, of enum dt_node. */
static inline const char *dt_node_name(uint32_t kind)
{
    switch (kind) {
    case DT_NODE_SOURCE_FILE: return "SourceFile";
    case DT_NODE_ENTRY_NAME: return "EntryName";
    case DT_NODE_ENTRY_PROP_VALUES: return "EntryPropValues";
    case DT_NODE_ENTRY_CELLS: return "EntryCells";
    case DT_NODE_ENTRY_PREPROCESSOR_CONDITIONAL: return "EntryPreprocessorConditional";
    case DT_NODE_PREPROCESSOR_DEFINED_OPERATION: return "PreprocessorDefinedOperation";
    case DT_NODE_INFIX_EXPR: return "InfixExpr";
    case DT_NODE_PREFIX_EXPR: return "PrefixExpr";
    case DT_NODE_PAREN_EXPR: return "ParenExpr";
    case DT_NODE_LITERAL_EXPR: return "LiteralExpr";
    case DT_NODE_PARSE_ERROR: return "ParseError";
    case DT_NODE_DTS_DIRECTIVE: return "DtsDirective";
    case DT_NODE_DTS_DIRECTIVE_ARGUMENTS: return "DtsDirectiveArguments";
    case DT_NODE_PREPROCESSOR_CONDITIONAL: return "PreprocessorConditional";
    case DT_NODE_PREPROCESSOR_BRANCH: return "PreprocessorBranch";
    case DT_NODE_DT_NODE: return "DtNode";
    case DT_NODE_DT_PROPERTY: return "DtProperty";
    case DT_NODE_DT_CELL_LIST: return "DtCellList";
    case DT_NODE_DT_EXPR: return "DtExpr";
    case DT_NODE_DT_LABEL: return "DtLabel";
    case DT_NODE_PROP_VALUE_LIST: return "PropValueList";
    case DT_NODE_DT_PHANDLE: return "DtPhandle";
    case DT_NODE_UNIT_ADDRESS: return "UnitAddress";
    case DT_NODE_MACRO_INVOCATION: return "MacroInvocation";
    case DT_NODE_MACRO_ARGUMENT: return "MacroArgument";
    default: return "?";
    }
}

/* A report's message, of enum dt_message. */
static inline const char *dt_message_name(uint32_t message)
{
    switch (message) {
    case DT_MESSAGE_EXPECTED: return "expected";
    case DT_MESSAGE_UNMATCHED_RCURLY: return "unmatched-rcurly";
    case DT_MESSAGE_UNMATCHED_SEMICOLON: return "unmatched-semicolon";
    case DT_MESSAGE_UNMATCHED_ENDIF: return "unmatched-endif";
    case DT_MESSAGE_STRAY_CONTINUATION: return "stray-continuation";
    case DT_MESSAGE_AT_SIGN_IN_LABEL: return "at-sign-in-label";
    case DT_MESSAGE_UNCLOSED_NODE: return "unclosed-node";
    case DT_MESSAGE_NOT_A_LABEL: return "not-a-label";
    default: return "?";
    }
}

/* The message; of DT_MESSAGE_EXPECTED its first word. The report's part of the pool follows it:
 * `Expected A, B or C, but found D`, or `.., but reached end of input` (examples/c/print.c). */
static inline const char *dt_message_text(uint32_t message)
{
    switch (message) {
    case DT_MESSAGE_EXPECTED: return "Expected";
    case DT_MESSAGE_UNMATCHED_RCURLY: return "Unmatched `}`";
    case DT_MESSAGE_UNMATCHED_SEMICOLON: return "Unmatched `;`";
    case DT_MESSAGE_UNMATCHED_ENDIF: return "Unmatched `#endif`";
    case DT_MESSAGE_STRAY_CONTINUATION: return "Preprocessor conditional continuation without preceding `#if` or equivalent.";
    case DT_MESSAGE_AT_SIGN_IN_LABEL: return "Label names can't contain an `@`";
    case DT_MESSAGE_UNCLOSED_NODE: return "Expected `}`, but reached end of input";
    case DT_MESSAGE_NOT_A_LABEL: return "Label names can only hold letters, digits and underscores, and can't start with a digit";
    default: return "?";
    }
}

/* What a message says at its label; empty for one that has no label. */
static inline const char *dt_label_text(uint32_t message)
{
    switch (message) {
    case DT_MESSAGE_UNCLOSED_NODE: return "Unclosed delimiter";
    default: return "";
    }
}

/* A report's hint, of enum dt_hint. */
static inline const char *dt_hint_name(uint32_t hint)
{
    switch (hint) {
    case DT_HINT_NONE: return "none";
    case DT_HINT_UNNAMED_PROPERTY: return "unnamed-property";
    case DT_HINT_UNNAMED_NODE: return "unnamed-node";
    case DT_HINT_MISSING_PARENTHESES: return "missing-parentheses";
    case DT_HINT_IN_CELLS: return "in-cells";
    case DT_HINT_PROPERTY_NOT_ALLOWED: return "property-not-allowed";
    case DT_HINT_MISSING_LEFT_SIDE: return "missing-left-side";
    default: return "?";
    }
}

/* What it adds to the message; empty for DT_HINT_NONE. */
static inline const char *dt_hint_text(uint32_t hint)
{
    switch (hint) {
    case DT_HINT_NONE: return "";
    case DT_HINT_UNNAMED_PROPERTY: return "Recovered as unnamed property";
    case DT_HINT_UNNAMED_NODE: return "Recovered as unnamed node";
    case DT_HINT_MISSING_PARENTHESES: return "Wrap expressions in parenthesis";
    case DT_HINT_IN_CELLS: return "in cells()";
    case DT_HINT_PROPERTY_NOT_ALLOWED: return "Property not allowed";
    case DT_HINT_MISSING_LEFT_SIDE: return "Recovered as expression with missing left-hand-side expression";
    default: return "?";
    }
}

/* An expectation: of enum dt_expected, or a token's kind. */
static inline const char *dt_expected_name(uint32_t code)
{
    switch (code) {
    case DT_EXPECTED_PREPROCESSOR_DIRECTIVE: return "PreprocessorDirective";
    case DT_EXPECTED_PREPROCESSOR_DEFINED_OPERATOR: return "PreprocessorDefinedOperator";
    case DT_EXPECTED_VALUE: return "Value";
    case DT_EXPECTED_CELL: return "Cell";
    case DT_EXPECTED_LABEL_NAME: return "LabelName";
    case DT_EXPECTED_INFIX_OPERATOR: return "InfixOperator";
    case DT_EXPECTED_PREFIX_OPERATOR: return "PrefixOperator";
    case DT_EXPECTED_END: return "End";
    default: return dt_token_name(code);
    }
}

/* The words for it in a message. */
static inline const char *dt_expected_text(uint32_t code)
{
    switch (code) {
    case DT_EXPECTED_PREPROCESSOR_DIRECTIVE: return "preprocessor directive";
    case DT_EXPECTED_PREPROCESSOR_DEFINED_OPERATOR: return "preprocessor `defined` operator";
    case DT_EXPECTED_VALUE: return "value";
    case DT_EXPECTED_CELL: return "cell";
    case DT_EXPECTED_LABEL_NAME: return "label name";
    case DT_EXPECTED_INFIX_OPERATOR: return "infix operator";
    case DT_EXPECTED_PREFIX_OPERATOR: return "prefix operator";
    case DT_EXPECTED_END: return "end of input";
    default: return dt_token_text(code);
    }
}

#ifdef __cplusplus
}
#endif

#endif
