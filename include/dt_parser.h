/*
 * The devicetree parser: a call that turns token rows into tree rows, lexical errors and reports (dt_parse), one that
 * does so with a text (dt_parse_text), and two queries of a source file, which also list rows of its tree: those under
 * a caret (dt_caret), and the top-level parts that share a byte with a range (dt_parts_in_range).
 *
 * "Document 01" is docs/01-scope.md; the strict setting, the text call, the causes of bad token rows, the queries, that
 * a report lists each expectation once and that a tree row names its parent are document 02's requests 1/14, 2/14 and
 * 4/14 to 7/14. What a call answers and what each buffer holds afterwards is in crates/definitions/specs, Call.antt,
 * Text.antt and Caret.antt. tools/numbers prints every number below from the definitions, and the calls from the code.
 * The names and message texts of the numbers are in dt_names.h.
 *
 * Link: libdt_parser.a, x86-64 Linux; lib/ has it, and `./x prove` proves it from the sources. It needs the C library
 * (memcpy, memmove, memset) and nothing else. `tools/install-library PREFIX` puts library, headers and a file for
 * pkg-config in their places. A call allocates nothing, keeps nothing and has no state: calls in several threads at
 * once are safe if each has its own lent buffers. The deepest inputs take 21 KiB of stack (tests/bench/stack.c): a
 * thread that calls should have 128 KiB.
 *
 * All rows are of uint32_t numbers. A length is a count of elements (bytes or numbers), never of rows.
 *
 * C99 or newer, C++11 or newer.
 */
#ifndef DT_PARSER_H
#define DT_PARSER_H

#include <stddef.h>
#include <stdint.h>

/*
 * The version of this interface. The library is made from the same sources and has no number of its own. Up to 1.0.0 a
 * new minor number says that something a caller relies on has changed, for instance how many numbers a row has.
 */
#define DT_PARSER_VERSION_MAJOR 0
#define DT_PARSER_VERSION_MINOR 9
#define DT_PARSER_VERSION_PATCH 0
/* As one number, to compare in an #if: 1.2.3 is 10203. */
#define DT_PARSER_VERSION (10000 * DT_PARSER_VERSION_MAJOR + 100 * DT_PARSER_VERSION_MINOR + DT_PARSER_VERSION_PATCH)

#ifdef __cplusplus
extern "C" {
#endif

/* What is parsed: the first argument of dt_parse and dt_parse_text. A query is of a source file. */
enum dt_entry {
    DT_ENTRY_SOURCE_FILE = 1,     /* a whole file */
    DT_ENTRY_REFERENCE_NOAMP = 2, /* a reference after its & */
    DT_ENTRY_PROP_VALUES = 3,     /* the values of a property */
    DT_ENTRY_CELLS = 4            /* the cells between < and > */
};

/*
 * What is reported: an argument of each call. 0 is the old setting, and any other number the strict one, which adds the
 * reports of DT_MESSAGE_NOT_A_LABEL and changes nothing else of an accepted call.
 */
enum dt_setting { DT_SETTING_OLD = 0, DT_SETTING_STRICT = 1 };

/*
 * The answer's number: 0, or why the call was refused. dt_parse tries, in this order:
 *   1, 2, 3
 *   11, 12, 13   row by row, and in a row in this order: the first bad row is given. 13 for a short total comes last,
 *                after all rows
 *   4            row by row
 *   5 to 8       of 5 to 7 the first that a run meets is given
 * dt_parse_text tries 1; 2 for bytes; 9 and 10, of which the one at the lower offset is given; 2 for token numbers;
 * then 5 to 8. It never gives 3, 4 or 11 to 13.
 * dt_caret and dt_parts_in_range try what dt_parse tries for a source file, and then 8 for the list. They never give 1,
 * 9 or 10.
 * Rows are counted from 0.
 */
enum dt_refusal {
    DT_ACCEPTED = 0,
    DT_REFUSAL_UNKNOWN_ENTRY = 1,  /* entry not 1 to 4; place 0 */
    DT_REFUSAL_TOO_LONG = 2,       /* over DT_MAX_BYTES or DT_MAX_TOKEN_NUMBERS, or a text has more token rows than fit
                                      the buffer lent for them; place 0 */
    DT_REFUSAL_ODD_COUNT = 3,      /* an odd count of token numbers, so that one is left over; place: the count of whole
                                      rows. Nothing else is said of the rows */
    DT_REFUSAL_BAD_TEXT = 4,       /* a fixed text is not there; place: that row */
    DT_REFUSAL_TOO_DEEP = 5,       /* a 65th open call; place: the mark */
    DT_REFUSAL_NO_EVENT_ROOM = 6,  /* the next event does not fit; place: the mark */
    DT_REFUSAL_NO_REPORT_ROOM = 7, /* a report or its expectations do not fit; place: the mark. A report of the strict
                                      setting is tried after the run, whether the tree fits or not: so before 8 */
    DT_REFUSAL_NO_TREE_ROOM = 8,   /* the tree or the lexical errors do not fit, or the list of a query; place 0 */
    DT_REFUSAL_HIGH_BYTE = 9,      /* of a text: a byte of 128 or more, wherever it stands; place: its offset */
    DT_REFUSAL_DIRECTIVE = 10,     /* of a text: # where a token starts, any spaces or tabs, then what begins with if,
                                      elif, else, endif, pragma, define, undef, include or error, as #ifdef and the name
                                      #iface-cells do; place: the offset of the # */
    DT_REFUSAL_BAD_KIND = 11,      /* a token row whose kind is none of 0 to 24, 27 to 60 and 64 to 74; place: that
                                      row */
    DT_REFUSAL_ZERO_LENGTH = 12,   /* a token row of length 0; place: that row */
    DT_REFUSAL_BAD_END = 13        /* a token ends past the input, by the exact sum of the lengths up to it; place: that
                                      row. Or the total is short, all tokens end before the input does; place: the count
                                      of rows */
};

/* Limits. Above the first two a call is refused with 2, above the third with 5. The fourth refuses nothing. */
enum dt_limit {
    DT_MAX_BYTES = 1048576,
    DT_MAX_TOKEN_NUMBERS = 131072, /* 65,536 rows */
    DT_MAX_OPEN_CALLS = 64,        /* nested items, values, cells and expressions */
    DT_MAX_EXPECTATIONS = 69       /* so many different ones there are: a report lists no more (crates/laws) */
};

/* How many numbers a row has. An expectation in the pool is one number. */
enum dt_row_size {
    DT_ROW_TOKEN = 2,
    DT_ROW_EVENT = 3,
    DT_ROW_TREE = 5,
    DT_ROW_ERROR = 3,
    DT_ROW_REPORT = 9
};

/* The numbers of a token row. */
enum dt_token_column { DT_COL_TOKEN_KIND = 0, DT_COL_TOKEN_LENGTH = 1 };

/*
 * The numbers of a tree row. Rows are in preorder: a node's children follow it. A row's number is its place among the
 * rows, counted from 0, which is the root's; so row r starts at number DT_ROW_TREE * r of the buffer.
 *
 * The parent is given by its row number. It is a node before the row, of whose children the row is one; the root has
 * none, and names itself with 0. So going from parent to parent ends at row 0, the only row that is its own parent.
 */
enum dt_tree_column {
    DT_COL_TREE_CLASS = 0, /* DT_CLASS_NODE or DT_CLASS_LEAF */
    DT_COL_TREE_KIND = 1,  /* of a node enum dt_node, of a leaf enum dt_token */
    DT_COL_TREE_WIDTH = 2, /* in bytes */
    DT_COL_TREE_COUNT = 3, /* children of a node, raw tokens of a leaf */
    DT_COL_TREE_PARENT = 4 /* the parent's row number; of the root its own, 0 */
};

enum dt_class { DT_CLASS_NODE = 0, DT_CLASS_LEAF = 1 };

/* The numbers of a lexical error. */
enum dt_error_column { DT_COL_ERROR_NUMBER = 0, DT_COL_ERROR_START = 1, DT_COL_ERROR_END = 2 };

/* The numbers of a report. Start and end are byte offsets; the end is excluded. */
enum dt_report_column {
    DT_COL_REPORT_MESSAGE = 0,     /* enum dt_message */
    DT_COL_REPORT_START = 1,
    DT_COL_REPORT_END = 2,
    DT_COL_REPORT_MARK = 3,        /* the index just past the last token taken; of DT_MESSAGE_NOT_A_LABEL that of the
                                      name's first token */
    DT_COL_REPORT_POOL_FIRST = 4,  /* index of its first expectation in the pool */
    DT_COL_REPORT_POOL_COUNT = 5,  /* how many different ones it has; 0 unless the message is 1 */
    DT_COL_REPORT_HINT = 6,        /* enum dt_hint */
    DT_COL_REPORT_LABEL_START = 7, /* 0, 0: no label */
    DT_COL_REPORT_LABEL_END = 8
};

/*
 * The rows as structs, with a member for each column in the columns' order. A buffer of numbers may be read through a
 * cast, (const struct dt_tree_row *)trees; and an array of structs may be lent as numbers, (uint32_t *)rows, with
 * DT_ROW_TREE times its length: a row has no padding, and every member is a uint32_t as the numbers are.
 */
struct dt_token_row {
    uint32_t kind;   /* enum dt_token or enum dt_lex_error */
    uint32_t length; /* in bytes */
};

struct dt_tree_row {
    uint32_t class_; /* enum dt_class; `class` is a word of C++ */
    uint32_t kind;   /* of a node enum dt_node, of a leaf enum dt_token */
    uint32_t width;  /* in bytes */
    uint32_t count;  /* children of a node, raw tokens of a leaf */
    uint32_t parent; /* the parent's row number; of the root its own, 0 */
};

struct dt_error_row {
    uint32_t number; /* enum dt_lex_error */
    uint32_t start;
    uint32_t end;
};

struct dt_report_row {
    uint32_t message; /* enum dt_message */
    uint32_t start;
    uint32_t end;
    uint32_t mark;
    uint32_t pool_first;
    uint32_t pool_count;
    uint32_t hint;    /* enum dt_hint */
    uint32_t label_start;
    uint32_t label_end;
};

/* Refused by the compiler unless a struct is as large as its row. (C99 has no static assertion.) */
#define DT_ASSERT_ROW(row, size) typedef char dt_assert_##row[sizeof(struct row) == (size) * sizeof(uint32_t) ? 1 : -1]
DT_ASSERT_ROW(dt_token_row, DT_ROW_TOKEN);
DT_ASSERT_ROW(dt_tree_row, DT_ROW_TREE);
DT_ASSERT_ROW(dt_error_row, DT_ROW_ERROR);
DT_ASSERT_ROW(dt_report_row, DT_ROW_REPORT);
#undef DT_ASSERT_ROW

/*
 * The row after a subtree: that of the next sibling if there is one, else of what follows the parent's subtree;
 * tree_count at the end. trees are the rows of an accepted call, tree_count how many they are (dt_answer.tree_count),
 * row is that of the subtree's root. Rows that are not a tree lead no further than tree_count. The time is in the
 * subtree's size.
 *
 * The children of a node, in order:
 *
 *   size_t child = node + 1;
 *   for (uint32_t i = 0; i < trees[node].count; i++, child = dt_after_subtree(trees, tree_count, child))
 *       visit(&trees[child]);
 *
 * The nodes around a row, the nearest first and the root last, need no function:
 *
 *   while (row != 0) {
 *       row = trees[row].parent;
 *       visit(&trees[row]);
 *   }
 */
static inline size_t dt_after_subtree(const struct dt_tree_row *trees, size_t tree_count, size_t row)
{
    size_t next = row;
    /* what lies below the row has its parent there: the row itself, or one after it */
    while (next < tree_count && (next == row || trees[next].parent >= row))
        next++;
    return next;
}

/* Token kinds, of a token row, a leaf or an expectation. After a kind: its fixed text, which the bytes must be. */
enum dt_token {
    DT_TOKEN_WHITESPACE = 0,                 /* trivia */
    DT_TOKEN_BLOCK_COMMENT = 1,              /* trivia */
    DT_TOKEN_COMMA = 2,                      /* , */
    DT_TOKEN_LINE_COMMENT = 3,               /* trivia */
    DT_TOKEN_IF_DIRECTIVE = 4,
    DT_TOKEN_IFDEF_DIRECTIVE = 5,
    DT_TOKEN_IFNDEF_DIRECTIVE = 6,
    DT_TOKEN_ELIF_DIRECTIVE = 7,
    DT_TOKEN_ELIFDEF_DIRECTIVE = 8,
    DT_TOKEN_ELIFNDEF_DIRECTIVE = 9,
    DT_TOKEN_ELSE_DIRECTIVE = 10,
    DT_TOKEN_ENDIF_DIRECTIVE = 11,
    DT_TOKEN_PRAGMA_DIRECTIVE = 12,
    DT_TOKEN_DEFINE_DIRECTIVE = 13,
    DT_TOKEN_UNDEF_DIRECTIVE = 14,
    DT_TOKEN_INCLUDE_DIRECTIVE = 15,
    DT_TOKEN_ERROR_DIRECTIVE = 16,
    DT_TOKEN_BITS_DIRECTIVE = 17,            /* /bits/ */
    DT_TOKEN_OMIT_IF_NO_REF_DIRECTIVE = 18,  /* /omit-if-no-ref/ */
    DT_TOKEN_DT_INCLUDE_DIRECTIVE = 19,      /* /include/ */
    DT_TOKEN_MEMRESERVE_DIRECTIVE = 20,      /* /memreserve/ */
    DT_TOKEN_DELETE_NODE_DIRECTIVE = 21,     /* /delete-node/ */
    DT_TOKEN_DELETE_PROPERTY_DIRECTIVE = 22, /* /delete-property/ */
    DT_TOKEN_V1_DIRECTIVE = 23,              /* /dts-v1/ */
    DT_TOKEN_PLUGIN_DIRECTIVE = 24,          /* /plugin/ */
    DT_TOKEN_UNRECOGNIZED = 25,              /* no input; the leaf of an error token */
    DT_TOKEN_NAME = 26,                      /* no input; a leaf that joins Ident, Number, Comma and Minus */
    DT_TOKEN_IDENT = 27,
    DT_TOKEN_EQUALS = 28,                    /* = */
    DT_TOKEN_SEMICOLON = 29,                 /* ; */
    DT_TOKEN_AMPERSAND = 30,                 /* & */
    DT_TOKEN_COLON = 31,                     /* : */
    DT_TOKEN_AT_SIGN = 32,                   /* @ */
    DT_TOKEN_STRING = 33,
    DT_TOKEN_CHAR = 34,
    DT_TOKEN_NUMBER = 35,
    DT_TOKEN_DT_BYTESTRING = 36,
    DT_TOKEN_LCURLY = 37,                    /* { */
    DT_TOKEN_RCURLY = 38,                    /* } */
    DT_TOKEN_LANGLE = 39,                    /* < */
    DT_TOKEN_RANGLE = 40,                    /* > */
    DT_TOKEN_LPAREN = 41,                    /* ( */
    DT_TOKEN_RPAREN = 42,                    /* ) */
    DT_TOKEN_PLUS = 43,                      /* + */
    DT_TOKEN_MINUS = 44,                     /* - */
    DT_TOKEN_ASTERISK = 45,                  /* * */
    DT_TOKEN_SLASH = 46,                     /* / */
    DT_TOKEN_MODULO = 47,                    /* % */
    DT_TOKEN_BITWISE_OR = 48,                /* | */
    DT_TOKEN_BITWISE_XOR = 49,               /* ^ */
    DT_TOKEN_BITWISE_NOT = 50,               /* ~ */
    DT_TOKEN_BITWISE_SHL = 51,               /* << */
    DT_TOKEN_BITWISE_SHR = 52,               /* >> */
    DT_TOKEN_LOGICAL_AND = 53,               /* && */
    DT_TOKEN_LOGICAL_OR = 54,                /* || */
    DT_TOKEN_LOGICAL_NOT = 55,               /* ! */
    DT_TOKEN_RELATIONAL_LT_EQ = 56,          /* <= */
    DT_TOKEN_RELATIONAL_GT_EQ = 57,          /* >= */
    DT_TOKEN_RELATIONAL_EQ = 58,             /* == */
    DT_TOKEN_RELATIONAL_NEQ = 59,            /* != */
    DT_TOKEN_QUESTION_MARK = 60,             /* ? */
    DT_TOKEN_FIRST_LEX_ERROR = 64,
    DT_TOKEN_LAST_LEX_ERROR = 74
};

/* Error tokens: kinds of a token row, numbers of a lexical error. Their leaf is DT_TOKEN_UNRECOGNIZED. */
enum dt_lex_error {
    DT_LEX_ERROR_UNEXPECTED_END_INCBIN = 64,
    DT_LEX_ERROR_INCBIN_MISSING_LPAREN = 65,
    DT_LEX_ERROR_INCBIN_MISSING_RPAREN = 66,
    DT_LEX_ERROR_INCBIN_MISSING_NUMBER = 67,
    DT_LEX_ERROR_INCBIN_MISSING_COMMA = 68,
    DT_LEX_ERROR_INCBIN_MISSING_STRING = 69,
    DT_LEX_ERROR_UNEXPECTED_END_STRING = 70,
    DT_LEX_ERROR_UNEXPECTED_END_BYTESTRING = 71,
    DT_LEX_ERROR_UNEXPECTED_END_CHAR = 72,
    DT_LEX_ERROR_UNEXPECTED_END_BLOCK_COMMENT = 73,
    DT_LEX_ERROR_DEFAULT = 74 /* any other byte */
};

/* Node kinds. */
enum dt_node {
    DT_NODE_SOURCE_FILE = 0,                    /* root of entry 1 */
    DT_NODE_ENTRY_NAME = 1,                     /* never appears */
    DT_NODE_ENTRY_PROP_VALUES = 2,              /* root of entry 3 */
    DT_NODE_ENTRY_CELLS = 3,                    /* root of entry 4 */
    DT_NODE_ENTRY_PREPROCESSOR_CONDITIONAL = 4, /* never appears */
    DT_NODE_PREPROCESSOR_DEFINED_OPERATION = 5, /* never appears */
    DT_NODE_INFIX_EXPR = 6,
    DT_NODE_PREFIX_EXPR = 7,
    DT_NODE_PAREN_EXPR = 8,
    DT_NODE_LITERAL_EXPR = 9,
    DT_NODE_PARSE_ERROR = 10,
    DT_NODE_DTS_DIRECTIVE = 11,
    DT_NODE_DTS_DIRECTIVE_ARGUMENTS = 12,
    DT_NODE_PREPROCESSOR_CONDITIONAL = 13,
    DT_NODE_PREPROCESSOR_BRANCH = 14,
    DT_NODE_DT_NODE = 15,
    DT_NODE_DT_PROPERTY = 16,
    DT_NODE_DT_CELL_LIST = 17,
    DT_NODE_DT_EXPR = 18,
    DT_NODE_DT_LABEL = 19,
    DT_NODE_PROP_VALUE_LIST = 20,
    DT_NODE_DT_PHANDLE = 21,                    /* also the root of entry 2 */
    DT_NODE_UNIT_ADDRESS = 22,
    DT_NODE_MACRO_INVOCATION = 23,
    DT_NODE_MACRO_ARGUMENT = 24
};

enum dt_message {
    DT_MESSAGE_EXPECTED = 1,            /* the expectations of the pool were expected */
    DT_MESSAGE_UNMATCHED_RCURLY = 2,    /* a } without its { */
    DT_MESSAGE_UNMATCHED_SEMICOLON = 3, /* a ; without a statement */
    DT_MESSAGE_UNMATCHED_ENDIF = 4,     /* an #endif without its #if */
    DT_MESSAGE_STRAY_CONTINUATION = 5,  /* an #elif or #else without its #if */
    DT_MESSAGE_AT_SIGN_IN_LABEL = 6,    /* an @ in a label */
    DT_MESSAGE_UNCLOSED_NODE = 7,       /* end of input in an open node; the label is its { */
    DT_MESSAGE_NOT_A_LABEL = 8          /* strict setting only: a label that is not of letters, digits and underscores,
                                           or starts with a digit. After all other reports, in the order of the text */
};

enum dt_hint {
    DT_HINT_NONE = 0,
    DT_HINT_UNNAMED_PROPERTY = 1,     /* recovered as an unnamed property */
    DT_HINT_UNNAMED_NODE = 2,         /* recovered as an unnamed node */
    DT_HINT_MISSING_PARENTHESES = 3,  /* expressions need parentheses */
    DT_HINT_IN_CELLS = 4,             /* in cells */
    DT_HINT_PROPERTY_NOT_ALLOWED = 5, /* no property is allowed here */
    DT_HINT_MISSING_LEFT_SIDE = 6     /* recovered as an expression without its left side */
};

/* Expectations beside the token kinds. A report lists each once, in the order in which they first came up. */
enum dt_expected {
    DT_EXPECTED_PREPROCESSOR_DIRECTIVE = 101,
    DT_EXPECTED_PREPROCESSOR_DEFINED_OPERATOR = 102, /* never appears */
    DT_EXPECTED_VALUE = 103,
    DT_EXPECTED_CELL = 104,
    DT_EXPECTED_LABEL_NAME = 105,
    DT_EXPECTED_INFIX_OPERATOR = 106,
    DT_EXPECTED_PREFIX_OPERATOR = 107,
    DT_EXPECTED_END = 108
};

/*
 * Lengths that suffice for n token rows in either setting (crates/bounds has the proof), so that 6, 7 and 8 cannot be
 * met: 3 n + 1 reports of the run, each with at most DT_MAX_EXPECTATIONS in the pool, and in the strict setting at most
 * n more reports, without expectations. Files without errors need far less; a caller may start small and grow what
 * refusal 6 (events), 7 (reports, pool) or 8 (trees, errors) names, as examples/c/parse.c does.
 */
#define DT_EVENTS_FOR(n) (DT_ROW_EVENT * (13 * (size_t)(n) + 1))
#define DT_TREES_FOR(n) (DT_ROW_TREE * (6 * (size_t)(n) + 1))
#define DT_ERRORS_FOR(n) (DT_ROW_ERROR * (size_t)(n))
#define DT_REPORTS_FOR(n) (DT_ROW_REPORT * (4 * (size_t)(n) + 1))
#define DT_POOL_FOR(n) (207 * (size_t)(n) + 69)

/*
 * Of dt_parse_text: a length of tokens that suffices for so many bytes, so that 2 is met only for a text that is too
 * long. Each token has a byte at least (crates/lexing has the proof), and more than DT_MAX_TOKEN_NUMBERS are refused
 * whatever is lent. The n above is then at most DT_TOKENS_FOR(bytes) / DT_ROW_TOKEN.
 */
#define DT_TOKENS_FOR(bytes)                                       \
    ((size_t)(bytes) < (size_t)DT_MAX_TOKEN_NUMBERS / DT_ROW_TOKEN \
         ? DT_ROW_TOKEN * (size_t)(bytes)                          \
         : (size_t)DT_MAX_TOKEN_NUMBERS)

/*
 * Of dt_caret and dt_parts_in_range: a length of list that suffices beside a tree buffer of so many numbers. No row is
 * in a list twice, so that it fits where the tree does (crates/queries has the proof): 8 is then about the tree or the
 * lexical errors, and never about the list.
 */
#define DT_LIST_FOR(trees_len) ((size_t)(trees_len) / DT_ROW_TREE)

/* Counts are 0 unless number is DT_ACCEPTED. */
struct dt_answer {
    uint32_t number;          /* enum dt_refusal */
    size_t place;             /* 0 if accepted */
    size_t tree_count;        /* tree rows written */
    size_t error_count;       /* lexical errors written */
    size_t report_count;      /* reports written */
    size_t expectation_count; /* expectations written, each a number of the pool */
};

/* The answer to a text. The count is 0 unless answer.number is DT_ACCEPTED. */
struct dt_text_answer {
    struct dt_answer answer;
    size_t token_count; /* token rows written */
};

/* The answer to a query. The count is 0 unless answer.number is DT_ACCEPTED. */
struct dt_list_answer {
    struct dt_answer answer;
    size_t list_count; /* row numbers written to the list */
};

/*
 * entry           what is parsed, of enum dt_entry
 * setting         of enum dt_setting: 0, or any other number for the strict setting
 * bytes, tokens   the input and its token rows (kind, length): an even count of numbers, each kind one of 0 to 24,
 *                 27 to 60 and 64 to 74, each length at least 1, their sum bytes_len. Any others are refused with 3 or
 *                 11 to 13. Only read.
 * events          work space
 * trees           tree rows
 * errors          lexical errors
 * reports         reports
 * pool            the reports' expectations: of each report those that its row names, each once, in the order in which
 *                 they first came up
 *
 * Whose memory: all seven stay the caller's. They are lent for the time of the call; nothing points into them
 * afterwards, and the call frees nothing.
 *
 * Before the call the five lent buffers may hold anything; they need not be cleared. Afterwards:
 *   accepted                       the rows that the answer counts at the front of trees, errors, reports and pool; the
 *                                  rest of each, and all of events, is zero
 *   refused, 1 to 4 and 11 to 13   every buffer is as it was
 *   refused, 5 to 8                every number of every buffer is zero
 * A length that is not a multiple of the row's: only whole rows are used, the numbers over count as rest.
 *
 * Overlap: the five lent buffers must not overlap each other, nor bytes or tokens. bytes and tokens may overlap, since
 * neither is written. Pointers to numbers must be aligned as uint32_t is. Where a length is 0 the pointer is not used
 * and may be NULL.
 */
struct dt_answer dt_parse(uint32_t entry, uint32_t setting,
                          const uint8_t *bytes, size_t bytes_len,
                          const uint32_t *tokens, size_t tokens_len,
                          uint32_t *events, size_t events_len,
                          uint32_t *trees, size_t trees_len,
                          uint32_t *errors, size_t errors_len,
                          uint32_t *reports, size_t reports_len,
                          uint32_t *pool, size_t pool_len);

/*
 * The same for a text without its tokens. They are read by the rules of docs/src's lexer.rs, of which the longest match
 * wins, and written to a lent buffer: joined, they are the text, and a byte that no rule takes is a token of length 1
 * and kind DT_LEX_ERROR_DEFAULT. All else is what dt_parse gives for these tokens.
 *
 * A text is plain ASCII, and has been through the preprocessor if it needs one: see refusals 9 and 10. The usual way is
 * `cpp -P -nostdinc -undef -x assembler-with-cpp FILE.dts`, with -I for the folders of what FILE.dts includes.
 *
 * bytes           the text. Only read.
 * tokens          token rows (kind, length)
 * All other arguments are those of dt_parse.
 *
 * Before the call the six lent buffers may hold anything. Afterwards:
 *   accepted               what dt_parse leaves in its five; the token rows that the answer counts at the front of
 *                          tokens, the rest of it zero
 *   refused, 1, 2, 9, 10   every buffer is as it was, tokens too
 *   refused, 5 to 8        every number of every buffer is zero, tokens too; so a mark counts tokens that are not there
 * An odd length of tokens: the number over counts as rest.
 *
 * Memory, overlap, alignment and NULL are as for dt_parse, with tokens as a sixth lent buffer: it must not overlap any
 * other, nor bytes.
 */
struct dt_text_answer dt_parse_text(uint32_t entry, uint32_t setting,
                                    const uint8_t *bytes, size_t bytes_len,
                                    uint32_t *tokens, size_t tokens_len,
                                    uint32_t *events, size_t events_len,
                                    uint32_t *trees, size_t trees_len,
                                    uint32_t *errors, size_t errors_len,
                                    uint32_t *reports, size_t reports_len,
                                    uint32_t *pool, size_t pool_len);

/*
 * What is under a caret in a source file: the tree rows from the root to the leaf there. The file is parsed first, as
 * dt_parse does it with DT_ENTRY_SOURCE_FILE; one with reports is answered too.
 *
 * The list has numbers of tree rows, the root's, 0, first and the leaf's last; each is the parent of the next. Number i
 * of it is the row `(const struct dt_tree_row *)trees + list[i]`, whose children and text are found as for any row.
 *
 * A leaf owns its first byte and not its end, which is the next leaf's. So, for a file that is not empty:
 *   offset < bytes_len     the leaf that owns the byte at the offset, and the nodes around it
 *   offset == bytes_len    the last leaf, and the nodes around it
 *   offset > bytes_len     no row: accepted, and list_count is 0
 * In an empty file offset 0 gives the root alone, and any other offset no row. No other row of width 0 is in a list, as
 * the empty node after a `/delete-node/` that ends the file: the last row, but no leaf.
 *
 * setting         as dt_parse has it. The list does not depend on it
 * offset          in bytes; any number
 * list            row numbers
 * All other arguments are those of dt_parse.
 *
 * Before the call the six lent buffers may hold anything. Afterwards:
 *   accepted                       what dt_parse leaves in its five; the row numbers that the answer counts at the
 *                                  front of list, the rest of it zero
 *   refused, 2 to 4 and 11 to 13   every buffer is as it was, list too
 *   refused, 5 to 8                every number of every buffer is zero, list too
 * A list that does not fit is refused with 8, after all that dt_parse tries. DT_LIST_FOR has a length that suffices.
 *
 * Memory, overlap, alignment and NULL are as for dt_parse, with list as a sixth lent buffer: it must not overlap any
 * other, nor bytes or tokens.
 */
struct dt_list_answer dt_caret(uint32_t setting, uint64_t offset,
                               const uint8_t *bytes, size_t bytes_len,
                               const uint32_t *tokens, size_t tokens_len,
                               uint32_t *events, size_t events_len,
                               uint32_t *trees, size_t trees_len,
                               uint32_t *errors, size_t errors_len,
                               uint32_t *reports, size_t reports_len,
                               uint32_t *pool, size_t pool_len,
                               uint32_t *list, size_t list_len);

/*
 * The top-level parts of a source file that share a byte with a range, in order. A part is any child of the root: a
 * node, and a blank or a comment between two of them.
 *
 * start, end      the range in bytes, from start up to end, which it does not hold; any numbers. A part that only ends
 *                 at start, or starts at end, shares no byte with it. An empty range (start == end) and a reversed one
 *                 (start > end) share no byte with any part, and neither does a part of width 0 with any range. The
 *                 range may go past the file
 * All else is as for dt_caret.
 */
struct dt_list_answer dt_parts_in_range(uint32_t setting, uint64_t start, uint64_t end,
                                        const uint8_t *bytes, size_t bytes_len,
                                        const uint32_t *tokens, size_t tokens_len,
                                        uint32_t *events, size_t events_len,
                                        uint32_t *trees, size_t trees_len,
                                        uint32_t *errors, size_t errors_len,
                                        uint32_t *reports, size_t reports_len,
                                        uint32_t *pool, size_t pool_len,
                                        uint32_t *list, size_t list_len);

#ifdef __cplusplus
}
#endif

#endif
