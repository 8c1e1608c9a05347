/* What a caller in C or C++ relies on, without the library: the structs lie over the rows, the calls are declared, the
   names are there, dt_after_subtree goes from sibling to sibling and parents lead up to the root, and the lengths of a
   tree, a token buffer, a list and a pool are enough. Compiled as C and as C++. */
#include "../random.h"
#include "dt_names.h"
#include <stdio.h>
#include <stdlib.h>
#include <string.h>

#define COLUMN(row, member, column) \
    typedef char over_##row##_##member[offsetof(struct row, member) == (column) * sizeof(uint32_t) ? 1 : -1]

COLUMN(dt_token_row, kind, DT_COL_TOKEN_KIND);
COLUMN(dt_token_row, length, DT_COL_TOKEN_LENGTH);
COLUMN(dt_tree_row, class_, DT_COL_TREE_CLASS);
COLUMN(dt_tree_row, kind, DT_COL_TREE_KIND);
COLUMN(dt_tree_row, width, DT_COL_TREE_WIDTH);
COLUMN(dt_tree_row, count, DT_COL_TREE_COUNT);
COLUMN(dt_tree_row, parent, DT_COL_TREE_PARENT);
COLUMN(dt_error_row, number, DT_COL_ERROR_NUMBER);
COLUMN(dt_error_row, start, DT_COL_ERROR_START);
COLUMN(dt_error_row, end, DT_COL_ERROR_END);
COLUMN(dt_report_row, message, DT_COL_REPORT_MESSAGE);
COLUMN(dt_report_row, start, DT_COL_REPORT_START);
COLUMN(dt_report_row, end, DT_COL_REPORT_END);
COLUMN(dt_report_row, mark, DT_COL_REPORT_MARK);
COLUMN(dt_report_row, pool_first, DT_COL_REPORT_POOL_FIRST);
COLUMN(dt_report_row, pool_count, DT_COL_REPORT_POOL_COUNT);
COLUMN(dt_report_row, hint, DT_COL_REPORT_HINT);
COLUMN(dt_report_row, label_start, DT_COL_REPORT_LABEL_START);
COLUMN(dt_report_row, label_end, DT_COL_REPORT_LABEL_END);

/* What the calls take and give, without calling them: the same but for tokens, which dt_parse_text writes, and the list
   of a query, whose offsets have 64 bits. */
#define BYTES ((const uint8_t *)0), 0
#define TOKENS ((const uint32_t *)0), 0
#define BUFFER ((uint32_t *)0), 0
#define FIVE BUFFER, BUFFER, BUFFER, BUFFER, BUFFER
#define GIVES(call, arguments, answer) \
    typedef char gives_##call[sizeof(call arguments) == sizeof(struct answer) ? 1 : -1]
GIVES(dt_parse, (1, 0, BYTES, TOKENS, FIVE), dt_answer);
GIVES(dt_parse_text, (1, 0, BYTES, BUFFER, FIVE), dt_text_answer);
GIVES(dt_caret, (0, UINT64_MAX, BYTES, TOKENS, FIVE, BUFFER), dt_list_answer);
GIVES(dt_parts_in_range, (0, UINT64_MAX, UINT64_MAX, BYTES, TOKENS, FIVE, BUFFER), dt_list_answer);
typedef char answer_first[offsetof(struct dt_text_answer, answer) == 0 ? 1 : -1];
typedef char count_last[offsetof(struct dt_text_answer, token_count) == sizeof(struct dt_answer) ? 1 : -1];
typedef char list_answer_first[offsetof(struct dt_list_answer, answer) == 0 ? 1 : -1];
typedef char list_count_last[offsetof(struct dt_list_answer, list_count) == sizeof(struct dt_answer) ? 1 : -1];

#if DT_PARSER_VERSION < 100
#error "the version cannot be compared"
#endif

enum { ROWS = 400 };

static struct dt_tree_row rows[ROWS];
static size_t ends[ROWS]; /* of each row, the row after its subtree, noted while the tree is made */
static size_t made;

static void expect(int holds, const char *what)
{
    if (!holds) {
        fprintf(stderr, "%s\n", what);
        exit(1);
    }
}

/* A random subtree. A leaf's count is of tokens, and must not be taken for children. */
static void make_subtree(uint32_t depth, size_t parent)
{
    size_t row = made++;
    uint32_t i;
    rows[row].parent = (uint32_t)parent;
    if (depth == 0 || made > ROWS / 2 || below(3) == 0) {
        rows[row].class_ = DT_CLASS_LEAF;
        rows[row].count = 1 + below(4);
    } else {
        rows[row].class_ = DT_CLASS_NODE;
        rows[row].count = below(5);
        for (i = 0; i < rows[row].count; i++)
            make_subtree(depth - 1, row);
    }
    ends[row] = made;
}

/* As the header says it: the rows around a row are those whose subtrees it is in, the nearest first. */
static void check_way_up(size_t row)
{
    size_t around = row, own = row;
    while (row != 0) {
        row = rows[row].parent;
        do
            around--;
        while (ends[around] <= own);
        expect(row == around, "parent: not the next row around it");
    }
    expect(around == 0, "parent: the way up does not end at the root");
}

/* As the header says it: as many children as the row counts, each of which names it. */
static void check_children(size_t node)
{
    size_t child = node + 1;
    uint32_t i;
    if (rows[node].class_ != DT_CLASS_NODE)
        return;
    for (i = 0; i < rows[node].count; i++, child = dt_after_subtree(rows, made, child))
        expect(rows[child].parent == node, "dt_after_subtree: not a child");
    expect(child == ends[node], "dt_after_subtree: not past the last child");
}

static void check_trees(void)
{
    int turn;
    size_t row;
    for (turn = 0; turn < 20000; turn++) {
        made = 0;
        make_subtree(1 + below(8), 0);
        for (row = 0; row < made; row++) {
            expect(dt_after_subtree(rows, made, row) == ends[row], "dt_after_subtree: not the row after the subtree");
            check_way_up(row);
            check_children(row);
        }
    }
    for (turn = 0; turn < 20000; turn++) {
        size_t count = below(20);
        for (row = 0; row < count; row++) {
            rows[row].class_ = below(3);
            rows[row].count = below(2) ? below(4) : 4294967295u;
            rows[row].parent = below(2) ? below(20) : 4294967295u;
        }
        for (row = 0; row <= count; row++)
            expect(dt_after_subtree(rows, count, row) <= count, "dt_after_subtree: past the rows");
    }
}

/* Two numbers a byte up to the limit, for any count of bytes; and a constant, so that an array can have that length. */
static void check_token_room(void)
{
    static uint32_t tokens[DT_TOKENS_FOR(100)];
    const size_t most = DT_MAX_TOKEN_NUMBERS / 2;
    size_t bytes;
    expect(sizeof tokens == 200 * sizeof *tokens, "DT_TOKENS_FOR: an array's length");
    for (bytes = 0; bytes < most + 9; bytes++)
        expect(DT_TOKENS_FOR(bytes) == (bytes < most ? 2 * bytes : 2 * most), "DT_TOKENS_FOR");
    expect(DT_TOKENS_FOR(DT_MAX_BYTES) == 2 * most, "DT_TOKENS_FOR: the longest text");
    expect(DT_TOKENS_FOR(SIZE_MAX) == 2 * most, "DT_TOKENS_FOR: a text that is too long");
    expect(DT_TOKENS_FOR(SIZE_MAX / 2 + 2) == 2 * most, "DT_TOKENS_FOR: a text that is too long");
    expect(DT_TOKENS_FOR(1 ? 3 : 4) == 6, "DT_TOKENS_FOR: an expression");
}

/* Five numbers for each row that there can be; a constant, as above, and no more bytes than as many structs. */
static void check_tree_room(void)
{
    static struct dt_tree_row trees[601];
    static uint32_t numbers[DT_TREES_FOR(100)];
    expect(sizeof numbers == 3005 * sizeof *numbers, "DT_TREES_FOR: an array's length");
    expect(sizeof numbers == sizeof trees, "DT_TREES_FOR: the rows as structs");
    expect(DT_TREES_FOR(0) == 5 && DT_TREES_FOR(1 ? 2 : 4) == 65, "DT_TREES_FOR: an expression");
}

/* A number for each whole row of a tree buffer; and a constant, as above. */
static void check_list_room(void)
{
    static uint32_t list[DT_LIST_FOR(DT_TREES_FOR(100))];
    size_t numbers;
    expect(sizeof list == 601 * sizeof *list, "DT_LIST_FOR: an array's length");
    for (numbers = 0; numbers < 100; numbers++)
        expect(DT_LIST_FOR(numbers) == numbers / 5, "DT_LIST_FOR");
    expect(DT_LIST_FOR(SIZE_MAX) == SIZE_MAX / 5, "DT_LIST_FOR: the longest buffer");
    expect(DT_LIST_FOR(1 ? 10 : 5) == 2, "DT_LIST_FOR: an expression");
}

/* As many different expectations as there are in each report of the run; and a constant, as above. */
static void check_pool_room(void)
{
    static uint32_t pool[DT_POOL_FOR(100)];
    size_t tokens;
    expect(sizeof pool == 20769 * sizeof *pool, "DT_POOL_FOR: an array's length");
    for (tokens = 0; tokens < 100; tokens++)
        expect(DT_POOL_FOR(tokens) == (3 * tokens + 1) * DT_MAX_EXPECTATIONS, "DT_POOL_FOR");
    expect(DT_POOL_FOR(1 ? 2 : 4) == 483, "DT_POOL_FOR: an expression");
}

/* The numbers from first to last have names that differ from each other, and no other number has one. */
static void check_names(const char *(*name)(uint32_t), uint32_t first, uint32_t last, const char *what)
{
    uint32_t n, other;
    for (n = 0; n < 300; n++) {
        expect((strcmp(name(n), "?") != 0) == (n >= first && n <= last), what);
        for (other = first; other < n && n <= last; other++)
            expect(strcmp(name(n), name(other)) != 0, what);
    }
    expect(strcmp(name(4294967295u), "?") == 0, what);
}

static void check_all_names(void)
{
    check_names(dt_entry_name, DT_ENTRY_SOURCE_FILE, DT_ENTRY_CELLS, "dt_entry_name");
    check_names(dt_refusal_name, DT_ACCEPTED, DT_REFUSAL_BAD_END, "dt_refusal_name");
    check_names(dt_refusal_text, DT_ACCEPTED, DT_REFUSAL_BAD_END, "dt_refusal_text");
    check_names(dt_token_name, DT_TOKEN_WHITESPACE, DT_TOKEN_QUESTION_MARK, "dt_token_name");
    check_names(dt_token_text, DT_TOKEN_WHITESPACE, DT_TOKEN_QUESTION_MARK, "dt_token_text");
    check_names(dt_lex_error_name, DT_TOKEN_FIRST_LEX_ERROR, DT_TOKEN_LAST_LEX_ERROR, "dt_lex_error_name");
    check_names(dt_lex_error_text, DT_TOKEN_FIRST_LEX_ERROR, DT_TOKEN_LAST_LEX_ERROR, "dt_lex_error_text");
    check_names(dt_node_name, DT_NODE_SOURCE_FILE, DT_NODE_MACRO_ARGUMENT, "dt_node_name");
    check_names(dt_message_name, DT_MESSAGE_EXPECTED, DT_MESSAGE_NOT_A_LABEL, "dt_message_name");
    check_names(dt_message_text, DT_MESSAGE_EXPECTED, DT_MESSAGE_NOT_A_LABEL, "dt_message_text");
    check_names(dt_hint_name, DT_HINT_NONE, DT_HINT_MISSING_LEFT_SIDE, "dt_hint_name");
    check_names(dt_hint_text, DT_HINT_NONE, DT_HINT_MISSING_LEFT_SIDE, "dt_hint_text");
    expect(strcmp(dt_refusal_name(3), "odd-count") == 0, "dt_refusal_name");
    expect(strcmp(dt_refusal_name(13), "bad-end") == 0, "dt_refusal_name");
    expect(strcmp(dt_refusal_text(3), "odd count of token numbers") == 0, "dt_refusal_text");
    expect(strcmp(dt_refusal_text(5), "a 65th open call") == 0, "dt_refusal_text");
    expect(strcmp(dt_expected_name(DT_EXPECTED_END), "End") == 0, "dt_expected_name");
    expect(strcmp(dt_expected_text(DT_TOKEN_COMMA), dt_token_text(DT_TOKEN_COMMA)) == 0, "dt_expected_text");
    expect(strcmp(dt_expected_text(100), "?") == 0 && strcmp(dt_expected_text(109), "?") == 0, "dt_expected_text");
    expect(strcmp(dt_label_text(DT_MESSAGE_UNCLOSED_NODE), "") != 0, "dt_label_text");
    expect(strcmp(dt_label_text(DT_MESSAGE_EXPECTED), "") == 0, "dt_label_text");
    expect(strcmp(dt_label_text(DT_MESSAGE_NOT_A_LABEL), "") == 0, "dt_label_text");
}

int main(void)
{
    check_trees();
    check_token_room();
    check_tree_room();
    check_list_room();
    check_pool_room();
    check_all_names();
    return 0;
}
