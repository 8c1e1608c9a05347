/* Queries of a source file: what must hold of each. The list is worked out here from the header's words, over the rows
   that dt_parse gives in buffers of the same lengths. */
#include "lent.h"

/* A query of token rows: dt_caret with the start as its offset, or dt_parts_in_range. */
struct query {
    const char *name;
    int is_caret;
    uint32_t setting;
    uint64_t start, end;
    const uint8_t *bytes;
    size_t n;
    const uint32_t *tokens;
    size_t t;
};

#define LEND(buffer) (buffer).numbers, (buffer).length
#define LEND_ALL(b) LEND(b[EVENTS]), LEND(b[TREES]), LEND(b[ERRORS]), LEND(b[REPORTS]), LEND(b[POOL]), LEND(b[LIST])

static struct dt_list_answer ask(const struct query *q, const struct buffer *b)
{
    if (q->is_caret)
        return dt_caret(q->setting, q->start, q->bytes, q->n, q->tokens, q->t, LEND_ALL(b));
    return dt_parts_in_range(q->setting, q->start, q->end, q->bytes, q->n, q->tokens, q->t, LEND_ALL(b));
}

/* The leaf at an offset: the one that owns it, at the end of the file the last one. The root where there is none. */
static size_t leaf_at(const struct dt_tree_row *trees, size_t count, uint64_t offset, size_t n)
{
    uint64_t start = 0;
    size_t found = 0;
    for (size_t row = 0; row < count; row++)
        if (trees[row].class_ == DT_CLASS_LEAF) {
            uint64_t end = start + trees[row].width;
            if (offset == n || (start <= offset && offset < end))
                found = row;
            start = end;
        }
    return found;
}

/* The rows from the root to the leaf at an offset: the way up from the leaf by the parents, backwards. Gives how many
   they are. */
static size_t chain_to(const struct dt_tree_row *trees, size_t count, uint64_t offset, size_t n, uint32_t *list)
{
    uint32_t row = (uint32_t)leaf_at(trees, count, offset, n);
    size_t found = 0;
    if (count == 0 || offset > n)
        return 0;
    for (list[found++] = row; row != 0; list[found++] = row)
        row = trees[row].parent;
    for (size_t i = 0; i < found / 2; i++) {
        uint32_t other = list[found - 1 - i];
        list[found - 1 - i] = list[i];
        list[i] = other;
    }
    return found;
}

/* The children of the root that have a byte in the range. Gives how many they are. */
static size_t parts_in(const struct dt_tree_row *trees, size_t count, uint64_t from, uint64_t to, uint32_t *list)
{
    uint64_t byte = 0, end = 0;
    size_t found = 0;
    for (size_t row = 1; row < count; row = dt_after_subtree(trees, count, row)) {
        int shares = 0;
        for (end += trees[row].width; byte < end; byte++)
            shares |= from <= byte && byte < to;
        if (shares)
            list[found++] = (uint32_t)row;
    }
    return found;
}

/* The list that the query has of these rows, in a buffer of one number for each row. */
static struct buffer expected_list(const struct query *q, struct buffer trees, size_t count)
{
    const struct dt_tree_row *rows = (const struct dt_tree_row *)trees.numbers;
    struct buffer list = lend(DT_LIST_FOR(trees.length));
    list.length = q->is_caret ? chain_to(rows, count, q->start, q->n, list.numbers)
                              : parts_in(rows, count, q->start, q->end, list.numbers);
    return list;
}

/* Refused by the parse: the same answer without a list. */
static void check_refused(const struct query *q, struct dt_list_answer a, struct dt_answer parsed, struct buffer list)
{
    if (!are_same_answers(a.answer, parsed) || a.list_count)
        fail(q->name, "not the parse's refusal");
    if (rest(list, 0) != (list.length > 0 && !is_cleared(parsed.number)))
        fail(q->name, "a list that is not as it was, or not zero");
}

/* A list that does not fit: 8, and nothing else. */
static void check_full(const struct query *q, struct dt_list_answer a, const struct buffer *b)
{
    const struct dt_answer full = {DT_REFUSAL_NO_TREE_ROOM, 0, 0, 0, 0, 0};
    if (!are_same_answers(a.answer, full) || a.list_count)
        fail(q->name, "not 8 for a list that does not fit");
    for (int i = 0; i < QUERY_BUFFERS; i++)
        if (rest(b[i], 0) != 0)
            fail(q->name, "a buffer is not zero after 8");
}

static void check_list(const struct query *q, struct dt_list_answer a, struct buffer list, struct buffer expected)
{
    if (a.list_count != expected.length || memcmp(list.numbers, expected.numbers, a.list_count * sizeof(uint32_t)))
        fail(q->name, "another list");
    if (rest(list, a.list_count) != 0)
        fail(q->name, "a list with other numbers than zero after it");
}

/* One query in buffers of these lengths, checked. Gives the answer; and how long the list is, fit or not. */
static struct dt_list_answer checked_query(const struct query *q, const size_t *lengths, size_t *list_length)
{
    struct buffer b[QUERY_BUFFERS], parsed[BUFFERS];
    lend_all(b, lengths, QUERY_BUFFERS);
    lend_all(parsed, lengths, BUFFERS);
    struct dt_list_answer a = ask(q, b);
    struct dt_answer p = call(DT_ENTRY_SOURCE_FILE, q->setting, q->bytes, q->n, q->tokens, q->t, parsed);
    struct buffer list = expected_list(q, parsed[TREES], p.tree_count);
    int fits = p.number != DT_ACCEPTED || list.length <= b[LIST].length;
    *list_length = p.number == DT_ACCEPTED ? list.length : 0;
    if (p.number != DT_ACCEPTED) {
        check_refused(q, a, p, b[LIST]);
    } else if (fits) {
        if (!are_same_answers(a.answer, p))
            fail(q->name, "another answer than the parse's");
        check_list(q, a, b[LIST], list);
    } else {
        check_full(q, a, b);
    }
    for (int i = 0; fits && i < BUFFERS; i++)
        if (!are_same(b[i], parsed[i]))
            fail(q->name, "a buffer does not hold what the parse leaves");
    free(list.numbers - 1);
    give_all_back(q->name, b, QUERY_BUFFERS);
    give_all_back(q->name, parsed, BUFFERS);
    return a;
}
