/* Buffers to lend: full of a number that no row holds, with a guard on either side. */
#ifndef LENT_H
#define LENT_H

#include "dt_parser.h"
#include <stdio.h>
#include <stdlib.h>
#include <string.h>

#define LENT 4042322160u

/* What a call writes; a call with a text writes tokens too, and a query a list. */
enum { EVENTS, TREES, ERRORS, REPORTS, POOL, BUFFERS };
enum { TOKENS = BUFFERS, TEXT_BUFFERS };
enum { LIST = BUFFERS, QUERY_BUFFERS };

struct buffer {
    uint32_t *numbers;
    size_t length;
};

static void fail(const char *name, const char *what)
{
    fprintf(stderr, "%s: %s\n", name, what);
    exit(1);
}

static struct buffer lend(size_t length)
{
    uint32_t *whole = malloc((length + 2) * sizeof *whole);
    if (!whole)
        fail("lend", "no memory");
    for (size_t i = 0; i < length + 2; i++)
        whole[i] = LENT;
    return (struct buffer){whole + 1, length};
}

static int all(struct buffer b, size_t from, uint32_t n)
{
    for (size_t i = from; i < b.length; i++)
        if (b.numbers[i] != n)
            return 0;
    return 1;
}

/* What stands after the counted rows: 0 zeros or nothing, 1 only what was lent, 2 anything else. */
static int rest(struct buffer b, size_t from)
{
    return all(b, from, 0) ? 0 : all(b, from, LENT) ? 1 : 2;
}

static void give_back(const char *name, struct buffer b)
{
    if (b.numbers[-1] != LENT || b.numbers[b.length] != LENT)
        fail(name, "a number beside a lent buffer was changed");
    free(b.numbers - 1);
}

static void lend_all(struct buffer *b, const size_t *lengths, int count)
{
    for (int i = 0; i < count; i++)
        b[i] = lend(lengths[i]);
}

static void give_all_back(const char *name, struct buffer *b, int count)
{
    for (int i = 0; i < count; i++)
        give_back(name, b[i]);
}

static int are_same(struct buffer a, struct buffer b)
{
    return a.length == b.length && memcmp(a.numbers, b.numbers, a.length * sizeof(uint32_t)) == 0;
}

static int are_same_answers(struct dt_answer a, struct dt_answer b)
{
    return a.number == b.number && a.place == b.place && a.tree_count == b.tree_count &&
           a.error_count == b.error_count && a.report_count == b.report_count &&
           a.expectation_count == b.expectation_count;
}

/* Refused by the parse, or by what comes after it: every buffer is cleared. */
static int is_cleared(uint32_t number)
{
    return number >= DT_REFUSAL_TOO_DEEP && number <= DT_REFUSAL_NO_TREE_ROOM;
}

static struct dt_answer call(uint32_t entry, uint32_t setting, const uint8_t *bytes, size_t n, const uint32_t *tokens,
                             size_t t, struct buffer *b)
{
    return dt_parse(entry, setting, bytes, n, tokens, t, b[EVENTS].numbers, b[EVENTS].length, b[TREES].numbers,
                    b[TREES].length, b[ERRORS].numbers, b[ERRORS].length, b[REPORTS].numbers, b[REPORTS].length,
                    b[POOL].numbers, b[POOL].length);
}

/* How many numbers of each buffer an answer counts. Inline, since queries.c does not ask. */
static inline void counted(struct dt_answer a, size_t *out)
{
    out[EVENTS] = 0;
    out[TREES] = a.tree_count * DT_ROW_TREE;
    out[ERRORS] = a.error_count * DT_ROW_ERROR;
    out[REPORTS] = a.report_count * DT_ROW_REPORT;
    out[POOL] = a.expectation_count;
}

#endif
