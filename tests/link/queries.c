/* Queries with random numbers in place of offsets, setting, bytes, token rows and buffer lengths, and queries at the
   limits of size: queries COUNT, so many of the first. Of every one the answer, the list and all buffers are checked (query.h). */
#include "query.h"
#include "random_rows.h"

enum { ANSWERS = DT_REFUSAL_BAD_END + 1 };

/* An offset in a file of n bytes or just past it; or one far away, whose low 32 bits are often such an offset. */
static uint64_t random_offset(size_t n)
{
    static const uint64_t FAR[] = {UINT32_MAX, (uint64_t)1 << 32, (uint64_t)1 << 63, UINT64_MAX};
    uint64_t near = below((uint32_t)n + 3);
    if (below(8))
        return near;
    return below(2) ? FAR[below(sizeof FAR / sizeof *FAR)] + near : FAR[below(sizeof FAR / sizeof *FAR)];
}

/* A query in a list of random length; and if it lists rows, in one that just fits and in one that is a number short. */
static void random_query(size_t *met, size_t *rows)
{
    struct random_rows in = random_rows();
    struct query q = {"random query", below(2) == 0, random_setting(), random_offset(in.n), random_offset(in.n),
                      in.bytes, in.n, (const uint32_t *)in.rows, in.t};
    size_t lengths[QUERY_BUFFERS], found, same;
    for (int i = 0; i < BUFFERS; i++)
        lengths[i] = random_length();
    lengths[LIST] = below(2) ? below(20) : DT_LIST_FOR(lengths[TREES]);
    met[checked_query(&q, lengths, &found).answer.number]++;
    *rows += found;
    if (found == 0)
        return;
    lengths[LIST] = found;
    met[checked_query(&q, lengths, &same).answer.number]++;
    lengths[LIST] = found - 1;
    met[checked_query(&q, lengths, &same).answer.number]++;
}

static void expect_query(const char *name, struct query q, size_t trees, size_t list, uint32_t number, size_t count)
{
    const size_t lengths[QUERY_BUFFERS] = {12, trees, 12, 12, 12, list};
    size_t found;
    struct dt_list_answer a = checked_query(&q, lengths, &found);
    if (a.answer.number != number || a.list_count != count)
        fail(name, "another answer");
    printf("%s: %u, %zu rows\n", name, number, count);
}

/* One comment of as many bytes as a call may have. */
static void byte_limit(void)
{
    enum { N = DT_MAX_BYTES, TREE = 2 * DT_ROW_TREE };
    const uint32_t tokens[DT_ROW_TOKEN] = {DT_TOKEN_BLOCK_COMMENT, N};
    uint8_t *bytes = calloc(N, 1);
    struct query q = {"a comment of 1,048,576 bytes", 1, DT_SETTING_OLD, N, 0, bytes, N, tokens, DT_ROW_TOKEN};
    expect_query("a caret at the end of 1,048,576 bytes", q, TREE, 2, DT_ACCEPTED, 2);
    q.start = N + 1;
    expect_query("a caret past it", q, TREE, 0, DT_ACCEPTED, 0);
    q.is_caret = 0;
    q.start = N - 1;
    q.end = UINT64_MAX;
    expect_query("a range from the last byte on", q, TREE, 1, DT_ACCEPTED, 1);
    free(bytes);
}

/* Blanks of one byte each, as many as a call may have: a part each. */
static void row_limit(void)
{
    enum { N = DT_MAX_TOKEN_NUMBERS / DT_ROW_TOKEN, TREE = DT_ROW_TREE * (N + 1) };
    uint8_t *bytes = calloc(N, 1);
    struct dt_token_row *rows = calloc(N, sizeof *rows);
    for (size_t i = 0; i < N; i++)
        rows[i] = (struct dt_token_row){DT_TOKEN_WHITESPACE, 1};
    struct query q = {"65,536 blanks", 0, DT_SETTING_STRICT, 0, N, bytes, N, (const uint32_t *)rows, DT_ROW_TOKEN * N};
    expect_query("all of 65,536 blanks", q, TREE, N, DT_ACCEPTED, N);
    expect_query("the same, one number of the list fewer", q, TREE, N - 1, DT_REFUSAL_NO_TREE_ROOM, 0);
    expect_query("the same, one number of the tree fewer", q, TREE - 1, N, DT_REFUSAL_NO_TREE_ROOM, 0);
    q.is_caret = 1;
    q.start = N;
    expect_query("a caret after the last", q, TREE, 2, DT_ACCEPTED, 2);
    free(rows);
    free(bytes);
}

/* Every answer is met, but for 1, 9 and 10, which no query has, and 2 and 5, which need more rows. */
static void check_met(const size_t *met)
{
    static const uint32_t OTHERS[] = {DT_REFUSAL_UNKNOWN_ENTRY, DT_REFUSAL_TOO_LONG, DT_REFUSAL_TOO_DEEP,
                                      DT_REFUSAL_HIGH_BYTE, DT_REFUSAL_DIRECTIVE};
    for (uint32_t i = 0; i < ANSWERS; i++) {
        int is_other = 0;
        for (size_t k = 0; k < sizeof OTHERS / sizeof *OTHERS; k++)
            is_other |= OTHERS[k] == i;
        if ((met[i] == 0) != is_other)
            fail("random queries", "an answer was never met, or one that cannot be");
    }
}

int main(int argc, char **argv)
{
    const int count = argc == 2 ? atoi(argv[1]) : 0;
    size_t met[ANSWERS] = {0}, rows = 0;
    byte_limit();
    row_limit();
    for (int i = 0; i < count; i++)
        random_query(met, &rows);
    printf("random queries, most in several lengths of the list, which had %zu rows:", rows);
    for (uint32_t i = 0; i < ANSWERS; i++)
        printf(" %u: %zu", i, met[i]);
    printf("\n");
    check_met(met);
    return 0;
}
