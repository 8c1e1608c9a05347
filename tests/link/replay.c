/* Runs the cases of a list, in the form that crates/replay says, and prints what the gate's program prints. Each
   accepted call has its tree checked as tree.h says, and is made again with buffers that just hold its answer, and with
   one number fewer of each.
   With --text: takes the bytes of each case as a text, checks the call as text.h says, in token buffers that just fit,
   that are one number short and one too long, and prints how often each answer was given.
   With --queries STEP: asks each case as a source file at every offset, or every STEPth, and for ranges from there,
   checks the query as query.h says, in lists that just fit and that are one number short, and prints how often each
   answer was given. */
#include "query.h"
#include "text.h"

static const char LETTERS[] = "-txre";

/* One case: its head (token numbers, bytes, entry, setting, five lengths), token numbers and bytes. */
enum { HEAD = 4 + BUFFERS };

struct one {
    char name[64];
    size_t head[HEAD];
    uint32_t *tokens;
    uint8_t *bytes;
};

static int read_one(FILE *f, struct one *c)
{
    if (fscanf(f, "%63s", c->name) != 1)
        return 0;
    for (int i = 0; i < HEAD; i++)
        if (fscanf(f, "%zu", &c->head[i]) != 1)
            fail(c->name, "a number is missing");
    c->tokens = malloc((c->head[0] + 1) * sizeof *c->tokens);
    c->bytes = malloc(c->head[1] + 1);
    for (size_t i = 0; i < c->head[0]; i++)
        if (fscanf(f, "%u", &c->tokens[i]) != 1)
            fail(c->name, "a token number is missing");
    if (fgetc(f) != '\n' || fread(c->bytes, 1, c->head[1], f) != c->head[1] || fgetc(f) != '\n')
        fail(c->name, "its bytes do not end where they should");
    return 1;
}

static struct dt_answer call_one(const struct one *c, const size_t *lengths, struct buffer *b)
{
    for (int i = 0; i < BUFFERS; i++)
        b[i] = lend(lengths[i]);
    return call((uint32_t)c->head[2], (uint32_t)c->head[3], c->bytes, c->head[1], c->tokens, c->head[0], b);
}

static void print(const struct one *c, struct dt_answer a, struct buffer *b)
{
    size_t used[BUFFERS];
    counted(a, used);
    printf("%s %u %zu %zu %zu %zu %zu", c->name, a.number, a.place, a.tree_count, a.error_count, a.report_count,
           a.expectation_count);
    for (int i = 0; i < BUFFERS; i++)
        printf(" %d", rest(b[i], used[i]));
    printf("\n");
    for (int i = TREES; i < BUFFERS; i++) {
        if (used[i])
            printf("%c", LETTERS[i]);
        for (size_t k = 0; k < used[i]; k++)
            printf(" %u", b[i].numbers[k]);
        if (used[i])
            printf("\n");
    }
}

/* The same call with these lengths answers with this number, and with the same rows where it is 0. */
static void again(const struct one *c, const size_t *lengths, uint32_t number, const size_t *used,
                  const struct buffer *first)
{
    struct buffer b[BUFFERS];
    struct dt_answer a = call_one(c, lengths, b);
    int accepted = number == DT_ACCEPTED;
    if (a.number != number)
        fail(c->name, "another answer in buffers that just fit or are one number short");
    for (int i = 0; i < BUFFERS; i++) {
        if (accepted && memcmp(b[i].numbers, first[i].numbers, used[i] * sizeof(uint32_t)))
            fail(c->name, "other rows in buffers that just fit");
        if (rest(b[i], accepted ? used[i] : 0) != 0)
            fail(c->name, "a buffer is not zero after its rows");
        give_back(c->name, b[i]);
    }
}

static void at_the_edge(const struct one *c, struct dt_answer a, const struct buffer *first)
{
    static const uint32_t SHORT[BUFFERS] = {
        DT_REFUSAL_NO_EVENT_ROOM,  DT_REFUSAL_NO_TREE_ROOM,   DT_REFUSAL_NO_TREE_ROOM,
        DT_REFUSAL_NO_REPORT_ROOM, DT_REFUSAL_NO_REPORT_ROOM,
    };
    size_t used[BUFFERS], lengths[BUFFERS];
    counted(a, used);
    memcpy(lengths, used, sizeof used);
    lengths[EVENTS] = c->head[4];
    again(c, lengths, DT_ACCEPTED, used, first);
    for (int i = TREES; i < BUFFERS; i++) {
        if (used[i] == 0)
            continue;
        lengths[i]--;
        again(c, lengths, SHORT[i], used, first);
        lengths[i]++;
    }
}

static void run_case(const struct one *c)
{
    struct buffer b[BUFFERS];
    struct dt_answer a = call_one(c, c->head + 4, b);
    print(c, a, b);
    if (a.number == DT_ACCEPTED) {
        check_tree(c->name, b[TREES].numbers, a.tree_count, c->head[1]);
        at_the_edge(c, a, b);
    }
    for (int i = 0; i < BUFFERS; i++)
        give_back(c->name, b[i]);
}

/* Answers to texts and queries, by number. */
static size_t met[DT_REFUSAL_BAD_END + 1];

static uint32_t run_text(const struct one *c, size_t tokens)
{
    struct text t = {c->name, (uint32_t)c->head[2], (uint32_t)c->head[3], c->bytes, c->head[1]};
    size_t lengths[TEXT_BUFFERS];
    memcpy(lengths, c->head + 4, BUFFERS * sizeof *lengths);
    lengths[TOKENS] = tokens;
    struct dt_text_answer a = checked_text(&t, lengths);
    met[a.answer.number]++;
    return (uint32_t)a.token_count;
}

static void run_texts(const struct one *c)
{
    size_t count = run_text(c, DT_TOKENS_FOR(c->head[1])), numbers = DT_ROW_TOKEN * count;
    if (count == 0)
        return;
    size_t accepted = met[DT_ACCEPTED], refused = met[DT_REFUSAL_TOO_LONG];
    run_text(c, numbers);
    run_text(c, numbers + 1);
    run_text(c, numbers - 1);
    if (met[DT_ACCEPTED] != accepted + 2 || met[DT_REFUSAL_TOO_LONG] != refused + 1)
        fail(c->name, "another answer in a token buffer that just fits, is one longer or one short");
}

/* A query with room for every list, in a list that just fits, and in one that is a number short. */
static void run_query(const struct one *c, int is_caret, uint64_t start, uint64_t end)
{
    struct query q = {c->name, is_caret, (uint32_t)c->head[3], start, end, c->bytes, c->head[1], c->tokens, c->head[0]};
    size_t lengths[QUERY_BUFFERS], found, same;
    memcpy(lengths, c->head + 4, BUFFERS * sizeof *lengths);
    lengths[LIST] = DT_LIST_FOR(lengths[TREES]);
    met[checked_query(&q, lengths, &found).answer.number]++;
    for (size_t missing = 0; found > 0 && missing <= 1; missing++) {
        lengths[LIST] = found - missing;
        met[checked_query(&q, lengths, &same).answer.number]++;
    }
}

/* Each case starts at another offset than the one before it. */
static void run_queries(const struct one *c, size_t step)
{
    static size_t cases;
    size_t n = c->head[1];
    for (size_t offset = cases++ % step; offset < n + 2; offset += step) {
        run_query(c, 1, offset, 0);
        run_query(c, 0, offset, offset + offset % 9);
    }
    run_query(c, 1, UINT64_MAX, 0);
    run_query(c, 0, 0, UINT64_MAX);
}

int main(int argc, char **argv)
{
    int is_text = argc == 3 && strcmp(argv[1], "--text") == 0;
    int is_query = argc == 4 && strcmp(argv[1], "--queries") == 0 && atoi(argv[2]) > 0;
    FILE *f = argc == 2 + is_text + 2 * is_query ? fopen(argv[argc - 1], "rb") : NULL;
    if (!f)
        fail("usage", "replay [--text | --queries STEP] LIST");
    struct one c;
    while (read_one(f, &c)) {
        if (is_text)
            run_texts(&c);
        else if (is_query)
            run_queries(&c, (size_t)atoi(argv[2]));
        else
            run_case(&c);
        free(c.tokens);
        free(c.bytes);
    }
    fclose(f);
    for (uint32_t i = 0; (is_text || is_query) && i <= DT_REFUSAL_BAD_END; i++)
        printf(" %u: %zu", i, met[i]);
    return 0;
}
