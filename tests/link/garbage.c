/* Calls with random numbers in place of entry, setting, bytes, token rows and buffer lengths, calls with random texts,
   and calls at the limits of size: garbage COUNT, so many of the first two.
   The causes that come before a parse are worked out again, those of rows in rows.h and those of a text in text.h; of
   every call it is checked what the buffers hold afterwards, of an accepted one that its tree is one (tree.h). */
#include "random_rows.h"
#include "rows.h"
#include "text.h"

/* Numbers that an answer can have, of dt_parse and of dt_parse_text. */
enum { ANSWERS = DT_REFUSAL_BAD_END + 1, TEXT_ANSWERS = DT_REFUSAL_DIRECTIVE + 1 };

static int is_digit(uint8_t byte)
{
    return byte >= '0' && byte <= '9';
}

/* Letters, digits and underscores, and no digit first. */
static int keeps_rule(const uint8_t *bytes, size_t start, size_t end)
{
    for (size_t i = start; i < end; i++)
        if (bytes[i] != '_' && !is_digit(bytes[i]) && ((bytes[i] | 32) < 'a' || (bytes[i] | 32) > 'z'))
            return 0;
    return !is_digit(bytes[start]);
}

/* Reports of labels are in the strict setting alone, after all others, of bytes that are no label. */
static void check_labels(const char *name, uint32_t setting, const struct dt_report_row *reports, struct dt_answer a,
                         const uint8_t *bytes, size_t n)
{
    for (size_t i = 0; i < a.report_count; i++) {
        const struct dt_report_row *r = &reports[i];
        int is_label = r->message == DT_MESSAGE_NOT_A_LABEL;
        if (is_label && (setting == DT_SETTING_OLD || r->start >= r->end || r->end > n || r->pool_count != 0 ||
                         r->pool_first != a.expectation_count || r->hint != DT_HINT_NONE || r->label_end != 0))
            fail(name, "a report of a label that cannot be");
        if (is_label && i + 1 < a.report_count && (r[1].message != r->message || r[1].mark <= r->mark))
            fail(name, "the reports of labels are not the last ones, in order");
        if (is_label && keeps_rule(bytes, r->start, r->end))
            fail(name, "a report of a label that keeps the rule");
    }
}

/* A report's part of the pool follows that of the one before it, and lists each expectation once. */
static void check_lists(const char *name, const struct dt_report_row *reports, const uint32_t *pool, struct dt_answer a)
{
    size_t first = 0;
    for (size_t i = 0; i < a.report_count; i++) {
        const uint32_t *codes = pool + first, count = reports[i].pool_count;
        if (reports[i].pool_first != first || count > DT_MAX_EXPECTATIONS || count > a.expectation_count - first)
            fail(name, "not the report's part of the pool");
        for (uint32_t k = 1; k < count; k++)
            for (uint32_t before = 0; before < k; before++)
                if (codes[before] == codes[k])
                    fail(name, "an expectation twice in one report");
        first += count;
    }
    if (first != a.expectation_count)
        fail(name, "expectations of no report");
}

/* Number, place, counts and buffers agree with one another and with the early causes. Gives the answer. */
static struct dt_answer checked(const char *name, uint32_t entry, const uint8_t *bytes, size_t n,
                                const uint32_t *tokens, size_t t, struct buffer *b)
{
    size_t place, used[BUFFERS];
    uint32_t number = early(entry, n, tokens, t, &place), setting = random_setting();
    struct dt_answer a = call(entry, setting, bytes, n, tokens, t, b);
    counted(a, used);
    if (number ? a.number != number || a.place != place : is_early(a.number))
        fail(name, "not the refusal of causes 1 to 3 and 11 to 13");
    if (a.number >= ANSWERS || a.number == DT_REFUSAL_HIGH_BYTE || a.number == DT_REFUSAL_DIRECTIVE ||
        (a.number == DT_ACCEPTED && a.place != 0))
        fail(name, "a number or a place that there is not");
    if (a.number && (a.tree_count || a.error_count || a.report_count || a.expectation_count))
        fail(name, "a refused call that counts something");
    if (a.number == DT_ACCEPTED) {
        check_labels(name, setting, (const struct dt_report_row *)b[REPORTS].numbers, a, bytes, n);
        check_lists(name, (const struct dt_report_row *)b[REPORTS].numbers, b[POOL].numbers, a);
        check_tree(name, b[TREES].numbers, a.tree_count, n);
    }
    for (int i = 0; i < BUFFERS; i++) {
        int left = b[i].length > used[i] && (is_early(a.number) || a.number == DT_REFUSAL_BAD_TEXT);
        if (used[i] > b[i].length || rest(b[i], used[i]) != left)
            fail(name, "a buffer does not hold what it should");
        give_back(name, b[i]);
    }
    return a;
}

/* Random rows; sometimes another entry. */
static void random_call(size_t *met, size_t *short_totals)
{
    struct random_rows in = random_rows();
    uint32_t entry = below(20) ? DT_ENTRY_SOURCE_FILE + below(DT_ENTRY_CELLS) : below(7);
    struct buffer b[BUFFERS];
    for (int i = 0; i < BUFFERS; i++)
        b[i] = lend(random_length());
    struct dt_answer a = checked("garbage", entry, in.bytes, in.n, (const uint32_t *)in.rows, in.t, b);
    met[a.number]++;
    *short_totals += a.number == DT_REFUSAL_BAD_END && a.place == in.t / DT_ROW_TOKEN;
}

/* Adds a piece of a text: what tokens and directives are made of, or bytes. */
static size_t add_piece(uint8_t *bytes, size_t n, size_t most)
{
    static const char *const PIECES[] = {
        "#", "if", "elif", "endif", "include", "#define", "#undef", " ", "\t", "\n", "\r\n", "\r", "\\", "\\\n",
        "\"", "'", "/*", "*/", "//", "/", "*", "[", "]", "a", "ab-c", "a,b", "_", "&", "&&", "0", "0x", "0b1", "1u",
        "1ul8", "7_", "<", "<<", ">=", "(", ")", "{", "}", "{ };", ";", "=", "a = <1 2>;", "\"s\"", ":", "@", "!", "?",
        "/dts-v1/", "/dts-v1", "/bits/ 8", "/delete-node/", "/include/", "/plugin/;", "b { c; };", "#a-cells = <1>;",
    };
    if (below(4) == 0) {
        bytes[n] = (uint8_t)below(below(30) ? 128 : 256);
        return n + 1;
    }
    const char *piece = PIECES[below(sizeof PIECES / sizeof *PIECES)];
    size_t length = strlen(piece);
    if (length > most - n)
        length = most - n;
    memcpy(bytes + n, piece, length);
    return n + length;
}

/* A text in buffers of random lengths; that of the tokens is often just enough, or one number less or more. */
static void random_text(size_t *met)
{
    enum { MOST = 64 };
    uint8_t bytes[MOST];
    struct text t = {"random text", DT_ENTRY_SOURCE_FILE + below(DT_ENTRY_CELLS), random_setting(), bytes, 0};
    size_t most = below(MOST + 1), lengths[TEXT_BUFFERS];
    while (t.n < most)
        t.n = add_piece(bytes, t.n, most);
    if (below(20) == 0)
        t.entry = below(7);
    for (int i = 0; i < BUFFERS; i++)
        lengths[i] = random_length();
    lengths[TOKENS] = DT_TOKENS_FOR(t.n) + below(3);
    struct dt_text_answer a = checked_text(&t, lengths);
    met[a.answer.number]++;
    if (a.answer.number == DT_ACCEPTED && below(4) == 0) {
        size_t numbers = DT_ROW_TOKEN * a.token_count;
        lengths[TOKENS] = below(2) && numbers > 0 ? below((uint32_t)numbers) : numbers + below(3);
        met[checked_text(&t, lengths).answer.number]++;
    }
}

static void lend_little(struct buffer *b, size_t trees)
{
    for (int i = 0; i < BUFFERS; i++)
        b[i] = lend(i == TREES ? trees : 12);
}

static void expect(const char *name, uint32_t found, uint32_t number)
{
    if (found != number)
        fail(name, "another number");
    printf("%s: %u\n", name, number);
}

/* One call of a source file with little room. */
static void expect_call(const char *name, const uint8_t *bytes, size_t n, const uint32_t *tokens, size_t t,
                        size_t trees, uint32_t number, size_t place)
{
    struct buffer b[BUFFERS];
    lend_little(b, trees);
    struct dt_answer a = checked(name, DT_ENTRY_SOURCE_FILE, bytes, n, tokens, t, b);
    if (a.place != place)
        fail(name, "another place");
    expect(name, a.number, number);
}

/* One comment of as many bytes as a call may have, of one more, and of more than there are. */
static void byte_limit(void)
{
    enum { OVER = DT_MAX_BYTES + 1, ONE = DT_ROW_TOKEN, TREE = 2 * DT_ROW_TREE };
    const uint32_t most[ONE] = {DT_TOKEN_BLOCK_COMMENT, DT_MAX_BYTES}, over[ONE] = {DT_TOKEN_BLOCK_COMMENT, OVER};
    uint8_t *bytes = calloc(OVER, 1);
    expect_call("1,048,576 bytes", bytes, DT_MAX_BYTES, most, ONE, TREE, DT_ACCEPTED, 0);
    expect_call("1,048,577 bytes", bytes, OVER, over, ONE, TREE, DT_REFUSAL_TOO_LONG, 0);
    expect_call("1,048,576 bytes, a token of one more", bytes, DT_MAX_BYTES, over, ONE, TREE, DT_REFUSAL_BAD_END, 0);
    free(bytes);
}

/* Blanks of one byte each: as many rows as a call may have, and one more; then the last of them or the count of numbers
   wrong. */
static void row_limit(void)
{
    enum { MOST = DT_MAX_TOKEN_NUMBERS / DT_ROW_TOKEN, OVER = MOST + 1, TREE = DT_ROW_TREE * (MOST + 1) };
    enum { NUMBERS = DT_ROW_TOKEN * MOST, LAST = MOST - 1 };
    uint8_t *bytes = calloc(OVER, 1);
    struct dt_token_row *rows = calloc(OVER, sizeof *rows);
    const uint32_t *tokens = (const uint32_t *)rows;
    for (size_t i = 0; i < OVER; i++)
        rows[i] = (struct dt_token_row){DT_TOKEN_WHITESPACE, 1};
    expect_call("65,536 blanks", bytes, MOST, tokens, NUMBERS, TREE, DT_ACCEPTED, 0);
    expect_call("65,536 blanks, one number of the tree fewer", bytes, MOST, tokens, NUMBERS, TREE - 1,
                DT_REFUSAL_NO_TREE_ROOM, 0);
    expect_call("65,537 blanks", bytes, OVER, tokens, DT_ROW_TOKEN * OVER, TREE, DT_REFUSAL_TOO_LONG, 0);
    expect_call("131,073 numbers", bytes, MOST, tokens, NUMBERS + 1, TREE, DT_REFUSAL_TOO_LONG, 0);
    expect_call("131,071 numbers", bytes, MOST, tokens, NUMBERS - 1, TREE, DT_REFUSAL_ODD_COUNT, LAST);
    expect_call("65,536 blanks over one byte more", bytes, OVER, tokens, NUMBERS, TREE, DT_REFUSAL_BAD_END, MOST);
    expect_call("65,536 blanks over one byte fewer", bytes, LAST, tokens, NUMBERS, TREE, DT_REFUSAL_BAD_END, LAST);
    rows[LAST].length = 0;
    expect_call("the last of no bytes", bytes, LAST, tokens, NUMBERS, TREE, DT_REFUSAL_ZERO_LENGTH, LAST);
    rows[LAST].kind = DT_TOKEN_NAME;
    expect_call("and a Name", bytes, LAST, tokens, NUMBERS, TREE, DT_REFUSAL_BAD_KIND, LAST);
    free(rows);
    free(bytes);
}

/* So many conditionals in cells, one inside the other, and a `;` that ends them all, in buffers that suffice. */
static void expect_conditionals(const char *name, uint32_t count, uint32_t number, size_t place)
{
    enum { MOST = DT_MAX_OPEN_CALLS + 1 };
    static const size_t lengths[BUFFERS] = {DT_EVENTS_FOR(MOST), DT_TREES_FOR(MOST), DT_ERRORS_FOR(MOST),
                                            DT_REPORTS_FOR(MOST), DT_POOL_FOR(MOST)};
    struct dt_token_row rows[MOST];
    uint8_t bytes[MOST];
    struct buffer b[BUFFERS];
    for (uint32_t i = 0; i <= count; i++) {
        rows[i] = (struct dt_token_row){i < count ? DT_TOKEN_IF_DIRECTIVE : DT_TOKEN_SEMICOLON, 1};
        bytes[i] = ';';
    }
    lend_all(b, lengths, BUFFERS);
    struct dt_answer a =
        checked(name, DT_ENTRY_CELLS, bytes, count + 1, (const uint32_t *)rows, DT_ROW_TOKEN * (count + 1), b);
    if (a.place != place)
        fail(name, "another place");
    expect(name, a.number, number);
}

/* Each level has the same expected again, and none of it is pending twice: only open calls are limited. */
static void conditionals(void)
{
    expect_conditionals("50 conditionals", 50, DT_ACCEPTED, 0);
    expect_conditionals("51 conditionals", 51, DT_ACCEPTED, 0);
    expect_conditionals("63 conditionals", 63, DT_ACCEPTED, 0);
    expect_conditionals("64 conditionals", 64, DT_REFUSAL_TOO_DEEP, 64);
}

/* The order of causes, and sums that are exact where 32 bits would wrap. */
static void row_causes(void)
{
    enum { TREE = 3 * DT_ROW_TREE };
    static const uint8_t bytes[] = "ab";
    const uint32_t odd[] = {99, 0, 27}, kind[] = {27, 1, 26, 0}, zero[] = {27, 2, 27, 0, 26, 1};
    const uint32_t wraps[] = {27, 1, 27, 4294967295u, 27, 2}, shorter[] = {29, 1}, text[] = {29, 1, 27, 1};
    expect_call("99, 0, 27 over one byte", bytes, 1, odd, 3, TREE, DT_REFUSAL_ODD_COUNT, 1);
    expect_call("a bad kind of length 0", bytes, 1, kind, 4, TREE, DT_REFUSAL_BAD_KIND, 1);
    expect_call("length 0 before a bad kind", bytes, 2, zero, 6, TREE, DT_REFUSAL_ZERO_LENGTH, 1);
    expect_call("lengths 1, 2^32 - 1, 2 over two bytes", bytes, 2, wraps, 6, TREE, DT_REFUSAL_BAD_END, 1);
    expect_call("a short total, and another text", bytes, 2, shorter, 2, TREE, DT_REFUSAL_BAD_END, 1);
    expect_call("no rows over one byte", bytes, 1, NULL, 0, TREE, DT_REFUSAL_BAD_END, 0);
    expect_call("another text", bytes, 2, text, 4, TREE, DT_REFUSAL_BAD_TEXT, 0);
}

/* A piece so often, its last byte exchanged for another unless that is 0; with so much room for tokens and the tree. */
static void expect_text(const char *name, const char *piece, size_t times, uint8_t last, size_t tokens, size_t trees,
                        uint32_t number)
{
    size_t size = strlen(piece), n = size * times;
    uint8_t *bytes = malloc(n);
    struct text t = {name, DT_ENTRY_SOURCE_FILE, DT_SETTING_OLD, bytes, n};
    const size_t lengths[TEXT_BUFFERS] = {1024, trees, 12, 12, 1024, tokens};
    for (size_t i = 0; i < n; i++)
        bytes[i] = (uint8_t)piece[i % size];
    if (last)
        bytes[n - 1] = last;
    expect(name, checked_text(&t, lengths).answer.number, number);
    free(bytes);
}

/* Blanks are one token, and comments one each: as many bytes and tokens as a text may have, and one more. 2 for bytes
   comes before 9, and 9 before 2 for token numbers. Cells in brackets nest: the tokens are known, and yet cleared. */
static void text_limits(void)
{
    enum { ONE = DT_ROW_TOKEN, BYTES = DT_MAX_BYTES, NUMBERS = DT_MAX_TOKEN_NUMBERS, ROWS = NUMBERS / DT_ROW_TOKEN };
    enum { SMALL = 2 * DT_ROW_TREE, TREE = DT_ROW_TREE * (ROWS + 1), HIGH = 128 };
    expect_text("a text of 1,048,576 blanks", " ", BYTES, 0, ONE, SMALL, DT_ACCEPTED);
    expect_text("a text of 1,048,577 blanks", " ", BYTES + 1, 0, ONE, SMALL, DT_REFUSAL_TOO_LONG);
    expect_text("the same, the last a byte of 128", " ", BYTES + 1, HIGH, ONE, SMALL, DT_REFUSAL_TOO_LONG);
    expect_text("a text of 1,048,576 bytes, the last of 128", " ", BYTES, HIGH, ONE, SMALL, DT_REFUSAL_HIGH_BYTE);
    expect_text("a text of 65,536 comments", "/**/", ROWS, 0, NUMBERS, TREE, DT_ACCEPTED);
    expect_text("the same, one token number fewer", "/**/", ROWS, 0, NUMBERS - 1, TREE, DT_REFUSAL_TOO_LONG);
    expect_text("the same, one number of the tree fewer", "/**/", ROWS, 0, NUMBERS, TREE - 1, DT_REFUSAL_NO_TREE_ROOM);
    expect_text("a text of 65,537 comments", "/**/", ROWS + 1, 0, NUMBERS + 2, TREE + DT_ROW_TREE, DT_REFUSAL_TOO_LONG);
    expect_text("the same, the last a byte of 128", "/**/", ROWS + 1, HIGH, NUMBERS + 2, TREE, DT_REFUSAL_HIGH_BYTE);
    expect_text("a token without room for it", ",", 1, 0, 0, SMALL, DT_REFUSAL_TOO_LONG);
    expect_text("a text of 65 open nodes", "a{", 65, 0, NUMBERS, TREE, DT_REFUSAL_TOO_DEEP);
}

static void print_met(const char *what, const size_t *met, int count)
{
    printf("%s:", what);
    for (int i = 0; i < count; i++)
        printf(" %d: %zu", i, met[i]);
    printf("\n");
}

int main(int argc, char **argv)
{
    const int count = argc == 2 ? atoi(argv[1]) : 0;
    size_t met[ANSWERS] = {0}, met_by_text[TEXT_ANSWERS] = {0}, short_totals = 0;
    byte_limit();
    row_limit();
    conditionals();
    row_causes();
    text_limits();
    for (int i = 0; i < count; i++)
        random_call(met, &short_totals);
    print_met("calls with random numbers", met, ANSWERS);
    printf("of 13 for a short total: %zu\n", short_totals);
    for (uint32_t i = 0; i < ANSWERS; i++)
        if (is_early(i) && i != DT_REFUSAL_TOO_LONG && met[i] == 0)
            fail("random numbers", "a cause was never met");
    if (short_totals == 0 || short_totals == met[DT_REFUSAL_BAD_END])
        fail("random numbers", "only one of the two causes of 13 was met");
    for (int i = 0; i < count; i++)
        random_text(met_by_text);
    print_met("random texts, some in several lengths of the token buffer", met_by_text, TEXT_ANSWERS);
    return 0;
}
