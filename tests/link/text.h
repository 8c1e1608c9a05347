/* Calls with a text: what must hold of each, worked out here from the header's words. Which tokens a text has is not
   known here: they must be the text when joined, and dt_parse must give for them what the text's call gave. */
#include "tree.h"

/* A call with a text. */
struct text {
    const char *name;
    uint32_t entry;
    uint32_t setting;
    const uint8_t *bytes;
    size_t n;
};

static struct dt_text_answer call_text(const struct text *t, struct buffer *b)
{
    return dt_parse_text(t->entry, t->setting, t->bytes, t->n, b[TOKENS].numbers, b[TOKENS].length, b[EVENTS].numbers,
                         b[EVENTS].length, b[TREES].numbers, b[TREES].length, b[ERRORS].numbers, b[ERRORS].length,
                         b[REPORTS].numbers, b[REPORTS].length, b[POOL].numbers, b[POOL].length);
}

static size_t first_high_byte(const uint8_t *bytes, size_t n)
{
    size_t i = 0;
    while (i < n && bytes[i] < 128)
        i++;
    return i;
}

/* Whether bytes begin like a directive. */
static int begins_directive(const uint8_t *bytes, size_t n)
{
    static const char *const WORDS[] = {"if", "elif", "else", "endif", "pragma", "define", "undef", "include", "error"};
    size_t i = 1;
    if (n == 0 || bytes[0] != '#')
        return 0;
    while (i < n && (bytes[i] == ' ' || bytes[i] == '\t'))
        i++;
    for (size_t w = 0; w < sizeof WORDS / sizeof *WORDS; w++)
        if (n - i >= strlen(WORDS[w]) && memcmp(bytes + i, WORDS[w], strlen(WORDS[w])) == 0)
            return 1;
    return 0;
}

/* The call of an entry that nests nothing, in buffers that are large enough but for tokens: its number, and the token
   rows in b[TOKENS], which the caller gives back. */
static struct dt_text_answer read_tokens(const struct text *t, size_t room, struct buffer *b)
{
    struct text plain = {t->name, DT_ENTRY_REFERENCE_NOAMP, DT_SETTING_OLD, t->bytes, t->n};
    size_t lengths[TEXT_BUFFERS] = {64, 64, 64, 64, 64, room};
    for (;;) {
        lend_all(b, lengths, TEXT_BUFFERS);
        struct dt_text_answer a = call_text(&plain, b);
        for (int i = 0; i < BUFFERS; i++)
            give_back(t->name, b[i]);
        if (!is_cleared(a.answer.number))
            return a;
        if (a.answer.number == DT_REFUSAL_TOO_DEEP)
            fail(t->name, "a reference that nests");
        give_back(t->name, b[TOKENS]);
        for (int i = 0; i < BUFFERS; i++)
            lengths[i] *= 2;
    }
}

/* Refusals 9 and 10 are at a place where they can be, and not later than they must. */
static void check_place(const struct text *t, uint32_t number, size_t place)
{
    size_t high = first_high_byte(t->bytes, t->n);
    struct text before = {t->name, t->entry, t->setting, t->bytes, place};
    struct buffer b[TEXT_BUFFERS];
    if (number == DT_REFUSAL_HIGH_BYTE ? place != high || high == t->n
                                       : place >= high || !begins_directive(t->bytes + place, t->n - place))
        fail(t->name, "refused with 9 or 10 at another place");
    if (read_tokens(&before, DT_TOKENS_FOR(place), b).answer.number > DT_REFUSAL_TOO_LONG)
        fail(t->name, "refused with 9 or 10, and there is one before");
    give_back(t->name, b[TOKENS]);
}

/* The rows are the text when joined, none is of a directive, and none starts like one. */
static void check_tokens(const struct text *t, const struct dt_token_row *rows, size_t count)
{
    size_t end = 0;
    for (size_t i = 0; i < count; end += rows[i].length, i++) {
        uint32_t kind = rows[i].kind;
        if (rows[i].length == 0 || rows[i].length > t->n - end)
            fail(t->name, "a token without bytes, or past the text");
        if ((kind >= DT_TOKEN_IF_DIRECTIVE && kind <= DT_TOKEN_ERROR_DIRECTIVE) ||
            begins_directive(t->bytes + end, t->n - end))
            fail(t->name, "a directive among the tokens");
        if (kind == DT_LEX_ERROR_DEFAULT && rows[i].length != 1)
            fail(t->name, "a default error that has not one byte");
    }
    if (end != t->n)
        fail(t->name, "the tokens are not the text");
}

/* The tokens by themselves, in buffers of the same lengths, have the same answer, and leave the same in them. */
static void check_parse(const struct text *t, const uint32_t *tokens, size_t numbers, struct dt_answer a,
                        const struct buffer *left)
{
    struct buffer b[BUFFERS];
    for (int i = 0; i < BUFFERS; i++)
        b[i] = lend(left[i].length);
    struct dt_answer of_rows = call(t->entry, t->setting, t->bytes, t->n, tokens, numbers, b);
    if (!are_same_answers(of_rows, a))
        fail(t->name, "the tokens have another answer");
    for (int i = 0; i < BUFFERS; i++)
        if (!are_same(b[i], left[i]))
            fail(t->name, "the tokens leave other numbers in a buffer");
    give_all_back(t->name, b, BUFFERS);
}

/* 1, and 2 for bytes; DT_ACCEPTED where neither is met. */
static uint32_t early_of_text(const struct text *t)
{
    if (t->entry < DT_ENTRY_SOURCE_FILE || t->entry > DT_ENTRY_CELLS)
        return DT_REFUSAL_UNKNOWN_ENTRY;
    return t->n > DT_MAX_BYTES ? DT_REFUSAL_TOO_LONG : DT_ACCEPTED;
}

/* What each buffer holds: 1, 2, 9 and 10 leave it, 5 to 8 clear it, and accepted rows have zeros after them. */
static void check_buffers(const struct text *t, struct dt_text_answer a, const struct buffer *b)
{
    uint32_t number = a.answer.number;
    int is_parsed = number == DT_ACCEPTED || is_cleared(number);
    size_t used[TEXT_BUFFERS];
    counted(a.answer, used);
    used[TOKENS] = a.token_count * DT_ROW_TOKEN;
    for (int i = 0; i < TEXT_BUFFERS; i++) {
        if (used[i] > b[i].length || rest(b[i], used[i]) != (b[i].length > used[i] && !is_parsed))
            fail(t->name, "a buffer does not hold what it should");
        if (number && used[i])
            fail(t->name, "a refused text that counts something");
    }
}

/* What follows from the tokens of a text that is neither too long nor refused with 9 or 10. */
static void check_parsed(const struct text *t, struct dt_text_answer a, const struct buffer *b)
{
    struct buffer own[TEXT_BUFFERS];
    struct dt_text_answer read = read_tokens(t, DT_TOKENS_FOR(t->n), own);
    size_t numbers = read.token_count * DT_ROW_TOKEN;
    int is_too_long = read.answer.number == DT_REFUSAL_TOO_LONG || numbers > b[TOKENS].length;
    if (read.answer.number && !is_too_long)
        fail(t->name, "another refusal in buffers that are large enough");
    if (is_too_long != (a.answer.number == DT_REFUSAL_TOO_LONG))
        fail(t->name, "not refused with 2 for its token numbers, or without need");
    if (!is_too_long) {
        check_tokens(t, (const struct dt_token_row *)own[TOKENS].numbers, read.token_count);
        check_parse(t, own[TOKENS].numbers, numbers, a.answer, b);
    }
    if (a.answer.number == DT_ACCEPTED)
        check_tree(t->name, b[TREES].numbers, a.answer.tree_count, t->n);
    if (a.answer.number == DT_ACCEPTED && (a.token_count != read.token_count ||
                                           memcmp(b[TOKENS].numbers, own[TOKENS].numbers, numbers * sizeof(uint32_t))))
        fail(t->name, "other tokens than for another entry");
    give_back(t->name, own[TOKENS]);
}

/* One call in buffers of these lengths, checked. Gives the answer. */
static struct dt_text_answer checked_text(const struct text *t, const size_t *lengths)
{
    struct buffer b[TEXT_BUFFERS];
    lend_all(b, lengths, TEXT_BUFFERS);
    struct dt_text_answer a = call_text(t, b);
    uint32_t number = a.answer.number, early = early_of_text(t);
    if (early ? number != early : number == DT_REFUSAL_UNKNOWN_ENTRY)
        fail(t->name, "not the refusal 1, or 2 for bytes");
    if (number > DT_REFUSAL_DIRECTIVE || number == DT_REFUSAL_ODD_COUNT || number == DT_REFUSAL_BAD_TEXT)
        fail(t->name, "a number that a text cannot have");
    if (number <= DT_REFUSAL_TOO_LONG && a.answer.place != 0)
        fail(t->name, "a place that there is not");
    check_buffers(t, a, b);
    if (number == DT_REFUSAL_HIGH_BYTE || number == DT_REFUSAL_DIRECTIVE)
        check_place(t, number, a.answer.place);
    else if (!early && first_high_byte(t->bytes, t->n) < t->n)
        fail(t->name, "a byte of 128 or more is not refused");
    else if (!early)
        check_parsed(t, a, b);
    give_all_back(t->name, b, TEXT_BUFFERS);
    return a;
}
