/* As faults.c: 31 to 60 and 170, of dt_parse_text. The real call is dt_parse_text_good. */
#include "../../../include/dt_parser.h"
#include "fault.h"
#include <string.h>

enum { HIGH_BYTE = 9, DIRECTIVE = 10 };

struct text_answer {
    struct dt_answer answer;
    size_t token_count;
};

struct buffer {
    uint32_t *numbers;
    size_t len;
};

/* A call: the text, and its buffers as they are lent. */
struct text_call {
    uint32_t entry, setting;
    const uint8_t *bytes;
    size_t bytes_len;
    struct buffer tokens, events, trees, errors, reports, pool;
};

typedef struct text_answer parse_text(uint32_t entry, uint32_t setting, const uint8_t *bytes, size_t bytes_len,
                                      uint32_t *tokens, size_t tokens_len, uint32_t *events, size_t events_len,
                                      uint32_t *trees, size_t trees_len, uint32_t *errors, size_t errors_len,
                                      uint32_t *reports, size_t reports_len, uint32_t *pool, size_t pool_len);

/* By their names in the library alone: the header's declaration is not used. */
extern parse_text good_text __asm__("dt_parse_text_good");
extern parse_text faulty_text __asm__("dt_parse_text");

static struct text_answer good(const struct text_call *c)
{
    return good_text(c->entry, c->setting, c->bytes, c->bytes_len, c->tokens.numbers, c->tokens.len,
                     c->events.numbers, c->events.len, c->trees.numbers, c->trees.len, c->errors.numbers,
                     c->errors.len, c->reports.numbers, c->reports.len, c->pool.numbers, c->pool.len);
}

static struct text_answer refused(uint32_t number, size_t place)
{
    struct text_answer a;
    memset(&a, 0, sizeof a);
    a.answer.number = number;
    a.answer.place = place;
    return a;
}

static int is_zeroing(uint32_t number)
{
    return DT_REFUSAL_TOO_DEEP <= number && number <= DT_REFUSAL_NO_TREE_ROOM;
}

static int is_word(uint8_t b)
{
    return ('a' <= b && b <= 'z') || ('A' <= b && b <= 'Z') || ('0' <= b && b <= '9') || b == '_';
}

/* The first byte of 128 or more, or the end. */
static size_t high_byte(const struct text_call *c)
{
    size_t i = 0;
    while (i < c->bytes_len && c->bytes[i] < 128)
        i++;
    return i;
}

/* The byte after a directive's # and blanks. */
static size_t word_after(const struct text_call *c, size_t at)
{
    for (at++; at < c->bytes_len && (c->bytes[at] == ' ' || c->bytes[at] == '\t'); at++)
        ;
    return at;
}

/* Faults of reading: the text is given to the library as it is taken for. Returns a copy to be freed. */
static uint8_t *misread(const struct text_call *c)
{
    uint8_t *b = malloc(c->bytes_len + 1);
    size_t n = c->bytes_len;
    int comment = 0;
    if (n)
        memcpy(b, c->bytes, n);
    for (size_t i = 0; i + 1 < n; i++) {
        switch (fault()) {
        case 31: /* a line comment goes on after CR */
            comment = (comment || (b[i] == '/' && b[i + 1] == '/')) && b[i] != '\n';
            if (comment && b[i] == '\r')
                b[i] = 'r';
            break;
        case 32: /* a backslash and CR are a line end */
            if (b[i] == '\\' && b[i + 1] == '\r')
                b[i + 1] = '\n';
            break;
        case 33: /* 0X is no prefix */
            if (b[i] == '0' && b[i + 1] == 'X')
                b[i + 1] = 'Z';
            break;
        case 34: /* an escaped quote ends a string */
            if (b[i] == '\\' && b[i + 1] == '"')
                b[i] = 'a';
            break;
        case 35: /* no tab between # and a directive's word */
            if (b[i] == '#' && b[i + 1] == '\t')
                b[i + 1] = '\n';
            break;
        case 38: /* a directive in a comment */
            if (b[i] == '/' && b[i + 1] == '*' && i + 2 < n && b[i + 2] == '#')
                b[i] = b[i + 1] = ' ';
            break;
        }
    }
    return b;
}

/* The call again, with another byte at a place. */
static struct text_answer with_byte(const struct text_call *c, size_t at, uint8_t byte)
{
    struct text_call other = *c;
    uint8_t *b = malloc(c->bytes_len + 1);
    struct text_answer a;
    memcpy(b, c->bytes, c->bytes_len);
    b[at] = byte;
    other.bytes = b;
    a = good(&other);
    free(b);
    return a;
}

/* Faults of a text that is refused with 9 or 10. */
static struct text_answer damaged_place(const struct text_call *c, struct text_answer a)
{
    static const struct buffer none;
    size_t at = a.answer.place, high = high_byte(c), word, end;
    int of_byte = a.answer.number == HIGH_BYTE;
    switch (fault()) {
    case 36: /* a directive's word ends */
        if (of_byte)
            break;
        word = end = word_after(c, at);
        while (end < c->bytes_len && is_word(c->bytes[end]))
            end++;
        return end - word > 7 ? with_byte(c, at, 'a') : a;
    case 37: /* a directive only at the start of a line */
        return !of_byte && at && c->bytes[at - 1] != '\n' ? with_byte(c, at, 'a') : a;
    case 39: /* 9 before 10 */
        return !of_byte && high < c->bytes_len ? refused(HIGH_BYTE, high) : a;
    case 40: /* 10 before 9: it is asked for without buffers, so that nothing is written */
        if (of_byte) {
            struct text_call bare = {c->entry, c->setting, c->bytes, c->bytes_len, none, none, none, none, none, none};
            struct text_answer other = with_byte(&bare, at, 'a');
            return other.answer.number == DIRECTIVE ? other : a;
        }
        break;
    case 41: /* 9 not in strings */
        return of_byte && memchr(c->bytes, '"', at) ? with_byte(c, at, 'a') : a;
    case 42: /* 128 is allowed */
        return of_byte && c->bytes[at] == 128 ? with_byte(c, at, 'a') : a;
    case 45: /* 2 for token numbers before 9 and 10 */
        return c->tokens.len < 2 ? refused(DT_REFUSAL_TOO_LONG, 0) : a;
    case 51: /* a buffer of the parse not as it was */
        if (c->trees.len)
            c->trees.numbers[0] = 0;
        break;
    case 55: /* the place of 9 */
        a.answer.place += of_byte && at > 3;
        break;
    case 56: /* the place of 10 is the word's */
        a.answer.place = of_byte ? at : word_after(c, at);
        break;
    }
    return a;
}

/* Faults of sizes. */
static struct text_answer damaged_size(const struct text_call *c, struct text_answer a)
{
    struct text_call more = *c;
    switch (fault()) {
    case 43: /* a byte fewer is allowed */
        return c->bytes_len == DT_MAX_BYTES ? refused(DT_REFUSAL_TOO_LONG, 0) : a;
    case 44: /* a token fewer is allowed */
        if (c->bytes_len == DT_MAX_TOKEN_NUMBERS / DT_ROW_TOKEN &&
            (a.answer.number == DT_ACCEPTED || is_zeroing(a.answer.number)))
            return refused(DT_REFUSAL_TOO_LONG, 0);
        break;
    case 46: /* 2 for bytes after 9 */
        if (c->bytes_len > DT_MAX_BYTES && high_byte(c) < c->bytes_len && a.answer.number == DT_REFUSAL_TOO_LONG)
            return refused(HIGH_BYTE, high_byte(c));
        break;
    case 47: /* a row is written that is cut short */
        more.tokens.len += c->tokens.len % DT_ROW_TOKEN;
        return a.answer.number == DT_REFUSAL_TOO_LONG && more.tokens.len > c->tokens.len ? good(&more) : a;
    }
    return a;
}

/* Faults of what the text and the parse's buffers hold. */
static void damage_others(const struct text_call *c, const struct text_answer *a)
{
    switch (fault()) {
    case 52: /* events not zero at 5 to 8 */
        if (is_zeroing(a->answer.number) && c->events.len)
            c->events.numbers[c->events.len - 1] = 1;
        break;
    case 60: /* the text is written */
        if (c->bytes_len > 4)
            ((uint8_t *)c->bytes)[4] |= 32;
        break;
    case 170: /* no parents in the tree of a text */
        for (size_t i = 0; i < a->answer.tree_count; i++)
            c->trees.numbers[DT_ROW_TREE * i + DT_COL_TREE_PARENT] = 0;
        break;
    }
}

/* Faults of counts and of what the token buffer holds. */
static struct text_answer damaged_rows(const struct text_call *c, struct text_answer a)
{
    uint32_t *tokens = c->tokens.numbers;
    uint32_t number = a.answer.number;
    int accepted = number == DT_ACCEPTED;
    switch (fault()) {
    case 48: /* the token buffer not zero at 5 to 8 */
        if (is_zeroing(number) && c->tokens.len)
            tokens[0] = 1;
        break;
    case 49: /* its rest not zero */
        if (accepted && c->tokens.len > DT_ROW_TOKEN * a.token_count)
            tokens[c->tokens.len - 1] = 7;
        break;
    case 50: /* not as it was */
        if (!accepted && !is_zeroing(number) && c->tokens.len)
            tokens[0] = 0;
        break;
    case 53: /* a count of a refused call */
        a.token_count += number == DT_REFUSAL_NO_EVENT_ROOM;
        break;
    case 54: /* a count */
        a.token_count -= a.token_count > 10;
        break;
    case 58: /* a number past the token buffer */
        if (accepted && a.token_count > 2)
            tokens[c->tokens.len] = 0;
        break;
    case 59: /* two rows that are cut otherwise */
        if (accepted && a.token_count > 1 && tokens[3] > 1) {
            tokens[1]++;
            tokens[3]--;
        }
        break;
    }
    return a;
}

struct text_answer faulty_text(uint32_t entry, uint32_t setting, const uint8_t *bytes, size_t bytes_len,
                               uint32_t *tokens, size_t tokens_len, uint32_t *events, size_t events_len,
                               uint32_t *trees, size_t trees_len, uint32_t *errors, size_t errors_len,
                               uint32_t *reports, size_t reports_len, uint32_t *pool, size_t pool_len)
{
    struct text_call c = {entry, setting, bytes, bytes_len, {tokens, tokens_len}, {events, events_len},
                          {trees, trees_len}, {errors, errors_len}, {reports, reports_len}, {pool, pool_len}};
    struct text_answer a;
    uint8_t *copy = misread(&c);
    c.bytes = copy;
    if (fault() == 57)
        c.entry &= 255; /* a cut number */
    a = good(&c);
    c.bytes = bytes;
    free(copy);
    if (a.answer.number == HIGH_BYTE || a.answer.number == DIRECTIVE)
        a = damaged_place(&c, a);
    a = damaged_rows(&c, damaged_size(&c, a));
    damage_others(&c, &a);
    return a;
}
