/* Faults 143 to 152, of each expectation once. The library has no repeats to give, so a fault is put in where it is
 * known that something was pushed again: between two reports at one mark that list the same. */
#include <string.h>

enum { OLD_LIMIT = 51, BIT_SET = 63 };

/* An accepted call: its input, and what is said of its reports. */
struct lists {
    struct dt_answer *answer;
    uint32_t entry;
    const struct dt_token_row *tokens;
    size_t token_count;
    const struct dt_tree_row *trees;
    struct dt_report_row *reports;
    uint32_t *pool;
    size_t pool_len;
};

/* The last report that lists the same as the one before it, at the same mark; 0 if there is none. What is pending there
 * begins with what was pending before, so that equal counts are equal lists. */
static size_t pushed_again(const struct lists *l)
{
    for (size_t i = l->answer->report_count; i-- > 1;) {
        const struct dt_report_row *r = l->reports + i;
        if (r->pool_count > 1 && r->message == r[-1].message && r->mark == r[-1].mark &&
            r->pool_count == r[-1].pool_count)
            return i;
    }
    return 0;
}

static void insert_code(const struct lists *l, size_t report, uint32_t at, uint32_t code)
{
    size_t place = l->reports[report].pool_first + at;
    if (l->answer->expectation_count == l->pool_len)
        return;
    memmove(l->pool + place + 1, l->pool + place, (l->answer->expectation_count - place) * sizeof code);
    l->pool[place] = code;
    l->answer->expectation_count++;
    l->reports[report].pool_count++;
    for (size_t i = report + 1; i < l->answer->report_count; i++)
        l->reports[i].pool_first++;
}

static void remove_code(const struct lists *l, size_t report, uint32_t at)
{
    size_t place = l->reports[report].pool_first + at;
    l->answer->expectation_count--;
    memmove(l->pool + place, l->pool + place + 1, (l->answer->expectation_count - place) * sizeof *l->pool);
    l->pool[l->answer->expectation_count] = 0;
    l->reports[report].pool_count--;
    for (size_t i = report + 1; i < l->answer->report_count; i++)
        l->reports[i].pool_first--;
}

/* Codes in a 64-bit set by their low six bits: 101 is there where 37 is. */
static void drop_by_low_bits(const struct lists *l, size_t report)
{
    const struct dt_report_row *r = l->reports + report;
    for (uint32_t i = 0; i < r->pool_count; i++)
        for (uint32_t k = i + 1; k < r->pool_count; k++)
            if ((l->pool[r->pool_first + i] & BIT_SET) == (l->pool[r->pool_first + k] & BIT_SET))
                remove_code(l, report, k--);
}

/* How many codes of a report are kinds. */
static uint32_t count_of_kinds(const struct lists *l, const struct dt_report_row *r)
{
    uint32_t count = 0;
    for (uint32_t i = 0; i < r->pool_count; i++)
        count += l->pool[r->pool_first + i] < DT_EXPECTED_PREPROCESSOR_DIRECTIVE;
    return count;
}

static int is_trivia(uint32_t kind)
{
    return kind == DT_TOKEN_WHITESPACE || kind == DT_TOKEN_LINE_COMMENT || kind == DT_TOKEN_BLOCK_COMMENT;
}

/* Whether a token is part of a Name. */
static int is_in_name(const struct lists *l, size_t token)
{
    size_t before = 0, row = 0;
    for (; row < l->answer->tree_count; row++) {
        if (l->trees[row].class_ != DT_CLASS_LEAF)
            continue;
        before += l->trees[row].count;
        if (token < before)
            break;
    }
    return row < l->answer->tree_count && l->trees[row].kind == DT_TOKEN_NAME;
}

/* Whether, between two reports, tokens were taken that are all in a Name, or none of them. */
static int taken_between(const struct lists *l, const struct dt_report_row *r, int in_name)
{
    int any = 0;
    for (size_t i = r[-1].mark; i < r->mark; i++) {
        if (is_trivia(l->tokens[i].kind))
            continue;
        if (is_in_name(l, i) != in_name)
            return 0;
        any = 1;
    }
    return any;
}

/* Pending is not cleared by what was taken between two reports: the later one has the former's list in front. */
static void keep_pending(const struct lists *l, int in_name)
{
    for (size_t i = 1; i < l->answer->report_count; i++) {
        const struct dt_report_row *r = l->reports + i;
        if (r->message != DT_MESSAGE_EXPECTED || r[-1].pool_count == 0 || !taken_between(l, r, in_name))
            continue;
        for (uint32_t k = 0; k < r[-1].pool_count; k++) {
            uint32_t code = l->pool[r[-1].pool_first + k], at = 0;
            while (at < r->pool_count && l->pool[r->pool_first + at] != code)
                at++;
            if (at < r->pool_count)
                remove_code(l, i, at);
            insert_code(l, i, k, code);
        }
        return;
    }
}

/* Faults of a list in which something was pushed again. */
static void damage_repeat(const struct lists *l, size_t report)
{
    struct dt_report_row *r = l->reports + report;
    uint32_t first = l->pool[r->pool_first];
    switch (fault()) {
    case 143: /* the last arrival is kept */
        remove_code(l, report, 0);
        insert_code(l, report, r->pool_count, first);
        break;
    case 144: /* the repeat is kept */
        insert_code(l, report, r->pool_count, first);
        break;
    case 145: /* the repeat is counted */
        r->pool_count++;
        break;
    case 146: /* the next first pool place counts it */
        if (report + 1 < l->answer->report_count)
            r[1].pool_first++;
        break;
    }
}

/* Faults of any list. */
static void damage_lists(const struct lists *l)
{
    size_t report = pushed_again(l), last = l->answer->report_count;
    if (report)
        damage_repeat(l, report);
    switch (fault()) {
    case 147: /* the count without the others, 101 to 108 */
        if (last)
            l->reports[last - 1].pool_count = count_of_kinds(l, l->reports + last - 1);
        break;
    case 148: /* codes by their low six bits */
        for (report = 0; report < last; report++)
            drop_by_low_bits(l, report);
        break;
    case 149: /* cleared by a name only */
        keep_pending(l, 0);
        break;
    case 150: /* cleared by a token only */
        keep_pending(l, 1);
        break;
    }
}

static void clear(uint32_t *numbers, size_t len)
{
    if (len)
        memset(numbers, 0, len * sizeof *numbers);
}

/* Faults of a refusal: 0, or another answer in place of an accepted one. */
static struct dt_answer refused_for_lists(const struct lists *l)
{
    size_t report = pushed_again(l), rows = 0;
    switch (fault()) {
    case 151: /* 7 for a repeat that does not fit */
        if (report && l->answer->expectation_count == l->pool_len)
            return refused(DT_REFUSAL_NO_REPORT_ROOM, l->reports[report].mark);
        break;
    case 152: /* the limit of 256 is still there: document 01's 51 rows of kind 4 in cells */
        while (rows < l->token_count && l->tokens[rows].kind == DT_TOKEN_IF_DIRECTIVE)
            rows++;
        if (l->entry == DT_ENTRY_CELLS && rows >= OLD_LIMIT && rows < l->token_count &&
            l->tokens[rows].kind == DT_TOKEN_SEMICOLON)
            return refused(DT_REFUSAL_TOO_DEEP, rows);
        break;
    }
    return refused(DT_ACCEPTED, 0);
}
