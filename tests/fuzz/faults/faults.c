/* A library with a fault, to see that the fuzzer finds it: 1 to 30, 61 to 95 and 143 to 169, of dt_parse. The real call
 * is dt_parse_good. */
#include "../../../include/dt_parser.h"
#include "fault.h"
#include "levels.h"

extern __typeof__(dt_parse) dt_parse_good;

#include "rows.h"
#include "once.h"
#include "parents.h"

/* Faults of the last report of an accepted call. */
static void damage_report(struct dt_report_row *report)
{
    switch (fault()) {
    case 3: /* a mark */
        if (report->mark > 5)
            report->mark--;
        break;
    case 4: /* a label's end */
        if (report->message == DT_MESSAGE_UNCLOSED_NODE)
            report->label_end = 0;
        break;
    case 5: /* a hint */
        if (report->hint == DT_HINT_MISSING_LEFT_SIDE)
            report->hint = DT_HINT_NONE;
        break;
    }
}

/* Faults of an accepted call's other rows. */
static void damage_rows(struct dt_answer *a, struct dt_tree_row *trees, struct dt_error_row *errors, uint32_t *pool)
{
    switch (fault()) {
    case 1: /* the last row's count */
        if (a->tree_count > 10)
            trees[a->tree_count - 1].count++;
        break;
    case 2: /* a lexical error's end */
        if (a->error_count > 1)
            errors[a->error_count - 1].end++;
        break;
    case 6: /* an expectation */
        if (a->expectation_count && pool[a->expectation_count - 1] == DT_EXPECTED_END)
            pool[a->expectation_count - 1] = DT_EXPECTED_PREFIX_OPERATOR;
        break;
    case 7: /* a count */
        if (a->expectation_count > 20)
            a->expectation_count--;
        break;
    case 8: /* a node's kind */
        if (a->tree_count > 3 && trees[1].class_ == DT_CLASS_NODE && trees[1].kind == DT_NODE_DT_PROPERTY)
            trees[1].kind = DT_NODE_DT_NODE;
        break;
    }
}

static void swap_reports(struct dt_report_row *a, struct dt_report_row *b)
{
    struct dt_report_row first = *a;
    *a = *b;
    *b = first;
}

/* Whether the rows have an outermost ParseError around these bytes. */
static int in_parse_error(const struct dt_tree_row *trees, size_t tree_count, uint32_t start, uint32_t end)
{
    size_t row = 1, byte = 0;
    while (row < tree_count) {
        int error = trees[row].class_ == DT_CLASS_NODE && trees[row].kind == DT_NODE_PARSE_ERROR;
        size_t after = byte + trees[row].width;
        if (error && byte <= start && end <= after)
            return 1;
        if (error || trees[row].class_ == DT_CLASS_LEAF) {
            byte = after;
            row = dt_after_subtree(trees, tree_count, row);
        } else {
            row++;
        }
    }
    return 0;
}

/* Faults of the reports that the strict setting adds. */
static void damage_labels(struct dt_answer *a, const struct dt_tree_row *trees, struct dt_report_row *reports,
                          const uint8_t *bytes)
{
    struct dt_report_row *last = reports + a->report_count - 1;
    static const struct dt_report_row none;
    int drop = 0;
    switch (fault()) {
    case 20: /* the mark is the &'s */
        if (last->mark > 2)
            last->mark--;
        break;
    case 21: /* the first pool place is 0 */
        last->pool_first = 0;
        break;
    case 22: /* not in leaf order */
        if (a->report_count > 1 && last[-1].message == DT_MESSAGE_NOT_A_LABEL)
            swap_reports(last - 1, last);
        break;
    case 23: /* only the first byte is judged */
        drop = bytes[last->start] < '0' || bytes[last->start] > '9';
        break;
    case 24: /* not under a ParseError */
        drop = in_parse_error(trees, a->tree_count, last->start, last->end);
        break;
    case 25: /* before the others */
        if (a->report_count > 1)
            swap_reports(reports, last);
        break;
    }
    if (drop) {
        *last = none;
        a->report_count--;
    }
}

/* Faults 92 to 95: a buffer is not as it was. */
static void damage_kept(const struct dt_answer *a, uint32_t *trees, size_t trees_len)
{
    static const uint32_t numbers[] = {DT_REFUSAL_ODD_COUNT, DT_REFUSAL_BAD_KIND, DT_REFUSAL_ZERO_LENGTH,
                                       DT_REFUSAL_BAD_END};
    if (fault() >= 92 && fault() <= 95 && a->number == numbers[fault() - 92] && trees_len)
        trees[0] = 0;
}

/* Faults of a refusal. */
static void damage_refusal(struct dt_answer *a, uint32_t *trees, size_t trees_len, uint32_t *pool, size_t pool_len)
{
    switch (fault()) {
    case 9: /* a place */
        if (a->number == DT_REFUSAL_BAD_KIND && a->place > 1)
            a->place--;
        break;
    case 10: /* a number */
        if (a->number == DT_REFUSAL_NO_REPORT_ROOM && a->place > 8)
            a->number = DT_REFUSAL_NO_EVENT_ROOM;
        break;
    case 11: /* not all zero */
        if (a->number == DT_REFUSAL_NO_TREE_ROOM && trees_len)
            trees[trees_len - 1] = 1;
        break;
    case 12: /* not as it was */
        if (a->number == DT_REFUSAL_BAD_TEXT && pool_len)
            pool[0] = 0;
        break;
    case 13: /* a place */
        if (a->number == DT_REFUSAL_TOO_DEEP && a->place)
            a->place--;
        break;
    case 14: /* a count of a refused call */
        if (a->number == DT_REFUSAL_NO_EVENT_ROOM)
            a->tree_count = 1;
        break;
    }
}

/* Faults of an accepted call's buffers beside its rows. */
static void damage_rest(const struct dt_answer *a, uint32_t *events, size_t events_len, uint32_t *reports,
                        size_t reports_len, uint32_t *pool, size_t pool_len)
{
    switch (fault()) {
    case 17: /* events not cleared */
        if (events_len)
            events[events_len - 1] = 1;
        break;
    case 18: /* one number past the buffer */
        if (a->report_count > 2)
            reports[reports_len] = 0;
        break;
    case 19: /* the rest not zero */
        if (pool_len > a->expectation_count + 3)
            pool[a->expectation_count + 3] = 7;
        break;
    }
}

/* Faults of the setting. */
static uint32_t damaged_setting(uint32_t setting)
{
    switch (fault()) {
    case 26: /* cut to a byte */
        return setting & 255;
    case 27: /* only 1 is strict */
        return setting == DT_SETTING_STRICT;
    case 28: /* always strict */
        return DT_SETTING_STRICT;
    default:
        return setting;
    }
}

/* Faults of the levels. */
static struct dt_answer parse_exchanged(const struct operators *two, uint32_t entry, uint32_t setting,
                                        const uint8_t *bytes, size_t bytes_len, const uint32_t *tokens,
                                        size_t tokens_len, uint32_t *events, size_t events_len, uint32_t *trees,
                                        size_t trees_len, uint32_t *errors, size_t errors_len, uint32_t *reports,
                                        size_t reports_len, uint32_t *pool, size_t pool_len)
{
    uint8_t *own_bytes = malloc(bytes_len + 1);
    uint32_t *own_tokens = malloc(tokens_len * sizeof *tokens);
    memcpy(own_bytes, bytes, bytes_len);
    memcpy(own_tokens, tokens, tokens_len * sizeof *tokens);
    exchange_input(two, own_bytes, bytes_len, (struct dt_token_row *)own_tokens, tokens_len / DT_ROW_TOKEN);
    struct dt_answer a = dt_parse_good(entry, setting, own_bytes, bytes_len, own_tokens, tokens_len, events,
                                       events_len, trees, trees_len, errors, errors_len, reports, reports_len, pool,
                                       pool_len);
    exchange_leaves(two, (struct dt_tree_row *)trees, a.tree_count);
    free(own_bytes);
    free(own_tokens);
    return a;
}

/* Fault 167: whether a tree fits is told by four numbers a row. The call was refused with 8; a tree that fits so is
 * given as far as there is room. */
static struct dt_answer parse_by_fours(uint32_t entry, uint32_t setting, const uint8_t *bytes, size_t bytes_len,
                                       const uint32_t *tokens, size_t tokens_len, uint32_t *events, size_t events_len,
                                       uint32_t *trees, size_t trees_len, uint32_t *errors, size_t errors_len,
                                       uint32_t *reports, size_t reports_len, uint32_t *pool, size_t pool_len)
{
    size_t longer_len = trees_len / OLD_ROW * DT_ROW_TREE;
    uint32_t *longer = malloc((longer_len + 1) * sizeof *longer);
    struct dt_answer a = dt_parse_good(entry, setting, bytes, bytes_len, tokens, tokens_len, events, events_len, longer,
                                       longer_len, errors, errors_len, reports, reports_len, pool, pool_len);
    if (a.number == DT_ACCEPTED)
        memcpy(trees, longer, trees_len * sizeof *trees);
    free(longer);
    return a;
}

/* Faults of an accepted call. */
static struct dt_answer damaged_accepted(struct dt_answer a, uint32_t entry, const uint8_t *bytes,
                                         const uint32_t *tokens, size_t tokens_len, uint32_t *events,
                                         size_t events_len, uint32_t *trees, size_t trees_len, uint32_t *errors,
                                         size_t errors_len, uint32_t *reports, size_t reports_len, uint32_t *pool,
                                         size_t pool_len)
{
    struct lists lists = {&a, entry, (const struct dt_token_row *)tokens, tokens_len / DT_ROW_TOKEN,
                          (struct dt_tree_row *)trees, (struct dt_report_row *)reports, pool, pool_len};
    struct dt_answer other = refused_for_lists(&lists);
    if (fault() == 168 && trees_len / DT_ROW_TREE == a.tree_count)
        other = refused(DT_REFUSAL_NO_TREE_ROOM, 0); /* a tree that just fits */
    if (other.number != DT_ACCEPTED) {
        clear(events, events_len), clear(trees, trees_len), clear(errors, errors_len);
        clear(reports, reports_len), clear(pool, pool_len);
        return other;
    }
    damage_lists(&lists);
    if (a.report_count && ((struct dt_report_row *)reports)[a.report_count - 1].message == DT_MESSAGE_NOT_A_LABEL)
        damage_labels(&a, (struct dt_tree_row *)trees, (struct dt_report_row *)reports, bytes);
    else if (a.report_count)
        damage_report((struct dt_report_row *)reports + a.report_count - 1);
    damage_rest(&a, events, events_len, reports, reports_len, pool, pool_len);
    damage_rows(&a, (struct dt_tree_row *)trees, (struct dt_error_row *)errors, pool);
    damage_trees(trees, a.tree_count);
    return a;
}

struct dt_answer dt_parse(uint32_t entry, uint32_t setting, const uint8_t *bytes, size_t bytes_len,
                          const uint32_t *tokens, size_t tokens_len, uint32_t *events, size_t events_len,
                          uint32_t *trees, size_t trees_len, uint32_t *errors, size_t errors_len, uint32_t *reports,
                          size_t reports_len, uint32_t *pool, size_t pool_len)
{
    struct dt_answer a, old;
    if (exchanged() && tokens_len > 1 && tokens[DT_COL_TOKEN_KIND] == DT_TOKEN_LPAREN)
        return parse_exchanged(exchanged(), entry, setting, bytes, bytes_len, tokens, tokens_len, events, events_len,
                               trees, trees_len, errors, errors_len, reports, reports_len, pool, pool_len);
    setting = damaged_setting(setting);
    if (fault() == 15)
        entry &= 255; /* a cut number */
    if (fault() == 16 && tokens_len > 1 && tokens[DT_COL_TOKEN_KIND] > 255)
        ((uint32_t *)tokens)[DT_COL_TOKEN_KIND] &= 255; /* a cut kind */
    a = dt_parse_good(entry, setting, bytes, bytes_len, tokens, tokens_len, events, events_len, trees, trees_len,
                      errors, errors_len, reports, reports_len, pool, pool_len);
    a = damaged_checks(rows_of(entry, setting, bytes, bytes_len, tokens, tokens_len), a);
    if ((fault() == 29 || fault() == 30) && setting && a.number == DT_REFUSAL_NO_REPORT_ROOM) {
        old = dt_parse_good(entry, DT_SETTING_OLD, bytes, bytes_len, tokens, tokens_len, events, events_len, trees,
                            trees_len, errors, errors_len, reports, reports_len, pool, pool_len);
        if (fault() == 29 && old.number == DT_REFUSAL_NO_TREE_ROOM)
            return old; /* 8 before a label's 7 */
        if (fault() == 30 && old.number == DT_ACCEPTED)
            return old; /* a label's report that does not fit is left out */
    }
    if (fault() == 167 && a.number == DT_REFUSAL_NO_TREE_ROOM)
        return parse_by_fours(entry, setting, bytes, bytes_len, tokens, tokens_len, events, events_len, trees,
                              trees_len, errors, errors_len, reports, reports_len, pool, pool_len);
    if (a.number != DT_ACCEPTED) {
        damage_refusal(&a, trees, trees_len, pool, pool_len);
        damage_kept(&a, trees, trees_len);
        return a;
    }
    return damaged_accepted(a, entry, bytes, tokens, tokens_len, events, events_len, trees, trees_len, errors,
                            errors_len, reports, reports_len, pool, pool_len);
}
