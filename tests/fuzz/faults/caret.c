/* As faults.c: 96 to 142 and 171 to 175, of dt_caret and dt_parts_in_range. The real calls are dt_caret_good and
 * dt_parts_in_range_good. */
#include "../../../include/dt_parser.h"
#include "fault.h"
#include <string.h>

#include "walks.h"

/* The numbers of a tree row before there were parents. */
enum { OLD_ROW = 4 };

extern __typeof__(dt_parse) dt_parse_good;
extern __typeof__(dt_caret) dt_caret_good;
extern __typeof__(dt_parts_in_range) dt_parts_in_range_good;

static struct dt_answer parsed(const struct query_call *c)
{
    return dt_parse_good(DT_ENTRY_SOURCE_FILE, c->setting, c->bytes, c->bytes_len, c->tokens, c->tokens_len,
                         c->events.numbers, c->events.len, c->trees.numbers, c->trees.len, c->errors.numbers,
                         c->errors.len, c->reports.numbers, c->reports.len, c->pool.numbers, c->pool.len);
}

static struct dt_list_answer good(const struct query_call *c)
{
    if (c->is_caret)
        return dt_caret_good(c->setting, c->first, c->bytes, c->bytes_len, c->tokens, c->tokens_len,
                             c->events.numbers, c->events.len, c->trees.numbers, c->trees.len, c->errors.numbers,
                             c->errors.len, c->reports.numbers, c->reports.len, c->pool.numbers, c->pool.len,
                             c->list.numbers, c->list.len);
    return dt_parts_in_range_good(c->setting, c->first, c->second, c->bytes, c->bytes_len, c->tokens, c->tokens_len,
                                  c->events.numbers, c->events.len, c->trees.numbers, c->trees.len,
                                  c->errors.numbers, c->errors.len, c->reports.numbers, c->reports.len,
                                  c->pool.numbers, c->pool.len, c->list.numbers, c->list.len);
}

/* Faults of an offset: another one is asked for. */
static void misread_offset(struct query_call *c)
{
    switch (fault()) {
    case 96: /* a leaf owns its end, and not its first byte */
        c->first -= c->first && c->first < c->bytes_len;
        break;
    case 97: /* cut to 32 bits */
        c->first = (uint32_t)c->first;
        break;
    case 98: /* no row at the length */
        c->first += c->first == c->bytes_len && c->bytes_len;
        break;
    case 99: /* past the length the last leaf */
        c->first = c->first > c->bytes_len ? c->bytes_len : c->first;
        break;
    case 100: /* so a byte past the length alone */
        c->first -= c->first == c->bytes_len + 1;
        break;
    }
}

/* Faults of a range, likewise. */
static void misread_range(struct query_call *c)
{
    uint64_t first = c->first;
    switch (fault()) {
    case 101: /* its end is included */
        c->second += c->first < c->second && c->second != UINT64_MAX;
        break;
    case 102: /* what ends at its start counts */
        c->first -= c->first < c->second && c->first;
        break;
    case 103: /* its start cut to 32 bits */
        c->first = (uint32_t)c->first;
        break;
    case 104: /* its end */
        c->second = (uint32_t)c->second;
        break;
    case 105: /* an empty one is a byte long */
        c->second += c->first == c->second && c->second != UINT64_MAX;
        break;
    case 106: /* a reversed one is turned round */
        c->first = first > c->second ? c->second : first;
        c->second = first > c->second ? first : c->second;
        break;
    case 107: /* its end is taken for a length */
        c->second += c->first;
        break;
    case 108: /* a sum with its start passes 64 bits */
        c->first += c->first == UINT64_MAX;
        break;
    }
}

/* Faults of the setting. */
static void misread_setting(struct query_call *c)
{
    switch (fault()) {
    case 109: /* always old */
        c->setting = DT_SETTING_OLD;
        break;
    case 110: /* always strict */
        c->setting = DT_SETTING_STRICT;
        break;
    case 111: /* cut to a byte */
        c->setting &= 255;
        break;
    }
}

/* The list without the number at an index. */
static void leave_out(const struct query_call *c, struct dt_list_answer *a, size_t index)
{
    uint32_t *list = c->list.numbers;
    memmove(list + index, list + index + 1, (a->list_count - index - 1) * sizeof *list);
    list[--a->list_count] = 0;
}

static void turn_round(uint32_t *list, size_t count)
{
    for (size_t i = 0; i < count / 2; i++) {
        uint32_t first = list[i];
        list[i] = list[count - 1 - i];
        list[count - 1 - i] = first;
    }
}

/* Faults of a chain; the list has at least one row. */
static void damage_chain(const struct query_call *c, struct dt_list_answer *a)
{
    switch (fault()) {
    case 112: /* without the root */
        leave_out(c, a, 0);
        break;
    case 113: /* without the leaf */
        leave_out(c, a, a->list_count - 1);
        break;
    case 114: /* from the leaf to the root */
        turn_round(c->list.numbers, a->list_count);
        break;
    case 118: /* no root in an empty file */
        if (c->bytes_len == 0)
            leave_out(c, a, 0);
        break;
    case 119: /* with nodes of width 0 */
        a->list_count = walked(c, a->list_count, a->answer.tree_count, with_empty_nodes);
        break;
    case 120: /* at the length the chain to the last row */
        if (c->first == c->bytes_len)
            a->list_count = walked(c, a->list_count, a->answer.tree_count, around_last_row);
        break;
    case 171: /* over four numbers a row */
        a->list_count = walked_by(OLD_ROW, c, a->list_count, a->answer.tree_count, at_caret);
        break;
    case 173: /* the root twice: it is its own parent */
        if (a->list_count < c->list.len) {
            memmove(c->list.numbers + 1, c->list.numbers, a->list_count * sizeof *c->list.numbers);
            a->list_count++;
        }
        break;
    }
}

/* Faults of a list of parts that has some. */
static void damage_parts(const struct query_call *c, struct dt_list_answer *a)
{
    const struct dt_tree_row *tree = (const struct dt_tree_row *)c->trees.numbers;
    switch (fault()) {
    case 115: /* the last first */
        turn_round(c->list.numbers, a->list_count);
        break;
    case 116: /* leaves are no parts */
        for (size_t i = a->list_count; i-- > 0;)
            if (tree[c->list.numbers[i]].class_ == DT_CLASS_LEAF)
                leave_out(c, a, i);
        break;
    case 117: /* the root is one */
        c->list.numbers[0] = 0;
        break;
    case 121: /* what is inside a part is one */
        a->list_count = walked(c, a->list_count, a->answer.tree_count, at_any_level);
        break;
    case 172: /* over four numbers a row */
        a->list_count = walked_by(OLD_ROW, c, a->list_count, a->answer.tree_count, at_top_level);
        break;
    }
}

/* Faults of any list that has rows. */
static void damage_list(const struct query_call *c, struct dt_list_answer *a)
{
    uint32_t *list = c->list.numbers;
    switch (fault()) {
    case 122: /* where a row stands, and not its number */
        for (size_t i = 0; i < a->list_count; i++)
            list[i] *= DT_ROW_TREE;
        break;
    case 123: /* a count */
        a->list_count -= a->list_count > 2;
        break;
    case 124: /* none of a file with reports */
        while (a->answer.report_count && a->list_count)
            leave_out(c, a, 0);
        break;
    case 125: /* a row number in 8 bits */
        for (size_t i = 0; i < a->list_count; i++)
            list[i] &= 255;
        break;
    case 174: /* the parent of each row */
        for (size_t i = 0; i < a->list_count; i++)
            list[i] = c->trees.numbers[DT_ROW_TREE * list[i] + DT_COL_TREE_PARENT];
        break;
    }
    if (c->is_caret && a->list_count)
        damage_chain(c, a);
    else if (a->list_count)
        damage_parts(c, a);
}

/* Faults of the buffers of an accepted query. before: the list as it was lent. */
static void damage_rest(const struct query_call *c, struct dt_list_answer *a, const uint32_t *before)
{
    size_t count = a->list_count;
    uint32_t *list = c->list.numbers;
    switch (fault()) {
    case 126: /* the rest of the list as it was */
        memcpy(list + count, before + count, (c->list.len - count) * sizeof *list);
        break;
    case 127: /* its last number not zero */
        if (c->list.len > count)
            list[c->list.len - 1] = 7;
        break;
    case 128: /* a number past it */
        if (count > 2)
            list[c->list.len] = 0;
        break;
    case 129: /* events not cleared */
        if (c->events.len)
            c->events.numbers[c->events.len - 1] = 1;
        break;
    case 130: /* the parse's counts left out */
        a->answer.report_count = 0;
        break;
    case 131: /* the file is written */
        if (c->bytes_len > 4)
            ((uint8_t *)c->bytes)[4] |= 32;
        break;
    case 175: /* no parents in the tree of a query */
        for (size_t i = 0; i < a->answer.tree_count; i++)
            c->trees.numbers[DT_ROW_TREE * i + DT_COL_TREE_PARENT] = 0;
        break;
    }
}

static struct dt_list_answer refused(const struct query_call *c, uint32_t number)
{
    const struct buffer all[] = {c->events, c->trees, c->errors, c->reports, c->pool, c->list};
    struct dt_list_answer a = {.answer.number = number};
    for (size_t i = 0; i < sizeof all / sizeof *all; i++)
        for (size_t k = 0; k < all[i].len; k++)
            all[i].numbers[k] = 0;
    return a;
}

/* The list as far as it fits, accepted. */
static struct dt_list_answer cut_off(const struct query_call *c, size_t tree_rows)
{
    struct query_call longer = *c;
    struct dt_list_answer a;
    longer.list.len = tree_rows;
    longer.list.numbers = malloc(tree_rows * sizeof *longer.list.numbers);
    a = good(&longer);
    memcpy(c->list.numbers, longer.list.numbers, c->list.len * sizeof *longer.list.numbers);
    a.list_count = c->list.len;
    free(longer.list.numbers);
    return a;
}

/* Faults of a list that does not fit, where the parse does. */
static struct dt_list_answer damaged_room(const struct query_call *c, struct dt_list_answer a)
{
    struct dt_answer rows = parsed(c);
    if (rows.number != DT_ACCEPTED || fault() == 132) /* the parse's rows stay */
        return a;
    if (fault() == 133) /* what fits is given */
        return cut_off(c, rows.tree_count);
    a = refused(c, DT_REFUSAL_NO_TREE_ROOM);
    switch (fault()) {
    case 134: /* a count of the parse */
        a.answer.tree_count = rows.tree_count;
        break;
    case 135: /* a place */
        a.answer.place = c->list.len + 1;
        break;
    case 136: /* a count of the list */
        a.list_count = c->list.len + 1;
        break;
    case 137: /* the list not zero */
        if (c->list.len)
            c->list.numbers[0] = 1;
        break;
    }
    return a;
}

/* Faults of the parse's refusals. before: the list as it was lent. */
static struct dt_list_answer damaged_refusal(const struct query_call *c, struct dt_list_answer a,
                                             const uint32_t *before)
{
    uint32_t number = a.answer.number;
    int zeroing = DT_REFUSAL_TOO_DEEP <= number && number <= DT_REFUSAL_NO_TREE_ROOM;
    switch (fault()) {
    case 138: /* a list without room before the parse's 5 to 7 */
        return zeroing && c->list.len == 0 ? refused(c, DT_REFUSAL_NO_TREE_ROOM) : a;
    case 139: /* before the causes of rows */
        return !zeroing && c->list.len == 0 ? refused(c, DT_REFUSAL_NO_TREE_ROOM) : a;
    case 140: /* the list not as it was */
        if (!zeroing)
            memset(c->list.numbers, 0, c->list.len * sizeof *before);
        break;
    case 141: /* the list not zero at 5 to 8 */
        if (zeroing)
            memcpy(c->list.numbers, before, c->list.len * sizeof *before);
        break;
    }
    return a;
}

static struct dt_list_answer damaged(struct query_call c)
{
    uint32_t *before = malloc((c.list.len + 1) * sizeof *before);
    if (c.list.len)
        memcpy(before, c.list.numbers, c.list.len * sizeof *before);
    struct query_call other = c;
    misread_setting(&other);
    if (c.is_caret)
        misread_offset(&other);
    else
        misread_range(&other);
    struct dt_list_answer a = good(&other);
    if (a.answer.number == DT_REFUSAL_NO_TREE_ROOM && fault() >= 132 && fault() <= 137) {
        a = damaged_room(&c, a);
    } else if (a.answer.number != DT_ACCEPTED) {
        a = damaged_refusal(&c, a, before);
    } else if (fault() == 142 && a.list_count && a.list_count == c.list.len) {
        a = refused(&c, DT_REFUSAL_NO_TREE_ROOM); /* a list that just fits */
    } else {
        if (a.list_count)
            damage_list(&c, &a);
        if (c.list.len)
            damage_rest(&c, &a, before);
    }
    free(before);
    return a;
}

struct dt_list_answer dt_caret(uint32_t setting, uint64_t offset, const uint8_t *bytes, size_t bytes_len,
                               const uint32_t *tokens, size_t tokens_len, uint32_t *events, size_t events_len,
                               uint32_t *trees, size_t trees_len, uint32_t *errors, size_t errors_len,
                               uint32_t *reports, size_t reports_len, uint32_t *pool, size_t pool_len, uint32_t *list,
                               size_t list_len)
{
    struct query_call c = {1, setting, offset, 0, bytes, bytes_len, tokens, tokens_len, {events, events_len},
                           {trees, trees_len}, {errors, errors_len}, {reports, reports_len}, {pool, pool_len},
                           {list, list_len}};
    return damaged(c);
}

struct dt_list_answer dt_parts_in_range(uint32_t setting, uint64_t start, uint64_t end, const uint8_t *bytes,
                                        size_t bytes_len, const uint32_t *tokens, size_t tokens_len, uint32_t *events,
                                        size_t events_len, uint32_t *trees, size_t trees_len, uint32_t *errors,
                                        size_t errors_len, uint32_t *reports, size_t reports_len, uint32_t *pool,
                                        size_t pool_len, uint32_t *list, size_t list_len)
{
    struct query_call c = {0, setting, start, end, bytes, bytes_len, tokens, tokens_len, {events, events_len},
                           {trees, trees_len}, {errors, errors_len}, {reports, reports_len}, {pool, pool_len},
                           {list, list_len}};
    return damaged(c);
}
