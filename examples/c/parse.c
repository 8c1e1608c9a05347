#include "parse.h"
#include <stdlib.h>
#include <string.h>

enum { EVENTS, TREES, ERRORS, REPORTS, POOL, TOKENS, LIST };

static int resize(struct buffer *b, size_t len)
{
    uint32_t *numbers = (uint32_t *)realloc(b->numbers, len * sizeof *numbers + 1);
    if (!numbers)
        return 0;
    b->numbers = numbers;
    b->len = len;
    return 1;
}

static int grow(struct buffer *b)
{
    return resize(b, 2 * b->len + 64);
}

static struct dt_answer call(const struct input *in, const struct buffer *b)
{
    return dt_parse(in->entry, in->setting, in->bytes, in->bytes_len, (const uint32_t *)in->tokens,
                    DT_ROW_TOKEN * in->tokens_count, b[EVENTS].numbers, b[EVENTS].len, b[TREES].numbers, b[TREES].len,
                    b[ERRORS].numbers, b[ERRORS].len, b[REPORTS].numbers, b[REPORTS].len, b[POOL].numbers, b[POOL].len);
}

static struct dt_text_answer call_text(const struct input *in, const struct buffer *b)
{
    return dt_parse_text(in->entry, in->setting, in->bytes, in->bytes_len, b[TOKENS].numbers, b[TOKENS].len,
                         b[EVENTS].numbers, b[EVENTS].len, b[TREES].numbers, b[TREES].len, b[ERRORS].numbers,
                         b[ERRORS].len, b[REPORTS].numbers, b[REPORTS].len, b[POOL].numbers, b[POOL].len);
}

static struct dt_list_answer call_query(const struct input *in, const struct query *q, const struct buffer *b)
{
    const uint32_t *tokens = (const uint32_t *)in->tokens;
    const size_t tokens_len = DT_ROW_TOKEN * in->tokens_count;
    if (q->is_caret)
        return dt_caret(in->setting, q->start, in->bytes, in->bytes_len, tokens, tokens_len, b[EVENTS].numbers,
                        b[EVENTS].len, b[TREES].numbers, b[TREES].len, b[ERRORS].numbers, b[ERRORS].len,
                        b[REPORTS].numbers, b[REPORTS].len, b[POOL].numbers, b[POOL].len, b[LIST].numbers, b[LIST].len);
    return dt_parts_in_range(in->setting, q->start, q->end, in->bytes, in->bytes_len, tokens, tokens_len,
                             b[EVENTS].numbers, b[EVENTS].len, b[TREES].numbers, b[TREES].len, b[ERRORS].numbers,
                             b[ERRORS].len, b[REPORTS].numbers, b[REPORTS].len, b[POOL].numbers, b[POOL].len,
                             b[LIST].numbers, b[LIST].len);
}

/* One call: of a query if there is one, else with the input's tokens or with those that it reads. */
static void call_once(const struct input *in, const struct query *q, struct parsed *out)
{
    out->tokens = in->tokens;
    out->tokens_count = in->tokens_count;
    if (q) {
        struct dt_list_answer a = call_query(in, q, out->buffers);
        out->answer = a.answer;
        out->list_count = a.list_count;
    } else if (in->tokens) {
        out->answer = call(in, out->buffers);
    } else {
        struct dt_text_answer a = call_text(in, out->buffers);
        out->answer = a.answer;
        out->tokens = (const struct dt_token_row *)out->buffers[TOKENS].numbers;
        out->tokens_count = a.token_count;
    }
}

/* The list of a query gets a number for each tree row that there is room for, so that it fits where the tree does. 8
   does not say which buffer is too short; like this it is never the list. */
static int make_room_for_list(struct buffer *b)
{
    return resize(&b[LIST], DT_LIST_FOR(b[TREES].len));
}

/* Starts with no room at all but for tokens, and grows what a refusal names. The bounds DT_..._FOR end this for every
   input. */
static int call_growing(const struct input *in, const struct query *q, struct parsed *out)
{
    struct buffer *b = out->buffers;
    int room = 1;
    memset(out, 0, sizeof *out);
    if (!in->tokens)
        room = resize(&b[TOKENS], DT_TOKENS_FOR(in->bytes_len));
    while (room && (!q || make_room_for_list(b))) {
        call_once(in, q, out);
        switch (out->answer.number) {
        case DT_REFUSAL_NO_EVENT_ROOM:
            room = grow(&b[EVENTS]);
            break;
        case DT_REFUSAL_NO_REPORT_ROOM:
            room = grow(&b[REPORTS]) && grow(&b[POOL]);
            break;
        case DT_REFUSAL_NO_TREE_ROOM:
            room = grow(&b[TREES]) && grow(&b[ERRORS]);
            break;
        default:
            out->trees = (const struct dt_tree_row *)b[TREES].numbers;
            out->errors = (const struct dt_error_row *)b[ERRORS].numbers;
            out->reports = (const struct dt_report_row *)b[REPORTS].numbers;
            out->pool = b[POOL].numbers;
            out->list = b[LIST].numbers;
            return 1;
        }
    }
    return 0;
}

int parse(const struct input *in, struct parsed *out)
{
    return call_growing(in, NULL, out);
}

int query(const struct input *in, const struct query *q, struct parsed *out)
{
    return call_growing(in, q, out);
}

void free_parsed(struct parsed *out)
{
    size_t i;
    for (i = 0; i < sizeof out->buffers / sizeof *out->buffers; i++)
        free(out->buffers[i].numbers);
    memset(out, 0, sizeof *out);
}
