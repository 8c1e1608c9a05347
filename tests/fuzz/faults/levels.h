/* Faults 61 to 63: two operators have each other's level. A call that starts with a bracket sees the two exchanged, and
 * its tree has them back. */
#include <string.h>

struct operators {
    uint32_t kinds[2];
    const char *texts[2];
    size_t length;
};

static const struct operators exchanged_operators[] = {
    {{DT_TOKEN_AMPERSAND, DT_TOKEN_BITWISE_OR}, {"&", "|"}, 1},
    {{DT_TOKEN_LOGICAL_AND, DT_TOKEN_LOGICAL_OR}, {"&&", "||"}, 2},
    {{DT_TOKEN_MODULO, DT_TOKEN_BITWISE_XOR}, {"%", "^"}, 1},
};

/* The two that this fault exchanges, or none. */
static const struct operators *exchanged(void)
{
    return fault() >= 61 && fault() <= 63 ? exchanged_operators + (fault() - 61) : NULL;
}

/* Which of the two a kind is, or -1. */
static int operator_number(const struct operators *two, uint32_t kind)
{
    return kind == two->kinds[0] ? 0 : kind == two->kinds[1] ? 1 : -1;
}

/* Copies of tokens and bytes with the two exchanged; where a row is not the token, with its length, nothing is. */
static void exchange_input(const struct operators *two, uint8_t *bytes, size_t bytes_len, struct dt_token_row *tokens,
                           size_t count)
{
    size_t byte = 0;
    for (size_t i = 0; i < count && tokens[i].length <= bytes_len - byte; i++) {
        int number = operator_number(two, tokens[i].kind);
        if (number >= 0 && tokens[i].length == two->length) {
            tokens[i].kind = two->kinds[1 - number];
            memcpy(bytes + byte, two->texts[1 - number], two->length);
        }
        byte += tokens[i].length;
    }
}

static void exchange_leaves(const struct operators *two, struct dt_tree_row *trees, size_t count)
{
    for (size_t i = 0; i < count; i++) {
        int number = trees[i].class_ == DT_CLASS_LEAF ? operator_number(two, trees[i].kind) : -1;
        if (number >= 0)
            trees[i].kind = two->kinds[1 - number];
    }
}
