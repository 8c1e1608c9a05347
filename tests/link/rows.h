/* Calls with token rows: the causes that are tried before any text is looked at, worked out here from the words of
   documents 01 and 02. */
#include "dt_parser.h"

/* "Kinds are 0 to 60 ..; 25 and 26 aren't input. Lexical errors are 64 to 74." */
static int is_kind(uint32_t kind)
{
    return kind <= 24 || (kind >= 27 && kind <= 60) || (kind >= 64 && kind <= 74);
}

/* "11, bad kind; 12, length 0; 13, a token ends past the input", within a row in this order. */
static uint32_t row_cause(const struct dt_token_row *row, uint64_t start, size_t n)
{
    if (!is_kind(row->kind))
        return DT_REFUSAL_BAD_KIND;
    if (row->length == 0)
        return DT_REFUSAL_ZERO_LENGTH;
    return start + row->length > n ? DT_REFUSAL_BAD_END : DT_ACCEPTED;
}

/* Causes 1 to 3 and 11 to 13: the number and its place, or DT_ACCEPTED where none of them is met. The total is looked
   at last, "with the count of rows as place". No sum wraps: 65,536 lengths are below 2^48. */
static uint32_t early(uint32_t entry, size_t n, const uint32_t *tokens, size_t t, size_t *place)
{
    const struct dt_token_row *rows = (const struct dt_token_row *)tokens;
    uint64_t end = 0;
    *place = 0;
    if (entry < DT_ENTRY_SOURCE_FILE || entry > DT_ENTRY_CELLS)
        return DT_REFUSAL_UNKNOWN_ENTRY;
    if (n > DT_MAX_BYTES || t > DT_MAX_TOKEN_NUMBERS)
        return DT_REFUSAL_TOO_LONG;
    *place = t / DT_ROW_TOKEN;
    if (t % DT_ROW_TOKEN)
        return DT_REFUSAL_ODD_COUNT;
    for (size_t i = 0; i < t / DT_ROW_TOKEN; end += rows[i].length, i++) {
        uint32_t number = row_cause(&rows[i], end, n);
        if (number) {
            *place = i;
            return number;
        }
    }
    return end < n ? DT_REFUSAL_BAD_END : DT_ACCEPTED;
}

/* Whether an answer's number is that of an early cause. */
static int is_early(uint32_t number)
{
    return (number >= DT_REFUSAL_UNKNOWN_ENTRY && number <= DT_REFUSAL_ODD_COUNT) ||
           (number >= DT_REFUSAL_BAD_KIND && number <= DT_REFUSAL_BAD_END);
}
