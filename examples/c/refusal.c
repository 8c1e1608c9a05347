#include "refusal.h"
#include "dt_names.h"
#include "print.h"
#include <stdio.h>

/* The line that has a byte of the text, up to its end, and the byte's column, both counted from 1. */
static void print_line(const struct input *in, size_t offset)
{
    size_t line = 1, start = 0, end = offset, i;
    for (i = 0; i < offset; i++)
        if (in->bytes[i] == '\n') {
            line++;
            start = i + 1;
        }
    while (end < in->bytes_len && in->bytes[end] != '\n')
        end++;
    printf("  line %zu, column %zu: ", line, offset - start + 1);
    print_text(in->bytes, start, end);
    putchar('\n');
}

/* Where a row's token starts: the lengths before it. A size_t has 64 bits, so that the sum is exact. */
static size_t start_of(const struct input *in, size_t row)
{
    size_t start = 0, i;
    for (i = 0; i < row; i++)
        start += in->tokens[i].length;
    return start;
}

static const char *kind_name(uint32_t kind)
{
    return kind < DT_TOKEN_FIRST_LEX_ERROR ? dt_token_name(kind) : dt_lex_error_name(kind);
}

/* The row that is refused, by its number, and what is allowed there. The row after the last one is missing. */
static void print_row_cause(const struct input *in, uint32_t number, size_t row)
{
    size_t start = start_of(in, row), bytes = in->bytes_len;
    if (row == in->tokens_count) {
        printf("  %zu rows have %zu of the input's %zu bytes\n", row, start, bytes);
        return;
    }
    printf("  row %zu: kind %u (%s), length %u, from byte %zu on; the input has %zu bytes\n", row, in->tokens[row].kind,
           kind_name(in->tokens[row].kind), in->tokens[row].length, start, bytes);
    if (number == DT_REFUSAL_BAD_KIND)
        puts("  a row's kind is 0 to 24, 27 to 60 or 64 to 74");
    if (number == DT_REFUSAL_ZERO_LENGTH)
        puts("  a row's length is at least 1");
    if (number == DT_REFUSAL_BAD_END)
        printf("  %zu bytes are left for it\n", bytes - start);
    if (number == DT_REFUSAL_BAD_TEXT)
        printf("  such a token is always %s\n", dt_token_text(in->tokens[row].kind));
}

void print_refusal(const struct input *in, const struct parsed *p)
{
    uint32_t number = p->answer.number;
    size_t place = p->answer.place;
    printf("refused: %u (%s), place %zu: %s\n", number, dt_refusal_name(number), place, dt_refusal_text(number));
    switch (number) {
    case DT_REFUSAL_BAD_TEXT:
    case DT_REFUSAL_BAD_KIND:
    case DT_REFUSAL_ZERO_LENGTH:
    case DT_REFUSAL_BAD_END:
        print_row_cause(in, number, place);
        break;
    case DT_REFUSAL_HIGH_BYTE:
        print_line(in, place);
        break;
    case DT_REFUSAL_DIRECTIVE:
        print_line(in, place);
        puts("  run the preprocessor first: cpp -P -nostdinc -undef -x assembler-with-cpp FILE.dts");
        break;
    default:
        break;
    }
}
