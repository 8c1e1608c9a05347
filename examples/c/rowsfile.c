/* Reads files of token rows (docs/TOKENS.md). */
#include "rowsfile.h"
#include "dt_names.h"
#include "number.h"
#include <stdlib.h>
#include <string.h>

/* No more is kept than one row, or one byte, over what a call takes: it is then refused for that. */
enum { LINE = 4096, MOST_ROWS = DT_MAX_TOKEN_NUMBERS / DT_ROW_TOKEN };

/* The next line without its line feed. */
static int next_line(FILE *file, char *line)
{
    size_t n;
    if (!fgets(line, LINE, file))
        return 0;
    n = strlen(line);
    if (n == 0 || line[n - 1] != '\n')
        return 0;
    line[n - 1] = 0;
    return 1;
}

/* What follows a word and a blank, or NULL. */
static const char *after(const char *line, const char *word)
{
    size_t n = strlen(word);
    return strncmp(line, word, n) == 0 && line[n] == ' ' ? line + n + 1 : NULL;
}

/* A number of 32 bits up to the end of the text. */
static int number(const char *text, uint32_t *out)
{
    uint64_t n;
    if (!read_number(text, UINT32_MAX, &n))
        return 0;
    *out = (uint32_t)n;
    return 1;
}

/* The number from `first` to `last` that has this name. */
static int named(const char *(*name_of)(uint32_t), uint32_t first, uint32_t last, const char *name, uint32_t *out)
{
    uint32_t n;
    for (n = first; n <= last; n++)
        if (strcmp(name_of(n), name) == 0) {
            *out = n;
            return 1;
        }
    return 0;
}

/* By name or number. */
static int kind_of(const char *word, uint32_t *kind)
{
    static const char error[] = "LexError::";
    const size_t n = sizeof error - 1;
    if (number(word, kind))
        return 1;
    if (strncmp(word, error, n) == 0)
        return named(dt_lex_error_name, DT_TOKEN_FIRST_LEX_ERROR, DT_TOKEN_LAST_LEX_ERROR, word + n, kind);
    return named(dt_token_name, DT_TOKEN_WHITESPACE, DT_TOKEN_QUESTION_MARK, word, kind);
}

static const char *read_rows(FILE *file, uint32_t rows, struct rowsfile *out)
{
    char line[LINE], *blank;
    uint32_t i;
    out->tokens_count = rows <= MOST_ROWS ? rows : MOST_ROWS + 1;
    out->tokens = (struct dt_token_row *)malloc(out->tokens_count * sizeof *out->tokens + 1);
    if (!out->tokens)
        return "no memory";
    for (i = 0; i < out->tokens_count; i++) {
        struct dt_token_row *row = &out->tokens[i];
        if (!next_line(file, line) || !(blank = strchr(line, ' ')))
            return "expected a token's kind and length";
        *blank = 0;
        if (!kind_of(line, &row->kind) || !number(blank + 1, &row->length))
            return "not a token's kind and length: a name or a number, and a number, below 4294967296";
    }
    return NULL;
}

static const char *read_text(FILE *file, struct rowsfile *out)
{
    char line[LINE];
    const char *rest;
    uint32_t n;
    int is_whole;
    if (!next_line(file, line) || !(rest = after(line, "text")) || !number(rest, &n))
        return "expected the text's length";
    out->bytes_len = n <= DT_MAX_BYTES ? n : DT_MAX_BYTES + 1;
    out->bytes = (uint8_t *)malloc(out->bytes_len + 1);
    if (!out->bytes)
        return "no memory";
    is_whole = fread(out->bytes, 1, out->bytes_len, file) == out->bytes_len;
    return is_whole && (n > DT_MAX_BYTES || fgetc(file) == EOF) ? NULL : "the text's length is wrong";
}

int is_rowsfile(const uint8_t *start, size_t len)
{
    return len == ROWSFILE_START && memcmp(start, "devicetree tokens", len) == 0;
}

const char *read_rowsfile(FILE *file, struct rowsfile *out)
{
    char line[LINE];
    const char *rest, *wrong;
    uint32_t rows;
    memset(out, 0, sizeof *out);
    out->entry = DT_ENTRY_SOURCE_FILE;
    if (!next_line(file, line) || strcmp(line, " 1") != 0)
        return "not a file of token rows";
    while (next_line(file, line)) {
        if (after(line, "file"))
            continue;
        if ((rest = after(line, "entry"))) {
            if (!named(dt_entry_name, DT_ENTRY_SOURCE_FILE, DT_ENTRY_CELLS, rest, &out->entry))
                return "unknown entry";
        } else if ((rest = after(line, "rows")) && number(rest, &rows)) {
            wrong = read_rows(file, rows, out);
            return wrong || rows > MOST_ROWS ? wrong : read_text(file, out);
        } else {
            break;
        }
    }
    return "expected entry, file or rows";
}
