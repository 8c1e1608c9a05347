/* Files of token rows (docs/TOKENS.md). */
#ifndef ROWSFILE_H
#define ROWSFILE_H

#include "dt_parser.h"
#include <stdio.h>

struct rowsfile {
    uint32_t entry;
    struct dt_token_row *tokens;
    size_t tokens_count;
    uint8_t *bytes;
    size_t bytes_len;
};

/* Whether a file is one of token rows, by its first bytes: so many of them, unless the file is shorter. */
enum { ROWSFILE_START = 17 };
int is_rowsfile(const uint8_t *start, size_t len);

/* What follows these first bytes. NULL, or what is wrong. Whether rows and bytes fit is the parser's to say. The arrays
   are the caller's to free. */
const char *read_rowsfile(FILE *file, struct rowsfile *out);

#endif
