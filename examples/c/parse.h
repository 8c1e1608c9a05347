/* A call in buffers that grow. */
#ifndef PARSE_H
#define PARSE_H

#include "dt_parser.h"

/* What is parsed: a text, or a text and its tokens. */
struct input {
    uint32_t entry;
    uint32_t setting;
    const uint8_t *bytes;
    size_t bytes_len;
    const struct dt_token_row *tokens; /* NULL: dt_parse_text reads them */
    size_t tokens_count;
};

/* What is asked of a source file: what is under a caret at the offset start, or which top-level parts share a byte with
   the range from start up to end. */
struct query {
    int is_caret;
    uint64_t start;
    uint64_t end; /* of a range */
};

/* A buffer to lend: so many numbers. */
struct buffer {
    uint32_t *numbers;
    size_t len;
};

/* What a call gave. The rows are those that the answer counts, and lie in the buffers; the tokens are the input's own
   if it has them, and the list is a query's. */
struct parsed {
    struct dt_answer answer;
    const struct dt_token_row *tokens;
    size_t tokens_count;
    const struct dt_tree_row *trees;
    const struct dt_error_row *errors;
    const struct dt_report_row *reports;
    const uint32_t *pool;
    const uint32_t *list;
    size_t list_count;
    struct buffer buffers[7];
};

/* 0 if there was no memory. free_parsed must be called in every case. A query needs the input's tokens, and takes them
   for a source file's. */
int parse(const struct input *in, struct parsed *out);
int query(const struct input *in, const struct query *q, struct parsed *out);
void free_parsed(struct parsed *out);

#endif
