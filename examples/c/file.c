#include "file.h"
#include "rowsfile.h"
#include <errno.h>
#include <stdlib.h>
#include <string.h>

static const char *read_rows(FILE *from, struct input *out)
{
    struct rowsfile file;
    const char *wrong = read_rowsfile(from, &file);
    out->entry = file.entry;
    out->bytes = file.bytes;
    out->bytes_len = file.bytes_len;
    out->tokens = file.tokens;
    out->tokens_count = file.tokens_count;
    return wrong;
}

/* A source that is longer than a call takes is refused: no more of it is needed than one byte over the limit. */
static const char *read_source(FILE *from, const uint8_t *start, size_t len, struct input *out)
{
    enum { MOST = DT_MAX_BYTES + 1 };
    uint8_t *bytes = (uint8_t *)malloc(MOST);
    if (!bytes)
        return "no memory";
    memcpy(bytes, start, len);
    out->entry = DT_ENTRY_SOURCE_FILE;
    out->bytes = bytes;
    out->bytes_len = len + fread(bytes + len, 1, MOST - len, from);
    return NULL;
}

/* The first bytes say what the file is. They are handed on, since a pipe cannot be read again. A folder can be opened,
   and not read. */
const char *read_input(const char *name, uint32_t setting, struct input *out)
{
    uint8_t start[ROWSFILE_START];
    const char *wrong;
    size_t len;
    FILE *from = fopen(name, "rb");
    memset(out, 0, sizeof *out);
    out->setting = setting;
    if (!from)
        return *name ? strerror(errno) : "the file name is empty";
    len = fread(start, 1, sizeof start, from);
    wrong = is_rowsfile(start, len) ? read_rows(from, out) : read_source(from, start, len, out);
    if (ferror(from))
        wrong = strerror(errno);
    fclose(from);
    return wrong;
}

void free_input(struct input *in)
{
    free((void *)in->bytes);
    free((void *)in->tokens);
    memset(in, 0, sizeof *in);
}
