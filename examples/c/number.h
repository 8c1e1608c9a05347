/* Numbers as a user or a file writes them. */
#ifndef NUMBER_H
#define NUMBER_H

#include <stdint.h>

/* Whether a text is decimal digits alone, of a number up to `most`, which is at least 9. Only then it is written to
   `out`. */
int read_number(const char *text, uint64_t most, uint64_t *out);

#endif
