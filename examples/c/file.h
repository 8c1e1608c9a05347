/* Files to parse: a source in plain ASCII, or a file of token rows. */
#ifndef FILE_H
#define FILE_H

#include "parse.h"

/* NULL, or what is wrong. The bytes and tokens of the input are to be freed by free_input in every case. */
const char *read_input(const char *name, uint32_t setting, struct input *out);
void free_input(struct input *in);

#endif
