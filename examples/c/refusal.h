/* Says why a call was refused. */
#ifndef REFUSAL_H
#define REFUSAL_H

#include "parse.h"

/* Of a text with the line that has the byte, of token rows with the row and what is allowed there. */
void print_refusal(const struct input *in, const struct parsed *p);

#endif
