/* Prints what a call gave. */
#ifndef PRINT_H
#define PRINT_H

#include "parse.h"

/* Every node and leaf with its range, each leaf with its text, two blanks in for each level up to the 32nd; on those
   below it the level's number stands too. */
void print_tree(const struct input *in, const struct parsed *p);

/* The devicetree nodes, each with what stands before its brace, under the node that it lies in. */
void print_nodes(const struct input *in, const struct parsed *p);

/* The devicetree nodes around a row, the nearest first. */
void print_way_up(const struct input *in, const struct parsed *p, size_t row);

/* The rows of a query's list, each with its number, its range and how its text begins. */
void print_list(const struct input *in, const struct parsed *p);

/* Lexical errors and reports, in the words of dt-tools. */
void print_messages(const struct parsed *p);

/* Bytes of a text on one line. */
void print_text(const uint8_t *bytes, size_t from, size_t to);

/* Whether all that was printed could be written. */
int all_printed(void);

#endif
