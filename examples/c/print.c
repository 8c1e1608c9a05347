#include "print.h"
#include "dt_names.h"
#include <stdio.h>
#include <string.h>

void print_text(const uint8_t *bytes, size_t from, size_t to)
{
    for (; from < to; from++) {
        if (bytes[from] == '\n')
            fputs("\\n", stdout);
        else if (bytes[from] == '\t')
            fputs("\\t", stdout);
        else if (bytes[from] == '"' || bytes[from] == '\\')
            printf("\\%c", bytes[from]);
        else if (bytes[from] < 32 || bytes[from] > 126)
            printf("\\x%02x", bytes[from]);
        else
            putchar(bytes[from]);
    }
}

int all_printed(void)
{
    return fflush(stdout) == 0 && !ferror(stdout);
}

/* Two blanks a level. A tree can be as deep as it has rows: past 32 levels the depth stands there as a number, so that
   the output grows with the rows and not with their square. */
static void indent(size_t depth)
{
    enum { DEEPEST = 32 };
    size_t level;
    for (level = 0; level < depth && level < DEEPEST; level++)
        fputs("  ", stdout);
    if (depth > DEEPEST)
        printf("[%zu] ", depth);
}

/* Prints a row that starts at this byte, and gives the byte that the next row starts at. */
static size_t print_row(const struct input *in, const struct dt_tree_row *row, size_t start)
{
    size_t end = start + row->width;
    if (row->class_ == DT_CLASS_NODE) {
        printf("%s@%zu..%zu\n", dt_node_name(row->kind), start, end);
        return start;
    }
    printf("%s@%zu..%zu \"", dt_token_name(row->kind), start, end);
    print_text(in->bytes, start, end);
    puts("\"");
    return end;
}

/* The depth of a row, from that of the row before it: the parent is that row, or lies above it. A step up here goes
   back a step down, so that all rows together take no more steps than there are rows. */
static size_t depth_of(const struct dt_tree_row *trees, size_t row, size_t depth_before)
{
    size_t above, depth = depth_before + 1;
    for (above = row - 1; above != trees[row].parent; above = trees[above].parent)
        depth--;
    return depth;
}

/* A tree can be as deep as it has rows, so this does not call itself. */
void print_tree(const struct input *in, const struct parsed *p)
{
    size_t depth = 0, start = 0, row;
    for (row = 0; row < p->answer.tree_count; row++) {
        depth = row == 0 ? 0 : depth_of(p->trees, row, depth);
        indent(depth);
        start = print_row(in, &p->trees[row], start);
    }
}

static int is_dt_node(const struct dt_tree_row *row)
{
    return row->class_ == DT_CLASS_NODE && row->kind == DT_NODE_DT_NODE;
}

/* How many bytes the next row starts after this one: those of a leaf. A node's are its leaves'. */
static size_t own_bytes(const struct dt_tree_row *row)
{
    return row->class_ == DT_CLASS_LEAF ? row->width : 0;
}

static size_t start_of(const struct dt_tree_row *trees, size_t row)
{
    size_t start = 0, i;
    for (i = 0; i < row; i++)
        start += own_bytes(&trees[i]);
    return start;
}

/* What stands before the brace of a node that starts at this byte, without the blanks before it. */
static void print_head(const struct input *in, const struct parsed *p, size_t node, size_t start)
{
    size_t child = node + 1, end = start;
    uint32_t i;
    for (i = 0; i < p->trees[node].count; i++) {
        const struct dt_tree_row *row = &p->trees[child];
        if (row->class_ == DT_CLASS_LEAF && row->kind == DT_TOKEN_LCURLY)
            break;
        end += row->width;
        child = dt_after_subtree(p->trees, p->answer.tree_count, child);
    }
    while (end > start && memchr(" \t\r\n", in->bytes[end - 1], 4))
        end--;
    print_text(in->bytes, start, end);
    putchar('\n');
}

/* The nearest devicetree node around a row, found by going from parent to parent; the root where there is none. */
static size_t node_around(const struct dt_tree_row *trees, size_t row)
{
    while (row != 0) {
        row = trees[row].parent;
        if (is_dt_node(&trees[row]))
            break;
    }
    return row;
}

/* How many devicetree nodes a node is in, itself too: no more than DT_MAX_OPEN_CALLS, so that going up to the root for
   each is no long way. */
static size_t node_depth(const struct dt_tree_row *trees, size_t row)
{
    size_t depth = 0;
    for (; row != 0; row = node_around(trees, row))
        depth++;
    return depth;
}

void print_nodes(const struct input *in, const struct parsed *p)
{
    size_t start = 0, row;
    puts("nodes:");
    for (row = 0; row < p->answer.tree_count; row++) {
        if (is_dt_node(&p->trees[row])) {
            indent(node_depth(p->trees, row));
            print_head(in, p, row, start);
        }
        start += own_bytes(&p->trees[row]);
    }
}

void print_way_up(const struct input *in, const struct parsed *p, size_t row)
{
    for (row = node_around(p->trees, row); row != 0; row = node_around(p->trees, row)) {
        fputs("in ", stdout);
        print_head(in, p, row, start_of(p->trees, row));
    }
}

/* The list's numbers are in the order of the rows, so that one walk over the rows finds where each starts. */
void print_list(const struct input *in, const struct parsed *p)
{
    enum { LONGEST = 40 };
    size_t start = 0, row = 0, i;
    for (i = 0; i < p->list_count; i++) {
        const struct dt_tree_row *listed = p->trees + p->list[i];
        int is_node = listed->class_ == DT_CLASS_NODE, is_long = listed->width > LONGEST;
        const char *name = is_node ? dt_node_name(listed->kind) : dt_token_name(listed->kind);
        for (; row < p->list[i]; row++)
            start += own_bytes(&p->trees[row]);
        printf("row %zu: %s@%zu..%zu \"", row, name, start, start + listed->width);
        print_text(in->bytes, start, start + (is_long ? (size_t)LONGEST : listed->width));
        puts(is_long ? "\".." : "\"");
    }
}

/* The words for the first token from this index on that is not trivia; NULL at the end of the input. */
static const char *found_text(const struct parsed *p, size_t token)
{
    for (; token < p->tokens_count; token++)
        switch (p->tokens[token].kind) {
        case DT_TOKEN_WHITESPACE:
        case DT_TOKEN_BLOCK_COMMENT:
        case DT_TOKEN_LINE_COMMENT:
            break;
        default:
            if (p->tokens[token].kind >= DT_TOKEN_FIRST_LEX_ERROR)
                return dt_token_text(DT_TOKEN_UNRECOGNIZED);
            return dt_token_text(p->tokens[token].kind);
        }
    return NULL;
}

/* ` A, B or C, but found D`. */
static void print_expected(const struct parsed *p, const struct dt_report_row *report)
{
    const uint32_t *codes = p->pool + report->pool_first;
    const char *found = found_text(p, report->mark);
    uint32_t i;
    for (i = 0; i < report->pool_count; i++)
        printf("%s%s", i == 0 ? " " : i + 1 == report->pool_count ? " or " : ", ", dt_expected_text(codes[i]));
    if (found)
        printf(", but found %s", found);
    else
        printf(", but reached end of input");
}

void print_messages(const struct parsed *p)
{
    size_t i;
    for (i = 0; i < p->answer.error_count; i++) {
        const struct dt_error_row *error = &p->errors[i];
        printf("%u..%u: %s\n", error->start, error->end, dt_lex_error_text(error->number));
    }
    for (i = 0; i < p->answer.report_count; i++) {
        const struct dt_report_row *report = &p->reports[i];
        printf("%u..%u: %s", report->start, report->end, dt_message_text(report->message));
        if (report->message == DT_MESSAGE_EXPECTED)
            print_expected(p, report);
        putchar('\n');
        if (report->label_end != 0)
            printf("  %u..%u: %s\n", report->label_start, report->label_end, dt_label_text(report->message));
        if (report->hint != DT_HINT_NONE)
            printf("  hint: %s\n", dt_hint_text(report->hint));
    }
}
