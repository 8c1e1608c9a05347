/*
 * Asks what is under a caret in a devicetree source, or which of its top-level parts a range touches, and prints the
 * rows of the tree: as an editor does that wants to say what stands there, or to work on what is on the screen.
 *
 *   under_caret FILE OFFSET      the rows from the root to the leaf at a byte; then the devicetree nodes on the way up
 *                                from the leaf, as an outline shows them
 *   under_caret FILE START END   the parts that share a byte with the range from START up to END
 *
 * FILE is a source in plain ASCII, as ../board.dts, or a file of token rows (docs/TOKENS.md), as ../overlay.rows.
 */
#include "file.h"
#include "number.h"
#include "print.h"
#include "refusal.h"
#include <stdio.h>

static int fail(const char *what)
{
    fprintf(stderr, "under_caret: %s\n", what);
    return 2;
}

/* Prints what a call gave, if it was accepted: the rows that it lists, none of a parse; and of a caret the way up. */
static int show(const struct input *in, const struct query *q, const struct parsed *p)
{
    if (p->answer.number != DT_ACCEPTED) {
        print_refusal(in, p);
        return 1;
    }
    print_list(in, p);
    if (q->is_caret && p->list_count > 0)
        print_way_up(in, p, p->list[p->list_count - 1]);
    return 0;
}

static int ask(const struct input *in, const struct query *q)
{
    struct parsed p;
    int status = query(in, q, &p) ? show(in, q, &p) : fail("no memory");
    free_parsed(&p);
    return status;
}

/* A source has no tokens yet: dt_parse_text reads them, and the query takes them from there. An editor has them from
   its last parse. */
static int ask_source(const struct input *in, const struct query *q)
{
    struct parsed p;
    int status = parse(in, &p) ? show(in, q, &p) : fail("no memory");
    if (status == 0) {
        struct input with_tokens = *in;
        with_tokens.tokens = p.tokens;
        with_tokens.tokens_count = p.tokens_count;
        status = ask(&with_tokens, q);
    }
    free_parsed(&p);
    return status;
}

static int read_offset(const char *text, uint64_t *out)
{
    return read_number(text, UINT64_MAX, out);
}

int main(int argc, char **argv)
{
    struct query q = {argc == 3, 0, 0};
    struct input in;
    const char *wrong;
    int status;
    if (argc < 3 || argc > 4)
        return fail("usage: under_caret FILE OFFSET, or FILE START END");
    if (!read_offset(argv[2], &q.start) || (argc == 4 && !read_offset(argv[3], &q.end)))
        return fail("an offset is a number from 0 to 18446744073709551615, in decimal digits");
    wrong = read_input(argv[1], DT_SETTING_OLD, &in);
    if (!wrong && in.entry != DT_ENTRY_SOURCE_FILE)
        wrong = "the file is not a source file";
    status = wrong ? fail(wrong) : in.tokens ? ask(&in, &q) : ask_source(&in, &q);
    free_input(&in);
    return all_printed() ? status : fail("the output cannot be written");
}
