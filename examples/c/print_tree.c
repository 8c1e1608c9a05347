/*
 * Parses a devicetree source and prints the tree, the devicetree nodes, the lexical errors and the reports.
 *
 *   print_tree                  a small input of its own
 *   print_tree [--strict] FILE  a source in plain ASCII, as ../board.dts, or a file of token rows (docs/TOKENS.md), as
 *                               ../overlay.rows; --strict: in the setting that also reports labels which the Devicetree
 *                               Specification does not allow
 */
#include "file.h"
#include "print.h"
#include "refusal.h"
#include <stdio.h>
#include <string.h>

static int fail(const char *what)
{
    fprintf(stderr, "print_tree: %s\n", what);
    return 2;
}

static int run(const struct input *in)
{
    struct parsed p;
    int status = 0;
    if (!parse(in, &p)) {
        status = fail("no memory");
    } else if (p.answer.number != DT_ACCEPTED) {
        print_refusal(in, &p);
        status = 1;
    } else {
        print_tree(in, &p);
        print_nodes(in, &p);
        print_messages(&p);
    }
    free_parsed(&p);
    return status;
}

/* A node that is left open. dt_parse_text reads the tokens. */
static int run_example(void)
{
    static const uint8_t bytes[] = {'a', '{', 'b', '=', '<', '(', '1', '-', '2', ')', '>'};
    const struct input in = {DT_ENTRY_SOURCE_FILE, DT_SETTING_OLD, bytes, sizeof bytes, NULL, 0};
    return run(&in);
}

static int run_file(const char *name, uint32_t setting)
{
    struct input in;
    const char *wrong = read_input(name, setting, &in);
    int status = wrong ? fail(wrong) : run(&in);
    free_input(&in);
    return status;
}

int main(int argc, char **argv)
{
    int strict = argc > 1 && strcmp(argv[1], "--strict") == 0, status;
    if (argc > 2 + strict || (strict && argc == 2))
        return fail("usage: print_tree [[--strict] FILE]");
    status = argc == 1 ? run_example() : run_file(argv[argc - 1], strict ? DT_SETTING_STRICT : DT_SETTING_OLD);
    return all_printed() ? status : fail("the output cannot be written");
}
