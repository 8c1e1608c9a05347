/*
 * How much stack a call takes: deeply nested inputs, parsed in the strict setting, which does all that the old one
 * does, in a thread whose stack was filled with a pattern before.
 * Prints a line for each input: its name, levels, the answer's number, bytes of stack; and those of the call that reads
 * the tokens itself, where the input is a text without directives.
 */
#define _POSIX_C_SOURCE 200809L
#include "../../include/dt_parser.h"
#include <pthread.h>
#include <stdio.h>
#include <stdlib.h>
#include <string.h>

enum { STACK = 16 << 20, PATTERN = 0xA5, MOST_TOKENS = 4096 };

/* Levels of nesting: each opens with one text and closes with another, around one number. A byte is a token. */
struct nesting {
    const char *name;
    uint32_t entry;
    const char *open, *close;
    int levels;
};

static const struct nesting inputs[] = {
    {"cells: brackets", DT_ENTRY_CELLS, "(", ")", 63},
    {"cells: brackets and signs", DT_ENTRY_CELLS, "(-", ")", 31},
    {"cells: ternaries", DT_ENTRY_CELLS, "(1?", ":1)", 31},
    {"cells: conditionals", DT_ENTRY_CELLS, "I", "E", 63},
    {"values: conditionals", DT_ENTRY_PROP_VALUES, "I", "E", 63},
    {"values: conditionals and cells", DT_ENTRY_PROP_VALUES, "I<I", "E>E", 20},
    {"nodes", DT_ENTRY_SOURCE_FILE, "a{", "};", 63},
    {"nodes and conditionals", DT_ENTRY_SOURCE_FILE, "a{I", "E};", 31},
    {"conditionals", DT_ENTRY_SOURCE_FILE, "I", "E", 63},
    {"unnamed nodes", DT_ENTRY_SOURCE_FILE, "{", "}", 63},
    {"nodes with one level too many", DT_ENTRY_SOURCE_FILE, "a{", "", 64},
};

static uint32_t kind_of(char c)
{
    static const char texts[] = "1a(){}<>-?:;IE";
    static const uint32_t kinds[] = {
        DT_TOKEN_NUMBER, DT_TOKEN_IDENT, DT_TOKEN_LPAREN, DT_TOKEN_RPAREN, DT_TOKEN_LCURLY,
        DT_TOKEN_RCURLY, DT_TOKEN_LANGLE, DT_TOKEN_RANGLE, DT_TOKEN_MINUS, DT_TOKEN_QUESTION_MARK,
        DT_TOKEN_COLON, DT_TOKEN_SEMICOLON, DT_TOKEN_IF_DIRECTIVE, DT_TOKEN_ENDIF_DIRECTIVE,
    };
    return kinds[strchr(texts, c) - texts];
}

static uint8_t bytes[MOST_TOKENS];
static uint32_t tokens[2 * MOST_TOKENS], text_tokens[2 * MOST_TOKENS];
static uint32_t events[DT_EVENTS_FOR(MOST_TOKENS)], trees[DT_TREES_FOR(MOST_TOKENS)], errors[DT_ERRORS_FOR(MOST_TOKENS)];
static uint32_t reports[DT_REPORTS_FOR(MOST_TOKENS)], pool[DT_POOL_FOR(MOST_TOKENS)];
static size_t used;

static void put(const char *text)
{
    for (; *text; text++, used++) {
        bytes[used] = (uint8_t)*text;
        tokens[2 * used] = kind_of(*text);
        tokens[2 * used + 1] = 1;
    }
}

static uint32_t entry;

static void *parse(void *number)
{
    struct dt_answer a = dt_parse(entry, DT_SETTING_STRICT, bytes, used, tokens, 2 * used, events, DT_EVENTS_FOR(used),
                                  trees, DT_TREES_FOR(used), errors, DT_ERRORS_FOR(used), reports, DT_REPORTS_FOR(used),
                                  pool, DT_POOL_FOR(used));
    *(uint32_t *)number = a.number;
    return NULL;
}

static void *parse_text(void *number)
{
    struct dt_text_answer a = dt_parse_text(entry, DT_SETTING_STRICT, bytes, used, text_tokens, DT_TOKENS_FOR(used),
                                            events, DT_EVENTS_FOR(used), trees, DT_TREES_FOR(used), errors,
                                            DT_ERRORS_FOR(used), reports, DT_REPORTS_FOR(used), pool,
                                            DT_POOL_FOR(used));
    *(uint32_t *)number = a.answer.number;
    return NULL;
}

static void *nothing(void *number) { return number; }

/* Bytes of its stack that a thread writes to. */
static size_t stack_of(void *(*work)(void *), uint32_t *number)
{
    uint8_t *stack = aligned_alloc(4096, STACK);
    pthread_attr_t attributes;
    pthread_t thread;
    size_t untouched = 0;
    memset(stack, PATTERN, STACK);
    pthread_attr_init(&attributes);
    pthread_attr_setstack(&attributes, stack, STACK);
    if (pthread_create(&thread, &attributes, work, number) != 0)
        exit(2);
    pthread_join(thread, NULL);
    while (untouched < STACK && stack[untouched] == PATTERN)
        untouched++;
    free(stack);
    return STACK - untouched;
}

int main(void)
{
    uint32_t number = 0, text_number = 0;
    size_t thread = stack_of(nothing, &number), taken, i;
    puts("nesting,levels,number,bytes,text_bytes");
    for (i = 0; i < sizeof inputs / sizeof *inputs; i++) {
        int level;
        used = 0;
        entry = inputs[i].entry;
        for (level = 0; level < inputs[i].levels; level++)
            put(inputs[i].open);
        put("1");
        for (level = 0; level < inputs[i].levels; level++)
            put(inputs[i].close);
        taken = stack_of(parse, &number) - thread;
        printf("%s,%d,%u,%zu,", inputs[i].name, inputs[i].levels, number, taken);
        if (strchr(inputs[i].open, 'I') == NULL) {
            taken = stack_of(parse_text, &text_number) - thread;
            if (text_number != number)
                return 2;
            printf("%zu", taken);
        }
        putchar('\n');
    }
    return 0;
}
