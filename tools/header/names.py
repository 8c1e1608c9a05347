"""The text of include/dt_names.h: for each number of dt_parser.h its name and, where the Rust has one, its text."""
import re

from header.place import Edit
from header.sources import RUST, SourceFault, camel, snake

PATH = "include/dt_names.h"
LEXER, ERRORS = RUST + "lexer.rs", RUST + "parser/errors.rs"
GRAMMAR, EXPR, DIRECTIVES = RUST + "grammar.rs", RUST + "grammar/expr.rs", RUST + "grammar/preprocessor_directive.rs"

# Where the Rust makes each message and hint of Errors.antt: file, function, and which of the function's, from 0.
MESSAGES = {
    "unmatched_rcurly": (GRAMMAR, "entry_sourcefile", 0),
    "unmatched_semicolon": (GRAMMAR, "item", 0),
    "unmatched_endif": (DIRECTIVES, "catch_unmatched_pp_directive", 0),
    "stray_continuation": (DIRECTIVES, "catch_unmatched_pp_directive", 1),
    "at_sign_in_label": (GRAMMAR, "eat_node_or_prop_prefix", 0),
    "unclosed_node": (GRAMMAR, "dt_node_body", 0),
}
# Messages that the Rust lacks, and where they have a text in the style of its own.
ADDED_MESSAGES, ADDED_TEXTS = ["not_a_label"], "bindings/rust/src/message.rs"
# Causes of document 02: those that it adds to document 01's table, and what it makes of causes 3, 5 and 8 there.
ADDED_CAUSES = {
    "high_byte": "byte of 128 or more",
    "directive": "preprocessor directive at a token start",
    "bad_kind": "bad kind of a token row",
    "zero_length": "token row of length 0",
    "bad_end": "a token ends past the input, or the total is short",
}
CHANGED_CAUSES = {
    "odd_count": "odd count of token numbers",
    "too_deep": "a 65th open call",
    "no_tree_room": "tree, lexical errors or the list of a query don't fit",
}
HINTS = {
    "unnamed_property": (GRAMMAR, "item", 0),
    "unnamed_node": (GRAMMAR, "item", 1),
    "missing_parentheses": (GRAMMAR, "eat_cell", 0),
    "in_cells": (GRAMMAR, "cells", 0),
    "property_not_allowed": (GRAMMAR, "eat_node_or_prop", 0),
    "missing_left_side": (EXPR, "lhs", 0),
}
LABEL = GRAMMAR, "dt_node_body", 0

TOP = """/*
 * The numbers of dt_parser.h as text: their names, and the texts that dt-tools has for them. The one message that
 * dt-tools lacks, DT_MESSAGE_NOT_A_LABEL, has a text of the same style.
 *
 * Written by tools/numbers from docs/src, docs/01-scope.md and crates/definitions: change those, not this file.
 *
 * Names are those of docs/src where it has one (`Semicolon`), else those of the definitions with hyphens
 * (`unclosed-node`). Texts are UTF-8. No function returns NULL: for a number that has no name or text it is "?".
 */
#ifndef DT_NAMES_H
#define DT_NAMES_H

#include "dt_parser.h"

#ifdef __cplusplus
extern "C" {
#endif
"""

MESSAGE_COMMENT = """The message; of DT_MESSAGE_EXPECTED its first word. The report's part of the pool follows it:
 * `Expected A, B or C, but found D`, or `.., but reached end of input` (examples/c/print.c)."""

END = """
#ifdef __cplusplus
}
#endif

#endif
"""


# ---------------------------------------------------------------- texts of the sources


def arms(repo, path, implementation, enum):
    """The arms `ENUM::CASE => "TEXT"` of an implementation."""
    body = between(repo.text(path), implementation, "\n}")
    return dict(re.findall(r'%s::(\w+) => (?:f\.write_str\()?"([^"]*)"' % enum, body))


def between(text, start, end):
    at = text.find(start)
    if at < 0:
        raise SourceFault(f"nothing like {start}")
    return text[at : text.index(end, at)]


def doc_comments(repo, path, enum):
    """The comment before each case of an enum."""
    body = between(repo.text(path), "pub enum %s {" % enum, "\n}")
    return {case: text for text, case in re.findall(r"/// (.*)\n(?:    #.*\n)*    (\w+),", body)}


def said(repo, method, place):
    """The text of the n-th call of a method in a function of the Rust."""
    path, function, n = place
    start = re.search(r"^(?:pub(?:\(super\))? )?fn %s\b" % function, repo.text(path), re.M)
    body = repo.text(path)[start.start() :] if start else ""
    found = re.findall(r'\.%s\((?:\w+, )?(?:[\w:]+\()?\s*"([^"]*)"' % method, body[: body.find("\n}")])
    if len(found) <= n:
        raise SourceFault(f"{path}: no {method} {n} in {function}")
    return found[n]


def all_said(repo, method, places):
    """The texts of a table of places; each call of the method in the grammar must be in the table once."""
    calls = sum(repo.text(path).count(f".{method}(") for path in (GRAMMAR, EXPR, DIRECTIVES))
    if calls != len(places):
        raise SourceFault(f"the Rust's grammar has {calls} calls of {method}, and {len(places)} are known")
    return {name: said(repo, method, place) for name, place in places.items()}


def message_texts(repo):
    """The messages that are one text each, by their names in Errors.antt."""
    return all_said(repo, "msg_custom", MESSAGES)


def hint_texts(repo):
    return all_said(repo, "add_hint", HINTS)


def label_text(repo):
    """What the message of an open node says at its brace."""
    return said(repo, "add_span_label", LABEL)


def token_words(repo):
    """The words for a token's kind in a message, by the Rust's names."""
    return arms(repo, LEXER, "impl core::fmt::Display for TokenKind", "TokenKind")


def expectation_words(repo):
    """The words for the other expectations."""
    return arms(repo, ERRORS, "impl core::fmt::Display for Expected", "Expected")


def added_texts(repo):
    """The messages that the Rust lacks."""
    found = {name: r'Self::%s => \{?\s*"([^"]*)"' % camel(name) for name in ADDED_MESSAGES}
    return {name: repo.found(pattern, ADDED_TEXTS)[1] for name, pattern in found.items()}


def first_word(repo):
    """What a message of expectations begins with."""
    found = re.search(r'let mut message = "(\w+) "', repo.text(ERRORS))
    if not found:
        raise SourceFault(f"{ERRORS}: no first word of a message of expectations")
    return found[1]


def causes(repo):
    """The causes of document 01's table, by the refusal's number."""
    table = re.findall(r"^\| ([^|]+) \| (\d+) \| [^|]+ \| [^|]+ \|$", repo.text("docs/01-scope.md"), re.M)
    return {int(number): cause for cause, number in table}


# ---------------------------------------------------------------- the functions of the header


def function(name, parameter, comment, cases, otherwise='"?"'):
    """A C function that gives a text for each constant."""
    head = f"static inline const char *{name}(uint32_t {parameter})"
    lines = [f"\n/* {comment} */", head, "{", f"    switch ({parameter}) {{"]
    lines += [f'    case {constant}: return "{escaped(text)}";' for constant, text in cases]
    return "\n".join([*lines, f"    default: return {otherwise};", "    }", "}", ""])


def escaped(text):
    return text.replace("\\", "\\\\").replace('"', '\\"')


def cases(prefix, table, texts=None):
    """The constants of a table of numbers, each with its text; without texts, with its name."""
    for name in table:
        if texts is not None and name not in texts:
            raise SourceFault(f"no text for {name}: tools/header/names.py says where texts are from")
        yield prefix + snake(name), name.replace("_", "-") if texts is None else texts[name]


def of_calls(numbers):
    cause, refusals = causes(numbers.repo), {name.lower(): number for name, number in numbers.refusals.items()}
    accepted = [("DT_ACCEPTED", "accepted")]
    texts = {name: cause[number] for name, number in refusals.items() if number in cause}
    texts |= CHANGED_CAUSES | ADDED_CAUSES
    yield function("dt_entry_name", "entry", "What is parsed, of enum dt_entry.", cases("DT_ENTRY_", numbers.entries))
    yield function("dt_refusal_name", "number", "Why a call was refused, of enum dt_refusal.",
                   [*accepted, *cases("DT_REFUSAL_", refusals)])
    yield function("dt_refusal_text", "number", "The cause as documents 01 and 02 have it.",
                   [*accepted, *cases("DT_REFUSAL_", refusals, texts)])


def of_kinds(numbers):
    repo, tokens, errors = numbers.repo, numbers.token_kinds, numbers.lex_errors
    yield function("dt_token_name", "kind", "A token's kind, of enum dt_token.", cases("DT_TOKEN_", tokens))
    yield function("dt_token_text", "kind", "The words for it in a message, with quotes where dt-tools has them.",
                   cases("DT_TOKEN_", tokens, token_words(repo)))
    yield function("dt_lex_error_name", "number", "A lexical error, of enum dt_lex_error.",
                   cases("DT_LEX_ERROR_", errors))
    yield function("dt_lex_error_text", "number", "The message for it.",
                   cases("DT_LEX_ERROR_", errors, doc_comments(repo, LEXER, "LexError")))
    yield function("dt_node_name", "kind", "A node's kind, of enum dt_node.", cases("DT_NODE_", numbers.node_kinds))


def of_reports(numbers):
    repo, messages, hints = numbers.repo, numbers.messages, numbers.hints
    texts = {"expected": first_word(repo), **message_texts(repo), **added_texts(repo)}
    yield function("dt_message_name", "message", "A report's message, of enum dt_message.",
                   cases("DT_MESSAGE_", messages))
    yield function("dt_message_text", "message", MESSAGE_COMMENT, cases("DT_MESSAGE_", messages, texts))
    yield function("dt_label_text", "message", "What a message says at its label; empty for one that has no label.",
                   [("DT_MESSAGE_UNCLOSED_NODE", label_text(repo))], '""')
    yield function("dt_hint_name", "hint", "A report's hint, of enum dt_hint.", cases("DT_HINT_", hints))
    yield function("dt_hint_text", "hint", "What it adds to the message; empty for DT_HINT_NONE.",
                   cases("DT_HINT_", hints, {"none": "", **hint_texts(repo)}))


def of_expectations(numbers):
    expected = numbers.expectations
    yield function("dt_expected_name", "code", "An expectation: of enum dt_expected, or a token's kind.",
                   cases("DT_EXPECTED_", expected), "dt_token_name(code)")
    yield function("dt_expected_text", "code", "The words for it in a message.",
                   cases("DT_EXPECTED_", expected, expectation_words(numbers.repo)), "dt_token_text(code)")


def edits(numbers, text):
    functions = [*of_calls(numbers), *of_kinds(numbers), *of_reports(numbers), *of_expectations(numbers)]
    yield Edit("the file", 0, len(text), TOP + "".join(functions) + END)
