"""What is printed in include/dt_parser.h. A comment behind a constant or a member stays with it, by its name."""
import re

from header.calls import IN_C, c_struct
from header.place import Edit, found, listed
from header.sources import snake

PATH = "include/dt_parser.h"
# A constant; one that stands in nothing that is printed has no source.
CONSTANT = r"\b(DT_[A-Z0-9_]+) = \w+"
WIDTH = 120


def constants(prefix, table):
    """The constants of a table with their numbers. An accepted call has number 0, which no refusal has."""
    return [("DT_ACCEPTED" if name == "accepted" else prefix + snake(name), number) for name, number in table.items()]


def enums(numbers):
    """Each enum: what its constants begin with, and their numbers."""
    yield "dt_entry", "DT_ENTRY_", numbers.entries
    yield "dt_setting", "DT_SETTING_", numbers.settings
    yield "dt_refusal", "DT_REFUSAL_", {"accepted": 0} | numbers.refusals
    yield "dt_limit", "DT_MAX_", {name: most for name, most in numbers.limits.items() if name != "TOKENS"}
    yield "dt_row_size", "DT_ROW_", numbers.row_sizes
    for row, columns in numbers.columns.items():
        yield f"dt_{row.lower()}_column", f"DT_COL_{row}_", {column: place for place, column in enumerate(columns)}
    yield "dt_class", "DT_CLASS_", numbers.classes
    yield "dt_token", "DT_TOKEN_", numbers.token_kinds | lex_error_ends(numbers)
    yield "dt_lex_error", "DT_LEX_ERROR_", numbers.lex_errors
    yield "dt_node", "DT_NODE_", numbers.node_kinds
    yield "dt_message", "DT_MESSAGE_", numbers.messages
    yield "dt_hint", "DT_HINT_", numbers.hints
    yield "dt_expected", "DT_EXPECTED_", numbers.expectations


def lex_error_ends(numbers):
    errors = numbers.lex_errors.values()
    return {"first_lex_error": min(errors), "last_lex_error": max(errors)}


# ---------------------------------------------------------------- lists with comments


def comments(body, item):
    """The words of the comment behind each item of a list."""
    return {name: comment.split() for name, comment in re.findall(item + r"[,;]?\s*/\*(.*?)\*/", body, re.S)}


def comment_lines(words, room):
    """Words in lines that are no longer than the room, the sign that ends the comment too."""
    lines = [""]
    for word in [*words[:-1], words[-1] + " */"]:
        longer = f"{lines[-1]} {word}" if lines[-1] else word
        lines[-1:] = [longer] if len(longer) <= room else [lines[-1], word]
    return lines


def beside(items):
    """Items with the words of their comments, all comments from one column on."""
    column = max((len(item) + 5 for item, words in items if words), default=0)
    lines = []
    for item, words in items:
        first, *more = comment_lines(words, WIDTH - column - 3) if words else [""]
        lines.append(f"    {item}".ljust(column) + f"/* {first}" if words else f"    {item}")
        lines += [" " * (column + 3) + line for line in more]
    return lines


def enum_text(name, members, words):
    """Up to three constants without comments stand on one line."""
    items = [f"{constant} = {number}" for constant, number in members]
    if not words and len(items) <= 3:
        return f"enum {name} {{ {', '.join(items)} }};"
    items = [*(f"{item}," for item in items[:-1]), *items[-1:]]
    lines = beside([(item, words.get(constant)) for item, (constant, _) in zip(items, members)])
    return "\n".join([f"enum {name} {{", *lines, "};"])


def enum_edits(numbers, text):
    texts = {"DT_TOKEN_" + snake(name): [said] for name, said in numbers.fixed_texts.items()}
    trivia = {"DT_TOKEN_" + snake(name): ["trivia"] for name in numbers.trivia}
    for name, prefix, table in enums(numbers):
        members = constants(prefix, table)
        place = found(text, f"enum {name}", r"^enum %s \{(.*?)\};$" % name)
        words = comments(place[1], r"\b(DT_\w+) = \w+")
        if name == "dt_token":
            # one word behind a kind is printed too
            words = {n: said for n, said in words.items() if len(said) > 1} | texts | trivia
        words = {constant: words[constant] for constant, _ in members if constant in words}
        yield Edit(f"enum {name}", place.start(), place.end(), enum_text(name, members, words))


def struct_edit(text, name, members):
    """members: names with their types in C."""
    place = found(text, f"struct {name}", r"^struct %s \{\n(.*?)^\};$" % name)
    words = comments(place[1], r"\b(\w+);")
    lines = beside([(f"{kind}{member};", words.get(member)) for member, kind in members])
    return Edit(f"struct {name}", place.start(), place.end(), "\n".join([f"struct {name} {{", *lines, "};"]))


# ---------------------------------------------------------------- rows, lengths, calls, the version


def row_edits(numbers, text):
    asserted = []
    for row, columns in numbers.columns.items():
        # `class` is a word of C++
        members = [("class_" if column == "CLASS" else snake(column).lower(), "uint32_t ") for column in columns]
        name = f"dt_{row.lower()}_row"
        yield struct_edit(text, name, members)
        asserted.append((name, f"DT_ASSERT_ROW({name}, DT_ROW_{row});"))
    yield listed(text, "DT_ASSERT_ROW", r"^DT_ASSERT_ROW\((\w+), .*$", asserted)


def lengths(numbers):
    """The macros of the lengths that suffice, by the names of the buffers."""
    for name, (times, more) in numbers.bounds.items():
        rows = f"{times} * (size_t)(n) + {more}" if (times, more) != (1, 0) else "(size_t)(n)"
        row = name.removesuffix("S")
        if row in numbers.row_sizes:
            rows = f"DT_ROW_{row} * {rows if more == 0 else f'({rows})'}"
        yield name, f"#define DT_{name}_FOR(n) ({rows})"


def answer_type(kind, numbers):
    return f"struct {c_struct(kind)} " if kind in numbers.answers else IN_C[kind]


def call_edits(numbers, text):
    for answer in {call.answer: None for call in numbers.calls.values()}:
        members = [(name, answer_type(kind, numbers)) for name, kind in numbers.answers[answer]]
        yield struct_edit(text, c_struct(answer), members)
    declared = {place[1]: place for place in re.finditer(r"^struct \w+ (dt_\w+)\([^;]*\);$", text, re.M)}
    end = found(text, "the calls", r"^#ifdef __cplusplus\n\}$").start()
    for name in {**numbers.calls, **declared}:
        said = numbers.calls[name].in_c() if name in numbers.calls else ""
        if name in declared:
            yield Edit(name, declared[name].start(), declared[name].end(), said)
        else:
            yield Edit(name, end, end, said + "\n\n")


def version_edit(numbers, text):
    parts = zip(("MAJOR", "MINOR", "PATCH"), numbers.version.split("."))
    wanted = [(part, f"#define DT_PARSER_VERSION_{part} {number}") for part, number in parts]
    return listed(text, "DT_PARSER_VERSION", r"^#define DT_PARSER_VERSION_(\w+) .*$", wanted)


def edits(numbers, text):
    yield version_edit(numbers, text)
    yield from enum_edits(numbers, text)
    yield from row_edits(numbers, text)
    yield listed(text, "the lengths", r"^#define DT_(\w+)_FOR\(n\) .*$", [*lengths(numbers)])
    yield from call_edits(numbers, text)
