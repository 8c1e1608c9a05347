"""The constants that are printed in crates/layout/src, which is code, and in tests/layout/src/lib.rs, for programs that
test. A comment above a constant stays with it, by its name."""
import functools

from header.numbers import LAYOUT
from header.parser_h import constants, enums, lex_error_ends
from header.place import listed, put
from header.sources import snake

CODE, TESTS = "crates/layout/src/", "tests/layout/src/lib.rs"
# A constant; one that stands in nothing that is printed has no source.
CONSTANT = r"\bconst (\w+): \w+ = [\d_]+;"
# Enums of the header that the tests have from the Rust, by name.
IN_THE_RUST = "dt_token", "dt_lex_error", "dt_node"


def grouped(number):
    """As in Rust: 1_048_576."""
    return f"{number:_}"


def lines(table, kind, spelled=str):
    return [(name, f"pub const {name}: {kind} = {spelled(number)};") for name, number in table]


# ---------------------------------------------------------------- the code


def tables(numbers):
    """Of each file the constants with their types."""
    most = {f"MOST_{n.replace('EXPECTATIONS', 'PENDING')}": v for n, v in numbers.limits.items() if n != "TOKENS"}
    hints = {n.replace("none", "no_hint"): v for n, v in numbers.hints.items()}
    sizes = {f"{row}_ROW": size for row, size in numbers.row_sizes.items()}
    codes = numbers.repo.numbers(LAYOUT)
    ends = {"KIND_CODES": codes["KIND_CODES"], "PAST_OTHERS": codes["FIRST_OTHER"] + codes["OTHER_CODES"]}
    yield "token_kind", [(numbers.token_kinds, "u8"), (lex_error_ends(numbers), "u32")]
    yield "lex_error", [(numbers.made_lex_errors, "u32")]
    yield "node_kind", [(numbers.node_kinds, "u32")]
    yield "event_tag", [(numbers.event_tags, "u32")]
    yield "refusal", [(numbers.refusals, "u32")]
    yield "message", [(numbers.messages, "u32")]
    yield "hint", [(hints, "u32")]
    yield "expected", [(numbers.expectations, "u8"), (ends, "u8")]
    yield "row", [(sizes, "usize"), (numbers.places, "usize"), (numbers.classes, "u32")]
    yield "limit", [(most, "usize")]
    yield "setting", [({"old": numbers.settings["old"]}, "u32")]


def code_edits(name, numbers, text):
    wanted = []
    for table, kind in dict(tables(numbers))[name]:
        wanted += lines([(snake(constant), number) for constant, number in table.items()], kind)
    yield listed(text, "constants", r"^pub const (\w+): \w+ = [\d_]+;$", wanted, apart="\n")


NAMES = (
    "token_kind", "lex_error", "node_kind", "event_tag", "refusal", "message", "hint", "expected", "row", "limit",
    "setting",
)
FILES = {f"{CODE}{name}.rt": functools.partial(code_edits, name) for name in NAMES}


def word_edits(numbers, text):
    most = numbers.repo.numbers(LAYOUT)["TWO_TO_32"]
    yield put(text, "TWO_TO_32", r"^const TWO_TO_32: usize = \d+;$", f"const TWO_TO_32: usize = {most};", 0)


FILES[CODE + "word.rt"] = word_edits


# ---------------------------------------------------------------- the tests


def rows(times, more):
    """So many times n and so many more, in Rust."""
    return "n" if (times, more) == (1, 0) else f"{times} * n + {more}"


def buffer_edits(numbers, text):
    """The lent buffers by their places in a call, the size of each one's rows, and the rows that suffice."""
    lent = [*numbers.lent, "BUFFERS"]
    pattern = r"^pub const (%s): usize = [\d_]+;$" % "|".join(lent)
    yield listed(text, "the lent buffers", pattern, lines(((name, i) for i, name in enumerate(lent)), "usize"))
    named = [name.removesuffix("S") for name in numbers.lent]
    sizes = ", ".join(f"ROW_{row}" if row in numbers.row_sizes else "1" for row in named)
    yield put(text, "ROW", r"^pub const ROW: Lengths = \[(.*?)\];$", sizes)
    bounds = [(name, f"    rows[{name}] = {rows(*bound)};") for name, bound in numbers.bounds.items()]
    yield listed(text, "bound", r"^    rows\[(\w+)\] = .*;$", bounds)


def test_edits(numbers, text):
    yield from buffer_edits(numbers, text)
    for name, prefix, table in enums(numbers):
        if name in IN_THE_RUST:
            continue
        kind = "usize" if prefix.startswith(("DT_ROW_", "DT_COL_", "DT_MAX_")) else "u32"
        begins = "|ACCEPTED" if "accepted" in table else ""
        item = r"^pub const (%s\w+%s): \w+ = [\d_]+;$" % (prefix.removeprefix("DT_"), begins)
        members = [(constant.removeprefix("DT_"), number) for constant, number in constants(prefix, table)]
        yield listed(text, f"enum {name}", item, lines(members, kind, grouped))
    ends = [(f"TOKEN_{snake(name)}", number) for name, number in lex_error_ends(numbers).items()]
    yield listed(text, "lexical errors", r"^pub const (TOKEN_\w+): \w+ = [\d_]+;$", lines(ends, "u32"))


FILES[TESTS] = test_edits
