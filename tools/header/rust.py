"""What is printed in bindings/rust: cases, constants, rows, calls and the version. A comment above a case or a member
stays with it, by its name. Beside it the columns that tests/header/use.c names."""
import re

from header.layout import grouped, rows
from header.place import Edit, found, inside, listed, put
from header.sources import camel, snake

SOURCES = "bindings/rust/src/"
# A number by name; one that stands in nothing that is printed has no source.
CONSTANT = r"^ +([A-Z]\w+) = \d+,$|\bconst (\w+): \w+ = [\d_]+;"


def cased(table):
    """With the names of the crate's cases."""
    return {camel(name) if name == name.lower() else name: number for name, number in table.items()}


def range_of(table):
    return f"{min(table.values())} to {max(table.values())}"


# ---------------------------------------------------------------- enums


def numbered(enum, table_of):
    """The edits of `numbered! { .. ENUM { .. } }`: its cases, and the range of their numbers in its comment."""

    def edits(numbers, text):
        table = cased(table_of(numbers))
        span = inside(text, enum, r"^    %s \{\n" % enum, r"^    \}$")
        wanted = [(name, f"        {name} = {number},") for name, number in table.items()]
        yield listed(text, enum, r"^        (\w+) = \w+,$", wanted, span)
        said = r"^    /// [^\n]*?(\d+ to \d+) in [^\n]*\n(?:    (?:///|#)[^\n]*\n)*    %s \{$" % enum
        if re.search(said, text, re.M):
            yield put(text, enum, said, range_of(table))

    return edits


def messages(numbers, text):
    yield from numbered("Message", lambda numbers: numbers.messages)(numbers, text)
    hints = lambda numbers: {name: number for name, number in numbers.hints.items() if name != "none"}
    yield from numbered("Hint", hints)(numbers, text)


def expected(numbers, text):
    table = numbers.expectations
    yield put(text, "Expected", r"(\d+ to \d+) in the pool", range_of(table))
    arms = [(name, f"            Self::{name} => {number},") for name, number in table.items()]
    yield listed(text, "Expected::number", r"^            Self::(\w+) => \d+,$", arms)
    yield put(text, "Expected::OTHERS", r"pub const OTHERS: \[Self; (\d+)\]", str(len(table)))
    others = [(name, f"        Self::{name},") for name in table]
    yield listed(text, "Expected::OTHERS", r"^        Self::(\w+),$", others)


def refusal_cases(text, places):
    """The cases of `Refusal`, each with its number at the start of its comment."""
    span = inside(text, "Refusal", r"^pub enum Refusal \{\n", r"^\}$")
    wanted = [(name, f"    {name}{'(usize)' if placed else ''},") for name, _, placed in places]
    edit = listed(text, "Refusal", r"^    (\w+)(?:\(\w+\))?,$", wanted, span)
    said = edit.text
    for name, number, _ in places:
        said = re.sub(r"(?m)^    /// \d+: (.*\n(?:    ///.*\n)*    %s\b)" % name, r"    /// %d: \1" % number, said)
    return edit._replace(text=said)


def refusals(numbers, text):
    places = [(camel(name), number, name in numbers.placed) for name, number in numbers.refusals.items()]
    yield refusal_cases(text, places)
    arms = [(n, f"            Self::{n}{'(_)' if placed else ''} => {number},") for n, number, placed in places]
    yield listed(text, "Refusal::number", r"^            Self::(\w+)(?:\(_\))? => \d+,$", arms)
    yield put(text, "Refusal::number", r"^    /// Its number, (\d+ to \d+)\.$", range_of(numbers.refusals))
    yield put(text, "Refusal::all_at", r"const fn all_at\(place: usize\) -> \[Self; (\d+)\]", str(len(places)))
    every = [(n, f"            Self::{n}{'(place)' if placed else ''},") for n, _, placed in places]
    yield listed(text, "Refusal::all_at", r"^            Self::(\w+)(?:\(place\))?,$", every)


# ---------------------------------------------------------------- rows, room, limits


def row_columns(numbers, text):
    events = f"const EVENT_ROW: usize = {numbers.row_sizes['EVENT']};"
    yield put(text, "EVENT_ROW", r"const EVENT_ROW: usize = \d+;", events, 0)
    classes = [(name, f"pub(crate) const {name}: u32 = {number};") for name, number in numbers.classes.items()]
    yield listed(text, "the class of a tree row", r"^pub\(crate\) const (\w+): u32 = \d+;$", classes)
    for row, columns in numbers.columns.items():
        name, members = f"{row.capitalize()}Row", " ".join(f"{snake(column).lower()}," for column in columns)
        yield put(text, name, r"^    %s \{ ([^\n]*) \}$" % name, members)


def room(numbers, text):
    wanted = ", ".join(f"{name.lower()}: {rows(*bound)}" for name, bound in numbers.bounds.items())
    bound = r"^    const fn bound\(n: usize\) -> Self \{\n        Self \{ tokens: 0, ([^\n]*) \}$"
    yield put(text, "Room::bound", bound, wanted)


def limits(numbers, text):
    most = {f"MAX_{snake(name)}": number for name, number in numbers.limits.items() if name != "TOKEN_NUMBERS"}
    wanted = [(name, f"    pub const {name}: usize = {grouped(number)};") for name, number in most.items()]
    yield listed(text, "the limits", r"^    pub const (MAX_\w+): usize = [\d_]+;$", wanted)


# ---------------------------------------------------------------- calls


def answers(numbers, text):
    for answer in {call.answer: None for call in numbers.calls.values()}:
        span = inside(text, answer, r"^#\[repr\(C\)\]\n#\[[^\n]*\]\npub struct %s \{\n" % answer, r"^\}$")
        wanted = [(name, f"    pub {name}: {kind},") for name, kind in numbers.answers[answer]]
        yield listed(text, answer, r"^    pub (\w+): .*,$", wanted, span)


def calls(numbers, text):
    yield from answers(numbers, text)
    declared = {place[1]: place for place in re.finditer(r"^    pub fn (\w+)\([^;]*;$", text, re.M)}
    end = found(text, "the calls", r'^unsafe extern "C" \{\n.*?(?=^\}$)').end()
    for name in {**numbers.calls, **declared}:
        said = numbers.calls[name].in_rust() if name in numbers.calls else ""
        if name in declared:
            yield Edit(name, declared[name].start(), declared[name].end(), said)
        else:
            yield Edit(name, end, end, f"\n{said}\n")


# ---------------------------------------------------------------- the version, the columns in C


def lock(numbers, text):
    yield put(text, "the version", r'^name = "dt_parser"\nversion = "([^"]*)"$', numbers.version)


def c_columns(numbers, text):
    wanted = []
    for row, columns in numbers.columns.items():
        for column in map(snake, columns):
            member = f"dt_{row.lower()}_row, {'class_' if column == 'CLASS' else column.lower()}"
            wanted.append((member, f"COLUMN({member}, DT_COL_{row}_{column});"))
    yield listed(text, "the columns", r"^COLUMN\((\w+, \w+), .*$", wanted)


FILES = {
    SOURCES + "token_kind.rs": numbered("TokenKind", lambda numbers: numbers.token_kinds),
    SOURCES + "lex_error.rs": numbered("LexError", lambda numbers: numbers.lex_errors),
    SOURCES + "node_kind.rs": numbered("NodeKind", lambda numbers: numbers.node_kinds),
    SOURCES + "entrypoint.rs": numbered("Entrypoint", lambda numbers: numbers.entries),
    SOURCES + "setting.rs": numbered("Setting", lambda numbers: numbers.settings),
    SOURCES + "message.rs": messages,
    SOURCES + "expected.rs": expected,
    SOURCES + "error.rs": refusals,
    SOURCES + "rows.rs": row_columns,
    SOURCES + "buffers.rs": room,
    SOURCES + "input.rs": limits,
    SOURCES + "raw.rs": calls,
    "bindings/rust/Cargo.lock": lock,
    "tests/Cargo.lock": lock,
    "tests/header/use.c": c_columns,
}
