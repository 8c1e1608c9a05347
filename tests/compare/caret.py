"""The two queries of request 5/14 (document 02), as a plain reading of its words over the tree rows that the oracle
gives:

"The editor gives a byte offset in a source file and wants the chain of tree rows, by number, from the root to the leaf
there. A leaf owns its first byte and not its end. An offset equal to the file's length belongs to the last leaf; in an
empty file it gives the root only; an offset past the length gives no row. A second query lists, by number too, the
top-level parts that share a byte with a range, its end excluded, in order. Both parse first, with the parser's
refusals; a list that doesn't fit is refusal 8."

tests/fuzz/src/caret.rs reads the same words in Rust."""
from typing import NamedTuple

from compare.case import BUFFERS, LEAF, TREE_ROW, Case, Result, TreeRow, case_line, garbage, rows, short

CARET, RANGE = 1, 2
SOURCE_FILE = 1
NO_ROOM = 8


class Query(NamedTuple):
    """CARET with an offset; RANGE with its first byte and its end."""

    what: int
    first: int
    second: int = 0

    def show(self):
        return "at %d" % self.first if self.what == CARET else "from %d to %d" % (self.first, self.second)


class Part(NamedTuple):
    """A row of the tree with its bytes and all below it; a leaf has no parts."""

    number: int
    start: int
    end: int
    parts: tuple
    is_leaf: bool


def grown(tree, number=0, start=0):
    """The part that a row is, and the number of the row after it."""
    row, after, parts = tree[number], number + 1, []
    if row.class_ == LEAF:
        return Part(number, start, start + row.width, (), True), after
    end = start
    for _ in range(row.count):
        part, after = grown(tree, after, end)
        parts.append(part)
        end = part.end
    assert end == start + row.width
    return Part(number, start, end, tuple(parts), False), after


def leaves(part, above=()):
    """The leaves of a part in order, each after what is around it, from the root on."""
    if part.is_leaf:
        return [(*above, part)]
    return [chain for below in part.parts for chain in leaves(below, (*above, part))]


def under(root, offset):
    """The chain at an offset."""
    length, chains = root.end, leaves(root)
    if offset > length:
        return []
    if length == 0:
        return [root.number]
    owners = [chain for chain in chains if chain[-1].start <= offset < chain[-1].end]
    chain = chains[-1] if offset == length else owners[0]
    return [part.number for part in chain]


def shares_a_byte(part, start, end):
    return any(start <= byte < end for byte in range(part.start, part.end))


def listed(query, numbers):
    """The rows that a query lists. numbers: those of the file's tree rows."""
    root, _ = grown(rows(TreeRow, numbers))
    if query.what == CARET:
        return under(root, query.first)
    return [part.number for part in root.parts if shares_a_byte(part, query.first, query.second)]


class QueryCase(NamedTuple):
    query: Query
    # the parse of the file
    parse: Case
    # length of the list's buffer
    room: int = 0

    def lent(self):
        """The list's buffer at entry."""
        return garbage(self.room)

    def show(self):
        front = "%s, setting %d, room %d: " % (self.query.show(), self.parse.setting, self.room)
        return front + case_line(self.parse, self.parse.lengths)


class QueryResult(NamedTuple):
    """What the parse answers (number, place, four counts), how many rows are listed, and the buffers."""

    answer: tuple
    list_count: int
    list: list
    buffers: list

    def show(self):
        return "%s\n  %-7s %s\n  listed  %d" % (
            Result(self.answer, self.buffers).show(), "list", short(self.list), self.list_count)  # fmt: skip


def without_list(result, list_):
    return QueryResult(result.answer, 0, list_, result.buffers)


def with_list(case, result):
    """What a query answers. result: that of the parse."""
    number, _, tree_count, *_ = result.answer
    if 5 <= number <= NO_ROOM:
        return without_list(result, [0] * case.room)
    if number:
        return without_list(result, case.lent())
    found = listed(case.query, result.buffers[BUFFERS.index("trees")][: TREE_ROW * tree_count])
    if len(found) > case.room:
        zeros = [[0] * n for n in case.parse.lengths]
        return without_list(Result((NO_ROOM, 0, 0, 0, 0, 0), zeros), [0] * case.room)
    return QueryResult(result.answer, len(found), found + [0] * (case.room - len(found)), result.buffers)


class Queries:
    """What is expected of queries."""

    def __init__(self, oracle):
        self.oracle = oracle

    def results(self, cases):
        assert all(case.parse.entry == SOURCE_FILE for case in cases)
        return [with_list(c, r) for c, r in zip(cases, self.oracle.results([c.parse for c in cases]))]
