"""A call of the parser: entry, setting, token rows over their bytes, and the lengths of the lent buffers; and document
01's numbers. They are written out here once, and not read from the definitions or the header: an answer that is expected
must not follow these where they are changed."""
from typing import NamedTuple, Optional


class Row(NamedTuple):
    """A token row, and the bytes that the case puts under it (of another length than the row says, where the row is
    bad)."""

    kind: int
    length: int
    text: bytes


class TreeRow(NamedTuple):
    class_: int
    kind: int
    width: int
    count: int
    # the parent's row; the root names itself (document 02, 7/14)
    parent: int


class ErrorRow(NamedTuple):
    number: int
    start: int
    end: int


class ReportRow(NamedTuple):
    message: int
    start: int
    end: int
    mark: int
    pool_first: int
    pool_count: int
    hint: int
    label_start: int
    label_end: int


# the lent buffers and the numbers in a row of each
BUFFERS = ("events", "trees", "errors", "reports", "pool")
EVENT_ROW, TREE_ROW, ERROR_ROW, REPORT_ROW = 3, len(TreeRow._fields), len(ErrorRow._fields), len(ReportRow._fields)
ROW = (EVENT_ROW, TREE_ROW, ERROR_ROW, REPORT_ROW, 1)
TOKEN_ROW = 2
# the class of a tree row
NODE, LEAF = 0, 1
# limits of causes 2 and 5
MOST_BYTES, MOST_NUMBERS = 1048576, 131072
MOST_ROWS = MOST_NUMBERS // TOKEN_ROW
MOST_OPEN = 64
# lexical errors, which are kinds of token rows too
FIRST_ERROR, LAST_ERROR = 64, 74
ERRORS = range(FIRST_ERROR, LAST_ERROR + 1)


class Case(NamedTuple):
    entry: int
    rows: tuple
    # lengths of the five buffers, in numbers
    lengths: tuple = (0, 0, 0, 0, 0)
    # a number after the last whole row
    odd: Optional[int] = None
    # bytes after the last row's
    extra: bytes = b""
    # 0 is the old setting, any other number the strict one
    setting: int = 0

    def numbers(self):
        flat = [n for row in self.rows for n in (row.kind, row.length)]
        return flat if self.odd is None else flat + [self.odd]

    def data(self):
        return b"".join(row.text for row in self.rows) + self.extra

    def lent(self):
        """The buffers at entry."""
        return [garbage(n) for n in self.lengths]


class Result(NamedTuple):
    """What a call answers (number, place, four counts) and what the five buffers hold after it."""

    answer: tuple
    buffers: list

    def show(self):
        lines = ["number %d place %d, counts: trees %d errors %d reports %d expectations %d" % self.answer]
        for name, numbers in zip(BUFFERS, self.buffers):
            lines.append("  %-7s %s" % (name, short(numbers)))
        return "\n".join(lines)


def garbage(n):
    """A buffer of n numbers at entry: never zero, so that what is left unwritten shows."""
    return [1 + (5 * i + 3) % 9 for i in range(n)] if n <= 12 else [7] * n


def rows_of(tokens):
    """Token rows from (kind, text) pairs."""
    return tuple(Row(kind, len(text), text) for kind, text in tokens)


def rows(row, numbers):
    """The rows that stand in a buffer: TreeRow, ErrorRow or ReportRow."""
    size = len(row._fields)
    return [row(*numbers[i : i + size]) for i in range(0, len(numbers), size)]


def runs(numbers):
    """Pairs of a number and how often it stands there in a row."""
    out = []
    for n in numbers:
        if out and out[-1][0] == n:
            out[-1][1] += 1
        else:
            out.append([n, 1])
    return out


def short(numbers):
    """Numbers to be read, long runs as 0*40."""
    return " ".join("%d*%d" % (n, k) if k > 8 else " ".join([str(n)] * k) for n, k in runs(numbers)) or "(empty)"


def escaped(data):
    """Bytes as the oracle's case lines write them."""
    plain = {10: "\\n", 9: "\\t", 13: "\\r", 92: "\\\\"}
    return "".join(plain.get(c) or (chr(c) if 32 <= c < 127 else "\\x%02x" % c) for c in data)


def unescaped(text):
    return text.encode().decode("unicode_escape").encode("latin-1")


def case_of(entry, numbers, data, lengths=(0, 0, 0, 0, 0), setting=0):
    """The case with these token numbers; where lengths and bytes disagree, rows have what bytes there are."""
    rows, start = [], 0
    for kind, length in zip(numbers[::2], numbers[1::2]):
        rows.append(Row(kind, length, data[start : start + length]))
        start = min(start + length, len(data))
    odd = numbers[-1] if len(numbers) % TOKEN_ROW else None
    return Case(entry, tuple(rows), tuple(lengths), odd, data[start:], setting)


def read_line(line):
    """A toks line of the oracle as a case that is lent nothing; bytes after the rows' stay."""
    entry, _, rows, *text = line.split(" ", 3)
    numbers = [int(n) for row in rows.split(",") if row for n in (row + ":1").split(":")[:2]]
    return case_of(int(entry), numbers, unescaped(text[0] if text else ""))


def case_line(case, lengths):
    """The case as a line for the oracle, with these buffer lengths ("-" is room enough). The oracle has no setting."""
    rows = ",".join("%d:%d" % (row.kind, row.length) for row in case.rows)
    return "%d caps %s toks %s %s" % (case.entry, ",".join(map(str, lengths)), rows, escaped(case.data()))
