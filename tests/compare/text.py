"""The text entry of request 2/14 (document 02), as a plain reading of its words over the tokens that the oracle's lexer
gives. tests/fuzz/src/text.rs reads the same words in Rust, and says why the tokens before a byte of 128 or more suffice."""
from typing import NamedTuple

from compare.case import MOST_BYTES, MOST_NUMBERS, case_of, escaped, garbage, read_line, short

UNKNOWN_ENTRY, TOO_LONG, HIGH_BYTE, DIRECTIVE = 1, 2, 9, 10
WORDS = tuple(b"if elif else endif pragma define undef include error".split())


class TextCase(NamedTuple):
    entry: int
    data: bytes
    # 0 is the old setting, any other number the strict one
    setting: int = 0
    # length of the buffer for the token rows, and those of the five others
    room: int = 0
    lengths: tuple = (0, 0, 0, 0, 0)

    def lent(self):
        """The buffers at entry, that for the token rows first."""
        return [garbage(n) for n in (self.room,) + self.lengths]

    def show(self):
        front = "%d setting %d room %d" % (self.entry, self.setting, self.room)
        return "%s caps %s text %s" % (front, ",".join(map(str, self.lengths)), escaped(self.data))


class TextResult(NamedTuple):
    """What the parse answers (number, place, four counts), how many token rows there are, and the buffers."""

    answer: tuple
    token_count: int
    tokens: list
    buffers: list

    def show(self):
        lines = ["number %d place %d, counts: trees %d errors %d reports %d expectations %d" % self.answer]
        lines[0] += ", tokens %d" % self.token_count
        names = "tokens", "events", "trees", "errors", "reports", "pool"
        lines += ["  %-7s %s" % (name, short(numbers)) for name, numbers in zip(names, [self.tokens] + self.buffers)]
        return "\n".join(lines)


def is_directive(text):
    """A `#`, "any spaces or tabs, then text that begins with if, .."."""
    return text[:1] == b"#" and text[1:].lstrip(b" \t").startswith(WORDS)


def high_byte(data):
    """The first byte of 128 or more, or the end."""
    return next((i for i, b in enumerate(data) if b >= 128), len(data))


def lexed(oracle, texts):
    """Token rows of ASCII texts by the oracle's lexer, as flat numbers."""
    lines = "".join("1 text %s\n" % escaped(text) for text in texts)
    rows = [read_line(line).numbers() for line in oracle.run(["totoks"], lines).splitlines()]
    assert len(rows) == len(texts)
    return rows


def directive(data, numbers):
    """The first token that starts with a directive, or None: its offset."""
    start = 0
    for length in numbers[1::2]:
        if is_directive(data[start:]):
            return start
        start += length
    return None


def refused(entry, data, numbers):
    """Number and place of the causes that come before token numbers are counted, or None. numbers: the tokens of what
    stands before the first byte of 128 or more."""
    if not 1 <= entry <= 4:
        return UNKNOWN_ENTRY, 0
    if len(data) > MOST_BYTES:
        return TOO_LONG, 0
    at = directive(data, numbers)
    if at is not None:
        return DIRECTIVE, at
    high = high_byte(data)
    return (HIGH_BYTE, high) if high < len(data) else None


def refused_for_room(numbers, room):
    """2 "for token numbers, over the limit or the buffer"."""
    return (TOO_LONG, 0) if len(numbers) > MOST_NUMBERS or len(numbers) > room else None


class Texts:
    """What is expected of calls over texts."""

    def __init__(self, oracle):
        self.oracle = oracle

    def tokens(self, cases):
        return lexed(self.oracle, [c.data[: high_byte(c.data)] for c in cases])

    def parses(self, cases):
        """Of each case the call over its tokens, or None if the text is refused whatever is lent."""
        found = [(c, n, refused(c.entry, c.data, n)) for c, n in zip(cases, self.tokens(cases))]
        return [None if no else case_of(c.entry, n, c.data, c.lengths, c.setting) for c, n, no in found]

    def results(self, cases):
        """The expected results."""
        numbers = self.tokens(cases)
        early = [refused(c.entry, c.data, n) or refused_for_room(n, c.room) for c, n in zip(cases, numbers)]
        good = [case_of(c.entry, n, c.data, c.lengths, c.setting) for c, n, e in zip(cases, numbers, early) if not e]
        parsed = iter(self.oracle.results(good))
        return [unchanged(c, e) if e else with_rows(c, n, next(parsed)) for c, n, e in zip(cases, numbers, early)]


def unchanged(case, early):
    """Refusals that "leave every buffer unchanged"."""
    tokens, *buffers = case.lent()
    return TextResult(early + (0, 0, 0, 0), 0, tokens, buffers)


def with_rows(case, numbers, parsed):
    """The parse's answer, and the token rows in their buffer, "its rest zero, all of it zero at refusals 5 to 8"."""
    assert parsed.answer[0] in (0, 5, 6, 7, 8), "rows of a text are good rows"
    if parsed.answer[0]:
        return TextResult(parsed.answer, 0, [0] * case.room, parsed.buffers)
    return TextResult(parsed.answer, len(numbers) // 2, numbers + [0] * (case.room - len(numbers)), parsed.buffers)
