"""Reads the inputs of a document: the form that the head of docs/DECISIONS.md says, as calls and claims."""
import re
from typing import NamedTuple

NUMBER = r"\d+"
SETTING = r"(?: strict| setting \d+)?"
HEAD = rf"(?:\d(?: text)?{SETTING}|caret {NUMBER}{SETTING}|parts {NUMBER}\.\.{NUMBER}{SETTING})"
PIECE = r"[`(]|(?:LF|CR|TAB|blank|I)\b|byte \d"
INPUT = rf"(?={PIECE}|nothing\b|the same\b|numbers \d|rows \d)"
# where an input starts; no word, number or colon stands directly before it
START = re.compile(rf"(?<![\w.:]){HEAD}: {INPUT}")
LETTERS = {"LF": b"\n", "CR": b"\r", "TAB": b"\t", "blank": b" ", "I": b"#if\n"}
# an input that stands for many, one for each k or n, is no input here
FAMILY = re.compile(r"×[kn]\b")
BUFFERS = ("event", "tree", "error", "report", "pool", "token", "list")


class Call(NamedTuple):
    """A call as tests/link/ask.rs takes it."""

    what: str  # parse, text, caret:OFFSET or parts:START:END
    entry: int
    setting: int
    lengths: tuple  # of the lent buffers, the sixth that of token rows or the list; None is room enough
    tokens: tuple  # numbers, or None for those of the text
    data: bytes

    def line(self):
        lengths = ",".join("-" if n is None else str(n) for n in self.lengths)
        tokens = "-" if self.tokens is None else ",".join(map(str, self.tokens)) or "none"
        return f"{self.what} {self.entry} {self.setting} {lengths} {tokens} {self.data.hex()}"


class Case(NamedTuple):
    place: int  # in the text
    end: int
    calls: tuple  # several where a length is a range: the claims hold of each
    claims: tuple


class Fault(Exception):
    pass


class Reader:
    """Reads a text from the left."""

    def __init__(self, text, place=0):
        self.text, self.place = text, place

    def take(self, pattern):
        """What matches here, or None."""
        match = re.compile(pattern).match(self.text, self.place)
        if match:
            self.place = match.end()
        return match

    def need(self, pattern, what):
        return self.take(pattern) or self.fail(f"{what} expected")

    def fail(self, why):
        raise Fault(f"{why} at “{self.text[self.place:self.place + 30]}”")


def head(reader):
    """What is called, entry and setting."""
    if got := reader.take(r"caret (\d+)"):
        what, entry = f"caret:{got[1]}", 1
    elif got := reader.take(r"parts (\d+)\.\.(\d+)"):
        what, entry = f"parts:{got[1]}:{got[2]}", 1
    else:
        entry = int(reader.need(NUMBER, "an entry")[0])
        what = "text" if reader.take(" text") else "parse"
    setting = 1 if reader.take(" strict") else 0
    if got := reader.take(r" setting (\d+)"):
        setting = int(got[1])
    reader.need(": ", "a colon")
    return what, entry, setting


def times(reader):
    got = reader.take(r"×(\d+)")
    return int(got[1]) if got else 1


def piece(reader):
    """A text in backquotes, a byte, or several of these in brackets; repeated or not."""
    if got := reader.take(r"`([^`]+)`"):
        data = got[1].encode("latin-1")
    elif got := reader.take(r"(LF|CR|TAB|blank|I)\b"):
        data = LETTERS[got[1]]
    elif got := reader.take(r"byte (\d+)"):
        data = bytes([int(got[1])])
    else:
        reader.need(r"\(", "a text, LF, CR, TAB, blank, I, byte N or brackets")
        data = pieces(reader)
        reader.need(r"\)", "a closing bracket")
    return data * times(reader)


def pieces(reader):
    data = piece(reader)
    while reader.take(rf" (?={PIECE})"):
        data += piece(reader)
    return data


def numbers(reader):
    got = reader.need(r"\d+(?:, \d+)*", "numbers")
    return tuple(map(int, got[0].split(", ")))


def rows(reader):
    """KIND:LENGTH, each repeated or not."""
    out = []
    while got := reader.take(r" ?(\d+):(\d+)"):
        out += [int(got[1]), int(got[2])] * times(reader)
    return tuple(out)


def given(reader, before):
    """Token numbers, or None for those of the text; and the bytes."""
    if reader.take("the same"):
        return (before.tokens, before.data) if before else reader.fail("nothing before this")
    if reader.take("nothing"):
        return None, b""
    if not (got := reader.take(r"(numbers|rows) ")):
        return None, pieces(reader)
    tokens = numbers(reader) if got[1] == "numbers" else rows(reader)
    return tokens, pieces(reader) if reader.take(" over ") else b""


def lengths(reader):
    """The lengths that are lent, as pairs of least and most for each buffer; None is room enough."""
    out = [None] * 6
    link = " with "
    while reader.take(link):
        got = reader.need(r"(no|\d+)(?: to (\d+))? (\w+) numbers?", "how many numbers")
        if got[3] not in BUFFERS:
            reader.fail(f"no buffer {got[3]}")
        least = 0 if got[1] == "no" else int(got[1])
        out[min(BUFFERS.index(got[3]), 5)] = (least, int(got[2] or least))
        link = "(?:,| and) (?=(?:no|\\d+)(?: to \\d+)? \\w+ number)"
    return out


def lent(ranges):
    """Every choice of lengths."""
    choices = [()]
    for pair in ranges:
        some = [None] if pair is None else range(pair[0], pair[1] + 1)
        choices = [choice + (n,) for choice in choices for n in some]
    return choices


def claims(reader):
    """What stands up to the full stop or the end, cut at semicolons, without remarks in brackets."""
    reader.need(": ", "a colon and what is answered")
    end = re.compile(r"\.(?=\s|$)|$").search(reader.text, reader.place).start()
    # a shape has brackets too, directly after a name; a remark has a blank before it
    said = re.sub(r" \((?:[^()`]|`[^`]*`)*\)(?=[;.]|$)", "", " ".join(reader.text[reader.place:end].split()))
    reader.place = end
    return tuple(claim.strip() for claim in said.split("; "))


def case(text, place, before):
    """The case that starts at this place; `before` is the one that "the same" means."""
    reader = Reader(text, place)
    what, entry, setting = head(reader)
    tokens, data = given(reader, before.calls[0] if before else None)
    ranges = lengths(reader)
    calls = tuple(Call(what, entry, setting, n, tokens, data) for n in lent(ranges))
    said = claims(reader)
    return Case(place, reader.place, calls, said)
