"""Inputs with k in them, a table's line for each (docs/DIFFERENCES.md, section 1): the library accepts the first k at which
the Rust panics and the last k that is said to be accepted, and refuses the next one with 5."""
import re

from .claims import outcome
from .document import cells
from .inputs import Call, Fault, Reader, given, head

FIRST, LAST = "first k that panics", "last k that is accepted"
ROOM = (None,) * 6


def tables(document):
    """Rows of such tables: place, and the cells by their column's head."""
    heads = None
    for block in document.blocks:
        if block.kind != "row":
            heads = None
        elif heads is None:
            heads = [text for _, text in cells(block)]
        elif FIRST in heads and "---" not in block.text:
            yield block.start, dict(zip(heads, [text for _, text in cells(block)]))


def call(text, k):
    """The line's first input, with this k. Of "one of" several pieces the first is taken."""
    first, *rest = re.split(r",? and (?=one of |the same |`)", text)
    if rest and rest[0].startswith("one of "):
        first += " " + re.search(r"`[^`]+`", rest[0])[0]
    reader = Reader(re.sub(r"×k\b", f"×{k}", first))
    what, entry, setting = head(reader)
    tokens, data = given(reader, None)
    if reader.place < len(reader.text):
        reader.fail("the input's end expected")
    return Call(what, entry, setting, ROOM, tokens, data)


def expected(row):
    """Each k with the answer's number."""
    yield int(row[FIRST]), 0
    if LAST in row:
        yield int(row[LAST]), 0
        yield int(row[LAST]) + 1, 5


def check(document, library, faults):
    """How many lines there are."""
    count = 0
    for place, row in tables(document):
        count += 1
        text = row["Input"]
        try:
            asked = [(k, number, call(text, k)) for k, number in expected(row)]
        except Fault as why:
            faults.append(f"{document.at(place)}: an input that cannot be read: {why}")
            continue
        for (k, number, _), answer in zip(asked, library.ask([one for _, _, one in asked])):
            if answer.number != number:
                said = "accepted" if number == 0 else f"refused with {number}"
                faults.append(f"{document.at(place)}: with k = {k} expected {said}, answered {outcome(answer)}")
    return count
