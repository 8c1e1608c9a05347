"""A document as blocks: paragraphs, items of lists, rows of tables, headings and code."""
import os
import re
from bisect import bisect_right
from typing import NamedTuple


class Block(NamedTuple):
    """A part of a document. `text` has blanks for line ends, so that a place in it is one in the document."""

    start: int
    text: str
    kind: str  # text, row, heading or code


class Document:
    def __init__(self, root, path, changed=None):
        self.path = path
        with open(os.path.join(root, path), encoding="utf8") as file:
            self.text = file.read() if changed is None else changed(file.read())
        self._ends = [m.start() for m in re.finditer("\n", self.text)]
        self.blocks = list(self._blocks())

    def line(self, place):
        return bisect_right(self._ends, place - 1) + 1

    def at(self, place):
        return f"{self.path}:{self.line(place)}"

    def headings(self):
        return [(block.text.lstrip("# "), block.start) for block in self.blocks if block.kind == "heading"]

    def _blocks(self):
        """Groups of lines that belong together."""
        group, place, fenced = [], 0, False
        for line in self.text.splitlines(keepends=True):
            fence = line.lstrip().startswith("```")
            kind = "code" if fenced or fence else kind_of(line, group)
            fenced ^= fence
            if group and (kind == "empty" or kind != group[0][2] or starts_block(line, kind)):
                yield joined(group)
                group = []
            if kind != "empty":
                group.append((place, line, kind))
            place += len(line)
        if group:
            yield joined(group)


def kind_of(line, group):
    if not line.strip():
        return "empty"
    if line.startswith("#"):
        return "heading"
    if line.startswith("|"):
        return "row"
    if line.startswith("    ") and (not group or group[-1][2] == "code"):
        return "code"
    return "text"


def starts_block(line, kind):
    return kind in ("row", "heading") or bool(re.match(r"\s*(?:-|\d+\.) ", line))


def joined(group):
    text = "".join(line for _, line, _ in group).rstrip("\n")
    return Block(group[0][0], text.replace("\n", " "), group[0][2])


def cells(block):
    """The cells of a table's row, each with its place in the row's text."""
    place, out = 1, []
    for cell in re.split(r"(?<!\\)\|", block.text)[1:-1]:
        out.append((place + len(cell) - len(cell.lstrip()), cell.strip()))
        place += len(cell) + 1
    return out
