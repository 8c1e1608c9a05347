"""Puts what is printed in its place in a text that is otherwise written by hand."""
import re
import typing


class Unplaced(Exception):
    """A text has no place for something."""


class Edit(typing.NamedTuple):
    """What stands from start to end is to be this text."""

    what: str
    start: int
    end: int
    text: str


def edited(text, edits):
    """The text with all edits made."""
    parts, last = [], Edit("", 0, 0, "")
    for edit in sorted(edits, key=lambda edit: (edit.start, edit.end)):
        if edit.start < last.end:
            raise Unplaced(f"{last.what} does not stand in one place: {edit.what} is between its lines")
        parts += [text[last.end : edit.start], edit.text]
        last = edit
    return "".join([*parts, text[last.end :]])


def found(text, what, pattern, start=0, end=None):
    place = re.compile(pattern, re.M | re.S).search(text, start, len(text) if end is None else end)
    if not place:
        raise Unplaced(f"no place for {what}: nothing like {pattern}")
    return place


def put(text, what, pattern, new, group=1):
    """What a group of a pattern finds is to be something else."""
    place = found(text, what, pattern)
    return Edit(what, place.start(group), place.end(group), new)


def inside(text, what, first, last):
    """From the end of a first line to the start of a last one, which follow each other in this order."""
    start = found(text, what, first).end()
    return start, found(text, what, last, start).start()


def listed(text, what, item, wanted, span=None, apart=""):
    """A list with an item on a line, whose name is the pattern's first group. What stands above an item and below the
    one before it, such as a comment, goes where the item goes. Without a span the list is from its first item on, and
    what stands above that is no part of it. apart: what stands above an item that is new."""
    start, end = span or (0, len(text))
    places = [*re.compile(item, re.M).finditer(text, start, end)]
    if not places:
        raise Unplaced(f"no place for {what}: nothing like {item}")
    at = start = start if span else places[0].start()
    above = {}
    for place in places:
        above.setdefault(place[1], text[at : place.start()])
        at = place.end() + 1
    lines = [(above.get(name) or apart) + line for name, line in wanted]
    return Edit(what, start, at - 1, "\n".join(lines).removeprefix(apart))
