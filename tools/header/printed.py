"""Every file that numbers are printed in: what is stale there, and its text as it should be."""
import difflib
import re

from header import layout, names, parser_h, rust
from header.place import Unplaced, edited

# Of each file the edits that print into it.
FILES = {parser_h.PATH: parser_h.edits, names.PATH: names.edits, **layout.FILES, **rust.FILES}
# Of files where every number by name is printed: how one is written there.
COMPLETE = {
    parser_h.PATH: parser_h.CONSTANT,
    **{path: layout.CONSTANT for path in layout.FILES},
    **{path: rust.CONSTANT for path in rust.FILES if path.endswith(".rs")},
}
SHOWN = 6


def renewed(numbers, path):
    """The file's text with everything printed anew."""
    text = numbers.repo.text(path)
    try:
        return edited(text, FILES[path](numbers, text))
    except Unplaced as why:
        raise Unplaced(f"{path}: {why}") from why


def stale(numbers, path):
    """A line for each place where a file is not as it should be."""
    text = numbers.repo.text(path)
    try:
        edits = [*FILES[path](numbers, text)]
        edited(text, edits)
    except Unplaced as why:
        return [f"{path}: {why}"]
    lines = []
    for edit in edits:
        lines += [f"{path}:{line}: {edit.what}: {said}" for line, said in differences(text, edit)]
    return lines + [f"{path}: {name} has no source" for name in unprinted(text, edits, COMPLETE.get(path))]


def differences(text, edit):
    """The lines that differ, each with its number. Of a part of a line the whole line is given."""
    start = text.rfind("\n", 0, edit.start) + 1
    end = text.find("\n", edit.end)
    end = len(text) if end < 0 else end
    ours = text[start:end].split("\n")
    made = (text[start : edit.start] + edit.text + text[edit.end : end]).split("\n")
    first = text.count("\n", 0, start) + 1
    for tag, i, j, k, m in difflib.SequenceMatcher(None, ours, made, False).get_opcodes():
        if tag == "replace" and j - i == m - k:
            yield from ((first + n, against(ours[n : n + 1], made[n + k - i : n + k - i + 1])) for n in range(i, j))
        elif tag != "equal":
            yield first + i, against(ours[i:j], made[k:m])


def against(ours, made):
    return f"has {shown(ours)}, and must have {shown(made)}"


def shown(lines):
    said = " / ".join(line.strip() for line in lines[:SHOWN] if line.strip())
    if said:
        return f"`{said}`{' ..' if len(lines) > SHOWN else ''}"
    return "an empty line" if lines else "nothing"


def unprinted(text, edits, constant):
    """The numbers by name outside of what is printed."""
    if not constant:
        return []
    spans = [(edit.start, edit.end) for edit in edits]
    places = re.finditer(constant, text, re.M)
    return [place[0].strip() for place in places if not any(a <= place.start() < b for a, b in spans)]
