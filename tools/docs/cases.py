"""Runs the inputs that documents show, and compares what is said of each with the library's answer."""
from . import claims
from .document import cells
from .inputs import FAMILY, START, Fault, case

# the head of a table's column whose cells have nothing but inputs, or say where one stands
COLUMN = "and answer"


def texts(document):
    """The parts of a document in which inputs are looked for, with their places."""
    for block in document.blocks:
        if block.kind == "row":
            for place, text in cells(block):
                yield block.start + place, text
        elif block.kind == "text":
            yield block.start, block.text


def cases(document, faults):
    """Every input of the document."""
    for start, text in texts(document):
        before = None
        for match in START.finditer(text):
            inside = before and match.start() < before.end
            if inside or FAMILY.search(text, match.start(), start_after(text, match.end())):
                continue
            try:
                before = case(text, match.start(), before)
                yield start + match.start(), before
            except Fault as why:
                faults.append(f"{document.at(start + match.start())}: an input that cannot be read: {why}")


def start_after(text, place):
    """Where the next input starts, or the end."""
    following = START.search(text, place)
    return following.start() if following else len(text)


def columns(document, faults):
    """Where a column is for inputs, each of its cells has one, or names a file or an entry of this list."""
    column = None
    for block in document.blocks:
        if block.kind != "row":
            column = None
            continue
        row = cells(block)
        if column is None:
            heads = [i for i, (_, text) in enumerate(row) if COLUMN in text]
            column = heads[0] if heads else -1
        elif column >= 0 and len(row) > column:
            place, text = row[column]
            if text and not text.startswith("---") and not START.search(text) and "/" not in text:
                faults.append(f"{document.at(block.start + place)}: no input in the form is here: {text[:60]}")


def check(document, library, faults):
    """The number of inputs, of calls and of claims."""
    columns(document, faults)
    found = list(cases(document, faults))
    calls = [call for _, one in found for call in one.calls]
    answers = iter(library.ask(calls) if calls else [])
    said = 0
    for place, one in found:
        for call in one.calls:
            answer = next(answers)
            for claim in one.claims:
                said += 1
                wrong = claims.check(answer, claim)
                if wrong:
                    faults.append(
                        f"{document.at(place)}: said “{claim}”, expected {wrong.expected}, answered {wrong.answered}"
                    )
    return len(found), len(calls), said
