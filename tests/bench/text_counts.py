"""text_counts.py FOLDER CSV: instructions of the call that reads the tokens itself, a line for each text."""
import os
import sys

from callgrind import instructions
from inputs import COSTLY, MOST_BYTES, TEXTS, costly, output

FOLDER, CSV = sys.argv[1:]
COLUMNS = "input bytes tokens first_pass_instructions lexing_instructions text_instructions rows_instructions".split()


def once(what, name, *lengths):
    return instructions(f"{FOLDER}/texts", "once", what, name, *lengths)


def board(name):
    """All of the call, and the call over the same tokens, ready."""
    lengths = output(f"{FOLDER}/bench", "lengths", "port", name)
    rows = instructions(f"{FOLDER}/bench", "once", "port", name, lengths)
    return [once("first", name), once("lexing", name), once("text", name, lengths), rows]


def passes(name):
    return [once("first", name), once("lexing", name), "", ""]


def refused(name):
    """Has more tokens than a call takes, so there is no second pass."""
    return [once("first", name), "", "", ""]


def inputs():
    for name in TEXTS:
        yield name, board
    for family, most in COSTLY.items():
        for name in costly(family):
            yield name, passes
        if most < MOST_BYTES:
            yield f"{family}-{MOST_BYTES}", refused


with open(CSV + ".new", "w") as file:
    print(",".join(COLUMNS), file=file)
    for name, counts in inputs():
        print(f"counts, {name}", file=sys.stderr)
        print(",".join([output(f"{FOLDER}/texts", "facts", name), *counts(name)]), file=file, flush=True)
os.rename(CSV + ".new", CSV)
