"""query_counts.py FOLDER CSV: instructions of the queries, and of the parse alone, a line for each input."""
import os
import sys

from callgrind import instructions
from inputs import QUERIES, output

FOLDER, CSV = sys.argv[1:]
FACTS = "input tokens bytes tree_rows end_rows middle_rows last_rows parts_rows".split()
COUNTED = "parse_instructions end_instructions middle_instructions last_instructions parts_instructions".split()
# the list's buffer for a caret, or what is needed if that is more
CARET = 64


def line(name):
    print(f"counts, {name}", file=sys.stderr)
    facts = output(f"{FOLDER}/queries", "facts", name)
    end, middle, last, parts = map(int, facts.split(",")[4:])
    lengths = output(f"{FOLDER}/bench", "lengths", "port", name)
    rooms = {"parse": 0, "end": max(end, CARET), "middle": max(middle, CARET), "last": last, "parts": parts}
    once = f"{FOLDER}/queries", "once"
    counts = [instructions(*once, what, name, f"{lengths},{room}") for what, room in rooms.items()]
    return ",".join([facts, *counts])


with open(CSV + ".new", "w") as file:
    print(",".join(FACTS + COUNTED), file=file)
    for name in QUERIES:
        print(line(name), file=file, flush=True)
os.rename(CSV + ".new", CSV)
