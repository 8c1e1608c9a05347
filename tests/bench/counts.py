"""counts.py FOLDER CSV: what does not vary: instructions by callgrind and bytes of memory, a line for each input."""
import os
import sys

from callgrind import TUNABLES, instructions
from inputs import GROUPS, output

FOLDER, CSV = sys.argv[1:]
FACTS = """input tokens bytes tree_rows lexical_errors reports expectations port_buffer_bytes
    bound_buffer_bytes""".split()
COUNTED = """port_instructions rust_copy_instructions rust_with_copy_instructions port_instructions_with_rep
    strict_instructions""".split()
HEAP = ["rust_peak_heap_bytes", "rust_kept_heap_bytes"]


def once(what, name, lengths, tunables=TUNABLES):
    return instructions(f"{FOLDER}/bench", "once", what, name, lengths, tunables=tunables)


def line(name):
    print(f"counts, {name}", file=sys.stderr)
    lengths = output(f"{FOLDER}/bench", "lengths", "port", name)
    counts = [once(what, name, lengths) for what in ("port", "copy", "rust")]
    counts.append(once("port", name, lengths, ""))
    counts.append(once("strict", name, output(f"{FOLDER}/bench", "lengths", "strict", name)))
    heap = output(f"{FOLDER}/memory", name).split(",")[1:]
    return ",".join([output(f"{FOLDER}/bench", "facts", name), *counts, *heap])


with open(CSV + ".new", "w") as file:
    print(",".join(FACTS + COUNTED + HEAP), file=file)
    for group in GROUPS:
        for name in group:
            print(line(name), file=file, flush=True)
os.rename(CSV + ".new", CSV)
