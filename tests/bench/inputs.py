"""The inputs that are measured, and how a driver is run."""
import subprocess

SIZES = [1000, 2000, 4000, 8000, 16000, 32000, 50000, 65536]
FAMILIES = ["chain", "braces", "errors", "novalue", "name", "labels", "blanks"]
# the inputs of one group are timed in the same rounds
GROUPS = [[f"board-{n}" for n in SIZES]] + [[f"{f}-{n}" for n in (1024, 8192, 65535)] for f in FAMILIES]

# The board files as texts, and texts that might cost more, each with its most bytes: as many as a call takes, or as
# many as the 65,536 tokens have that it takes.
TEXTS = [f"text-{n}" for n in SIZES]
MOST_BYTES = 1048576
COSTLY = {
    "comment": MOST_BYTES, "line": MOST_BYTES, "string": MOST_BYTES, "escapes": MOST_BYTES, "bytestring": MOST_BYTES,
    "hashes": MOST_BYTES, "lineends": MOST_BYTES, "hex": MOST_BYTES, "open": 131070, "hash": 65536,
    "padded": MOST_BYTES, "slashes": 245760, "suffixes": 109225, "zeros": 65535, "backslashes": 65536,
    "returns": 65536,
}

# Source files that are asked for what is under a caret: the board files, and the largest of those that might cost more.
# chain is no source file, and sum is the same in one; name has four rows, so that only what a call always costs would
# show.
QUERIES = [f"board-{n}" for n in SIZES]
QUERIES += [f"{f}-65535" for f in ["sum", "braces", "errors", "novalue", "labels", "blanks"]]


def costly(family):
    """A text of three sizes."""
    return [f"{family}-{COSTLY[family] // part}" for part in (16, 4, 1)]


def output(program, *words):
    return subprocess.run([program, *words], check=True, capture_output=True, text=True).stdout.strip()
