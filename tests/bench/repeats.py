"""repeats.py FOLDER COUNT: which of all texts that repeat COUNT bytes, of 26 that the lexer tells apart, costs most to
lex. Prints the first ten: instructions per byte, of which 7 are the fixed part of a call, tokens per byte, and the
bytes. A minute for three bytes."""
import os
import re
import sys
import tempfile

from callgrind import run

FOLDER, COUNT = sys.argv[1:]
BYTES = "480"

with tempfile.TemporaryDirectory() as folder:
    path = os.path.join(folder, "dumps")
    each = ["--zero-before=measured", "--dump-after=measured", "--combine-dumps=yes", f"--callgrind-out-file={path}"]
    lines = run(each, [f"{FOLDER}/texts", "repeats", COUNT, BYTES]).stdout.splitlines()
    with open(path) as file:
        totals = [int(n) for n in re.findall(r"^summary: (\d+)$", file.read(), re.M)]
# the last dump is of the program's end
assert len(totals) == len(lines) + 1, (len(totals), len(lines))
texts = [(n, *line.rsplit(",", 2)) for n, line in zip(totals, lines)]
print(f"{len(texts):,} texts")
for n, piece, bytes_, tokens in sorted(texts, reverse=True)[:10]:
    print(f"{n / int(bytes_):6.1f} {int(tokens) / int(bytes_):5.2f}  {piece}")
