"""What the gate's programs lend and read at most."""
import os
import re

from compare.case import BUFFERS


def constants(root, name, kind):
    with open(os.path.join(root, "crates", "cases", "src", name), encoding="utf-8") as f:
        return {name.lower(): int(n) for name, n in re.findall(rf"pub const (\w+): {kind} = (\d+);", f.read())}


def fit(root, named, text):
    """They hold every case. named: names and cases; text: all of them as the program reads them."""
    room = {**constants(root, "lend.rt", "usize"), "text": constants(root, "read.rt", "u64")["most"]}
    for name, case in named:
        used = dict(zip(BUFFERS, case.lengths), tokens=len(case.numbers()))
        for array, numbers in used.items():
            assert numbers <= room[array], "%s needs %d numbers of %s" % (name, numbers, array)
    assert len(text) < room["text"], "the list has %d bytes" % len(text)
