#!/usr/bin/env python3
"""Deep and repetitive cases, on which the patched copy must give what the Rust gives; says how often the Rust's step
limit panics, and where document 01 accepts then. There are 459,360: so many of them are drawn.
    deep.py [SEED [COUNT]]"""
import itertools
import random
import re
import sys

sys.dont_write_bytecode = True
from run import ORACLE, end, seed_and_count

UNITS = [
    "#if A\\n", "a{", "a=", "a=<", "(", "f(", "{", "<", "&", "&{", "=", "-", "1?", "1?1:", "1+", "/", "/bits/ 8 <", "#else\\n", "x:",
    "a@", "/delete-node/ ", "/memreserve/ ", '"s",', "1 ", "#elif B\\n", "~(", "&{/", "*", "}",
]  # fmt: skip
TAILS = [
    "", ";", "}", "{", ">", "#endif", "#else", "1", "a", "=", "&", "\\\\", '"s"', ")", "]", ",", "@", ":", "<1>", "<1> }", "/bits/", "?",
]  # fmt: skip
HEADS = ["", "a=", "a=<", "a{", "(", "&{"]



def cases():
    units = [(u,) for u in UNITS] + list(itertools.product(UNITS, repeat=2))
    for entry, head, unit, tail in itertools.product((1, 2, 3, 4), HEADS, units, TAILS):
        yield f"{entry} text {head}{''.join(unit) * (62 // len(unit))}{tail}\n"


def main():
    seed, count = seed_and_count(20000)
    total = sum(1 for _ in cases())
    drawn = set(random.Random(seed).sample(range(total), min(count, total)))
    said = ORACLE.run(["cmp"], "".join(case for i, case in enumerate(cases()) if i in drawn))
    *found, last = said.splitlines()
    assert int(re.match(r"(\d+) cases: ", last).group(1)) == len(drawn), last
    # a difference has a second line, with what each gave
    end([(a, b) for a, b in zip(found, found[1:]) if " tokens: DIFFERS " in a], 3, f"deep cases: {last}")


main()
