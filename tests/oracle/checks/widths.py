#!/usr/bin/env python3
"""The Rust's trees on random cases: lossless, widths, counts and parents right, lexical errors in order. Says how often
a ParseError stands in a tree without any report.    widths.py [SEED [COUNT]]"""
import sys

sys.dont_write_bytecode = True
from run import ORACLE, end, numbers, seed_and_count

from compare.case import ERRORS, LEAF, NODE, TreeRow

KINDS, PARSE_ERROR = ORACLE.kinds, ORACLE.nodes["ParseError"]
NAME_KINDS = [KINDS[name] for name in ("Ident", "Number", "Comma", "Minus")]


def leaves_of(rows):
    """The leaves in order; each node's width and count, and each row's parent, are checked on the way."""
    leaves = []

    def walk(i, parent):
        row = rows[i]
        assert row.parent == parent, row
        if row.class_ == LEAF:
            leaves.append(row)
            return i + 1, row.width
        child, total = i + 1, 0
        for _ in range(row.count):
            child, w = walk(child, i)
            total += w
        assert total == row.width, row
        return child, row.width

    end, _ = walk(0, 0)
    assert end == len(rows)
    return leaves


def check(lines):
    """Leaves against tokens, error leaves against lexical errors."""
    tokens, rows = numbers(lines, "T"), [TreeRow(*row) for row in numbers(lines, "R")]
    at = offset = 0
    lexical = []
    for _, kind, width, count, _ in leaves_of(rows):
        under = tokens[at : at + count]
        assert sum(n for _, n in under) == width
        if kind == KINDS["Name"]:
            assert all(k in NAME_KINDS for k, _ in under)
        elif kind == KINDS["Unrecognized"]:
            assert under[0][0] in ERRORS
            lexical.append((under[0][0], offset, offset + width))
        else:
            assert count == 1 and under[0][0] == kind
        at, offset = at + count, offset + width
    assert at == len(tokens) and lexical == numbers(lines, "X")
    assert not any(l.startswith("NOT LOSSLESS") for l in lines)
    errors = [row for row in rows if (row.class_, row.kind) == (NODE, PARSE_ERROR)]
    return bool(errors), any(l.startswith("E ") for l in lines)


def verdict(case, lines):
    """What check found; and of a tree that is not as it should be the case."""
    try:
        return *check(lines), None
    except AssertionError as wrong:
        return False, False, (len(case), case, f"not as it should be: {wrong}")


def main():
    seed, count = seed_and_count(10000)
    given = ORACLE.run(["gen", str(seed), str(count)]).splitlines()
    found = [verdict(*each) for each in zip(given, ORACLE.blocks(["rows", "any"], given), strict=True)]
    silent = sum(error and not report for error, report, _ in found)
    wrong = sum(error for error, _, _ in found)
    end([fail for _, _, fail in found if fail], 5, "trees (lossless, widths, counts, parents, lexical errors): "
        f"{len(found)} cases, {wrong} with a ParseError node, {silent} of them with no report at all")  # fmt: skip


main()
