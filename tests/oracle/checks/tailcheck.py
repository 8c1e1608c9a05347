#!/usr/bin/env python3
"""Promise 3 by running: two source files with the same tail after a top-level ending semicolon. Later parts, lexical
errors and reports are those of document 01 (`oracle doc01`), and must move alike; of tree rows the parent, by document
02's request 7/14.    tailcheck.py [SEED [COUNT]]"""
import random
import sys

sys.dont_write_bytecode = True
from run import ORACLE, end, seed_and_count

from compare.case import LEAF, NODE, Case, ErrorRow, ReportRow, TreeRow, case_line, read_line
from compare.oracle import ROOM

SEMICOLON = ORACLE.kinds["Semicolon"]
ENDING_PARTS = [ORACLE.nodes[name] for name in ("DtsDirective", "DtNode", "DtProperty")]


def line_of(tokens):
    return case_line(Case(1, tokens), ROOM)


def pairs(seed, count):
    """Two heads that end in a semicolon, and a tail."""
    cases = ORACLE.run(["totoks"], ORACLE.run(["gen", str(seed), str(count), "1"])).splitlines()
    files = [t for t in (read_line(case).rows for case in cases) if len(t) < 80]
    ends = [(t, [i for i, x in enumerate(t) if x.kind == SEMICOLON]) for t in files]
    heads = [t[: random.choice(at) + 1] for t, at in ends if at]
    out = []
    for _ in range(count):
        tail = random.choice(files)
        if tail and random.random() < 0.7:
            tail = tail[random.randrange(len(tail)) :]
        out.append((random.choice(heads), random.choice(heads), tail))
    return out


def load(lines):
    """Tree rows, lexical errors and reports with their expectations, or None if refused."""
    rows, lexical, reports = [], [], []
    for word, *rest in (l.split() for l in lines if l):
        if word in ("REFUSED", "PANIC"):
            return None
        if word == "R":
            rows.append(TreeRow(*map(int, rest)))
        elif word == "X":
            lexical.append(ErrorRow(*map(int, rest)))
        elif word == "P":
            bar = rest.index("|")
            reports.append((ReportRow(*map(int, rest[:bar])), tuple(rest[bar + 1 :])))
    return rows, lexical, reports


def part_end(rows, i):
    """Past the part at row i: the next row, the raw tokens in it, and its last direct child."""
    if rows[i].class_ == LEAF:
        return i + 1, rows[i].count, None
    child, tokens, last = i + 1, 0, None
    for _ in range(rows[i].count):
        last = rows[child]
        child, n, _ = part_end(rows, child)
        tokens += n
    return child, tokens, last


def boundary(rows, tokens):
    """Parts and rows up to the part that ends in its own semicolon as the file's token of that count, or None."""
    parts, taken, row = 0, 0, 1
    while taken < tokens and parts < rows[0].count:
        part = rows[row]
        row, n, last = part_end(rows, row)
        taken, parts = taken + n, parts + 1
    ends = taken == tokens and part.class_ == NODE and part.kind in ENDING_PARTS
    return (parts, row) if ends and last and (last.class_, last.kind) == (LEAF, SEMICOLON) else None


def moved_rows(rows, first):
    """The rows from the first later one on, with their parents counted from it; one that is the root stays 0."""
    assert all(r.parent == 0 or r.parent >= first for r in rows[first:])
    return [r._replace(parent=r.parent and r.parent - first + 1) for r in rows[first:]]


def later(answer, head):
    """What is later than the head's semicolon, counted from it; None if it ends no such part."""
    rows, lexical, reports = answer
    found = boundary(rows, len(head))
    if not found:
        return None
    parts, row = found
    start = sum(token.length for token in head)
    early = [r for r, _ in reports if r.mark <= len(head) - 1]
    pool = sum(r.pool_count for r in early)
    moved = []
    for (message, a, b, mark, first, count, hint, la, lb), codes in reports[len(early) :]:
        label = None if (la, lb) == (0, 0) else (la - start, lb - start)
        moved.append((message, a - start, b - start, mark - len(head), first - pool, count, hint, label, codes))
    errors = [(number, a - start, b - start) for number, a, b in lexical if a >= start]
    in_order = early == [r for r, _ in reports[: len(early)]]
    return rows[0].count - parts, moved_rows(rows, row), errors, moved, in_order


def main():
    seed, count = seed_and_count(3000)
    random.seed(seed)
    drawn = pairs(seed, count)
    given = [line_of(head + tail) for a, b, tail in drawn for head in (a, b)]
    answers = [load(lines) for lines in ORACLE.blocks(["doc01", "any"], given)]
    assert len(answers) == 2 * count
    used = with_reports = 0
    fails = []
    for i, (a, b, tail) in enumerate(drawn):
        first, second = answers[2 * i], answers[2 * i + 1]
        first, second = first and later(first, a), second and later(second, b)
        if not first or not second:
            continue
        used += 1
        with_reports += bool(first[3])
        if first != second or not first[4]:
            fails.append((len(a) + len(b) + len(tail), line_of(a + tail), line_of(b + tail), first, second))
    end(fails, 3, f"shared tails: {count} pairs, {used} of the named kind, {with_reports} with later reports")


main()
