"""The list of cases: written ones, every kind in many places, deep ones, boards, random ones from a seed, and random
ones in the strict setting."""
import os
import random

from compare.case import ROW, escaped, read_line
from compare.draw import Drawer
from compare.strict import drawn

from replay import deep, kinds

MOST = 4294967295
# drawn lists are short, so that the file of answers stays small
LONGEST = 60


def sized(case, lengths):
    return case._replace(lengths=tuple(lengths))


class Chooser:
    def __init__(self, oracle, folder, seed):
        self.oracle, self.folder = oracle, folder
        self.drawer, self.seed = Drawer(oracle, seed), seed

    def lines(self, lines):
        """Cases from the oracle's lines, each lent what its line says or just what it needs."""
        caps = [line.split(" ")[2].split(",") if line.split(" ")[1] == "caps" else None for line in lines]
        plain = [line if c is None else line.replace("caps " + ",".join(c) + " ", "") for line, c in zip(lines, caps)]
        cases = [read_line(l) for l in self.oracle.run(["totoks"], "\n".join(plain) + "\n").splitlines()]
        fitted = self.fitted(cases)
        return [f if c is None else sized(f, [int(n) for n in c]) for f, c in zip(fitted, caps)]

    def fitted(self, cases):
        """The cases with buffers that just suffice; nine numbers each where a row is bad."""
        good = [c for c in cases if self.oracle.refused_early(c) is None]
        needs = iter(p.needs() for p in self.oracle.ask(good))
        return [sized(c, next(needs)) if self.oracle.refused_early(c) is None else sized(c, (9,) * 5) for c in cases]

    def written(self):
        with open(os.path.join(self.folder, "written.txt"), encoding="utf-8") as f:
            return self.lines([l.rstrip("\n") for l in f if l.strip() and not l.startswith("%")])

    def deep(self):
        return self.lines(deep.lines())

    def kinds(self):
        return self.fitted(list(kinds.cases(self.oracle)))

    def short(self, cases):
        """Each case with one number fewer of one buffer, and with a row fewer of another."""
        for i, case in enumerate(cases):
            used = [b for b in range(5) if case.lengths[b]]
            for j, b in enumerate(used):
                less = (1, 1, ROW[b])[(i + j) % 3]
                yield sized(case, [max(n - less, 0) if k == b else n for k, n in enumerate(case.lengths)])

    def boards(self):
        """Whole source files, and each cut off after its middle."""
        folder = os.path.join(self.folder, "boards")
        texts = []
        for name in sorted(os.listdir(folder)):
            with open(os.path.join(folder, name), "rb") as f:
                texts.append(f.read())
        texts += [t[: len(t) * k // 8] for t, k in zip(texts, (5, 4, 3, 5, 6, 4))]
        return self.lines(["1 text " + escaped(t) for t in texts])

    def drawn(self, count):
        """Random calls as for the definitions, lent what suffices, just suffices or is too short; without the two
        largest, and with numbers that a u32 holds."""
        cases = self.drawer.cases(count + 2)[2:]
        return [fits(c) for c in cases if len(c.rows) <= LONGEST or self.oracle.refused_early(c)]

    def labels(self, cases, count):
        """The first of these, in the strict setting with odd names, that have labels to report."""
        strict = drawn(cases, self.oracle, random.Random(self.seed))
        return [case for case, labels in strict if labels][:count]


def fits(case):
    return case._replace(rows=tuple(r._replace(kind=min(r.kind, MOST), length=min(r.length, MOST)) for r in case.rows))
