"""Random queries of source files from a seed, short enough for the checker."""
import random

from compare.caret import CARET, RANGE, SOURCE_FILE, Query, QueryCase, listed
from compare.case import BUFFERS, REPORT_ROW
from compare.strict import drawn, reported

HALF = 2**32
# the most rows of a file, but for those at a limit of refusal 5
LONG = 60


class QueryDrawer:
    def __init__(self, oracle, drawer, seed):
        """drawer: of token lists."""
        self.oracle, self.drawer, self.random = oracle, drawer, random.Random(seed)

    def far(self, length):
        """Past any file; most are in the file, or at its length, in their low 32 or 63 bits alone."""
        r = self.random
        low = r.randint(0, length)
        return r.choice((HALF - 1, HALF, HALF + low, HALF + length, 2**63 + low, 2**64 - 1 - low, 2**64 - 1))

    def offset(self, length):
        r = self.random
        if r.random() < 0.12:
            return self.far(length)
        return r.choice([r.randint(0, length)] * 6 + [length] * 2 + [length + 1])

    def range(self, length):
        """Empty ones, reversed ones, and such as are a byte long among them."""
        r, (first, second) = self.random, sorted((self.offset(length), self.offset(length)))
        return r.choice([(first, second)] * 5 + [(second, first), (first, first), (first, first + 1)])

    def query(self, length):
        if self.random.random() < 0.55:
            return Query(CARET, self.offset(length))
        return Query(RANGE, *self.range(length))

    def files(self, count):
        """Parses of source files, every second one in the strict setting."""
        drawn_lists = [c for c in self.drawer.cases(2 * count)[2:] if len(c.rows) <= LONG or self.random.random() < 0.1]
        files = [c._replace(entry=SOURCE_FILE) for c in drawn_lists[:count]]
        files[::2] = [self.drawer.lend_damaged(c) for c in files[::2]]
        files[1::2] = [case for case, _ in drawn(files[1::2], self.oracle, self.random)]
        return files

    def fitting(self, case, full):
        """The case with buffers that have what is needed, or some numbers more."""
        needs = list(full.needs())
        if case.setting:
            needs[BUFFERS.index("reports")] += REPORT_ROW * len(reported(case.data(), full.rows))
        return case._replace(lengths=tuple(n + self.random.choice((0, 0, 1, 5)) for n in needs))

    def room(self, rows):
        return self.random.choice((rows, rows, rows, rows + 1, rows + 4, 20, max(rows - 1, 0), 0))

    def cases(self, count):
        files = self.files(count)
        good = [c for c in files if not self.oracle.refused_early(c)]
        parsed = iter(self.oracle.ask(good))
        out = []
        for case in files:
            query, rows = self.query(len(case.data())), self.random.randint(0, 6)
            full = None if self.oracle.refused_early(case) else next(parsed)
            if full and full.rows:
                rows = len(listed(query, full.rows))
                case = self.fitting(case, full) if self.random.random() < 0.6 else case
            out.append(QueryCase(query, case, self.room(rows)))
        return out
