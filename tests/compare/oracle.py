"""The expected result of a case. Causes 1, 2 and 4 and the buffers' final contents are document 01's table, written
here in a few lines; what is wrong with the rows, between 2 and 4, is row_causes.py; everything else is the answer of
tests/oracle/ (`oracle doc01 any`: the patched copy of the Rust), in the strict setting with the reports that strict.py
adds. The parents in its tree rows must be those of parents.py."""
from compare.case import ERROR_ROW, ERRORS, EVENT_ROW, MOST_BYTES, MOST_NUMBERS, REPORT_ROW, TREE_ROW
from compare.case import Result, case_line
from compare.parents import are_right
from compare.row_causes import bad_rows
from compare.strict import with_labels
from oracle_program import Program

# room enough for all; the same except for the tree, so that the answer is short
ROOM, NO_TREE = "-----", "-0---"


class Parsed:
    """What `oracle doc01` said of one case."""

    def __init__(self, lines):
        self.rows, self.lexical, self.reports, self.pool = [], [], [], []
        # events, reports and expectations pushed before a limit stopped the run
        self.pushed = 0, 0, 0
        # the most open calls that the run came to, and the most pending expectations of the Rust, with repeats
        self.most_open = self.most_pending = 0
        self.number = None
        for line in lines:
            word, *rest = line.split()
            if word == "S":
                self.most_open, self.most_pending, _, *self.pushed = [int(n) for n in rest[1::2]]
            elif word in ("OK", "REFUSED"):
                self.number, self.place = int(rest[0]), int(rest[1])
            elif word == "R":
                self.rows += map(int, rest)
            elif word == "X":
                self.lexical += map(int, rest)
            elif word == "P":
                bar = rest.index("|")
                self.reports += map(int, rest[:bar])
                self.pool += map(int, rest[bar + 1 :])
        if self.number is None:
            raise SystemExit("the oracle gave no answer: " + " / ".join(lines))
        if not are_right(self.rows):
            raise SystemExit("the oracle's tree rows have other parents: " + " / ".join(lines))

    def needs(self):
        """Buffer lengths that just suffice for what is pushed, and for the rows if the answer has them."""
        events, reports, pool = self.pushed
        return EVENT_ROW * events, len(self.rows), len(self.lexical), REPORT_ROW * reports, pool

    def counts(self):
        trees, errors = len(self.rows) // TREE_ROW, len(self.lexical) // ERROR_ROW
        return trees, errors, len(self.reports) // REPORT_ROW, len(self.pool)


class Oracle(Program):
    def ask(self, cases, lengths=ROOM):
        """The oracle's answers, with the same buffer lengths for all or (None) with each case's own."""
        blocks = self.blocks(["doc01", "any"], [case_line(c, lengths or c.lengths) for c in cases])
        assert len(blocks) == len(cases)
        return [Parsed(lines) for lines in blocks]

    def rust(self, case):
        """The unchanged Rust's own answer, to be read."""
        return self.run(["rows", "any", "--no-tokens"], case_line(case, ROOM) + "\n")

    def refused_early(self, case):
        """Number and place of the causes before a parse, 1 to 4 and 11 to 13, or None."""
        data, numbers = case.data(), case.numbers()
        if not 1 <= case.entry <= 4:
            return 1, 0
        if len(data) > MOST_BYTES or len(numbers) > MOST_NUMBERS:
            return 2, 0
        return bad_rows(numbers, len(data), self.is_input) or self.wrong_text(case.rows, data)

    def is_input(self, kind):
        return kind in self.inputs or kind in ERRORS

    def wrong_text(self, rows, data):
        """Cause 4 of good rows, or None."""
        start = 0
        for i, row in enumerate(rows):
            text = data[start : start + row.length]
            if text != self.texts.get(row.kind, text):
                return 4, i
            start += row.length
        return None

    def results(self, cases):
        """The expected results."""
        early = [self.refused_early(c) for c in cases]
        good = [c for c, e in zip(cases, early) if e is None]
        strict = [c for c in good if c.setting]
        full = dict(zip(strict, self.ask(strict)))
        parsed = iter([with_labels(c, own, full.get(c)) for c, own in zip(good, self.ask(good, None))])
        return [result(c, e, None if e else next(parsed)) for c, e in zip(cases, early)]


def result(case, early, parsed):
    """What is left as it was, what is zero, and what is written (document 01's table and the lines after it)."""
    if early:
        return Result(early + (0, 0, 0, 0), case.lent())
    if parsed.number:
        return Result((parsed.number, parsed.place, 0, 0, 0, 0), [[0] * n for n in case.lengths])
    written = [], parsed.rows, parsed.lexical, parsed.reports, parsed.pool
    buffers = [w + [0] * (n - len(w)) for w, n in zip(written, case.lengths)]
    return Result((0, 0) + parsed.counts(), buffers)
