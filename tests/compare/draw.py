"""Random cases from a seed."""
import random

from compare.case import ERRORS, FIRST_ERROR, LAST_ERROR, MOST_OPEN, MOST_ROWS, ROW, TREE_ROW
from compare.case import Case, Row, read_line, rows_of
from compare.oracle import NO_TREE
from compare.tables import BAD_ENTRIES, BAD_KINDS, CONDITIONAL_HEADS, CONDITIONALS, ENTRIES, HEADS, LEVELS, MANY, NESTS
from compare.tables import PIECES, PREFIX, REPEATING_HEADS, REPEATING_TAILS, STATEMENTS, STOPS, TAILS, TRIVIA, UNITS

MOST_DEEP_ROWS = 160
# what a cut tree buffer has after its whole rows; there are four as when a tree row had four numbers, so that the lists
# of crates/replay_run are drawn as they were
RESTS = 0, 1, 2, TREE_ROW - 1


class Drawer:
    def __init__(self, oracle, seed):
        self.oracle, self.seed, self.random = oracle, seed, random.Random(seed)
        self.kinds, self.blank, self.ident = oracle.inputs, oracle.kinds["Whitespace"], oracle.kinds["Ident"]

    # ------------------------------------------------------------ token lists

    def text(self, kind):
        """The kind's fixed text, or any bytes."""
        fixed = self.oracle.texts.get(kind)
        if fixed:
            return fixed
        return bytes(self.random.choice(b"a1 ;\n{x\xff\x00") for _ in range(self.random.randint(1, 4)))

    def tokens(self, kinds):
        return rows_of((k, self.text(k)) for k in kinds)

    def named(self, names):
        return [self.oracle.kinds[n] for n in names.split()]

    def pieces(self, length):
        """Pieces, now and then any kind, trivia or a lexical error."""
        out, r = [], self.random
        while len(out) < length:
            if r.random() < 0.12:
                out.append(r.choice(self.kinds))
            else:
                out += self.named(" ".join(r.choice(PIECES)))
            if r.random() < 0.2:
                out.append(self.oracle.kinds[r.choice(TRIVIA)])
            if r.random() < 0.04:
                out.append(r.randint(FIRST_ERROR, LAST_ERROR))
        return self.tokens(out[: length + 2])

    def statements(self):
        """One or two statements with up to two damages, often with trivia between tokens."""
        r, entry = self.random, self.random.choice(ENTRIES)
        kinds = self.named(" ".join(sum((r.choice(STATEMENTS[entry]) for _ in range(r.choice((1, 1, 2)))), [])))
        for _ in range(r.choice((0, 0, 1, 1, 2))):
            i, how = r.randrange(len(kinds)), r.randrange(4)
            other = r.choice(self.kinds + [FIRST_ERROR, LAST_ERROR]) if r.random() < 0.4 else self.oracle.kinds[r.choice(STOPS)]
            if how == 0:
                kinds = kinds[:i] + kinds[i + 1 :] or kinds
            elif how == 1:
                kinds.insert(i, other)
            elif how == 2:
                kinds[i] = other
            else:
                kinds = kinds[: i + 1]
        blanks = r.choice((0, 0.1, 0.3))
        kinds = [x for k in kinds for x in ([self.blank, k] if r.random() < blanks else [k])]
        return Case(entry, self.tokens(kinds))

    def random_tokens(self, length):
        """Kinds from a small alphabet, or from all, lexical errors among them."""
        every = self.kinds + list(ERRORS)
        if self.random.random() < 0.7:
            every = [self.random.choice(every) for _ in range(self.random.randint(2, 6))]
        return self.tokens(self.random.choice(every) for _ in range(length))

    def operand(self):
        r = self.random.random()
        if r < 0.7:
            return ["Number"]
        return self.random.choice((["Char"], ["Ident"], ["Ident", "LParen", "Number", "RParen"], ["Ident", "LParen", "RParen"]))

    def expression(self, depth, infix):
        """Kinds of an expression over some infix operators."""
        r = self.random.randrange(10) if depth else 9
        inner = lambda: self.expression(depth - 1, infix)
        if r < 5:
            return inner() + [self.random.choice(infix)] + inner()
        if r < 7:
            return [self.random.choice(PREFIX)] + inner()
        if r == 7:
            return inner() + ["QuestionMark"] + inner() + ["Colon"] + inner()
        if r == 8:
            return ["LParen"] + inner() + ["RParen"]
        return self.operand()

    def operators(self):
        """Those of two levels, mostly neighbours, so that operators often meet that bind alike or nearly."""
        i, j = self.random.sample(range(len(LEVELS)), 2)
        if self.random.random() < 0.7:
            j = max(i - 1, 0)
        return LEVELS[i] + LEVELS[j]

    def expressions(self, count):
        """Expressions in cells, one in three damaged, for the entries that have cells."""
        out, r = [], self.random
        while len(out) < count:
            names = ["LParen"] + self.expression(r.randint(1, 3), self.operators()) + ["RParen"]
            if not 6 < len(names) <= 14 and r.random() < 0.9:
                continue
            entry, front, back = r.choice(((4, "", ""), (4, "", ""), (3, "LAngle", "RAngle"), (1, "Ident Equals LAngle", "RAngle Semicolon")))
            kinds = self.named(" ".join([front] + names + [back]))
            if r.random() < 0.35:
                kinds[r.randrange(len(kinds))] = r.choice(self.kinds)
            if r.random() < 0.3:
                kinds.insert(r.randrange(len(kinds)), self.blank)
            out.append(Case(entry, self.tokens(kinds)))
        return out

    def generated(self, count, least, most):
        """Lists of the oracle's own generator (grammar-like text, damaged text, random tokens), of a length within the
        limits."""
        out, seed = [], self.seed
        while len(out) < count:
            lines = self.oracle.run(["totoks"], self.oracle.run(["gen", str(seed), "4000"])).splitlines()
            cases = [read_line(line) for line in lines]
            out += [c for c in cases if least <= len(c.rows) <= most]
            seed += 1000003
        return out[:count]

    # ------------------------------------------------------------ near the limits

    def family(self):
        """The lists head unit*k tail of an entry, for k from 1 on."""
        r = self.random
        entry, head, tail = r.choice(ENTRIES), r.choice(HEADS), r.choice(TAILS)
        unit = " ".join(r.choice(UNITS) for _ in range(r.choice((1, 1, 1, 2))))
        if r.random() < 0.4:
            (entry, head), unit = r.choice(CONDITIONAL_HEADS), r.choice(CONDITIONALS)
        blank = [self.blank] if r.random() < 0.2 else []
        return [self.nested(entry, head, self.named(unit) + blank, k, tail) for k in range(1, 67)]

    def nested(self, entry, head, unit, k, tail):
        return Case(entry, self.tokens(self.named(head) + unit * k + self.named(tail)))

    def deep(self, count):
        """Around the first k at which a family is refused by a limit: the last that is not, that one, and one beyond.
        Long lists are left out: the checker takes ten seconds for one of 250 rows."""
        out = []
        while len(out) < count:
            lists = self.family()
            said = self.oracle.ask(lists, NO_TREE)
            at = next((i for i, p in enumerate(said) if p.number == 5), None)
            if at is not None and len(lists[at].rows) <= MOST_DEEP_ROWS:
                out += lists[max(at - 1, 0) : at + 2]
        return out[:count]

    def full(self):
        """At the limit and one past it: 64 and 65 open calls through one function."""
        entry, head, unit = self.random.choice(NESTS)
        lists = [self.nested(entry, head, self.named(unit), k, "") for k in range(60, 67)]
        said = self.oracle.ask(lists, NO_TREE)
        at = next(i for i, p in enumerate(said) if p.number == 5)
        assert at and said[at - 1].most_open == MOST_OPEN
        return lists[at - 1 : at + 1]

    def repeating(self):
        """Two lists in which the Rust has many expectations pending, all but a few of them again."""
        r = self.random
        (entry, head), unit = r.choice(REPEATING_HEADS), self.named(r.choice(CONDITIONALS))
        lists = [self.nested(entry, head, unit, k, r.choice(REPEATING_TAILS)) for k in (50, 51)]
        assert all(p.most_pending >= MANY and p.number != 5 for p in self.oracle.ask(lists, NO_TREE))
        return lists

    # ------------------------------------------------------------ bad input: causes 1 to 4 and 11 to 13

    def damage(self, case):
        """One thing wrong, now and then two."""
        for _ in range(self.random.choice((1, 1, 1, 2))):
            case = self.damage_once(case)
        return case

    def damage_once(self, case):
        r, rows = self.random, list(case.rows)
        i = r.randrange(len(rows)) if rows else 0
        what = r.randrange(8 if rows else 3)
        if what == 0:
            return case._replace(entry=r.choice(BAD_ENTRIES))
        if what == 1:
            return case._replace(odd=r.choice((0, 27, 25, 99)))
        if what == 2:
            return case._replace(extra=case.extra + self.text(self.ident))
        row = rows[i]
        if what == 3:
            row = row._replace(kind=r.choice(BAD_KINDS))
        elif what == 4:
            row = row._replace(length=0)
        elif what == 5:
            row = row._replace(length=row.length + r.choice((1, 2, 100, 4294967295)))
        elif what == 6 and row.text:
            row = row._replace(text=row.text[:-1])
        else:
            row = self.wrong_text(row)
        rows[i] = row
        return case._replace(rows=tuple(rows))

    def wrong_text(self, row):
        """A kind with a fixed text over other bytes: one byte changed, or too short, or too long."""
        kind = self.random.choice(list(self.oracle.texts))
        text = bytearray(self.oracle.texts[kind])
        how = self.random.randrange(3)
        if how == 0:
            text[self.random.randrange(len(text))] ^= 1
        elif how == 1 and len(text) > 1:
            text.pop()
        else:
            text += b"/"
        return Row(kind, len(text), bytes(text))

    # ------------------------------------------------------------ buffer lengths

    def lengths(self, needs):
        """Lengths that suffice, just suffice, or are short by a number, a row or more; not always whole rows."""
        r = self.random
        if r.random() < 0.5:
            return tuple(n + r.randint(0, 12) for n in needs)
        lengths = [n + r.choice((0, 0, 0, 1, 2, 5)) for n in needs]
        full = [b for b in range(5) if needs[b]]
        for b in r.sample(full, min(len(full), r.choice((0, 0, 1, 1, 1, 2)))):
            n = needs[b]
            lengths[b] = r.choice((n - 1, n - 1, max(n - ROW[b], 0), n - n % ROW[b] - 1, self.cut(n, ROW[b]), 0))
        return tuple(max(n, 0) for n in lengths)

    def cut(self, need, row):
        """Any length below what is needed; of a tree so many whole rows and one of RESTS."""
        if row != TREE_ROW:
            return self.random.randrange(need)
        whole, rest = divmod(self.random.randrange(need // TREE_ROW * len(RESTS)), len(RESTS))
        return TREE_ROW * whole + RESTS[rest]

    def lend(self, cases):
        """The cases with buffers, by what each needs."""
        out = []
        for case, parsed in zip(cases, self.oracle.ask(cases)):
            out.append(case._replace(lengths=self.lengths(parsed.needs())))
        return out

    # ------------------------------------------------------------ all

    def cases(self, count):
        """That many: short lists mostly, some long, some near the limits or at them, one in eight with bad input."""
        r = self.random
        part = lambda percent: count * percent // 100
        lists = self.generated(part(22), 0, 22) + self.generated(part(2), 30, 110) + self.deep(part(2))
        lists += self.expressions(part(16)) + [self.statements() for _ in range(part(24))]
        lists += [Case(r.choice(ENTRIES), self.pieces(r.randint(1, 14))) for _ in range(part(12))]
        bad = [Case(r.choice(ENTRIES), self.pieces(r.randint(0, 6))) for _ in range(part(12))]
        bad = [self.damage(c)._replace(lengths=tuple(r.randint(0, 9) for _ in range(5))) for c in bad]
        largest = self.largest()
        rest = count - len(lists) - len(bad) - len(largest)
        lists += [Case(r.choice(ENTRIES), self.random_tokens(r.randint(0, 10))) for _ in range(rest)]
        cases = self.lend(lists) + [self.lend_damaged(c) for c in bad]
        r.shuffle(cases)
        pairs = [self.full() if r.random() < 0.5 else self.repeating() for _ in range(part(1) // 2)]
        full = self.lend([case for pair in pairs for case in pair])
        return largest + cases[: len(cases) - len(full)] + full

    def lend_damaged(self, case):
        """Two faults can cancel each other; such a case is lent what it needs."""
        return case if self.oracle.refused_early(case) else self.lend([case])[0]

    def largest(self):
        """Cause 2 by its count of token numbers, and the largest count that is not refused by it (but by row 0)."""
        most = (Row(self.blank, 0, b""),) * MOST_ROWS
        return [Case(1, most, odd=0), Case(1, most)]
