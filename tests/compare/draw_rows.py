"""Bad token rows for request 4/14 (document 02): more than one of its causes in one list, and an odd count at the limit
of cause 2."""
from compare.case import MOST_ROWS, Case, Row
from compare.tables import BAD_KINDS

IDENT = Row(27, 1, b"a")
WRONG_TEXT = Row(29, 1, b",")
# lengths that end past any input here; the first two come back in 32 bits, where a row stands before
FAR = (4294967295, 4294967294, 100, 2147483648)
ODD = (0, 27, 25, 99)


def bad(row, rng, cause=None):
    """The row with one of the three causes."""
    cause = rng.randrange(3) if cause is None else cause
    if cause == 0:
        return row._replace(kind=rng.choice(BAD_KINDS))
    return row._replace(length=0) if cause == 1 else row._replace(length=row.length + rng.choice((1,) + FAR))


def with_bad(rows, rng, first=0):
    """The rows with one of the three causes in one of them, from that one on; where there is none, in a new row."""
    rows = list(rows) if first < len(rows) else [*rows, IDENT]
    at = rng.randrange(min(first, len(rows) - 1), len(rows))
    rows[at] = bad(rows[at], rng)
    return rows


def passing_32_bits(rows, rng):
    """In 32 bits the row's end comes back by a byte, and a later row makes up for it."""
    at = rng.randint(0, len(rows))
    there_and_back = [IDENT, IDENT._replace(length=4294967295), IDENT._replace(length=2)]
    return [*rows[:at], *there_and_back, *rows[at:]]


def several(case, rng):
    """The case with more than one cause in its rows."""
    rows, how = list(case.rows) or [IDENT], rng.randrange(6)
    if how == 0:
        at = rng.randrange(len(rows))
        rows[at] = bad(bad(rows[at], rng, 0), rng, rng.choice((1, 2)))
    elif how == 1:
        rows = with_bad(with_bad(rows, rng), rng)
    elif how == 2:
        return case._replace(rows=tuple(with_bad(rows, rng)), odd=rng.choice(ODD))
    elif how == 3:
        return case._replace(rows=tuple(with_bad(rows, rng)), extra=b"ab")
    elif how == 4:
        at = rng.randint(0, len(rows))
        rows.insert(at, WRONG_TEXT)
        if rng.random() < 0.3:
            return case._replace(rows=tuple(rows), extra=b"a")
        rows = with_bad(rows, rng, at + 1)
    else:
        rows = passing_32_bits(rows, rng)
    return case._replace(rows=tuple(rows))


def odd_at_the_limit():
    """One number fewer than cause 2 allows."""
    return Case(1, (Row(0, 0, b""),) * (MOST_ROWS - 1), (3,) * 5, odd=0)


def with_more(cases, oracle, rng):
    """The cases, of those that are refused before a parse half with more causes."""
    return [several(c, rng) if oracle.refused_early(c) and rng.random() < 0.5 else c for c in cases]
