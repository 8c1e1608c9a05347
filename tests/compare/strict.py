"""The strict setting of request 1/14 (document 02), as a plain reading of its words over the tree rows that the oracle
gives. The Rust has no such setting. tests/fuzz/src/strict.rs reads the same words in Rust."""
from compare.case import LEAF, NODE, REPORT_ROW, TreeRow, rows, rows_of
from compare.parents import parents

# by document 01's order of NodeKind and TokenKind; message 8 is document 02's
DT_LABEL, DT_PHANDLE = 19, 21
DELETE_NODE, NAME, IDENT, AMPERSAND, COLON, NUMBER, LCURLY = 21, 26, 27, 30, 31, 35, 37
NOT_A_LABEL = 8
NO_REPORT_ROOM, NO_TREE_ROOM = 7, 8
LETTERS = b"abcdefghijklmnopqrstuvwxyzABCDEFGHIJKLMNOPQRSTUVWXYZ"
DIGITS = b"0123456789"


def breaks_rule(text):
    """A label may "hold letters, digits and underscores", and "a leading digit" is forbidden."""
    return any(b not in LETTERS + DIGITS + b"_" for b in text) or text[:1] in [bytes([d]) for d in DIGITS]


def reported(data, numbers):
    """Start, end and mark of each Name that breaks the rule, in leaf order. numbers: those of the tree rows."""
    tree = rows(TreeRow, numbers)
    above = parents(tree)
    braced = {above[i] for i, row in enumerate(tree) if (row.class_, row.kind) == (LEAF, LCURLY)}
    out, start, token = [], 0, 0
    for i, row in enumerate(tree):
        if row.class_ == NODE:
            continue
        end, parent = start + row.width, tree[above[i]].kind
        judged = parent == DT_LABEL or (parent == DT_PHANDLE and above[i] not in braced)
        if row.kind == NAME and judged and breaks_rule(data[start:end]):
            out.append((start, end, token))
        start, token = end, token + row.count
    return out


def report_rows(names, expectations):
    """Their report rows: after all others, hint 0, no label; first pool place all expectations of the call."""
    return [n for start, end, mark in names for n in (NOT_A_LABEL, start, end, mark, expectations, 0, 0, 0, 0)]


def with_labels(case, own, full):
    """The oracle's answer to a case in its own lengths (own) with the strict setting's reports; full: its answer where
    there is room for all."""
    if case.setting == 0 or own.number not in (0, NO_TREE_ROOM):
        return own
    names = reported(case.data(), full.rows)
    room = case.lengths[3] // REPORT_ROW - len(full.reports) // REPORT_ROW
    if len(names) > room:
        own.number, own.place = NO_REPORT_ROOM, names[room][2]
    elif own.number == 0:
        own.reports = own.reports + report_rows(names, len(own.pool))
    return own


def drawn(cases, oracle, rng):
    """The cases in the strict setting, most with a label or a reference more and with odd bytes in their names, in
    buffers that just fit or nearly do; each with how many Names break the rule."""
    cases = [odd_names(with_label(case, rng), rng) for case in cases]
    early = [oracle.refused_early(case) for case in cases]
    parsed = iter(oracle.ask([case for case, e in zip(cases, early) if not e]))
    for case, e in zip(cases, early):
        if e:
            yield case, 0
            continue
        full = next(parsed)
        count = len(reported(case.data(), full.rows))
        yield case._replace(lengths=near(full.needs(), count, rng)), count


def near(needs, count, rng):
    """Lengths around what is needed with so many reports of labels: the report buffer ends somewhere among them, and
    the tree's is short too, now and then."""
    events, trees, errors, reports, pool = [n + rng.choice((0, 0, 0, 1, 5)) for n in needs]
    reports += REPORT_ROW * rng.choice((count, count, count, rng.randint(0, count))) - rng.choice((0, 0, 0, 1))
    trees = rng.choice((trees, trees, trees, trees, needs[1] - 1, 3))
    return events, max(trees, 0), errors, max(reports, 0), pool


def with_label(case, rng):
    """The case with a label, a reference or both at a random place."""
    if len(case.rows) > 100:
        return case
    label, reference = [(NUMBER, b"1"), (COLON, b":")], [(AMPERSAND, b"&"), (IDENT, b"a"), (NUMBER, b"2")]
    more = rng.choice(([], label, reference, label + reference, [(DELETE_NODE, b"/delete-node/")] + reference))
    at = rng.randint(0, len(case.rows))
    return case._replace(rows=case.rows[:at] + rows_of(more) + case.rows[at:])


def odd_names(case, rng):
    odd = tuple(odd_text(row, rng) if row.kind in (IDENT, NUMBER) else row for row in case.rows)
    return case._replace(rows=odd, setting=rng.choice((1, 1, 2, 256, 4294967295, rng.randrange(1, 2**32))))


def odd_text(row, rng):
    """The row with as many bytes, some of which no label has."""
    if row.length != len(row.text) or rng.random() < 0.5:
        return row
    return row._replace(text=bytes(rng.choice(b"a1_Z09.,#-+@`[\x80") for _ in row.text))
