"""What a list of answers has in it, as a table."""
from collections import Counter

from compare.case import LEAF, NODE, ErrorRow, ReportRow, TreeRow, rows


def depth(numbers):
    """The most nodes around a row of the tree, the root among them."""
    most, open_ = 0, []
    for row in rows(TreeRow, numbers):
        while open_ and open_[-1] == 0:
            open_.pop()
        if open_:
            open_[-1] -= 1
        if row.class_ == NODE:
            open_.append(row.count)
            most = max(most, len(open_))
    return most


def counted(title, counter):
    return "%s: %s" % (title, ", ".join("%s: %d" % (k, counter[k]) for k in sorted(counter)))


# of a call over token rows
REFUSALS = 1, 2, 3, 4, 5, 6, 7, 8, 11, 12, 13


def table(answers):
    """Lines: by entry, and then what appears how often, number: times."""
    titles = ["Entry", "Cases", "Accepted", *("Refused %d" % n for n in REFUSALS)]
    lines = ["| %s |" % " | ".join(titles), "|---" * len(titles) + "|"]
    for entry in (1, 2, 3, 4, "others"):
        of = [a for a in answers if (a.case.entry if 1 <= a.case.entry <= 4 else "others") == entry]
        number = Counter(a.number for a in of)
        lines.append("| %s | %d | %s |" % (entry, len(of), " | ".join(str(number[n]) for n in (0, *REFUSALS))))
    good = [a for a in answers if a.number == 0]
    reports = [r for a in good for r in rows(ReportRow, a.parsed.reports)]
    errors = [r for a in good for r in rows(ErrorRow, a.parsed.lexical)]
    tree = [r for a in good for r in rows(TreeRow, a.parsed.rows)]
    lines += [
        "",
        counted("messages", Counter(r.message for r in reports)),
        counted("hints", Counter(r.hint for r in reports if r.hint)),
        counted("expectations", Counter(c for a in good for c in a.parsed.pool)),
        counted("lexical errors", Counter(r.number for r in errors)),
        counted("node kinds", Counter(r.kind for r in tree if r.class_ == NODE)),
        counted("leaf kinds", Counter(r.kind for r in tree if r.class_ == LEAF)),
        "deepest nesting: %d nodes" % max(depth(a.parsed.rows) for a in good),
        "most open calls: %d" % max(a.reached["open"] for a in good),
        "most expectations of a report: %d; most pending in the Rust, with repeats: %d"
        % (max(r.pool_count for r in reports), max(a.reached["pending"] for a in good)),
        "most tokens: %d, tree rows: %d, reports: %d" % (max(len(a.case.rows) for a in answers), len(tree), len(reports)),
    ]
    return "\n".join(lines) + "\n"
