"""Readings of request 1/14 (document 02), the strict setting, each with its answer worked out by hand from the
request's words: start, end and mark of each report of a label, or the refusal. Tree, lexical errors and all other
reports are the Rust's, as in the old setting. A reading is a name, the entry, the setting, its input as in document.py,
the lent lengths (ROOM; or what is just needed, with the buffers named here as said), and the answer."""
from replay.document import ROOM, refused, toks

# The report buffer that just holds the reports, labels' too, and what else is just needed.
EXACT = {}
NODE = ["Colon", "Ident", "LCurly", "RCurly", "Semicolon"]


def labels(*names):
    """Accepted, with these reports of labels: start, end, mark."""
    return dict(number=0, place=0, names=list(names))


def label(kinds, text):
    """`NAME:c{};` with these rows for the name."""
    return toks(kinds + NODE, text + ":c{};")


BRANCH = ["Number"] + NODE
BRANCHES = toks(["IfdefDirective", *BRANCH, "ElseDirective", *BRANCH, "EndifDirective"], "x1:c{};y2:c{};z")
ERROR_TOKEN = toks(["Number"] + NODE + ["74"], "1:c{};`")

# "lets a label hold letters, digits and underscores and forbids a leading digit": by bytes, whatever the kinds
RULE = [
    ("digit-first", 1, 1, "text 1a:c{};", ROOM, labels((0, 2, 0))),
    ("digit-only", 1, 1, "text 1:c{};", ROOM, labels((0, 1, 0))),
    ("digit-later", 1, 1, "text a1:c{};", ROOM, labels()),
    # an underscore may be first, and alone
    ("underscore", 1, 1, "text _:c{};", ROOM, labels()),
    ("underscore-digit", 1, 1, "text _1:c{};", ROOM, labels()),
    ("both-cases", 1, 1, "text azAZ_09:c{};", ROOM, labels()),
    # a name may join Ident, Number, Comma and Minus; a label may not hold a comma or a minus
    ("comma", 1, 1, "text a,b:c{};", ROOM, labels((0, 3, 0))),
    ("minus", 1, 1, "text a-b:c{};", ROOM, labels((0, 3, 0))),
    ("joined-and-right", 1, 1, label(["Ident", "Number:2", "Ident"], "a12b"), ROOM, labels()),
    # the lexer takes `#` and `.` into an Ident
    ("hash", 1, 1, label(["Ident:2"], "#a"), ROOM, labels((0, 2, 0))),
    ("dot", 1, 1, label(["Ident:3"], "a.b"), ROOM, labels((0, 3, 0))),
    # rows that no lexer gives: an Ident over `7x` breaks the rule, a Number over `a` does not
    ("ident-7x", 1, 1, label(["Ident:2"], "7x"), ROOM, labels((0, 2, 0))),
    ("number-a", 1, 1, label(["Number"], "a"), ROOM, labels()),
    # the bytes beside the ranges of digits and letters: / : @ [ ` {
    *(("byte-%d" % byte, 1, 1, label(["Ident:2"], "a" + chr(byte)), ROOM, labels((0, 2, 0)))
      for byte in (47, 58, 64, 91, 96, 123)),
    ("not-ascii", 1, 1, label(["Ident:3"], "a\\xc3\\xa9"), ROOM, labels((0, 3, 0))),
    # "Length isn't judged"
    ("long", 1, 1, "text " + "a" * 60 + ":c{};", ROOM, labels()),
]

# "each Name directly under a DtLabel, or directly under an unbraced DtPhandle"
JUDGED = [
    # entry 2's root is a DtPhandle
    ("reference", 2, 1, "text 1a", ROOM, labels((0, 2, 0))),
    ("reference-right", 2, 1, "text a1", ROOM, labels()),
    ("reference-braced", 2, 1, "text {1a}", ROOM, labels()),
    ("reference-path", 2, 1, "text {/1a/2b}", ROOM, labels()),
    ("reference-empty", 2, 1, "text ", ROOM, labels()),
    ("value-reference", 3, 1, "text &1a", ROOM, labels((1, 3, 1))),
    ("cell-reference", 4, 1, "text &1a", ROOM, labels((1, 3, 1))),
    ("cell-path", 4, 1, "text &{/1a}", ROOM, labels()),
    # the mark is the name's first token, and not that of the & or of a blank
    ("node-reference", 1, 1, "text &1a{};", ROOM, labels((1, 3, 1))),
    ("blanks", 1, 1, "text  1a : c{};", ROOM, labels((1, 3, 1))),
    ("delete-reference", 1, 1, "text /delete-node/ &1a;", ROOM, labels((15, 17, 3))),
    # message 6 alone: the Name is under a ParseError
    ("at-sign", 1, 1, "text 1a@2:c{};", ROOM, labels()),
    # not judged: names of nodes and properties, unit addresses, /delete-node/ of a name, a path, a macro as a label
    ("node-name", 1, 1, "text 1a{};", ROOM, labels()),
    ("property-name", 1, 1, "text 1a;", ROOM, labels()),
    ("unit-address", 1, 1, "text c@1a{};", ROOM, labels()),
    ("delete-name", 1, 1, "text /delete-node/ 1a;", ROOM, labels()),
    ("delete-path", 1, 1, "text /delete-node/ &{/1a};", ROOM, labels()),
    ("macro-label", 1, 1, "text M(1):c{};", ROOM, labels()),
    # judged under a ParseError (a label with nothing after it) and in branches
    ("in-parse-error", 1, 1, "text 1a:", ROOM, labels((0, 2, 0))),
    ("in-branches", 1, 1, BRANCHES, ROOM, labels((1, 2, 1), (8, 9, 8))),
    # an error token is no Name
    ("error-token-label", 1, 1, toks(["74"] + NODE, "`:c{};"), ROOM, labels()),
]

# "These reports .. follow all others, in leaf order"; the first pool place is all expectations of the call
ORDER = [
    ("two-labels", 1, 1, "text 1:2:c{};", ROOM, labels((0, 1, 0), (2, 3, 2))),
    ("label-and-reference", 1, 1, "text 1a:&2b{};", ROOM, labels((0, 2, 0), (4, 6, 4))),
    ("node-in-node", 1, 1, "text 1:c{2:d{};3:e;};", ROOM, labels((0, 1, 0), (4, 5, 4), (10, 11, 10))),
    # message 2 has mark 7, and the label's report after it mark 0
    ("after-a-later-one", 1, 1, "text 1a:c{};}", ROOM, labels((0, 2, 0))),
    ("after-expectations", 1, 1, "text a=;1a:c{};", ROOM, labels((3, 5, 3))),
]

# "One that doesn't fit is refusal 7 with that mark, before 8", and after what the run itself meets
REFUSED = [
    ("labels-just-fit", 1, 1, "text 1a:&2b{};", EXACT, labels((0, 2, 0), (4, 6, 4))),
    ("second-label-cut", 1, 1, "text 1a:&2b{};", dict(reports=17), refused(7, 4)),
    ("second-label-cut-and-tree", 1, 1, "text 1a:&2b{};", dict(reports=17, trees=3), refused(7, 4)),
    ("first-label-cut", 1, 1, "text 1a:&2b{};", dict(reports=8), refused(7, 0)),
    ("no-report-numbers", 1, 1, "text 1a:&2b{};", dict(reports=0, trees=0), refused(7, 0)),
    ("labels-fit-and-tree-does-not", 1, 1, "text 1a:&2b{};", dict(reports=18, trees=3), refused(8, 0)),
    # an odd rest of the report buffer is no row
    ("labels-and-a-rest", 1, 1, "text 1a:&2b{};", dict(reports=26), labels((0, 2, 0), (4, 6, 4))),
    # the run's own: its first event, and a report whose mark is 7
    ("event-before-labels", 1, 1, "text 1a:&2b{};", dict(events=2, reports=17), refused(6, 0)),
    ("own-report-before-labels", 1, 1, "text 1a:c{};}", dict(reports=8), refused(7, 7)),
    ("label-after-own-report", 1, 1, "text 1a:c{};}", dict(reports=9), refused(7, 0)),
    ("lexical-errors-do-not-fit", 1, 1, ERROR_TOKEN, dict(errors=2, reports=18), refused(8, 0)),
    ("label-before-lexical-errors", 1, 1, ERROR_TOKEN, dict(errors=2, reports=17), refused(7, 0)),
    # the causes before a parse come first in either setting
    ("strict-entry-5", 5, 1, "toks Number 1", (9, 9, 9, 9, 9), refused(1, 0)),
    ("strict-bad-row", 2, 1, "toks Number,Name 1a", (9, 9, 9, 9, 9), refused(11, 1)),
    ("strict-bad-text", 2, 1, "toks Number,Semicolon 1:", (9, 9, 9, 9, 9), refused(4, 1)),
]

# 0 is the old setting, any other number the strict one, also where its low byte or half is 0
SETTINGS = [
    ("setting-0", 1, 0, "text 1a:&2b{};", dict(reports=0), labels()),
    *(("setting-%d" % n, 2, n, "text 1a", EXACT, labels((0, 2, 0))) for n in (2, 256, 65536, 2147483648, 4294967295)),
]

READINGS = RULE + JUDGED + ORDER + REFUSED + SETTINGS
