"""Readings of document 02's request 6/14, each expectation once, worked out by hand: inputs at whose reports the Rust
has some expectation pending again. The form is that of document.py. Each report's own list is claimed, and how long the
Rust's longest was, with repeats."""
from replay.document import IF, ROOM, accepted, refused, toks


def lists(*each, **claims):
    return accepted(lists=[names.split() for names in each], **claims)


CELL = "Cell DtIncludeDirective PreprocessorDirective"
INNER, OUTER = "EndifDirective " + CELL, "EndifDirective " + CELL + " End"

LISTS = [
    # the Rust has #endif, #endif
    ("once-else", 1, "text #else", ROOM, lists("", "EndifDirective", pending=2)),
    # at the third report Number, Number, Semicolon
    ("once-memreserve", 1, "text /memreserve/", ROOM, lists("Number", "Number", "Number Semicolon")),
    # LCurly, LabelName, LCurly: the first arrival is kept
    ("once-ampersand", 1, "text &", ROOM, lists("LCurly LabelName", "LCurly LabelName", pending=3)),
    ("once-brace", 2, "text {", ROOM, lists("Slash Name", "Slash Name RCurly", pending=4)),
    ("once-end", 4, "text ;", ROOM, lists(CELL + " End", CELL + " End", pending=5)),
    # Ampersand, Name, Semicolon, OmitIfNoRefDirective, Name, Ampersand, Slash; a token is taken before the fourth
    ("once-delete-node", 1, "text /delete-node/=", ROOM,
     lists("Ampersand Name", "Ampersand Name Semicolon", "Ampersand Name Semicolon OmitIfNoRefDirective Slash",
           "Semicolon")),
    # the inner level's list again, then the outer's: 15 in all
    ("once-cells", 4, toks([IF] * 2 + ["Semicolon"], "xx;"), ROOM, lists(INNER, INNER, OUTER, OUTER, pending=15)),
    # of kinds and others whose low six bits are the same: 106 and 42, 104 and 40
    ("once-operator", 4, "text (1", ROOM, lists("InfixOperator RParen")),
    ("once-angle", 3, "text <", ROOM, lists(CELL + " RAngle")),
]

# "The row's pool count is the number of different ones": refusal 7 is of these too
ROOMS = [
    ("once-exact-pool", 1, "text #else", (60, 60, 0, 18, 1), lists("", "EndifDirective")),
    ("once-no-pool", 1, "text #else", (60, 60, 0, 18, 0), refused(7, 1)),
    ("once-exact-pool-cells", 4, toks([IF] * 2 + ["Semicolon"], "xx;"), (60, 60, 0, 36, 18),
     lists(INNER, INNER, OUTER, OUTER)),
    ("once-short-pool-cells", 4, toks([IF] * 2 + ["Semicolon"], "xx;"), (60, 60, 0, 36, 17), refused(7, 2)),
]

# "the limit of 256 can no longer be met": only open calls are limited
DEEP = [
    ("63-conditionals", 4, toks([IF] * 63 + ["Semicolon"], "x" * 63 + ";"), ROOM,
     accepted(pending=320, longest=5, calls=64)),
    ("64-conditionals", 4, toks([IF] * 64 + ["Semicolon"], "x" * 64 + ";"), ROOM, refused(5, 64)),
]

READINGS = LISTS + ROOMS + DEEP
