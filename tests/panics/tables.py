"""The lines of docs/DIFFERENCES.md, section 1, for FRONT (`#if` and a line feed)×k BACK: entry, front, back, the first
k at which the Rust panics, and the last k that is accepted."""

IF = "#if\\n"

CELLS = [
    (4, "", ">", 35, 63),
    *((4, "", back, 38, 63) for back in (";", "{", "}", ",", "=", "@", ")", '"s"', "[0]", "/bits/", "/omit-if-no-ref/")),
    *((4, "", back, 38, 63) for back in ("/memreserve/", "/delete-node/", "/delete-property/", "/dts-v1/", "/plugin/", "\\\\")),
    *((3, front, ">", 36, 62) for front in ("<", "/bits/ 8 <")),
    *((3, front, back, 38, 62) for front, back in (("<", ";"), ("<", ","), ("/bits/ 8 <", ";"))),
    *((1, front, ">", 36, 61) for front in ("a=<", "a=/bits/ 8 <")),
    *((1, front, back, 37, 61) for front, back in (("a=<", ";"), ("a=<", "{"), ("a=/bits/ 8 <", ";"))),
    *((1, "a=<", back, 38, 61) for back in ("}", ",")),
    *((1, "/{a=<", back, first, 60) for back, first in ((">", 36), (";", 37), ("}", 38))),
]

VALUES = [
    (3, "", "", 63, 64),
    *((3, "", back, 63, 63) for back in ('"s"', ",")),
    *((3, "", back, 61, 62) for back in ("<", "<1")),
    (1, "a=", "", 63, 63),
    (1, "a=", '"s"', 62, 62),
    *((1, "a=", back, 61, 61) for back in ("<", "<1")),
    (1, "/{a=", "", 62, 62),
    (1, IF + "a=", "", 62, 62),
    (3, "", "&", 62, 63),
    (1, "a=", "&", 62, 62),
    *((1, front, "&", 61, 61) for front in ("/{a=", "a{a=", IF + "a=")),
]

# the last accepted k is not given
MIXTURES = [
    *((4, "", "(" * 37 + "1" + back, 26, None) for back in (";", ",", "}", '"s"', "\\\\")),
    (1, "a=<", "(" * 35 + "1;", 26, None),
    (3, "<", "(" * 35 + "1;", 27, None),
    (3, "", "<((1", 60, None),
    (3, "", "<" + IF * 2, 60, None),
    (3, "", "<" + IF * 5, 58, None),
    (1, "a=", "<" + IF * 3, 59, None),
    (3, "", "<(&", 60, None),
    (3, "", "<" + IF + "(+", 59, None),
    (1, IF + "a=", "<,&", 60, None),
]

TABLES = CELLS + VALUES + MIXTURES
