"""Cases at the limit of refusal 5, 64 open calls, and of the Rust's step counter (docs/DIFFERENCES.md, section 1); and
those around 256 expectations that the Rust has pending with their repeats, which document 01 limited."""

IF = "#if\\n"

# entry, front, unit, back, and how often the unit stands there
FAMILIES = [
    (4, "", IF, ">", (35, 42, 63, 64)),
    (4, "", IF, ";", (50, 51, 63, 64)),
    (4, "", IF, "}", (51,)),
    (4, "", IF, "{", (51,)),
    (4, "", IF, ",", (51,)),
    (4, "", IF, '"s"', (51,)),
    (3, "<", IF, ">", (36, 42, 62, 63)),
    (3, "<", IF, ";", (51,)),
    (3, "/bits/ 8 <", IF, ">", (42,)),
    (1, "a=<", IF, ">", (41, 42, 61, 62)),
    (1, "a=<", IF, ";", (50,)),
    (1, "a=<", IF, "}", (51,)),
    (1, "/{a=<", IF, ";", (37, 50, 60, 61)),
    (3, "", IF, "", (64, 65)),
    (3, "", IF, '"s"', (64,)),
    (3, "", IF, "<", (63,)),
    (1, "a=", IF, "", (63, 64)),
    (1, "a=", IF, "<1", (62,)),
    (1, "/{a=", IF, "", (62, 63)),
    (4, "", IF, "(" * 37 + "1;", (26,)),
    (3, "", IF, "<((1", (60,)),
    (4, "", "(", "1" + ")" * 63, (63, 64)),
    (4, "", "(", "", (63, 64)),
    (4, "(", "-", "1)", (62, 63)),
    (4, "(", "1?", "1", (61, 62, 63)),
    (4, "(", "1?1:", "1)", (61, 62, 63)),
    (4, "(", "1+", "1)", (120,)),
    (1, "", "a{", "", (63, 64, 65)),
    (1, "", "a{", "b", (63, 64)),
    (1, "", "a{", "};" * 64, (64, 65)),
    (1, "", IF, "a;", (63, 64)),
    (1, "", IF + "a{", "", (31, 32, 33)),
    (3, "", IF, "<>", (62, 63)),
    (1, "a=<", "(", "1" + ")" * 60 + ">;", (60, 61, 62)),
    (2, "", "{/", "", (40,)),
    (2, "", "M(", "", (80,)),
    # exactly 256 pending in the Rust, and 257
    (4, "", IF, "a;", (50,)),
    (4, "", IF, "(1;", (50,)),
    # 64 and 65 open calls of eat_cell alone; those of the other three functions are above
    (4, "", IF, "", (64, 65)),
]


def lines():
    """The families as lines of cases."""
    return ["%d text %s%s%s" % (e, front, unit * k, back) for e, front, unit, back, ks in FAMILIES for k in ks]
