"""What the search puts together: FRONT UNIT×k BACK."""

FRONTS = ["", "a=", "a=<", "a{", "a{a=", "a{a=<", "(", "a=<(", "<", "#if\\n", "&{/"]

PIECES = [
    "#if\\n", "#else\\n", "#elif\\n", "#endif\\n", "#define X\\n", "a", "a{", "a=", "a:", "a@", "M(", "1", "1+", "1?", "1?1:", "-", "~",
    "*", "(", ")", "<", ">", "{", "}", ";", ",", "=", "&", "&{/", '"s"', "/bits/ 8 ", "/include/", "/delete-node/", "/memreserve/", "\\\\",
]  # fmt: skip

UNITS = PIECES + [a + b for a in PIECES for b in PIECES]
BACKS = [""] + PIECES
