"""Every kind of token in many places of the grammar, so that each set of kinds that the grammar asks for is met by each
of its kinds and by each that is not in it."""
from compare.case import FIRST_ERROR, LAST_ERROR, read_line, rows_of

# entry, what stands in front; the kind, and `BACK` follow
PLACES = [
    *((1, front) for front in ("", "/dts-v1/ ", "a ", "a@", "a=", 'a="s" ', 'a="s",', "a=<", "a=<1 ")),
    *((1, front) for front in ("a=/bits/ ", "/{ ", "a{}", "&", "&{/a", "/delete-node/ ", "/delete-node/ a ")),
    *((1, front) for front in ("/memreserve/ 1 ", "/include/ ", "/omit-if-no-ref/ ", "M(", "#if\\n", "#if\\na;\\n#else\\n")),
    *((2, front) for front in ("", "{", "{/", "{/a", "a")),
    *((3, front) for front in ("", '"s" ', '"s",', "#if\\n", '#if\\n"s" ', '#if\\n"s"\\n#else\\n', "/bits/ 8 ")),
    *((4, front) for front in ("", "1 ", "(", "(1 ", "(1+", "(-", "(1?1 ", "#if\\n", "#if\\n1 ", "a", "M(1")),
]
BACK = "b;"
SAMPLES = {"Whitespace": b" ", "Ident": b"c", "String": b'"t"', "Char": b"'c'", "Number": b"2", "DtBytestring": b"[0]"}


def cases(oracle):
    """Cases that are lent nothing yet."""
    kinds = sorted(oracle.inputs) + [FIRST_ERROR, LAST_ERROR]
    texts = {**{oracle.kinds[name]: text for name, text in SAMPLES.items()}, **oracle.texts}
    given = "".join("%d text %s\n" % place for place in [*PLACES, (1, BACK)])
    *fronts, back = (read_line(line) for line in oracle.run(["totoks"], given).splitlines())
    for front in fronts:
        for kind in kinds:
            yield front._replace(rows=front.rows + rows_of([(kind, texts.get(kind, b"x"))]) + back.rows)
