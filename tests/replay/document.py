"""Document 01's readings as cases, each with what the document says of its answer: its claims, which the oracle's
answer must meet, so that neither stands alone. A reading is a name, the entry, its input as in the oracle's case lines
(but kinds by name, where they have one), the lent lengths (ROOM: what is needed and some more), and its claims."""
from compare.case import LAST_ERROR

IF = "IfDirective"
ROOM = None


def toks(kinds, text):
    return "toks %s %s" % (",".join(kinds), text)


CLAIMS = "reports", "pool", "lists", "longest", "nodes", "branches", "parents", "pending", "calls"


def accepted(**claims):
    """Claims of an accepted call, of which any may be left out: each report's message and range (reports); all
    expectations by name (pool), those of each report (lists), and how many one has at most (longest); kind and width of
    nodes that are there (nodes); how many nodes are branches of a conditional (branches); the parent of each row
    (parents, document 02, 7/14); how many expectations the Rust had pending, repeats counted, and how many calls were
    open, at most (pending, calls)."""
    assert {*claims} <= {*CLAIMS}
    return {"number": 0, "place": 0, **dict.fromkeys(CLAIMS), **claims}


def refused(number, place):
    return dict(number=number, place=place)


# "a 65th open call", from both sides; the place is the mark: so many tokens are taken. The first four are the
# document's own. It has a limit of 256 pending expectations too, which can no longer be met: "document 01's 51 rows are
# accepted" (document 02, 6/14).
LIMITS = [
    # a cell, and an expression for each bracket: 64 calls
    ("63-brackets", 4, "text " + "(" * 63 + "1" + ")" * 63, ROOM, accepted(reports=[], calls=64)),
    ("64-brackets", 4, "text " + "(" * 64 + "1" + ")" * 64, ROOM, refused(5, 64)),
    ("50-conditionals", 4, toks([IF] * 50 + ["Semicolon"], "x" * 50 + ";"), ROOM, accepted(pending=255, longest=5)),
    ("51-conditionals", 4, toks([IF] * 51 + ["Semicolon"], "x" * 51 + ";"), ROOM, accepted(pending=260, longest=5)),
    # conditionals have five pending each, the same ones; a name after them makes one more, and an expression that ends
    # too soon two
    ("256-pushed", 4, toks([IF] * 50 + ["Ident", "Semicolon"], "x" * 50 + "a;"), ROOM,
     accepted(pending=256, longest=6)),
    ("257-pushed", 4, toks([IF] * 50 + ["LParen", "Number", "Semicolon"], "x" * 50 + "(1;"), ROOM,
     accepted(pending=257, longest=7)),
    # item alone: a node inside a node, and a conditional inside a conditional
    ("64-nodes", 1, "text " + "/{" * 64 + "};" * 64, ROOM, accepted(reports=[], calls=64)),
    ("65-nodes", 1, "text " + "/{" * 65 + "};" * 65, ROOM, refused(5, 128)),
    ("64-conditional-items", 1, toks([IF] * 64, "x" * 64), ROOM, accepted(calls=64)),
    ("65-conditional-items", 1, toks([IF] * 65, "x" * 65), ROOM, refused(5, 64)),
    # propvalues alone
    ("64-conditional-values", 3, toks([IF] * 64, "x" * 64), ROOM, accepted(calls=64)),
    ("65-conditional-values", 3, toks([IF] * 65, "x" * 65), ROOM, refused(5, 64)),
    # eat_cell alone
    ("64-conditional-cells", 4, toks([IF] * 64, "x" * 64), ROOM, accepted(calls=64)),
    ("65-conditional-cells", 4, toks([IF] * 65, "x" * 65), ROOM, refused(5, 64)),
    # a cell, and expr_binding_power for its bracket and for each prefix
    ("62-prefixes", 4, "text (" + "-" * 62 + "1)", ROOM, accepted(reports=[], calls=64)),
    ("63-prefixes", 4, "text (" + "-" * 63 + "1)", ROOM, refused(5, 64)),
]

# the semicolon is row 3 in both
TAIL = [0, 0, 1, 1, 0, 4]
SHARED_TAIL = [
    ("a;}", 1, "text a;}", ROOM, accepted(reports=[(2, 2, 3)], nodes=[("ParseError", 1)], parents=TAIL)),
    ("b,c;}", 1, "text b,c;}", ROOM, accepted(reports=[(2, 4, 5)], nodes=[("ParseError", 1)], parents=TAIL)),
]

# A ParseError without a report; pending expectations that outlive a statement; `#else` after a comma; the semicolon of
# `a=;`.
BELIEFS = [
    ("error-without-report", 1, 'text a="s" }', ROOM,
     accepted(reports=[(2, 5, 6)], nodes=[("ParseError", 5), ("ParseError", 1)])),
    ("pending-goes-on", 1, "text /dts-v1/ }", ROOM, accepted(reports=[(1, 8, 9), (2, 8, 9)])),
    ("else-after-comma", 1, 'text a=#if A\\n"x",\\n#else\\n"y"\\n#endif\\n;', ROOM, accepted(branches=1)),
    ("else-without-comma", 1, 'text a=#if A\\n"x"\\n#else\\n"y"\\n#endif\\n;', ROOM, accepted(reports=[], branches=2)),
    ("semicolon-lost", 1, "text a=;b;", ROOM,
     accepted(reports=[(1, 2, 3), (1, 3, 4)], nodes=[("DtProperty", 3), ("PropValueList", 1), ("DtProperty", 2)])),
]

SENTENCES = [
    # "So `a @1 {};` is a node without a report"
    ("a-@1-{};", 1, "text a @1 {};", ROOM, accepted(reports=[], nodes=[("DtNode", 8)])),
    # ranges: the end of input, no tokens at all, one byte for [Semicolon], [Comma] and [Comma, Semicolon], else the
    # current token
    ("range-at-the-end", 1, "text /dts-v1/  ", ROOM, accepted(reports=[(1, 9, 10)], pool="Semicolon")),
    ("range-of-nothing", 2, "text ", ROOM, accepted(reports=[(1, 0, 0)])),
    ("range-semicolon", 1, "text /dts-v1/ /plugin/;", ROOM, accepted(reports=[(1, 8, 9)], pool="Semicolon")),
    ("range-comma", 3, 'text "a" "b"', ROOM, accepted(reports=[(1, 3, 4)], pool="Comma")),
    ("range-comma-semicolon", 1, 'text a="s" <1>;', ROOM, accepted(reports=[(1, 5, 6)], pool="Comma Semicolon")),
    ("range-current-token", 1, "text a=  ;", ROOM, accepted(reports=[(1, 4, 5), (1, 4, 5)])),
    # "a ternary is one InfixExpr of five parts"
    ("ternary", 4, "text (1?2:3)", ROOM, accepted(reports=[], nodes=[("InfixExpr", 5)])),
    # "a label reference allows Ident and Number only": the comma is left over
    ("label-reference", 2, "text a,b", ROOM, accepted(reports=[(1, 1, 2)], pool="End", nodes=[("ParseError", 2)])),
    # trivia: "an error token never is"
    ("error-token", 1, f"toks Ident,{LAST_ERROR},Semicolon a`;", ROOM, accepted()),
]

# those of rows that are bad, cause 3 once, are in row_causes.py
CAUSES = [
    ("cause-1-entry-0", 0, "toks Ident a", (9, 9, 9, 9, 9), refused(1, 0)),
    ("cause-1-entry-5", 5, "toks Unrecognized a", (9, 9, 9, 9, 9), refused(1, 0)),
    ("cause-4", 1, "toks Ident,Semicolon a:", (9, 9, 9, 9, 9), refused(4, 1)),
    # an error's event is pushed before its report row; a row and its expectations
    ("cause-6-event-first", 1, "text }", (0, 20, 0, 0, 0), refused(6, 0)),
    ("cause-7-row", 1, "text }", (3, 20, 0, 8, 0), refused(7, 0)),
    ("cause-6-after-report", 1, "text }", (3, 20, 0, 9, 0), refused(6, 0)),
    ("cause-6-last-event", 1, "text }", (11, 20, 0, 9, 0), refused(6, 1)),
    ("exact-fit", 1, "text }", (12, 15, 0, 9, 0), accepted(reports=[(2, 0, 1)])),
    ("cause-7-pool", 1, "text a=;", (60, 60, 0, 18, 3), refused(7, 3)),
    ("exact-pool", 1, "text a=;", (60, 60, 0, 18, 4),
     accepted(reports=[(1, 2, 3), (1, 2, 3)], pool="Value DtIncludeDirective PreprocessorDirective Semicolon")),
    # 8 comes last: 7 is met first though the tree does not fit either
    ("cause-7-before-8", 1, "text }", (12, 0, 0, 8, 0), refused(7, 0)),
    ("cause-8-tree", 1, "text }", (12, 14, 0, 9, 0), refused(8, 0)),
    ("cause-8-lexical", 1, f"toks {LAST_ERROR} ?", (18, 15, 2, 9, 11), refused(8, 0)),
    ("exact-lexical", 1, f"toks {LAST_ERROR} ?", (18, 15, 3, 9, 11), accepted(reports=[(1, 0, 1)])),
]

READINGS = LIMITS + SHARED_TAIL + BELIEFS + SENTENCES + CAUSES
