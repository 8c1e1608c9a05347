"""Readings of document 02's request 7/14, the parent in every tree row, worked out by hand: "A tree row becomes five
numbers, the fifth being the parent's row, and the root names itself." The form is that of document.py. The parent of
each row is claimed, in preorder; what the rows are stands beside it, each with its number but the root, 0."""
from replay.document import ROOM, accepted, refused


def parents(*rows):
    return accepted(parents=list(rows))


TREES = [
    # "the root names itself", with nothing under it, with a leaf, and in each entry
    ("parent-of-the-root", 1, "text ", ROOM, parents(0)),
    ("parent-of-a-blank", 1, "text  ", ROOM, parents(0, 0)),
    ("parent-entry-2", 2, "text a", ROOM, parents(0, 0)),
    ("parent-entry-3", 3, 'text "s"', ROOM, parents(0, 0)),
    ("parent-entry-4", 4, "text 1", ROOM, parents(0, 0)),
    # 1 DtProperty: 2 Name, 3 `;`
    ("parents-of-a-property", 1, "text a;", ROOM, parents(0, 0, 1, 1)),
    # 1 blank, 2 DtProperty: 3 Name, 4 `;`, and 5 blank after it
    ("parents-between-blanks", 1, "text  a; ", ROOM, parents(0, 0, 0, 2, 2, 0)),
    # a row after a node names what is around it. 1 DtNode: 2 `/`, 3 `{`, 4 DtProperty: 5 Name, 6 `;`, 7 DtProperty: 8
    # Name, 9 `;`, 10 `}`, 11 `;`
    ("parents-after-nodes", 1, "text /{a;b;};", ROOM, parents(0, 0, 1, 1, 1, 4, 4, 1, 7, 7, 1, 1)),
    # 1 DtProperty: 2 Name, 3 `=`, 4 PropValueList: 5 DtCellList: 6 `<`, 7 Number, 8 blank, 9 DtExpr: 10 `(`, 11
    # InfixExpr: 12 LiteralExpr: 13 Number, 14 `+`, 15 LiteralExpr: 16 Number, 17 `)`, 18 `>`, 19 `;`
    ("parents-seven-up", 1, "text a=<1 (2+3)>;", ROOM,
     parents(0, 0, 1, 1, 1, 4, 5, 5, 5, 5, 9, 9, 11, 12, 11, 11, 15, 9, 5, 1)),
    # a node around one that was there before. 1 DtExpr: 2 `(`, 3 InfixExpr: 4 InfixExpr: 5 LiteralExpr: 6 Number, 7
    # `-`, 8 LiteralExpr: 9 Number, 10 `-`, 11 LiteralExpr: 12 Number, 13 `)`
    ("parents-of-a-chain", 4, "text (1-2-3)", ROOM, parents(0, 0, 1, 1, 3, 4, 5, 4, 4, 8, 3, 3, 11, 1)),
    # a node of width 0 is named by none. 1 DtsDirective: 2 `/delete-node/`, 3 DtsDirectiveArguments, 4 ParseError: 5
    # String, 6 ParseError: 7 `;`
    ("parents-beside-an-empty-node", 1, 'text /delete-node/"t";', ROOM, parents(0, 0, 1, 1, 1, 4, 0, 6)),
    # 1 PreprocessorConditional: 2 `#if A`, 3 blank, 4 PreprocessorBranch: 5 DtProperty: 6 Name, 7 `;`, 8 blank, 9
    # `#else`, 10 blank, 11 PreprocessorBranch, 12 `#endif`, 13 blank, 14 DtProperty: 15 Name, 16 `;`
    ("parents-in-branches", 1, "text #if A\\nb;\\n#else\\n#endif\\nc;", ROOM,
     parents(0, 0, 1, 1, 1, 4, 5, 5, 1, 1, 1, 1, 1, 0, 0, 14, 14)),
]

# "Rows after a shared semicolon now agree once row numbers are moved too, except that a parent which is the root stays
# 0": the semicolon is row 3, and row 8
SHARED_TAIL = [
    ("parents-a-;-c{d;};", 1, "text a; c{d;};", ROOM, parents(0, 0, 1, 1, 0, 0, 5, 5, 5, 8, 8, 5, 5)),
    ("parents-/{a;};-c{d;};", 1, "text /{a;}; c{d;};", ROOM,
     parents(0, 0, 1, 1, 1, 4, 4, 1, 1, 0, 0, 10, 10, 10, 13, 13, 10, 10)),
]

# three rows need 15 numbers: 14 do not do, nor do 12, which were enough for four numbers a row; a rest is no row
ROOMS = [
    ("five-numbers-a-row", 1, "text }", (12, 15, 0, 9, 0), parents(0, 0, 1)),
    ("four-numbers-a-row", 1, "text }", (12, 12, 0, 9, 0), refused(8, 0)),
    ("a-root-and-a-rest", 1, "text ", (0, 9, 0, 0, 0), parents(0)),
    ("a-root-cut", 1, "text ", (0, 4, 0, 0, 0), refused(8, 0)),
]

READINGS = TREES + SHARED_TAIL + ROOMS
