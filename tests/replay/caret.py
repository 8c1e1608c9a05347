"""Readings of request 5/14 (document 02), what is under the caret, each with its answer worked out by hand from the
request's words: the rows that are listed, or number and place of the refusal. Tree, reports and all other counts are the
oracle's. A reading is a name, the setting, its input (as in document.py, or token numbers and bytes), the query, the
lent lengths (ROOM; or what is just needed, with the buffers named here as said, `list` among them), and the answer.

The files, with the number and the bytes of each row but the root, 0:

PROPERTY   1 blank 0-1, 2 DtProperty 1-3: 3 Name 1-2, 4 `;` 2-3
BOARD      1 comment 0-4, 2 blank 4-6, 3 DtsDirective 6-15: 4 `/dts-v1/` 6-14, 5 `;` 14-15, 6 blank 15-16, 7 DtNode
           16-26: 8 `/` 16-17, 9 blank 17-18, 10 `{` 18-19, 11 blank 19-21, 12 DtProperty 21-23: 13 Name 21-22, 14 `;`
           22-23, 15 blank 23-24, 16 `}` 24-25, 17 `;` 25-26, 18 blank 26-27
NAMES      1 DtProperty 0-6: 2 Name 0-5, 3 `;` 5-6, 4 DtProperty 6-8: 5 Name 6-7, 6 `;` 7-8
CELLS      1 DtProperty 0-12: 2 Name 0-1, 3 `=` 1-2, 4 PropValueList 2-11: 5 DtCellList 2-11: 6 `<` 2-3, 7 Number 3-4, 8
           blank 4-5, 9 DtExpr 5-10: 10 `(` 5-6, 11 InfixExpr 6-9: 12 LiteralExpr 6-7: 13 Number 6-7, 14 `+` 7-8, 15
           LiteralExpr 8-9: 16 Number 8-9, 17 `)` 9-10, 18 `>` 10-11, 19 `;` 11-12
DELETE     1 DtsDirective 0-13: 2 `/delete-node/` 0-13, 3 DtsDirectiveArguments 13-13
VALUE      1 DtProperty 0-2: 2 Name 0-1, 3 `=` 1-2, 4 PropValueList 2-2
NESTED     1 PreprocessorConditional 0-2: 2 IfDirective 0-1, 3 PreprocessorBranch 1-2: 4 PreprocessorConditional 1-2: 5
           IfDirective 1-2, 6 PreprocessorBranch 2-2
DELETED    1 DtsDirective 0-16: 2 `/delete-node/` 0-13, 3 DtsDirectiveArguments 13-13, 4 ParseError 13-16: 5 String
           13-16, 6 ParseError 16-17: 7 `;` 16-17
BRANCHES   1 PreprocessorConditional 0-21: 2 `#if A` 0-5, 3 blank 5-6, 4 PreprocessorBranch 6-8: 5 DtProperty 6-8: 6
           Name 6-7, 7 `;` 7-8, 8 blank 8-9, 9 `#else` 9-14, 10 blank 14-15, 11 PreprocessorBranch 15-15, 12 `#endif`
           15-21, 13 blank 21-22, 14 DtProperty 22-24: 15 Name 22-23, 16 `;` 23-24
TWO        1 DtProperty 0-2: 2 Name 0-1, 3 `;` 1-2, 4 DtProperty 2-4: 5 Name 2-3, 6 `;` 3-4
THREE      1 DtProperty 0-2: 2 Name 0-1, 3 `;` 1-2, 4 blank 2-3, 5 DtProperty 3-5: 6 Name 3-4, 7 `;` 4-5
STRAY      1 DtProperty 0-2: 2 Name 0-1, 3 `;` 1-2, 4 ParseError 2-3: 5 `}` 2-3, 6 DtProperty 3-5: 7 Name 3-4, 8 `;` 4-5
NODE       1 DtNode 0-8: 2 `/` 0-1, 3 `{` 1-2, 4 DtProperty 2-4: 5 Name 2-3, 6 `;` 3-4, 7 DtProperty 4-6: 8 Name 4-5, 9
           `;` 5-6, 10 `}` 6-7, 11 `;` 7-8
NO_VALUE   1 DtProperty 0-3: 2 Name 0-1, 3 `=` 1-2, 4 PropValueList 2-3: 5 ParseError 2-3: 6 `;` 2-3, 7 DtProperty 3-5: 8
           Name 3-4, 9 `;` 4-5
BRACE      1 ParseError 0-1: 2 `}` 0-1
ERROR      1 ParseError 0-1: 2 Unrecognized 0-1
LABEL      1 DtNode 0-7: 2 DtLabel 0-3: 3 Name 0-2, 4 `:` 2-3, 5 Name 3-4, 6 `{` 4-5, 7 `}` 5-6, 8 `;` 6-7"""
from compare.caret import CARET, RANGE, Query
from replay.document import IF, ROOM, toks

EXACT = {}
HALF, MOST = 2**32, 2**64 - 1

EMPTY = "text "
BLANK = "text  "
PROPERTY = "text  a;"
BOARD = "text // c\\n\\n/dts-v1/;\\n/ {\\n\\ta;\\n};\\n"
NAMES = "text a,b-c;d;"
CELLS = "text a=<1 (2+3)>;"
DELETE = "text /delete-node/"
VALUE = "text a="
NESTED = toks([IF] * 2, "xx")
DELETED = 'text /delete-node/"t";'
BRANCHES = "text #if A\\nb;\\n#else\\n#endif\\nc;"
TWO, THREE, STRAY = "text a;b;", "text a; b;", "text a;}b;"
NODE = "text /{a;b;};"
NO_VALUE = "text a=;b;"
BRACE = "text }"
ERROR = "text \\\\"
LABEL = "text 1a:b{};"


def at(offset):
    return Query(CARET, offset)


def to(start, end):
    return Query(RANGE, start, end)


# "the chain of tree rows, by number, from the root to the leaf there. A leaf owns its first byte and not its end."
OWNS = [
    # a leaf at the top level: root and leaf
    ("blank", 0, PROPERTY, at(0), ROOM, [0, 1]),
    # 1 is the blank's end and the Name's first byte
    ("border", 0, PROPERTY, at(1), ROOM, [0, 2, 3]),
    ("border-below-one-node", 0, PROPERTY, at(2), ROOM, [0, 2, 4]),
    ("last-byte-of-a-comment", 0, BOARD, at(3), ROOM, [0, 1]),
    ("end-of-a-comment", 0, BOARD, at(4), ROOM, [0, 2]),
    ("inside-a-leaf", 0, BOARD, at(10), ROOM, [0, 3, 4]),
    ("end-of-a-directive", 0, BOARD, at(14), ROOM, [0, 3, 5]),
    # the numbers of a chain skip whole subtrees
    ("in-a-node", 0, BOARD, at(20), ROOM, [0, 7, 11]),
    ("in-a-property", 0, BOARD, at(21), ROOM, [0, 7, 12, 13]),
    ("after-a-property", 0, BOARD, at(23), ROOM, [0, 7, 15]),
    ("last-byte", 0, BOARD, at(26), ROOM, [0, 18]),
    # a Name of five tokens is one leaf
    ("second-token-of-a-name", 0, NAMES, at(1), ROOM, [0, 1, 2]),
    ("last-token-of-a-name", 0, NAMES, at(4), ROOM, [0, 1, 2]),
    ("after-a-name", 0, NAMES, at(5), ROOM, [0, 1, 3]),
    ("next-name", 0, NAMES, at(6), ROOM, [0, 4, 5]),
    # eight rows deep, and then fewer
    ("deep", 0, CELLS, at(6), ROOM, [0, 1, 4, 5, 9, 11, 12, 13]),
    ("operator", 0, CELLS, at(7), ROOM, [0, 1, 4, 5, 9, 11, 14]),
    ("bracket", 0, CELLS, at(9), ROOM, [0, 1, 4, 5, 9, 17]),
]

# "An offset equal to the file's length belongs to the last leaf", which need not be the last row
LENGTH = [
    ("length", 0, PROPERTY, at(3), ROOM, [0, 2, 4]),
    ("length-after-a-blank", 0, BOARD, at(27), ROOM, [0, 18]),
    ("length-of-one-byte", 0, BLANK, at(1), ROOM, [0, 1]),
    ("length-and-the-last-row-is-no-leaf", 0, DELETE, at(13), ROOM, [0, 1, 2]),
    ("byte-before", 0, DELETE, at(12), ROOM, [0, 1, 2]),
    ("length-after-an-empty-list", 0, VALUE, at(2), ROOM, [0, 1, 3]),
    ("length-below-a-branch", 0, NESTED, at(2), ROOM, [0, 1, 3, 4, 5]),
    # a node of width 0 in the middle has no byte either: the leaf after it owns the offset
    ("empty-arguments", 0, DELETED, at(13), ROOM, [0, 1, 4, 5]),
    ("before-empty-arguments", 0, DELETED, at(12), ROOM, [0, 1, 2]),
    ("empty-branch", 0, BRANCHES, at(15), ROOM, [0, 1, 12]),
    ("before-an-empty-branch", 0, BRANCHES, at(14), ROOM, [0, 1, 10]),
]

# "in an empty file it gives the root only; an offset past the length gives no row"
PAST = [
    ("empty-file", 0, EMPTY, at(0), ROOM, [0]),
    ("empty-file-room-for-one", 0, EMPTY, at(0), EXACT, [0]),
    ("empty-file-no-room", 0, EMPTY, at(0), dict(list=0), (8, 0)),
    ("past-an-empty-file", 0, EMPTY, at(1), EXACT, []),
    ("past-by-one", 0, PROPERTY, at(4), ROOM, []),
    # no row needs no room
    ("past-and-no-room", 0, PROPERTY, at(4), EXACT, []),
    # 64 bits: in 32 these would be 2^32 - 1, 0, 1, 3 (the length), and 2^32 - 1 again
    ("offset-32-bits", 0, PROPERTY, at(HALF - 1), ROOM, []),
    ("offset-33-bits", 0, PROPERTY, at(HALF), ROOM, []),
    ("offset-inside-in-32-bits", 0, PROPERTY, at(HALF + 1), ROOM, []),
    ("offset-length-in-32-bits", 0, PROPERTY, at(HALF + 3), ROOM, []),
    ("offset-highest-bit", 0, PROPERTY, at(2**63), ROOM, []),
    # one more would be 0
    ("offset-most", 0, PROPERTY, at(MOST), ROOM, []),
    ("offset-most-in-an-empty-file", 0, EMPTY, at(MOST), ROOM, []),
]

# "the top-level parts that share a byte with a range, its end excluded, in order"
PARTS = [
    ("whole-file", 0, THREE, to(0, 5), ROOM, [1, 4, 5]),
    ("one-byte", 0, THREE, to(0, 1), ROOM, [1]),
    # the range ends where the blank starts, or starts where a part ends: they only touch
    ("end-touches", 0, THREE, to(1, 2), ROOM, [1]),
    ("both-touch", 0, THREE, to(2, 3), ROOM, [4]),
    ("one-byte-of-two-parts", 0, THREE, to(1, 3), ROOM, [1, 4]),
    ("start-touches", 0, TWO, to(2, 4), ROOM, [4]),
    ("end-touches-a-property", 0, TWO, to(0, 2), ROOM, [1]),
    # an empty range has no byte to share, a reversed one neither
    ("empty-range-inside", 0, THREE, to(1, 1), ROOM, []),
    ("empty-range-at-a-border", 0, THREE, to(2, 2), ROOM, []),
    ("empty-range-at-the-length", 0, THREE, to(5, 5), ROOM, []),
    ("reversed", 0, THREE, to(3, 1), ROOM, []),
    ("reversed-whole", 0, THREE, to(5, 0), ROOM, []),
    ("past-the-file", 0, THREE, to(5, 9), ROOM, []),
    ("beyond-the-file", 0, THREE, to(4, 9), ROOM, [5]),
    ("no-part", 0, EMPTY, to(0, 9), EXACT, []),
    # a part is a child of the root, of any kind: not what is inside it, though the range is
    ("inside-a-node", 0, NODE, to(3, 5), ROOM, [1]),
    ("parts-of-a-board", 0, BOARD, to(0, 27), EXACT, [1, 2, 3, 6, 7, 18]),
    ("from-a-blank-into-a-node", 0, BOARD, to(15, 17), ROOM, [6, 7]),
    ("errors-are-parts", 0, STRAY, to(1, 4), ROOM, [1, 4, 6]),
    # the node of width 0 at 13 is no part, and would share no byte
    ("arguments-are-no-part", 0, DELETED, to(13, 17), ROOM, [1, 6]),
    # 64 bits: in 32 the first four would be 0-0, 1-2, 0-5 and 0-5, and one more than the most is 0
    ("range-end-33-bits", 0, THREE, to(0, HALF), ROOM, [1, 4, 5]),
    ("range-end-inside-in-32-bits", 0, THREE, to(1, HALF + 2), ROOM, [1, 4, 5]),
    ("range-33-bits", 0, THREE, to(HALF, HALF + 5), ROOM, []),
    ("range-start-33-bits", 0, THREE, to(HALF, 5), ROOM, []),
    ("range-to-the-most", 0, THREE, to(2, MOST), ROOM, [4, 5]),
    ("range-from-the-most", 0, THREE, to(MOST, 5), ROOM, []),
    ("range-of-the-most", 0, THREE, to(MOST, MOST), ROOM, []),
]

# "a list that doesn't fit is refusal 8"
FIT = [
    ("chain-fits", 0, PROPERTY, at(1), EXACT, [0, 2, 3]),
    ("chain-one-short", 0, PROPERTY, at(1), dict(list=2), (8, 0)),
    ("chain-no-room", 0, PROPERTY, at(1), dict(list=0), (8, 0)),
    ("chain-in-a-long-list", 0, PROPERTY, at(1), dict(list=400), [0, 2, 3]),
    ("parts-fit", 0, THREE, to(0, 5), EXACT, [1, 4, 5]),
    ("parts-one-short", 0, THREE, to(0, 5), dict(list=2), (8, 0)),
    ("parts-no-room", 0, THREE, to(0, 5), dict(list=0), (8, 0)),
    ("no-part-no-room", 0, THREE, to(5, 5), EXACT, []),
    # a file with a report, whose rows are then not written either
    ("reports-and-one-short", 0, STRAY, at(2), dict(list=2), (8, 0)),
]

# "Both parse first": files with reports are answered, and the setting is the parse's. "with the parser's refusals"
PARSED = [
    ("report", 0, NO_VALUE, at(2), ROOM, [0, 1, 4, 5, 6]),
    ("report-at-the-length", 0, BRACE, at(1), ROOM, [0, 1, 2]),
    ("report-in-range", 0, NO_VALUE, to(2, 4), ROOM, [1, 7]),
    ("lexical-error", 0, ERROR, at(0), ROOM, [0, 1, 2]),
    # the label's report is there in the strict setting alone, and nothing else changes
    ("label-old", 0, LABEL, at(1), ROOM, [0, 1, 2, 3]),
    ("label-strict", 1, LABEL, at(1), ROOM, [0, 1, 2, 3]),
    ("label-strict-256", 256, LABEL, to(0, 7), ROOM, [1]),
    # every buffer is as it was, that of the list too, whatever is asked
    ("odd-count", 0, ([27, 1, 29], b"a"), at(0), dict(list=5), (3, 1)),
    ("wrong-bytes", 0, ([27, 1, 29, 1], b"a:"), at(0), dict(list=5), (4, 1)),
    ("bad-kind", 0, ([27, 1, 61, 1], b"ab"), to(0, 2), dict(list=5), (11, 1)),
    ("zero-length", 0, ([27, 0], b"a"), at(9), dict(list=5), (12, 0)),
    ("end-past", 0, ([27, 2], b"a"), to(9, 0), dict(list=5), (13, 0)),
    ("short-total", 0, ([27, 1], b"ab"), at(0), dict(list=5), (13, 1)),
    # all zero, the list too
    ("too-deep", 0, toks([IF] * 65, "x" * 65), at(0), dict(list=5), (5, 64)),
    ("no-event-room", 0, TWO, at(1), dict(events=2, list=5), (6, 0)),
    ("no-report-room", 0, BRACE, at(0), dict(reports=8, list=5), (7, 0)),
    ("no-pool-room", 0, NO_VALUE, to(0, 5), dict(pool=3, list=5), (7, 3)),
    ("no-label-room", 1, LABEL, at(0), dict(reports=8, list=5), (7, 0)),
    ("no-tree-room", 0, PROPERTY, at(1), dict(trees=24, list=5), (8, 0)),
    ("no-error-room", 0, ERROR, at(0), dict(errors=2, list=5), (8, 0)),
    # the parse's refusals come first, whatever does not fit
    ("bad-kind-before-the-list", 0, ([61, 1], b"a"), at(0), dict(list=0), (11, 0)),
    ("too-deep-before-the-list", 0, toks([IF] * 65, "x" * 65), at(0), dict(list=0), (5, 64)),
    ("events-before-the-list", 0, TWO, at(1), dict(events=2, list=0), (6, 0)),
    ("reports-before-the-list", 0, BRACE, at(0), dict(reports=8, list=0), (7, 0)),
    ("label-before-the-list", 1, LABEL, at(0), dict(reports=8, list=1), (7, 0)),
    ("tree-and-list", 0, PROPERTY, to(0, 3), dict(trees=24, list=0), (8, 0)),
]

READINGS = OWNS + LENGTH + PAST + PARTS + FIT + PARSED
