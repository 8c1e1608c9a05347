"""Readings of request 4/14 (document 02), what is wrong with the row, each with its answer worked out by hand from the
request's words. A reading is a name, the token numbers, the bytes, and number and place of the refusal; the entry is 1.
Nine numbers of each buffer are lent, which stay as they were."""

MOST = 4294967295

# "Refusal 3 .. remains for an odd count of numbers, now tried right after 2": its place is the count of whole rows,
# whatever is wrong with the rows, the total or the bytes
ODD = [
    ("odd", [27, 1, 27], b"a", (3, 1)),
    ("odd-and-no-row", [27], b"", (3, 0)),
    ("odd-before-kind-and-length", [99, 0, 27], b"a", (3, 1)),
    ("odd-before-a-later-kind", [27, 1, 61, 1, 27, 1, 27], b"abc", (3, 3)),
    ("odd-before-a-length", [27, 0, 27, 1, 27], b"a", (3, 2)),
    ("odd-before-an-end", [27, 9, 27], b"a", (3, 1)),
    ("odd-before-a-short-total", [27, 1, 27], b"abc", (3, 1)),
    ("odd-before-4", [29, 1, 27], b",", (3, 1)),
]

# "11, bad kind": a row may have 0 to 24, 27 to 60 and 64 to 74
KINDS = [
    ("kind-25", [27, 1, 25, 1], b"ab", (11, 1)),
    ("kind-26", [26, 1], b"a", (11, 0)),
    ("kind-61", [61, 1], b"a", (11, 0)),
    ("kind-63", [63, 1], b"a", (11, 0)),
    ("kind-75", [75, 1], b"a", (11, 0)),
    # 27 in its low byte, in its low half, in all bits but the highest
    ("kind-283", [283, 1], b"a", (11, 0)),
    ("kind-65563", [65563, 1], b"a", (11, 0)),
    ("kind-2147483675", [2147483675, 1], b"a", (11, 0)),
    ("kind-4294967295", [MOST, 1], b"a", (11, 0)),
]

# "12, length 0; 13, a token ends past the input, or last, with the count of rows as place, the total is short"
LENGTHS = [
    ("length-0", [27, 1, 27, 0], b"a", (12, 1)),
    ("length-0-alone", [27, 0], b"", (12, 0)),
    ("length-0-before-a-byte", [27, 0, 27, 1], b"a", (12, 0)),
    # the second token starts at 1 and ends at 3 of 2 bytes
    ("end-past-by-one", [27, 1, 27, 2], b"ab", (13, 1)),
    ("end-past-nothing", [27, 1], b"", (13, 0)),
    ("end-past-by-far", [27, MOST], b"a", (13, 0)),
    ("short-total", [27, 1], b"ab", (13, 1)),
    ("short-total-of-three", [27, 1, 27, 1, 27, 1], b"abcd", (13, 3)),
    ("short-total-and-no-row", [], b"a", (13, 0)),
]

# "tried within a row in the order given". Length 0 and an end past the input are not both in the first bad row: such a
# token ends where the one before it does.
WITHIN = [
    ("kind-before-length", [27, 1, 61, 0], b"a", (11, 1)),
    ("kind-before-end", [27, 1, 61, 2], b"ab", (11, 1)),
    ("end-before-the-next-length", [27, 2, 27, 0], b"a", (13, 0)),
]

# "at the first bad row", whatever later ones have; the short total after all of them
FIRST = [
    ("kind-then-length", [61, 1, 27, 0], b"a", (11, 0)),
    ("kind-then-end", [61, 1, 27, 9], b"ab", (11, 0)),
    ("length-then-kind", [27, 0, 61, 1], b"a", (12, 0)),
    ("length-then-end", [27, 0, 27, 9], b"a", (12, 0)),
    ("end-then-kind", [27, 9, 61, 1], b"a", (13, 0)),
    ("end-then-length", [27, 9, 27, 0], b"a", (13, 0)),
    ("kind-before-a-short-total", [27, 1, 61, 1], b"abc", (11, 1)),
    ("length-before-a-short-total", [27, 1, 27, 0], b"abc", (12, 1)),
]

# ends are exact: in 32 bits those of the first reading are 1, 0 and 2
EXACT = [
    ("sum-past-32-bits", [27, 1, 27, MOST, 27, 2], b"ab", (13, 1)),
    ("sum-of-two", [27, MOST, 27, 2], b"a", (13, 0)),
    ("sum-that-is-0", [27, 1, 27, MOST], b"a", (13, 1)),
    ("sum-of-halves", [27, 1, 27, 2147483648, 27, 2147483648], b"a", (13, 1)),
]

# "All come before 4": the first token has the wrong bytes in each
BEFORE_4 = [
    ("kind-before-4", [29, 1, 61, 1], b",a", (11, 1)),
    ("length-before-4", [29, 1, 27, 0], b",", (12, 1)),
    ("end-before-4", [29, 1, 27, 2], b",a", (13, 1)),
    ("short-total-before-4", [29, 1], b",a", (13, 1)),
    ("4-alone", [29, 1, 27, 1], b",a", (4, 0)),
]

READINGS = ODD + KINDS + LENGTHS + WITHIN + FIRST + EXACT + BEFORE_4
