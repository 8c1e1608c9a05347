"""What is wrong with token rows by request 4/14 (document 02), as a plain reading of its words:

"Refusal 3 .. remains for an odd count of numbers, now tried right after 2. Every other cause gets its own number at the
first bad row, tried within a row in the order given. Errors: 11, bad kind; 12, length 0; 13, a token ends past the
input, or last, with the count of rows as place, the total is short."

tests/oracle/crates/oracle/src/checks.rs reads the same words in Rust."""
from itertools import accumulate

from compare.case import TOKEN_ROW

ODD_COUNT, BAD_KIND, ZERO_LENGTH, BAD_END = 3, 11, 12, 13


def bad_rows(numbers, size, is_kind):
    """Number and place of these causes, or None. size: how many bytes there are; is_kind: whether a row may have it."""
    kinds, lengths = numbers[::TOKEN_ROW], numbers[1::TOKEN_ROW]
    if len(numbers) % TOKEN_ROW:
        return ODD_COUNT, len(lengths)
    for row, (kind, length, end) in enumerate(zip(kinds, lengths, accumulate(lengths))):
        if not is_kind(kind):
            return BAD_KIND, row
        if length == 0:
            return ZERO_LENGTH, row
        if end > size:
            return BAD_END, row
    return (BAD_END, len(lengths)) if sum(lengths) < size else None
