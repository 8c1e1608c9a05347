#!/usr/bin/env python3
"""Writes the automaton of the lexer's rules: crates/lex_table/src/table.rt (the code's table), specs/States.antt (its
parts, as lists) and proofs/Words.antt (for each state a text that leads to it; which bytes no rule tells apart).

    tools/proofs/lex_table.py            in the repository's root; then rt fmt in crates/lex_table

The rules below are those of crates/definitions/specs/Rules.antt, in its order. Nothing here has to be believed: the
checker compares every entry of the table with the rules (crates/lex_table/proofs/States.antt)."""

NOTHING, EMPTY = ("nothing",), ("empty",)


def one(text):
    return ("one", frozenset(text.encode()))


def other(text):
    return ("other", frozenset(text.encode()))


def then(*parts):
    return parts[0] if len(parts) == 1 else ("then", parts[0], then(*parts[1:]))


def either(*parts):
    return parts[0] if len(parts) == 1 else ("or", parts[0], either(*parts[1:]))


def many(part):
    return ("many", part)


def some(part):
    return then(part, many(part))


def maybe(part):
    return either(part, EMPTY)


def spelled(text):
    return then(*[one(c) for c in text])


# ---------------------------------------------------------------- remainders, as specs/Remainder.antt has them


def fits_empty(p):
    tag = p[0]
    if tag == "then":
        return fits_empty(p[1]) and fits_empty(p[2])
    if tag == "or":
        return fits_empty(p[1]) or fits_empty(p[2])
    return tag in ("empty", "many")


def and_then(p, q):
    return NOTHING if p == NOTHING else q if p == EMPTY else ("then", p, q)


def or_else(p, q):
    return q if p == NOTHING else p if q == NOTHING else ("or", p, q)


def after(b, p):
    tag = p[0]
    if tag == "one":
        return EMPTY if b in p[1] else NOTHING
    if tag == "other":
        return NOTHING if b in p[1] else EMPTY
    if tag == "then":
        return or_else(and_then(after(b, p[1]), p[2]), after(b, p[2]) if fits_empty(p[1]) else NOTHING)
    if tag == "or":
        return or_else(after(b, p[1]), after(b, p[2]))
    if tag == "many":
        return and_then(after(b, p[1]), p)
    return NOTHING


# ---------------------------------------------------------------- the rules: kind, pattern, callback

DIGITS = "0123456789"
HEX = DIGITS + "abcdefABCDEF"
NOT_IN_IDENT = " \t\r\n\"'/*+%|{}<>[()?;:&=@,-^!~\\"
WHITESPACE = some(either(one(" \t\r\n"), then(one("\\"), maybe(one("\r")), one("\n"))))
LINE_COMMENT = then(one("/"), one("/"), many(other("\n\r")))
IDENT = then(other(DIGITS + NOT_IN_IDENT), many(other(NOT_IN_IDENT)))
SUFFIX = maybe(
    either(
        then(one("ui"), either(*[spelled(s) for s in ("8", "16", "32", "64", "128")])),
        then(one("uU"), maybe(then(one("lL"), maybe(one("lL"))))),
        then(one("lL"), maybe(one("lL")), maybe(one("uU"))),
    )
)
DECIMAL = then(one(DIGITS), many(one(DIGITS + "_")), SUFFIX)


def based(letter, digits):
    return then(one("0"), one(letter), some(one(digits + "_")), SUFFIX)


def token(text, kind, callback=0):
    return (kind, spelled(text), callback)


RULES = (
    (0, WHITESPACE, 0),
    token("/*", 1, 1),
    token(",", 2),
    (3, LINE_COMMENT, 0),
    token("/bits/", 17),
    token("/omit-if-no-ref/", 18),
    token("/include/", 19),
    token("/memreserve/", 20),
    token("/delete-node/", 21),
    token("/delete-property/", 22),
    token("/dts-v1/", 23),
    token("/plugin/", 24),
    (27, IDENT, 0),
    token("=", 28),
    token(";", 29),
    token("&", 30),
    token(":", 31),
    token("@", 32),
    token('"', 33, 2),
    token("'", 34, 3),
    (35, DECIMAL, 0),
    (35, based("bB", "01"), 0),
    (35, based("oO", "01234567"), 0),
    (35, based("xX", HEX), 0),
    token("[", 36, 4),
) + tuple(
    token(text, 37 + i)
    for i, text in enumerate("{ } < > ( ) + - * / % | ^ ~ << >> && || ! <= >= == != ?".split())
)


def go_on(b, rules):
    left = ((kind, after(b, p), callback) for kind, p, callback in rules)
    return tuple(rule for rule in left if rule[1] != NOTHING)


def matched(rules):
    """Kind and callback of the first rule that matches here."""
    return next(((kind, callback) for kind, p, callback in rules if fits_empty(p)), None)


# ---------------------------------------------------------------- the states, by the shortest text that leads to them

BYTES = range(256)


def explore():
    states, words, steps = [RULES], [b""], []
    number = {RULES: 0}
    while len(steps) < len(states):
        i = len(steps)
        row = []
        for b in BYTES:
            left = go_on(b, states[i])
            if left not in number:
                number[left] = len(states)
                states.append(left)
                words.append(words[i] + bytes([b]))
            row.append(number[left])
        steps.append(row)
    return states, words, steps, number[()]


def ordered(states, steps, dead):
    """The start and the states that match and go on; those that do not match; those that match and do not go on, with
    a callback last; the dead one."""

    def rank(i):
        if i == dead:
            return 4, 0
        match = matched(states[i])
        if i == 0 or (match and any(j != dead for j in steps[i])):
            return 0, i
        if not match:
            return 1, i
        return (3, match[1]) if match[1] else (2, i)

    return sorted(range(len(states)), key=rank), [rank(i)[0] for i in range(len(states))]


def classes_of(p):
    """The classes of a pattern: `one` and `other` of some bytes."""
    return {p[1]} if p[0] in ("one", "other") else set().union(*map(classes_of, p[1:]))


def first_bytes():
    """For each byte the first that stands in the same classes of the rules."""
    told = sorted(set().union(*(classes_of(p) for _, p, _ in RULES)), key=sorted)
    firsts = {}
    return [firsts.setdefault(tuple(b in c for c in told), b) for b in BYTES]


def cons(numbers):
    return " ∷ ".join(map(str, list(numbers) + ["[]"]))


def main():
    states, words, steps, dead = explore()
    order, ranks = ordered(states, steps, dead)
    new = {old: i for i, old in enumerate(order)}
    long = ranks.count(0)
    going = long + ranks.count(1)
    rows = [[new[j] for j in steps[old]] for old in order[:going]]
    columns = {}
    classes = [columns.setdefault(tuple(row[b] for row in rows[long:]), len(columns)) for b in BYTES]
    first = [classes.index(c) for c in range(len(columns))]
    short = [[row[b] for b in first] for row in rows[long:]]
    kinds = [(matched(states[old]) or (0, 0))[0] for old in order]
    longs = sum(rows[:long], [])
    shorts = sum(short, [])
    table = [256 * j for j in longs] + classes + [256 * j for j in shorts] + kinds
    print(len(order), "states,", long, "with a row of", len(BYTES), "and", going - long, "with a row of", len(columns), "-", len(table), "numbers")
    made = "Written by tools/proofs/lex_table.py"
    with open("crates/lex_table/specs/States.antt", "w") as out:
        out.write(
            f"""-- The automaton of the rules, as lists. {made}; that it is that of the
-- rules is computed in proofs/States.antt.
use Rattle.std.specs.Prelude.{{ℕ, List, [], ◌∷◌}}

-- the next state, by number: {long} rows, a state's {len(BYTES)} by byte
unfoldable pub long_rows : List ℕ
long_rows =
    {cons(longs)}

-- a byte's class, for the rows below
unfoldable pub classes : List ℕ
classes =
    {cons(classes)}

-- the next state: {going - long} rows, a state's {len(columns)} by class
unfoldable pub short_rows : List ℕ
short_rows =
    {cons(shorts)}

-- the kind of the token that ends in a state
unfoldable pub kinds : List ℕ
kinds =
    {cons(kinds)}
"""
        )
    with open("crates/lex_table/proofs/Words.antt", "w") as out:
        out.write(
            f"""-- What leads to each state, and which bytes no rule tells apart. {made}.
use Prim.Native.Nat.{{ℕ}}
use mathlib.Core.List.{{List, [], ◌∷◌}}

-- for each byte the first that stands in the same classes of the rules
unfoldable pub firsts : List ℕ
firsts =
    {cons(first_bytes())}

-- for each state a text that leads to it
abbrev pub words : List (List ℕ)
words =
"""
        )
        for old in order:
            out.write(f"    ({cons(words[old])}) ∷\n")
        out.write("    []\n")
    with open("crates/lex_table/src/table.rt", "w") as out:
        out.write(
            f"""// The automaton of the rules: {long} rows of {len(BYTES)}, the classes of the bytes, {going - long} rows of {len(columns)}, the kinds.
// {made}.
pub const TABLE: [u16; {len(table)}] = [
{"".join(f"    {number},{chr(10)}" for number in table)}];
"""
        )


if __name__ == "__main__":
    main()
