#!/usr/bin/env python3
"""Promise 2 on expressions, by running: C's table by levels (no binding powers), against the Rust's tree rows for entry
4, and: a report with a mark above the LParen's index and at most the RParen's exists exactly if C gives no tree.
    exprcheck.py [SEED [COUNT]]"""
import random
import sys

sys.dont_write_bytecode = True
from run import ORACLE, end, numbers, seed_and_count

from compare.case import LAST_ERROR, ReportRow

# cppreference's levels, loosest first; the conditional operator and the prefix operators stand outside them
LEVELS = [l.split() for l in ("||", "&&", "|", "^", "&", "== !=", "< > <= >=", "<< >>", "+ -", "* / %")]
OPERATORS = sum(LEVELS, [])
# the tokens: those without a fixed text by their kinds' names, and a byte that is none
TOKENS = [*OPERATORS, *"~ ! ? : ( ) 1 'c' a , ;".split(), " ", *"f { \"s\" = @ \\".split()]
NAMES = {"1": "Number", "'c'": "Char", "a": "Ident", "f": "Ident", " ": "Whitespace", '"s"': "String"}
FIXED = {text.decode(): kind for kind, text in ORACLE.texts.items()}
KINDS = {t: ORACLE.kinds[NAMES[t]] if t in NAMES else FIXED.get(t, LAST_ERROR) for t in TOKENS}
INFIX, PREFIX, PAREN, LITERAL = (ORACLE.nodes[n + "Expr"] for n in ("Infix", "Prefix", "Paren", "Literal"))
INVOCATION, ARGUMENT = ORACLE.nodes["MacroInvocation"], ORACLE.nodes["MacroArgument"]
CELLS, EXPR = ORACLE.nodes["EntryCells"], ORACLE.nodes["DtExpr"]


class NoTree(Exception):
    """C has no tree for these tokens."""


class C:
    """A reader by levels. A tree is a token's text or (node kind, children); blanks come back apart, in front."""

    def __init__(self, tokens):
        self.tokens, self.at = tokens, 0

    def blanks(self):
        out = []
        while self.tokens[self.at : self.at + 1] == [" "]:
            out.append(" ")
            self.at += 1
        return out

    def peek(self):
        rest = [t for t in self.tokens[self.at :] if t != " "]
        return rest[0] if rest else None

    def take(self):
        """The next token with the blanks before it."""
        out = self.blanks() + [self.tokens[self.at]]
        self.at += 1
        return out

    def expect(self, token):
        if self.peek() != token:
            raise NoTree
        return self.take()

    def conditional(self):
        before, tree = self.level(0)
        if self.peek() != "?":
            return before, tree
        children = [tree] + self.take()
        blanks, middle = self.conditional()
        children += blanks + [middle] + self.expect(":")
        blanks, right = self.conditional()
        return before, (INFIX, children + blanks + [right])

    def level(self, n):
        if n == len(LEVELS):
            return self.unary()
        before, left = self.level(n + 1)
        while self.peek() in LEVELS[n]:
            operator = self.take()
            blanks, right = self.level(n + 1)
            left = INFIX, [left] + operator + blanks + [right]
        return before, left

    def unary(self):
        before, token = self.blanks(), self.peek()
        if token in ("+", "-", "~", "!"):
            operator = self.take()
            blanks, operand = self.unary()
            return before, (PREFIX, operator + blanks + [operand])
        if token in ("1", "'c'"):
            return before, (LITERAL, self.take())
        if token == "(":
            bracket = self.take()
            blanks, inner = self.conditional()
            return before, (PAREN, bracket + blanks + [inner] + self.expect(")"))
        if token in ("a", "f"):
            return before, (INVOCATION, self.take() + self.arguments())
        raise NoTree

    def arguments(self):
        """A bracketed argument list directly after the name, or nothing."""
        if self.tokens[self.at : self.at + 1] != ["("]:
            return []
        children = self.take()
        if self.peek() == ")":
            return children + self.take()
        while True:
            # an argument's node starts at its first token that is not a blank
            children += self.blanks()
            children.append((ARGUMENT, self.argument()))
            if self.peek() == ")":
                return children + self.take()
            children += self.expect(",")

    def argument(self):
        out, level = [], 0
        while self.peek() is not None and (level or self.peek() not in (")", ",")):
            level += (self.peek() == "(") - (self.peek() == ")")
            out += self.take()
        return out


def width(tree):
    return len(tree) if isinstance(tree, str) else sum(map(width, tree[1]))


def rows(tree, own=0, parent=0):
    """The oracle's lines of a tree whose own row and whose parent's row are these."""
    if isinstance(tree, str):
        kind = ORACLE.kinds["Unrecognized"] if KINDS[tree] == LAST_ERROR else KINDS[tree]
        return [f"R 1 {kind} {len(tree)} 1 {parent}"]
    kind, children = tree
    out = [f"R 0 {kind} {width(tree)} {len(children)} {parent}"]
    for child in children:
        out += rows(child, own + len(out), own)
    return out


def expected(tokens):
    """C's rows for the tokens between the outer brackets, or None."""
    c = C(tokens[1:-1])
    try:
        blanks, tree = c.conditional()
        after = c.blanks()
        if c.at < len(c.tokens):
            return None
    except NoTree:
        return None
    return rows((CELLS, [(EXPR, ["("] + blanks + [tree] + after + [")"])]))


def draw(depth):
    r = random.random()
    if depth == 0 or r < 0.3:
        operands = ["1", "1", "'c'", "a", "f ( )", "f ( 1 , a )", "f ( ( 1 ) ; )"]
        return random.choice([o.split() for o in operands] + [["f", "(", " ", ",", "1", ")"]])
    if r < 0.4:
        return [random.choice("+-~!")] + draw(depth - 1)
    if r < 0.55:
        return ["("] + draw(depth - 1) + [")"]
    if r < 0.68:
        return draw(depth - 1) + ["?"] + draw(depth - 1) + [":"] + draw(depth - 1)
    return draw(depth - 1) + [random.choice(OPERATORS)] + draw(depth - 1)


def damage(tokens):
    for _ in range(random.randint(1, 2)):
        i, q = random.randrange(len(tokens) + 1), random.random()
        if q < 0.4 and tokens:
            del tokens[min(i, len(tokens) - 1)]
        elif q < 0.7:
            tokens.insert(i, random.choice(list(KINDS)))
        elif tokens:
            tokens[min(i, len(tokens) - 1)] = random.choice(list(KINDS))


def balanced(tokens):
    level = 0
    for t in tokens:
        level += (t == "(") - (t == ")")
        if level < 0:
            return False
    return level == 0


def case():
    """Tokens of one cell `( .. )` whose outer brackets balance, with blanks."""
    while True:
        tokens = draw(random.randint(0, 4))
        if random.random() < 0.6:
            damage(tokens)
        tokens = [x for t in tokens for x in ([" ", t] if random.random() < 0.2 else [t])]
        if balanced(tokens) and len(tokens) <= 60:
            return ["("] + tokens + [")"]


def line_of(tokens):
    text = "".join(tokens).replace("\\", "\\\\")
    return "4 toks " + ",".join(f"{KINDS[t]}:{len(t)}" for t in tokens) + " " + text


def verdict(tokens, rust, doc01):
    """What is wrong, if anything, and whether C has a tree."""
    want = expected(tokens)
    marks = [ReportRow(*row).mark for row in numbers([l.split(" |")[0] for l in doc01], "P")]
    reported = any(0 < m <= len(tokens) - 1 for m in marks)
    if want is None:
        return (None if reported else "no report though C has no tree"), False
    if reported:
        return "report though C has a tree", True
    return (None if [l for l in rust if l.startswith("R ")] == want else "another tree than C's"), True


def main():
    seed, count = seed_and_count(10000)
    random.seed(seed)
    cases = [case() for _ in range(count)]
    lines = [line_of(t) for t in cases]
    rust, doc01 = (ORACLE.blocks([mode, "any", "--no-tokens"], lines) for mode in ("rows", "doc01"))
    trees = refused = 0
    fails = []
    for tokens, a, b in zip(cases, rust, doc01):
        if any(l.startswith("REFUSED") for l in b):
            refused += 1
            continue
        wrong, tree = verdict(tokens, a, b)
        trees += tree
        if wrong:
            fails.append((len(tokens), wrong, "".join(tokens)))
    without = len(cases) - trees - refused
    end(fails, 6, f"expressions: {len(cases)} cases, {trees} with a C tree, {without} without, {refused} refused")


main()
