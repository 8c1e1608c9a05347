"""Random nestings near the limits: conditionals around items, nodes, conditionals in values, in cells, brackets, and an
end."""
import random

from panics.runs import over

IFS = ["#if\\n", "#if\\n", "#ifdef\\n", "#ifndef\\n", "#if\\n#else\\n", "#if\\\\\\n\\n"]
ENDS = [
    "", "1", ";", ">", "}", "{", ",", '"s"', "\\\\", "=", "@", ")", "a", "&", "<", "1;", "1,", "1>", "#endif", "#else", "/bits/", "?", "+", "-",
]  # fmt: skip


def part(r, most):
    return r.choice((0, 0, 1, 2, r.randint(0, most)))


def nest(r):
    """A line. The deepest sort gets what is left of about 64 levels."""
    entry = r.choice((1, 1, 3, 3, 4, 4, 4))
    text, left = "", r.randint(50, 66)
    conditional = lambda n: "".join(r.choice(IFS) for _ in range(n)) if r.random() < 0.1 else r.choice(IFS) * n
    if entry == 1:
        for _ in range(r.randint(0, 3)):
            n = part(r, 20)
            text += r.choice(("a{", conditional(1))) * n
            left -= n
        text += "a=" if r.random() < 0.95 else ""
    if entry in (1, 3):
        n = max(left - part(r, 60), 0) if r.random() < 0.5 else part(r, 60)
        text += conditional(n)
        left -= n
        text += r.choice(("<", "<", "/bits/ 8 <", "")) if r.random() < 0.8 else ""
    n = max(left - part(r, 45), 0) if r.random() < 0.7 else part(r, 60)
    text += conditional(n)
    left -= n
    text += r.choice(("(", "(", "-(", "(-", "1?(", "(1?")) * max(min(left, part(r, 45)), 0)
    return "%d text %s%s" % (entry, text, r.choice(ENDS) + (r.choice(ENDS) if r.random() < 0.3 else ""))


def over_the_limit(oracle, seed, count):
    r = random.Random(seed)
    for at in range(0, count, 2000):
        lines = [nest(r) for _ in range(min(2000, count - at))]
        yield from (l for l, reached in zip(lines, oracle.reached(lines)) if over(reached))
