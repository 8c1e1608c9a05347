"""Point 3: loops, and those of them that count an index by hand."""
import re

from .sources import Place

LOOP = re.compile(r"( *)(?:(?:let [^=]*|\w+) = |'\w+: )?(while .*|loop|for .*) \{$")
METHOD = re.compile(
    r"\.(?:iter|iter_mut|into_iter|chunks_exact|chunks|windows|position|contains|starts_with|all|any|fill"
    r"|copy_from_slice|fold|zip|enumerate)(?:::<[^(]*>)?\("
)
STEP = re.compile(r"(?m)^\s*\w+ [+-]= ")


def loops(sources):
    """Each loop: its place, its first line and its body."""
    for f in sources.functions:
        lines = f.body.split("\n")
        for i, line in enumerate(lines):
            if found := LOOP.match(line):
                end = next(j for j in range(i, len(lines)) if lines[j].startswith(found[1] + "}"))
                yield Place(f.crate, f.path, f.body_line + i, f.name), found[2], "\n".join(lines[i + 1 : end])


def counts(head, body):
    """A comparison in the head, and a number that is stepped in the body."""
    return head.startswith("while ") and re.search(r"[<>]", head) and STEP.search(body)


def steps(head, body):
    return not head.startswith("for ") and not counts(head, body) and STEP.search(body)


def chosen(test):
    return lambda sources: [
        place._replace(what=f"{place.what}  {head}") for place, head, body in loops(sources) if test(head, body)
    ]


def methods(sources):
    """Methods of slices and iterators that loop."""
    return [
        Place(f.crate, f.path, f.body_line + i, f"{f.name}  {name}")
        for f in sources.functions
        for i, line in enumerate(f.body.split("\n"))
        for name in METHOD.findall(line)
    ]


POINTS = [
    ("3", "loops written `while` or `loop`", chosen(lambda head, body: not head.startswith("for "))),
    ("3a", "of these: `while` with a comparison that steps an index or a count by hand", chosen(counts)),
    ("3b", "of these: others that step an index or a count", chosen(steps)),
    ("3c", "of these: walks over a state, without an index",
     chosen(lambda head, body: not head.startswith("for ") and not counts(head, body) and not steps(head, body))),
    ("3d", "loops written `for`", chosen(lambda head, body: head.startswith("for "))),
    ("3e", "methods of slices and iterators in their place", methods),
]


# ---- the second way


def second(sources):
    lines = [line for file in sources.files for line in file.text.split("\n")]
    yield "3: lines that begin with while or loop", [line for line in lines if re.match(r"\s*(while|loop)\b", line)]
    yield "3a: lines `while` with < or >", [line for line in lines if re.match(r"\s*while .*[<>]", line)]
    yield "3a: of these without a step of an index", [
        f"{place.path}:{place.line} {head}" for place, head, body in loops(sources)
        if re.match(r"while .*[<>]", head) and not counts(head, body)
    ]
    yield "3a: lines `+= ..;` and `-= ..;` in a function with a loop", [
        line for f in sources.functions if re.search(r"(?m)^\s*(while|loop)\b", f.body)
        for line in f.body.split("\n") if STEP.match(line)
    ]
