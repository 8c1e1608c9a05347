"""Point 5: parameters that always travel together, and facts that stand in three contracts or more."""
import re
from collections import defaultdict

from .sources import Place

GROUPS = [
    ("codes", "tokens", "events", "reports", "pool"),
    ("tokens", "events", "reports", "pool"),
    ("events", "trees", "errors", "reports", "pool"),
    ("bytes", "tokens", "events", "trees", "errors", "reports", "pool"),
    ("bytes", "tokens", "reports", "first"),
    ("events_written", "reports_written", "pool_written"),
    ("number", "place"),
    ("entry", "setting"),
    ("message", "hint"),
    ("at", "byte"),
    ("start", "end"),
    ("from", "to"),
    ("t", "bytes"),
    ("text", "from"),
    ("out", "name"),
    ("tokens", "events", "reports", "pool", "allowed"),
    ("trees", "errors", "reports", "pool", "list"),
    ("tokens", "at"),
]
# names that a struct has for a place, and for what stands beside it
PLACE, BESIDE = re.compile(r"\b(at|cursor|index|event)\b"), re.compile(r"\b(byte|left|behind)\b")
# fewer contracts than these are no repetition
LEAST = 3


def group(names):
    def places(sources):
        return [
            Place(f.crate, f.path, f.line, f.name)
            for f in sources.functions
            if set(names) <= {name for name, _ in f.parameters}
        ]

    return places


def fields(sources):
    """Structs that hold an index, and beside it a byte or a count."""
    return [
        Place(t.crate, t.path, t.line, t.name)
        for t in sources.things
        if t.kind == "struct" and PLACE.search(t.text) and BESIDE.search(t.text)
    ]


def facts(sources):
    """Each fact of a contract, and where it stands; of those that stand in some contracts."""
    found = defaultdict(list)
    for f in sources.functions:
        for _, text in f.clauses:
            for fact in map(renamed, split(text)):
                found[fact].append(Place(f.crate, f.path, f.line, f"{f.name}  {fact}"))
    return {fact: places for fact, places in found.items() if len({place.what for place in places}) >= LEAST}


def renamed(fact):
    """One name for the parser, one for the answer, one for the bytes and one for an index of them."""
    fact = re.sub(r"\bresult(\.p\.s|\.p|\.s)?(?![.\w])", "result", fact)
    fact = re.sub(r"\b(self|p|s)(\.s)?(?![.\w])", "self", fact)
    fact = re.sub(r"\b(bytes|text)\.now", "bytes.now", fact)
    return re.sub(r"^(at|from) (≤|<) length", r"from \2 length", fact)


def split(text):
    """The parts that stand beside each other in a fact."""
    depth, parts = 0, [""]
    for c in text:
        depth += (c == "(") - (c == ")")
        if c == "×" and depth == 0:
            parts.append("")
        else:
            parts[-1] += c
    return [part.strip().removeprefix("(").removesuffix(")") if len(parts) > 1 else part.strip() for part in parts]


def repeated(sources):
    return [place for places in facts(sources).values() for place in places]


def bounds(sources):
    return [place for place in repeated(sources) if "tokens_left" in place.what]


def each_once(sources):
    return [places[0]._replace(what=f"{len(places)} x {fact}") for fact, places in facts(sources).items()]


POINTS = [
    *[(f"5a.{i}", "functions that take " + ", ".join(names), group(names)) for i, names in enumerate(GROUPS, 1)],
    ("5b", f"facts that stand in {LEAST} contracts or more", each_once),
    ("5c", "clauses, or parts of one, that say such a fact", repeated),
    ("5d", "of these: bounds of `tokens_left`", bounds),
    ("5e", "structs that hold an index and a byte or a count beside it", fields),
]
