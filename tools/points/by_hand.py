"""Point 4: equality, order, copying, conversion and printing by hand."""
import re

from . import named
from .sources import Place

COPY = re.compile(r"^\s*let mut (\w+) = (self|[a-z]);$")


def casts(sources):
    """Functions whose body is one `as`."""
    return [
        Place(f.crate, f.path, f.line, f"{f.name}  {f.body.strip()}")
        for f in sources.functions
        if re.fullmatch(r"\s*\w+ as \w+\s*", f.body)
    ]


def in_bodies(sources, pattern):
    for f in sources.functions:
        for i, line in enumerate(f.body.split("\n")):
            for _ in pattern.finditer(line):
                yield Place(f.crate, f.path, f.body_line + i, f"{f.name}  {line.strip()}")


def rebuilt(sources):
    """A copy of a value whose fields are then set."""
    places = []
    for f in sources.functions:
        for i, line in enumerate(f.body.split("\n")):
            if (found := COPY.match(line)) and re.search(rf"\b{found[1]}\.\w+ = ", f.body):
                places.append(Place(f.crate, f.path, f.body_line + i, f"{f.name}  {line.strip()}"))
    return places


def without(derive):
    def places(sources):
        return [
            Place(t.crate, t.path, t.line, t.name)
            for t in sources.things
            if t.kind in ("struct", "enum") and not re.search(rf"derive\([^)]*\b{derive}\b", t.text)
        ]

    return places


POINTS = [
    ("4a", "functions whose body is one `as`", casts),
    ("4a.as", "`as` in code", lambda s: list(in_bodies(s, re.compile(r" as (?:u|i)\w+")))),
    ("4b", named.title("4b"), lambda s: named.standing(s, "4b")),
    ("4c", named.title("4c"), lambda s: named.standing(s, "4c")),
    ("4d", named.title("4d"), lambda s: named.standing(s, "4d")),
    ("4e", named.title("4e"), lambda s: named.standing(s, "4e")),
    ("4e.calls", "calls that print a text or a number",
     lambda s: list(in_bodies(s, re.compile(r"\b(?:show::\w+|(?<!fn )number|line_end)\(out\b")))),
    ("4f", named.title("4f"), lambda s: named.standing(s, "4f")),
    ("4f.fields", "copies of a value whose fields are then set one by one", rebuilt),
    ("4g", "types without a derived equality", without("PartialEq")),
    ("4g.debug", "types that cannot be printed (no Debug)", without("Debug")),
]
