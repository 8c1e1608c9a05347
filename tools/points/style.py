"""Plain style: what the older language made a program write."""
import re

from .sources import Place

FORMS = [
    ("9a", "a name for a test that the next `if` reads", r"let (\w+) = [^;{]*;\n\s*if \1 \{"),
    ("9b", "an `if` whose branch is `true` or `false`", r"\{ (?:true|false) \}|\{\n\s*(?:true|false)\n\s*\}"),
    ("9c", "a field `name: name`", r"(?m)(?<=[{,\n]) *\b(\w+): \1(?=[,}\n ])"),
    ("9d", "a name for what the next `match` reads", r"let (\w+) = [^;{]*;\n\s*match \1 \{"),
    ("9e", "an `else` with nothing but an `if`", r"else \{\n\s*(?:let \w+ = [^;{]*;\n\s*)?if "),
]


def form(pattern):
    compiled = re.compile(pattern)

    def places(sources):
        return [
            Place(f.crate, f.path, f.body_line + f.body.count("\n", 0, found.start()), f"{f.name}  {first(found[0])}")
            for f in sources.functions
            for found in compiled.finditer(f.body)
        ]

    return places


def first(text):
    return text.strip().split("\n")[0]


POINTS = [(point, title, form(pattern)) for point, title, pattern in FORMS]
