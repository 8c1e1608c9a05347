"""Point 6: buffers with a length beside them, parallel arrays, fixed arrays of programs, lists searched by hand."""
import re

from . import named
from .sources import Place

PROGRAM = re.compile(r"cases$|replay$|\w+_run$")
TYPE = re.compile(r"\[[ui](?:8|16|32|64|size); [\w:]+\]")
MADE = re.compile(r"\[(?![ui](?:8|16|32|64|size);)\w+; [\w:]+\]|^(?:pub )?const \w+: \[")
LENGTH = re.compile(r"\w+_written$|\w*count$|n$|numbers$|pending$")


def fixed(pattern, of_programs):
    """Arrays of a fixed length, by line, in the programs or in all other crates."""

    def places(sources):
        found = []
        for file in sources.files:
            if bool(PROGRAM.match(file.crate)) == of_programs:
                for number, line in enumerate(file.code.split("\n"), 1):
                    found += [Place(file.crate, file.path, number, array) for array in pattern.findall(line)]
        return found

    return places


def beside(sources):
    """Parameters that are a length, of functions that take a slice or an array too."""
    return [
        Place(f.crate, f.path, f.line, f"{f.name}  {name}")
        for f in sources.functions
        if any("[" in type or type.endswith("Codes") for _, type in f.parameters)
        for name, type in f.parameters
        if type == "usize" and LENGTH.match(name)
    ]


POINTS = [
    ("6a", named.title("6a"), lambda s: named.standing(s, "6a")),
    ("6a.lengths", "parameters that are a length or a count, beside a slice", beside),
    ("6b", named.title("6b"), lambda s: named.standing(s, "6b")),
    ("6c", "fixed arrays that the programs make", fixed(MADE, True)),
    ("6c.types", "types of fixed arrays in the programs", fixed(TYPE, True)),
    ("6c.parser", "fixed arrays that all other crates make", fixed(MADE, False)),
    ("6d", named.title("6d"), lambda s: named.standing(s, "6d")),
]
