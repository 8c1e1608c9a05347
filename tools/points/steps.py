"""Point 7: switches on which step to run, and tables of functions."""
import re

from . import named
from .sources import Place


def flags(sources):
    """Parameters of type bool: which of two ways a function goes."""
    return [
        Place(f.crate, f.path, f.line, f"{f.name}  {name}")
        for f in sources.functions
        for name, type in f.parameters
        if type == "bool"
    ]


def lines_with(sources, pattern):
    """The lines of code in which `pattern` is found."""
    return [
        Place(file.crate, file.path, number, line.strip())
        for file in sources.files
        for number, line in enumerate(file.code.split("\n"), 1)
        if re.search(pattern, line)
    ]


def tables(sources):
    """Arrays of functions, and values that are functions."""
    return lines_with(sources, r"(?<!^)[\[:(&< ]fn\(")


def closures(sources):
    """Closures, and parameters that are one."""
    return lines_with(sources, r"impl Fn|dyn \w|\bFn(?:Mut|Once)?\(|[(=,] ?(?:move )?\|[\w, &:]*\| ")


POINTS = [
    ("7a", named.title("7a"), lambda s: named.standing(s, "7a")),
    ("7b", named.title("7b"), lambda s: named.standing(s, "7b")),
    ("7c", "parameters of type bool", flags),
    ("7d", "tables of functions", tables),
    ("7e", "closures, `impl Fn` and `dyn` that there are", closures),
]
