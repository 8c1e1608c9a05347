"""Point 2: functions, types and constants that differ only in a type, a size or a constant."""
import re
from collections import defaultdict

from . import named
KEPT = set("if else while loop for in match return let mut fn true false as self".split())
# shorter bodies are alike without being twins
LEAST = 12


def of_parser(sources):
    """Pairs of a method of Parser and the method of State that it repeats."""
    state = {f.own: f.name for f in sources.functions if f.crate == "parser" and "::State." in f.name}
    return [
        [sources.place(f.name), sources.place(state[f.own])]
        for f in sources.functions
        if "::Parser." in f.name and f.own in state
    ]


def all_groups(sources):
    return of_parser(sources) + list(named.groups(sources, "2b"))


def firsts(groups):
    """A place for each group."""
    return [group[0]._replace(what=" ".join(place.what for place in group)) for group in groups]


def members(sources):
    """Each function, type and constant that stands in a group, once."""
    names = {place.what: place for group in all_groups(sources) for place in group}
    return list(names.values()) + [place for group in named.groups(sources, "2c") for place in group]


POINTS = [
    ("2a", "pairs of a method of Parser and of State", lambda s: firsts(of_parser(s))),
    ("2b", "other groups of functions that differ only in a type, a size or a constant",
     lambda s: firsts(named.groups(s, "2b"))),
    ("2c", "groups of types and constants that do so", lambda s: firsts(named.groups(s, "2c"))),
    ("2d", "functions, types and constants that stand in such a group", members),
]


# ---- the second way


def shape(body):
    """A body's words, with one word for all names and one for all numbers."""
    return " ".join(map(kind, re.findall(r"\w+|[^\w\s]", body)))


def kind(word):
    if word in KEPT or not word[0].isalnum():
        return word
    return "1" if word[0].isdigit() else "x"


def alike(sources):
    """Groups of functions whose bodies have one shape."""
    found = defaultdict(list)
    for f in sources.functions:
        if len((form := shape(f.body)).split()) >= LEAST:
            found[form].append(f.name)
    return [names for names in found.values() if len(names) > 1]


def second(sources):
    groups = alike(sources)
    yield f"2: groups of functions whose bodies have one shape of {LEAST} words or more", [" ".join(g) for g in groups]
    yield "2: functions in these groups", [name for group in groups for name in group]
    read = {place.what for place in members(sources)}
    read |= {name for names, _ in named.POINTS["2.not"][1] for name in names}
    yield "2: of these, functions that nobody read", [name for group in groups for name in group if name not in read]
    yield "2a: methods of Parser that call the method of this name", [
        f.name for f in sources.functions
        if "::Parser." in f.name and re.search(rf"(self\s*\.s\s*\.|State::){f.own}\(", f.body)
    ]
    names = defaultdict(set)
    for f in sources.functions:
        names[f.own].add(f.name)
    yield "2: names that two functions or more have", [own for own, full in names.items() if len(full) > 1]
    yield "2b: functions over Parser that hand its numbers to a function of a module", [
        f.name for f in sources.functions
        if ("p", "Parser") in f.parameters and re.search(r"\b[a-z_]+::\w+\(\s*p\.s\b", f.body)
    ]
