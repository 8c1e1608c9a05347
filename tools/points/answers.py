"""Point 1: enums of the shape of Option or Result, a value with a flag beside it, numbers for kinds and refusals."""
import re

from . import named
from .sources import Place

MODULES = "token_kind node_kind event_tag message hint refusal expected lex_error setting row_kind".split()
PARAMETER = re.compile(r"(kind|k|tag|message|hint|setting|entry|code|class|root_kind|number|error|next|set|recovery)$")
NUMBER = re.compile(r"u8$|u16$|u32$|&\[u8\]$")


def answering(sources):
    """Functions whose answer is one of the structs of 1b, but State, which most functions of the parser answer."""
    crates = {}
    for place in named.standing(sources, "1b"):
        crates[place.what.split("::")[1].split()[0]] = place.crate
    crates.pop("State", None)
    others = {t.own: t.crate for t in sources.things if t.own in crates and t.crate != crates[t.own]}
    return [
        Place(f.crate, f.path, f.line, f"{f.name}  {f.answer}")
        for f in sources.functions
        if f.answer in crates and f.crate != others.get(f.answer)
    ]


def constants(sources):
    return [
        Place(thing.crate, thing.path, thing.line, thing.name)
        for thing in sources.things
        if thing.kind == "const" and thing.name.split("::")[0] in {f"layout/{module}" for module in MODULES}
    ]


def uses(sources):
    """Where code outside the constants' own modules names one: by its module, or bare after a `use`."""
    known = {place.what.split("/")[1] for place in constants(sources)}
    places = []
    for file in sources.files:
        bare = imported(file.code, known)
        for number, line in enumerate(without_uses(file.code).split("\n"), 1):
            for module, name in re.findall(r"(?:\b(\w+)::)?\b([A-Z][A-Z0-9_]+)\b", line):
                full = f"{module}::{name}" if module else bare.get(name)
                if full in known and f"{file.crate}/{file.module}" != "layout/" + full.split("::")[0]:
                    places.append(Place(file.crate, file.path, number, full))
    return places


def without_uses(code):
    """The code with blanks in the place of `use`."""
    return re.sub(r"(?m)^(ghost )?use [^;]*;", lambda found: "\n" * found[0].count("\n"), code)


def imported(code, known):
    """Constants that a `use` makes known without their module."""
    bare = {}
    for use in re.findall(r"(?m)^use ([^;]*);", code):
        for module, names in re.findall(r"\b(\w+)::(?:\{([^}]*)\}|(?:[A-Z][A-Z0-9_]+)$)", " ".join(use.split())):
            for name in re.findall(r"[A-Z][A-Z0-9_]+", names or use):
                if f"{module}::{name}" in known:
                    bare[name] = f"{module}::{name}"
    return bare


def taking(sources):
    """Functions with a parameter that is such a number or a set of them."""
    other = {name for names, _ in named.POINTS["1c.not"][1] for name in names}
    places = []
    for f in sources.functions:
        found = [name for name, type in f.parameters if PARAMETER.match(name) and NUMBER.match(type)]
        if found and f.name not in other:
            places.append(Place(f.crate, f.path, f.line, f"{f.name}  {', '.join(found)}"))
    return places


def option_or_result(sources):
    return [
        Place(f.crate, f.path, f.line, f"{f.name}  {f.answer}")
        for f in sources.functions
        if re.match(r"(Option|Result)<", f.answer)
    ]


POINTS = [
    ("1a", "own enums whose shape is Option or Result", lambda s: named.standing(s, "1a")),
    ("1b", "structs that are a flag or an answer with a value beside it", lambda s: named.standing(s, "1b")),
    ("1b.functions", "functions that answer such a struct", answering),
    ("1b.numbers", named.title("1b.numbers"), lambda s: named.standing(s, "1b.numbers")),
    ("1b.std", "functions that answer Option or Result (without io::Result)", option_or_result),
    ("1c.constants", "constants for kinds, tags, messages, hints, refusals and settings", constants),
    ("1c.uses", "uses of these constants", uses),
    ("1c.takes", "functions that take such a number as u8, u16 or u32, or a set of them", taking),
    ("1c.answers", named.title("1c.answers"), lambda s: named.standing(s, "1c.answers")),
    ("1c.types", named.title("1c.types"), lambda s: named.standing(s, "1c.types")),
]


# ---- the second way

FLAG = re.compile(r": (bool|Ans|Answer)\b|(refusal|number): u32")
BUILT = re.compile(r"(?<!struct )\b((State|Parser)(Tested|Answered)|Started) \{")
HEAD = re.compile(r"-> ((State|Parser)(Tested|Answered)|Started|Turn|InfixOp|BindingPower|Names|Hit|\w*Answer)( \{)?$")
NONE = re.compile(r"//.*(\bor 0\b|; 0 (where|past)|, 0 where|or the end|'s length\.|or none)")


def shaped(text):
    cases = re.findall(r"(?m)^    (\w+)(\(.*\))?,", text)
    return len(cases) == 2 or sum(not value for _, value in cases) == 1


def words(sources, names, of_layout):
    """Words in code that are such a constant's name, in layout or in all other crates."""
    return [
        word
        for file in sources.files
        if (file.crate == "layout") == of_layout and not (of_layout and file.module in MODULES)
        for word in re.findall(r"\b[A-Z][A-Z0-9_]+\b", without_uses(file.code))
        if word in names
    ]


def second(sources):
    """Pairs of what is counted another way, and what that finds."""
    enums = [thing for thing in sources.things if thing.kind == "enum"]
    structs = [thing for thing in sources.things if thing.kind == "struct"]
    read = {name for point in ("1a", "1a.read") for names, _ in named.POINTS[point][1] for name in names}
    yield "1a: enums in all", [e.name for e in enums]
    yield "1a: enums that nobody read", [e.name for e in enums if e.name not in read]
    yield "1a: enums with two cases, or with one case without a value", [e.name for e in enums if shaped(e.text)]
    yield "1b: structs with a bool, an Ans, a refusal or a number", [t.name for t in structs if FLAG.search(t.text)]
    lines = [line for file in sources.files for line in file.text.split("\n")]
    yield "1b: lines that build one", [line for line in lines if BUILT.search(line)]
    yield "1b: lines that end a function's head with such an answer", [line for line in lines if HEAD.search(line)]
    yield "1b: comments that say 0 or the end for none", [line for line in lines if NONE.search(line)]
    names = {place.what.split("::")[1] for place in constants(sources)}
    yield "1c: words that are such a constant's name, without `use`", words(sources, names, False)
    yield "1c: the same in layout's other modules", words(sources, names, True)
