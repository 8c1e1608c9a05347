"""What is counted: the code and the proofs' answers of a commit or of the working tree, and the functions, types and
constants that stand in the code."""
import io
import os
import re
import subprocess
import tarfile
from collections import namedtuple

# A crate's tests, src/tests.rt, are not counted.
COUNTED = re.compile(r"crates/(\w+)/(?:src/(?!tests\.rt)([\w/]+)\.rt|proofs/(?:.*/)?(Answers|Invariants)\.antt)$")
COMMENT = re.compile(r"(?m)(?:^|(?<=\s))//[^\"\n]*$")
FUNCTION = re.compile(r"( *)(?:pub(?:\(\w+\))? )?(?:const )?(?:extern \"C\" )?fn (\w+)")
OWNER = re.compile(r"(?:pub )?(?:unsafe )?(?:impl\b(?:.* for |<.*?> (?=\w)| )?|trait )(\w+)")
THING = re.compile(r"(?:pub(?:\(\w+\))? )?(struct|enum|union|type|const|static|trait) (\w+)")
CLAUSE = re.compile(r"\b(ensures|requires)\s+(?:\w+\s+)?(?=\{)")

# a file of code: its text without comments has the same lines
File = namedtuple("File", "crate module path text code")
# `name` is crate/module::Owner.name; head is what stands before the body; clauses are pairs of a word and a text
Function = namedtuple("Function", "name crate path line own parameters answer clauses body body_line indent")
Thing = namedtuple("Thing", "name crate path line kind own text")
# a place that is counted, and what stands there
Place = namedtuple("Place", "crate path line what")


def read(root, commit):
    """Texts by path, of a commit or, without one, of the working tree."""
    if commit is None:
        return dict(working_tree(root))
    git = subprocess.run(["git", "-C", root, "archive", "--format=tar", commit, "crates"], stdout=subprocess.PIPE)
    if git.returncode:
        raise SystemExit(f"places: no crates in {commit}")
    with tarfile.open(fileobj=io.BytesIO(git.stdout)) as archive:
        return {one.name: archive.extractfile(one).read().decode() for one in archive if COUNTED.match(one.name)}


def working_tree(root):
    for place, _, names in os.walk(os.path.join(root, "crates")):
        for name in names:
            path = os.path.relpath(os.path.join(place, name), root)
            if COUNTED.match(path):
                with open(os.path.join(root, path), encoding="utf8") as file:
                    yield path, file.read()


class Sources:
    def __init__(self, texts):
        self.files, self.proofs = [], {}
        for path in sorted(texts):
            crate, module, _ = COUNTED.match(path).groups()
            if module:
                code = COMMENT.sub("", texts[path])
                self.files.append(File(crate, module, path, texts[path], code))
            else:
                self.proofs[path] = texts[path]
        self.functions = [function for file in self.files for function in functions(file)]
        self.things = [thing for file in self.files for thing in things(file)]
        self.named = {one.name: one for one in self.things + self.functions}
        self.crates = sorted({file.crate for file in self.files})

    def place(self, name):
        """The place of a function, type or constant by name; None if it is gone."""
        one = self.named.get(name)
        return one and Place(one.crate, one.path, one.line, name)


def functions(file):
    lines, owner = file.code.split("\n"), ""
    for i, line in enumerate(lines):
        if found := OWNER.match(line):
            owner = found[1] + "."
        elif line == "}":
            owner = ""
        if found := FUNCTION.match(line):
            yield function(file, lines, i, found[1], owner, found[2])


def function(file, lines, i, indent, owner, own):
    opened = body_start(lines, i, indent)
    bodiless = lines[opened].endswith(";")
    end = opened if bodiless else next(j for j in range(opened, len(lines)) if lines[j].startswith(indent + "}"))
    head = "\n".join(lines[i : opened + 1])
    body = "\n".join(lines[opened + 1 : end])
    start = head.index("fn " + own) + len("fn " + own)
    _, start = listed(head, start) if head[start] == "<" else ([], start)
    parameters, after = listed(head, start)
    contract = CLAUSE.search(head, after)
    answer = re.search(r"->\s*(.*?)\s*\{?\s*$", head[after : contract.start() if contract else None], re.S)
    name = f"{file.crate}/{file.module}::{owner}{own}"
    return Function(
        name, file.crate, file.path, i + 1, own, parameters, answer[1] if answer else "", clauses(head), body,
        opened + 2, indent,
    )


def body_start(lines, i, indent):
    """The line that opens a function's body; of a trait's function without one, its last line."""
    for j in range(i, len(lines)):
        in_clause = re.match(r"\s*(ensures|requires)\b", lines[j])
        if lines[j] == indent + "{" or lines[j].endswith(";") or (lines[j].endswith("{") and not in_clause):
            return j
    return i


def listed(text, start):
    """Pairs of name and type from the bracket that opens at `start`, and the index after it."""
    depth, parts, i = 0, [""], start
    while True:
        c = text[i]
        depth += (c in "([{<") - (c in ")]}") - (c == ">" and text[i - 1] != "-")
        i += 1
        if depth == 0:
            break
        if c == "," and depth == 1:
            parts.append("")
        elif i - 1 > start:
            parts[-1] += c
    pairs = [re.match(r"\s*(?:mut )?(&?(?:mut )?\w+)\s*(?::\s*(.*?))?\s*$", part, re.S) for part in parts]
    return [(pair[1].split()[-1].lstrip("&"), pair[2] or "") for pair in pairs if pair], i


def clauses(head):
    """Each clause: its word, and its text with single blanks."""
    out = []
    for found in CLAUSE.finditer(head):
        depth, i = 0, found.end()
        while True:
            depth += (head[i] == "{") - (head[i] == "}")
            i += 1
            if depth == 0:
                break
        out.append((found[1], " ".join(head[found.end() + 1 : i - 1].split())))
    return out


def things(file):
    """Types, constants and traits."""
    lines = file.code.split("\n")
    for i, line in enumerate(lines):
        if found := THING.match(line):
            end = i if re.search(r"[;}]$", line) else next(
                (j for j in range(i, len(lines)) if re.match(r"[\])}]+;?$", lines[j])), i
            )
            text = "\n".join(lines[max(0, i - 2) : end + 1])
            name = f"{file.crate}/{file.module}::{found[2]}"
            yield Thing(name, file.crate, file.path, i + 1, found[1], found[2], text)
