"""The files that numbers are read from: definitions, the Rust, and code."""
import pathlib
import re

SPECS = "crates/definitions/specs/"
RUST = "docs/src/crates/parser/src/"


class SourceFault(Exception):
    """A source does not have what is printed from it."""


def snake(name):
    """QuestionMark and question_mark as QUESTION_MARK."""
    return re.sub("([a-z0-9])([A-Z])", r"\1_\2", name).upper()


def camel(name):
    """question_mark and QUESTION_MARK as QuestionMark."""
    words = name.lower().split("_")
    return "".join("RCurly" if word == "rcurly" else word.capitalize() for word in words)


class Repository:
    """The files under a root, some of them with another text than they have there."""

    def __init__(self, root, changed=None, read=None):
        self.root, self.changed = pathlib.Path(root), changed or {}
        self.read = {} if read is None else read

    def changing(self, path, text):
        return Repository(self.root, {**self.changed, path: text}, self.read)

    def text(self, path):
        if path in self.changed:
            return self.changed[path]
        if path not in self.read:
            try:
                self.read[path] = (self.root / path).read_text("utf-8")
            except OSError as why:
                raise SourceFault(f"{path}: {why.strerror}") from why
        return self.read[path]

    def files(self, pattern):
        return sorted(str(path.relative_to(self.root)) for path in self.root.glob(pattern))

    def found(self, pattern, path):
        """What a pattern finds in a file, which must have it."""
        said = re.search(pattern, self.text(path), re.M | re.S)
        if not said:
            raise SourceFault(f"{path}: nothing like {pattern}")
        return said

    def numbers(self, path, heading=None):
        """The numbers of a file of definitions, sums and quotients of two of them too; or those under a heading."""
        table = {}
        for name, said in re.findall(r"^(\w+) = (\w+(?: [+/] \w+)?)$", self.text(path), re.M):
            value = worth(said.split(), table)
            if value is not None:
                table[name] = value
        if heading is None:
            return table
        under = r"^-- (?:-+ )?%s(.*?)(?=^-- (?:-{9}|hints|messages)|\Z)" % heading
        part = re.search(under, self.text(path), re.M | re.S)
        if not part:
            raise SourceFault(f"{path}: no heading `{heading}`")
        return {name: table[name] for name in re.findall(r"^(\w+) = ", part[1], re.M) if name in table}

    def rust_enum(self, path, name):
        """The cases of one of the Rust's enums, in their order."""
        body = self.found(r"\benum %s \{\n(.*?)\n\}" % name, path)[1]
        return re.findall(r"^    ([A-Z]\w*)(?:\([^)]*\))?,", body, re.M)


def worth(words, table):
    """The number that words of a definition stand for; none where they are not about numbers."""
    numbers = [int(word) if word.isdigit() else table.get(word) for word in words[::2]]
    if None in numbers:
        return None
    if words[1:2] == ["/"]:
        return numbers[0] // numbers[1] if numbers[1] else None
    return sum(numbers)
