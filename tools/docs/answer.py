"""An answer of the library to a call, with all that its buffers hold."""
import json
import os
import re
import sys

sys.path.insert(0, os.path.join(os.path.dirname(os.path.abspath(__file__)), "..", "..", "tests"))
from compare.case import ErrorRow, ReportRow, TreeRow, rows


class Names:
    """The names of kinds, from the two headers."""

    def __init__(self, root):
        texts = [open(os.path.join(root, "include", name), encoding="utf8").read() for name in HEADERS]
        numbers = {name: int(number) for name, number in re.findall(r"\b(DT_\w+) = (\d+)", texts[0])}
        # of the functions over one enum that of its names comes first
        found = {name: text for name, text in reversed(re.findall(r'case (DT_\w+): return "(\w+)"', texts[1]))}
        self.nodes = {n: found[name] for name, n in numbers.items() if name.startswith("DT_NODE_") and name in found}
        self.tokens = {n: found[name] for name, n in numbers.items() if name.startswith(TOKENS) and name in found}


HEADERS = ("dt_parser.h", "dt_names.h")
TOKENS = ("DT_TOKEN_", "DT_LEX_ERROR_")
# the kinds of nodes that are shown in brackets: an operator with its operands
OPERATIONS = ("InfixExpr", "PrefixExpr")


class Answer:
    def __init__(self, names, ask, call, line):
        self._names, self._ask, self._call = names, ask, call
        self.whole = line
        said = json.loads(line)
        self.number, self.place, self.after = said["number"], said["place"], said["after"]
        self.trees = rows(TreeRow, said["trees"])
        self.errors = rows(ErrorRow, said["errors"])
        self.reports = rows(ReportRow, said["reports"])
        self.pool = said["pool"]
        self.listed = said["list"] if call.what != "text" else []
        tokens = said["list"] if call.what == "text" else said["tokens"]
        self.token_rows = list(zip(tokens[::2], tokens[1::2]))

    def again(self, **changed):
        """The answer to the same call, changed in these."""
        return self._ask([self._call._replace(**changed)])[0]

    def name(self, row):
        names = self._names.tokens if row.class_ else self._names.nodes
        return names.get(row.kind, str(row.kind))

    def token_name(self, kind):
        return self._names.tokens.get(kind, str(kind))

    def shape(self):
        """The tree by names: a node's children in brackets."""

        def tell(number, below):
            return self.name(self.trees[number]) + (f"({' '.join(below)})" if below else "")

        return self._told(tell)

    def grouped(self):
        """The text of the tree, with square brackets around each operation."""
        leaves = iter(reversed(self._leaves()))

        def tell(number, below):
            row = self.trees[number]
            text = next(leaves) if row.class_ else "".join(below)
            return f"[{text}]" if row.class_ == 0 and self.name(row) in OPERATIONS else text

        return self._told(tell)

    def _leaves(self):
        """The text of each leaf."""
        place, out = 0, []
        for row in self.trees:
            if row.class_:
                out.append(self._call.data[place : place + row.width].decode("latin-1"))
                place += row.width
        return out

    def _told(self, tell):
        """The root's text, where `tell` gives a row's from those of its children. The last row comes first."""
        below = [[] for _ in self.trees]
        for number in reversed(range(len(self.trees))):
            text = tell(number, below[number][::-1])
            if number == 0:
                return text
            below[self.trees[number].parent].append(text)
        return "nothing"
