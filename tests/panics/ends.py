"""By what ends where the Rust panics: how many conditionals in cells, in values and around items, nodes and brackets
end there, and whether it is at the end of input or at a token. Two roots are known; anything else is printed."""
import re
from collections import Counter

from compare.case import NODE
from compare.tables import TRIVIA

# kinds of nodes
CELL_LISTS, VALUE_LISTS = ("DtCellList", "EntryCells"), ("PropValueList", "EntryPropValues")
BRACKETS = ("DtExpr", "ParenExpr")


class Ends:
    def __init__(self, oracle):
        self.oracle, self.waiting, self.count = oracle, [], 0
        self.node_names = {number: name for name, number in oracle.nodes.items()}
        self.token_names = {number: name for name, number in oracle.kinds.items()}
        self.classes, self.others = {}, []

    def add(self, line):
        self.count += 1
        self.waiting.append(line)
        if len(self.waiting) >= 500:
            self.look()

    def look(self):
        """Asks for the trees, and checks that the unchanged Rust panics."""
        lines, self.waiting = self.waiting, []
        for line, tree, rust in zip(lines, self.oracle.trees(lines), self.oracle.rust(lines)):
            if "the parser seems stuck" not in rust[0]:
                raise SystemExit("the Rust does not panic: " + line)
            at_end = "at byte None" in rust[0]
            byte = None if at_end else int(rust[0].split("Some(")[1].split(")")[0])
            self.put(line, at_end, ending(self.rows(tree), byte))

    def rows(self, lines):
        """The tree rows of an answer as (whether it is a node, kind by name, width, count)."""
        for line in lines:
            if line.startswith("R "):
                class_, kind, width, count, _ = map(int, line.split()[1:])
                names = self.node_names if class_ == NODE else self.token_names
                yield class_ == NODE, names[kind], width, count

    def put(self, line, at_end, levels):
        """Root A: conditionals in cells at a token. Root B: conditionals in values at the end."""
        kind = "A" if not at_end and levels["cells"] >= 20 else "B" if at_end and levels["values"] >= 50 else None
        if kind is None:
            self.others.append((line, at_end, dict(levels)))
            return
        also = tuple(sorted(w for w in levels if levels[w] and w != ("cells" if kind == "A" else "values")))
        key = kind, also
        size = len(line)
        if key not in self.classes or size < self.classes[key][0]:
            self.classes[key] = size, line, dict(levels), self.classes.get(key, (0, 0, 0, 0))[3]
        a, b, c, n = self.classes[key]
        self.classes[key] = a, b, c, n + 1

    def finish(self):
        if self.waiting:
            self.look()
        for (kind, also), (_, line, levels, n) in sorted(self.classes.items()):
            what = ", ".join("%s %d" % x for x in sorted(levels.items()) if x[1])
            print("%s%s: %d, the shortest (%s): %s" % (kind, " with " + ", ".join(also) if also else "", n, what, short(line)))
        for line, at_end, levels in self.others[:20]:
            print("OTHER, at %s, %s: %s" % ("the end" if at_end else "a token", levels, short(line)))
        print("%d over the limit and accepted; neither A nor B: %d" % (self.count, len(self.others)))


def short(line):
    """Runs of a few characters as [..]×k."""
    return re.sub(r"(.{1,12}?)\1{3,}", lambda m: "[%s]×%d" % (m.group(1), len(m.group(0)) // len(m.group(1))), line)


def ending(rows, byte):
    """How many nodes of each sort end where only trivia stand before the byte (None: the end of input)."""
    nodes, stack, start, last = [], [], 0, 0
    for is_node, kind, width, count in rows:
        while stack and stack[-1][1] == 0:
            stack.pop()
        if stack:
            stack[-1][1] -= 1
        if is_node:
            inside = [name for name, _, _ in stack if name]
            nodes.append((sort(kind, inside[-1] if inside else None), start + width))
            stack.append([list_of(kind), count, kind])
            continue
        start += width
        # a list of cells that is not closed is a ParseError
        if kind == "LAngle" and stack[-1][2] == "ParseError":
            stack[-1][0] = "cells"
        if kind not in TRIVIA and (byte is None or start <= byte):
            last = start
    stop = start if byte is None else byte
    return Counter(name for name, end in nodes if name and last <= end <= stop)


def list_of(kind):
    """What a conditional directly inside a node of this kind stands in."""
    return "cells" if kind in CELL_LISTS else "values" if kind in VALUE_LISTS else "items" if kind == "DtNode" else None


def sort(kind, inside):
    if kind == "PreprocessorConditional":
        return inside or "items"
    return "brackets" if kind in BRACKETS else "nodes" if kind == "DtNode" else None
