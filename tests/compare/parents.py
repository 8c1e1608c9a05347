"""The parent in every tree row, request 7/14 (document 02), as a plain reading of its words over the child counts:

"A tree row becomes five numbers, the fifth being the parent's row, and the root names itself."

The oracle has the parents from the Rust's tree. tests/fuzz/src/parent.rs reads the same words in Rust."""
from compare.case import NODE, TreeRow, rows

ROOT = 0


def parents(tree):
    """Of each row the row number of its parent, by child counts alone. tree: rows in preorder."""
    out, open_nodes = [], []
    for i, row in enumerate(tree):
        while open_nodes and open_nodes[-1][1] == 0:
            open_nodes.pop()
        out.append(open_nodes[-1][0] if open_nodes else ROOT)
        if open_nodes:
            open_nodes[-1][1] -= 1
        if row.class_ == NODE:
            open_nodes.append([i, row.count])
    return out


def are_right(numbers):
    """Whether the fifth number of each row is its parent's row. numbers: those of the tree rows."""
    tree = rows(TreeRow, numbers)
    return [row.parent for row in tree] == parents(tree)
