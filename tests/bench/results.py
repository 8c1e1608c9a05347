"""Reads what was measured (results/): for tables.py and plot.py."""
import csv
import os
import statistics

# the input that the summary is about, and its text
HEADLINE = "board-50000"
HEADLINE_TEXT = "text-50000"


def read(path):
    """A dictionary for each line; none if there is no such file."""
    if not os.path.exists(path):
        return []
    with open(path, newline="") as file:
        return list(csv.DictReader(file))


class Times:
    """The times of the last set of runs; none if there is no such file."""

    def __init__(self, path):
        self.by_input = {}
        rows = read(path)
        for row in (row for row in rows if row["date"] == rows[-1]["date"]):
            numbers = {k: float(v) for k, v in row.items() if k not in ("date", "input")}
            if "rust_copy_ns" in numbers:
                numbers["rust_ns"] = numbers["rust_with_copy_ns"] - numbers["rust_copy_ns"]
            self.by_input.setdefault(row["input"], []).append(numbers)
        self.runs = max(map(len, self.by_input.values()), default=0)

    def spread(self, name, column):
        """Least, median and most over the runs."""
        values = [run[column] for run in self.by_input[name]]
        return min(values), statistics.median(values), max(values)

    def comparable(self, name):
        """False where the Rust's time is lost in that of the copy of its tokens, which is taken off, and where there is
        no time yet."""
        runs = self.by_input.get(name, [])
        return bool(runs) and all(run["rust_ns"] > run["rust_copy_ns"] / 2 for run in runs)


class Counts:
    """What one input has and costs, with the instructions of each parser."""

    def __init__(self, row):
        self.name = row["input"]
        self.numbers = {k: int(v) for k, v in row.items() if k != "input"}
        self.tokens = self["tokens"]
        self.family = self.name.split("-")[0]
        self.port = self["port_instructions"]
        self.strict = self["strict_instructions"]
        self.rust = self["rust_with_copy_instructions"] - self["rust_copy_instructions"]

    def __getitem__(self, column):
        return self.numbers[column]

    def each(self, column):
        """A token's share."""
        return self[column] / self.tokens


def counts(path):
    return [Counts(row) for row in read(path)]


class Text:
    """What one text has and costs: instructions of the first pass of lexing, of both passes, of the whole call, and of
    the call over ready tokens; None where it was not counted."""

    def __init__(self, row):
        self.name = row["input"]
        self.family = self.name.split("-")[0]
        self.bytes, self.tokens = int(row["bytes"]), int(row["tokens"])
        counted = ("first_pass", "lexing", "text", "rows")
        self.first_pass, self.lexing, self.text, self.rows = (
            int(row[f"{k}_instructions"]) if row[f"{k}_instructions"] else None for k in counted)


class Query:
    """What one source file has, and what asking costs: instructions of each query less those of the parse."""

    WHAT = "end", "middle", "last", "parts"

    def __init__(self, row):
        self.name = row["input"]
        self.tree_rows, self.parse = int(row["tree_rows"]), int(row["parse_instructions"])
        self.listed = {what: int(row[f"{what}_rows"]) for what in self.WHAT}
        self.cost = {what: int(row[f"{what}_instructions"]) - self.parse for what in self.WHAT}


def queries(path):
    return [Query(row) for row in read(path)]


def texts(path):
    """By family; of a family the texts that a call takes, and then one that it refuses for its tokens, if there is."""
    families = {}
    for row in read(path):
        text = Text(row)
        families.setdefault(text.family, []).append(text)
    return families
