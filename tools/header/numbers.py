"""The numbers that are printed: tables from the definitions' names, in the definitions' order."""
import functools
import re

from header.calls import calls, structs
from header.sources import RUST, SPECS, SourceFault

LAYOUT, ERRORS, CALL = SPECS + "Layout.antt", SPECS + "Errors.antt", SPECS + "Call.antt"
TEXT, REFUSAL, STATIC = SPECS + "Text.antt", SPECS + "Refusal.antt", SPECS + "StaticText.antt"
BOUNDS = "crates/bounds/specs/Numbers.antt"
PACKAGE = "bindings/rust/Cargo.toml"
# A row's first column has no number in the definitions, since the row starts with it.
FIRST_COLUMNS = {"TOKEN": "KIND", "TREE": "CLASS", "ERROR": "NUMBER", "REPORT": "MESSAGE"}
# What crates/bounds calls the rows of each buffer, and how it bounds the reports of the strict setting.
BOUNDED = {"EVENTS": "events", "TREES": "rows", "REPORTS": "reports", "POOL": "expectations"}
NAMES_BOUND = "length (names_of setting e bytes ts) ≤ length ts"


class Numbers:
    def __init__(self, repo):
        self.repo = repo
        self.token_kinds = repo.numbers(SPECS + "TokenKind.antt")
        self.lex_errors = repo.numbers(SPECS + "LexError.antt")
        # NO_NODE is what a program answers where it makes no node
        self.node_kinds = {n: v for n, v in repo.numbers(SPECS + "NodeKind.antt").items() if n != "NO_NODE"}
        self.messages = {n.removeprefix("msg_"): v for n, v in repo.numbers(ERRORS, "messages").items()}
        self.hints = {"none" if n == "no_hint" else n: v for n, v in repo.numbers(ERRORS, "hints").items()}
        self.classes = repo.numbers(LAYOUT, "the first number of a tree row")
        self.event_tags = repo.numbers(LAYOUT, "event.rs")
        self.refusals = repo.numbers(LAYOUT, "document 01's causes")
        # the strict setting is every other number
        self.settings = {"old": repo.numbers(LAYOUT)["OLD_SETTING"], "strict": 1}
        sizes = repo.numbers(LAYOUT, "how many numbers a row has")
        self.row_sizes = {n.removesuffix("_ROW"): v for n, v in sizes.items()}
        self.places = repo.numbers(LAYOUT, "where a number stands")
        self.calls, self.answers = calls(repo), structs(repo)

    @functools.cached_property
    def expectations(self):
        """Those that are not a token's kind. The Rust has one more than the definitions: 102 is never pending."""
        first = self.repo.numbers(LAYOUT)["FIRST_OTHER"]
        cases = [case for case in self.repo.rust_enum(RUST + "parser/errors.rs", "Expected") if case != "Kind"]
        return {case: first + i for i, case in enumerate(cases)}

    @functools.cached_property
    def entries(self):
        found = re.findall(r"eqb n (\d+)\) \(for (\w+)\)", self.repo.text(CALL))
        return {name: int(number) for number, name in found}

    @functools.cached_property
    def limits(self):
        """By their names in the header."""
        table = self.repo.numbers(LAYOUT, "the limits of a call") | self.repo.numbers(LAYOUT, "expectations")
        limits = {n.removeprefix("MOST_"): v for n, v in table.items() if n.startswith("MOST_")}
        return {n.replace("PENDING", "EXPECTATIONS"): v for n, v in limits.items()}

    @functools.cached_property
    def placed(self):
        """The refusals that have a place."""
        found = r"^(?:number_of|text_number) \(\w+ \w+\) = ([A-Z_]+)$"
        return {name for path in (REFUSAL, TEXT) for name in re.findall(found, self.repo.text(path), re.M)}

    @functools.cached_property
    def columns(self):
        """Of each row that a caller reads, the columns from the first on."""
        rows = {row: [first] for row, first in FIRST_COLUMNS.items()}
        for name, number in self.places.items():
            row, column = name.split("_", 1)
            if row in rows and len(rows[row]) != number:
                raise SourceFault(f"{LAYOUT}: {name} is {number}, and {len(rows[row])} columns stand before it")
            rows.get(row, []).append(column)
        for row, columns in rows.items():
            if len(columns) != self.row_sizes.get(row):
                raise SourceFault(f"{LAYOUT}: {row}_ROW is {self.row_sizes.get(row)}, for the columns {columns}")
        return rows

    @functools.cached_property
    def lent(self):
        """The buffers that dt_parse writes, in its order."""
        return [name.upper() for name, kind in self.calls["dt_parse"].parameters if kind.startswith("&mut")]

    @functools.cached_property
    def bounds(self):
        """Of each lent buffer the rows that suffice for n tokens: so many times n, and so many more."""
        table = {}
        for name in self.lent:
            if name == "ERRORS":
                # a lexical error is that of a token
                table[name] = 1, 0
                continue
            proved = self.repo.found(r"^most_%s n = (\d+) \* n \+ (\d+)$" % BOUNDED[name], BOUNDS)
            table[name] = int(proved[1]), int(proved[2])
        # beside the run's own reports the strict setting has at most as many as there are tokens
        if NAMES_BOUND not in self.repo.text(BOUNDS):
            raise SourceFault(f"{BOUNDS}: nothing like {NAMES_BOUND}")
        times, more = table["REPORTS"]
        return table | {"REPORTS": (times + 1, more)}

    @functools.cached_property
    def fixed_texts(self):
        """By the kind's name."""
        found = re.findall(r"says K\.(\w+) \(([^\[]*)", self.repo.text(STATIC))
        return {name: bytes(map(int, re.findall(r"\d+", text))).decode() for name, text in found}

    @functools.cached_property
    def trivia(self):
        said = self.repo.found(r"^is_trivia k = (.*?)$", SPECS + "Token.antt")[1]
        return re.findall(r"K\.(\w+)", said)

    @functools.cached_property
    def made_lex_errors(self):
        """Those that the definitions' lexer makes."""
        made = {*re.findall(r"\bL\.(\w+)", self.repo.text(SPECS + "Lex.antt"))}
        return {name: number for name, number in self.lex_errors.items() if name in made}

    @functools.cached_property
    def version(self):
        return self.repo.found(r'^version = "(\d+\.\d+\.\d+)"$', PACKAGE)[1]
