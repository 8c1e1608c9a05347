"""Has the checker compute the definitions. Each case becomes one line of a proof file, `call .. ≡ result`, `text_call ..
≡ result` or `query_call .. ≡ result`, whose proof is `refl`: the checker accepts it exactly if computing `call` gives
the result. A longer text is computed with one scan in the place of the search for the longest match (`by_scan` of
crates/lexing proves that it is the same). The files stand in a temporary repository with a copy of crates/definitions (its specs;
proofs about them are not needed) and of the crates that prove the scan."""
import os
import re
import shutil
import subprocess
import tempfile

from compare.caret import CARET, QueryCase, QueryResult
from compare.case import BUFFERS, Result, runs
from compare.text import DIRECTIVE, HIGH_BYTE, TOO_LONG, UNKNOWN_ENTRY, TextCase, TextResult, unchanged

# texts of more bytes are computed by the scan
SHORT = 10
# crates with what they depend on: the definitions, and what the scan rests on
CRATES = {
    "definitions": "",
    "basics": "definitions",
    "patterns": "definitions basics",
    "lexing": "definitions basics patterns",
}

HOLE = "?"
# how the definitions name the refusals of a text, which the checker prints
REFUSALS = {"unknown_entry": UNKNOWN_ENTRY, "too_long": TOO_LONG, "has_high_byte": HIGH_BYTE, "has_directive": DIRECTIVE}

HEAD = """use mathlib.Core.Path.{◌≡◌, refl, ◌∙◌}
use Rattle.std.specs.Prelude.{ℕ, List, [], ◌∷◌, ◌++◌, replicate}
use Rattle.definitions.specs.Call.{Buffers, Answer, Result, call}
use Rattle.definitions.specs.Text.{TextResult, text_call}
use Rattle.definitions.specs.Caret.{Query, caret, range, ListResult, query_call}
use Rattle.lexing.proofs.ByScan.{scan_after, call_of, by_scan}

abbrev lent : List ℕ → List ℕ → List ℕ → List ℕ → List ℕ → Buffers
lent e t x r p = record { events = e; trees = t; errors = x; reports = r; pool = p }

abbrev answer : ℕ → ℕ → ℕ → ℕ → ℕ → ℕ → Answer
answer n p t x r e = record { number = n; place = p; tree_count = t; error_count = x; report_count = r; expectation_count = e }

abbrev result : Answer → Buffers → Result
result a l = record { answer = a; buffers = l }

abbrev text_result : Answer → ℕ → List ℕ → Buffers → TextResult
text_result a c t l = record { answer = a; token_count = c; tokens = t; buffers = l }

abbrev list_result : Answer → ℕ → List ℕ → Buffers → ListResult
list_result a c t l = record { answer = a; list_count = c; list = t; buffers = l }

"""


def antt_list(numbers):
    """A list of antt, long runs by replicate."""
    text = "[]"
    for n, k in reversed(runs(numbers)):
        if k < 8:
            text = "%d ∷ " % n * k + text
        elif text == "[]":
            text = "replicate %d %d" % (k, n)
        else:
            text = "(replicate %d %d ++ (%s))" % (k, n, text)
    return "(%s)" % text


def lent(buffers):
    return "(lent %s)" % " ".join(antt_list(b) for b in buffers)


def answer(numbers):
    return "(answer %s)" % " ".join(map(str, numbers))


def list_statement(name, case, result, proof):
    data, numbers = antt_list(list(case.data())), antt_list(case.numbers())
    call = "call %d %d %s %s %s" % (case.entry, case.setting, data, numbers, lent(case.lent()))
    after = "result %s %s" % (answer(result.answer), lent(result.buffers))
    return "%s : %s ≡ %s\nunfolding call\n%s = %s\n\n" % (name, call, after, name, proof)


def text_statement(name, case, result, proof):
    data = antt_list(list(case.data))
    tokens, *buffers = case.lent()
    given = "%d %d %s %s %s" % (case.entry, case.setting, data, antt_list(tokens), lent(buffers))
    counted = "%s %d" % (answer(result.answer), result.token_count)
    after = "text_result %s %s %s" % (counted, antt_list(result.tokens), lent(result.buffers))
    call, unfolding = "text_call " + given, "text_call"
    if len(case.data) > SHORT:
        unfolding = "call_of scan_after"
        if proof == HOLE:
            call = "call_of (scan_after 0 %s) %s" % (data, given)
        else:
            proof = "by_scan %s ∙ %s" % (given, proof)
    return "%s : %s ≡ %s\nunfolding %s\n%s = %s\n\n" % (name, call, after, unfolding, name, proof)


def query_statement(name, case, result, proof):
    query, parse = case.query, case.parse
    asked = "(caret %d)" % query.first if query.what == CARET else "(range %d %d)" % (query.first, query.second)
    data, numbers = antt_list(list(parse.data())), antt_list(parse.numbers())
    given = "%s %d %s %s %s %s" % (asked, parse.setting, data, numbers, lent(parse.lent()), antt_list(case.lent()))
    counted = "%s %d" % (answer(result.answer), result.list_count)
    after = "list_result %s %s %s" % (counted, antt_list(result.list), lent(result.buffers))
    return "%s : query_call %s ≡ %s\nunfolding query_call\n%s = %s\n\n" % (name, given, after, name, proof)


STATEMENTS = {TextCase: text_statement, QueryCase: query_statement}


def statement(name, case, result, proof):
    """The line of a case; proof is refl, or a hole, at which the checker prints what the call computes to."""
    return STATEMENTS.get(type(case), list_statement)(name, case, result, proof)


class Checker:
    def __init__(self, root, jobs):
        self.jobs = jobs
        self.folder = tempfile.mkdtemp(prefix="compare-definitions-")
        for crate in CRATES:
            for part in ("src", "specs") if crate == "definitions" else ("src", "specs", "proofs"):
                shutil.copytree(os.path.join(root, "crates", crate, part), self.path(crate, part))
        names = ["cases_%d" % j for j in range(jobs)]
        for name in names:
            self.crate(name, "Cases")
        needed = dict(CRATES, **{name: "definitions lexing" for name in names})
        lines = ["%s: %s" % (name, of) for name, of in needed.items()]
        self.write(os.path.join(self.folder, "crates.txt"), "\n".join(lines) + "\n")
        good, said = self.check()
        if not good:
            self.close()
            raise SystemExit("crates/definitions, or what the scan rests on, does not check:\n" + said)

    def crate(self, name, module):
        """A crate with one module of proofs."""
        for part in ("src", "specs", "proofs"):
            os.makedirs(self.path(name, part))
        self.write(self.path(name, "src", "lib.rt"), "// no code\n")
        self.write(self.path(name, "specs", "Lib.antt"), "")
        self.write(self.path(name, "proofs", "Lib.antt"), "pub mod %s\n" % module)
        self.write(self.path(name, "proofs", "%s.antt" % module), HEAD)

    def close(self):
        shutil.rmtree(self.folder)

    def path(self, crate, *more):
        return os.path.join(self.folder, "crates", crate, *more)

    @staticmethod
    def write(path, text):
        with open(path, "w", encoding="utf-8") as f:
            f.write(text)

    def rt(self, folder, *words):
        return subprocess.run(("rt",) + words, cwd=folder, text=True, stdout=subprocess.PIPE, stderr=subprocess.STDOUT)

    def check(self):
        """Whether the cases are proved, and what was said. What has not changed is kept from the check before."""
        if self.jobs == 1:
            run = self.rt(self.path("cases_0"), "check")
        else:
            run = self.rt(self.folder, "all", "check", "--jobs", str(self.jobs))
        return run.returncode == 0, run.stdout

    def failing(self, pairs):
        """Which of the (case, result) pairs the checker does not accept, by index."""
        if not pairs:
            return []
        for j in range(self.jobs):
            lines = [statement("c%d" % i, *pairs[i], "refl") for i in range(j, len(pairs), self.jobs)]
            self.write(self.path("cases_%d" % j, "proofs", "Cases.antt"), HEAD + "".join(lines))
        good, said = self.check()
        if good:
            return []
        named = sorted({int(n) for n in re.findall(r"Cases\.antt:\d+:\d+: error: `c(\d+)`", said)})
        if named:
            return named
        if len(pairs) == 1:
            return [0]
        half = len(pairs) // 2
        first = self.failing(pairs[:half])
        return first + [half + i for i in self.failing(pairs[half:])] if not first else first

    def computed(self, case, result):
        """What the definitions give, read off the goal that the checker prints at a hole; and what it said."""
        text = HEAD + statement("c0", case, result, HOLE)
        self.write(self.path("cases_0", "proofs", "Cases.antt"), text)
        said = self.rt(self.path("cases_0"), "check", "--allow-holes").stdout
        goal = re.sub(r"\s+", " ", said)
        found = re.search(r"⊢ \S*unchanged \(?\S*\b(%s)\b(?: (\d+))?" % "|".join(REFUSALS), goal)
        if found:
            return unchanged(case, (REFUSALS[found.group(1)], int(found.group(2) or 0))), said
        found = re.search(r"unfolded: Path (?:Text|List)?Result record \{(.*?\})\} record", goal)
        if not found:
            return None, said
        front, back = found.group(1).split("buffers")
        numbers = lambda words: [int(n) for n in re.findall(r"\d+", words)]
        fields = dict(re.findall(r"(\w+) = ([\d∷ \[\]]+)", back))
        buffers = [numbers(fields[b]) for b in BUFFERS]
        # what stands before the token rows, or before the list
        front, *more = re.split(r"\b(?:tokens|list) =", front)
        counts = tuple(int(n) for n in re.findall(r"= (\d+)[;} ]", front))
        if more:
            of = TextResult if isinstance(case, TextCase) else QueryResult
            return of(counts[:6], counts[6], numbers(more[0]), buffers), said
        return Result(counts, buffers), said
