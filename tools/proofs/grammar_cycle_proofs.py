# Writes the proof of the cycle of calls in crate `grammar`: a file for each function, what falls in the cycle, and the
# whole. Run in the repository:
#   rt dev grammar --generated target/generated/grammar
#   python3 tools/proofs/grammar_cycle_proofs.py target/generated/grammar; rt fmt
# The first command writes what the check generates for each function; it may fail, and writes all the same. Where the
# cycle has no proof file yet, give it one with a hole first, or the check searches for each need. The folder of the
# proof has the cycle's name, which is the names of all its functions: it is read off the generated folder. Functions
# outside the cycle: grammar_entry_proofs.py.
import os
import re
import sys

sys.path.insert(0, os.path.dirname(__file__))
from code_proofs import parse, way_to
from grammar_cycle_answers import RULES, Answers
from program_ways import name_places

# Each call within the cycle is made with fewer tokens left, or with as many and to a lower rank. All ranks are below
# 16.
RANK = {
    "eat-pp-directive": 0, "cell-rest": 1, "value-rest": 1, "item-rest": 1, "dt-node-body": 1, "eat-cell": 2, "cells": 3, "dt-cell-list": 4,
    "bits": 5, "value": 6, "propvalues": 7, "dt-property": 8, "node": 9, "eat-node-or-prop": 10, "item": 11, "eat-inside": 12, "branch": 13,
    "cond-branches-and-end": 14,
}

# Of a function with a loop: what its invariant is told between the entry's buffers and those of the turn, and the
# loop's program.
LOOPS = {
    "cells": ("allowed until-end q₀", "cells until-end"),
    "propvalues": ("allowed semicolon other q₀", "propvalues-body semicolon"),
    "dt-node-body": ("allowed m lcurly q₀", "loop node-body-turn"),
    "branch": ("allowed inside m q₀ set", "loop (branch-turn (inside-of inside))"),
    "cond-branches-and-end": ("allowed inside q₀", "loop (cond-branches-turn (inside-of inside))"),
}

# The functions outside that are called in the cycle, by the module that their readings stand in.
CALLED = {
    "Rattle·parser.proofs.Parser": "add_expected at at_end bump complete eat error expect expect_recoverable ignore refuse silent_at silent_at_set silent_eat start",
    "Rattle·parser.proofs.marker.Marker": "new",
    "Rattle·parser.proofs.State": "range",
    "Rattle·macros.proofs": "macro_invocation",
    "Rattle·names.proofs": "silent_eat_reference",
    "Rattle·expr.proofs": "dt_expr",
    "Rattle·ends.proofs": "after_propvalue at_cells_end at_cells_recovery at_item unfinished",
    "Rattle·ends.proofs.nodes": "answered forbidden_property node_end",
    "Rattle·directives.proofs": "eat_dts_directive eat_dts_include",
    "Rattle·prefixes.proofs": "eat_node_or_prop_prefix",
    "Rattle·plain_cells.proofs": "eat_plain_cell",
}

# Where a name comes from.
MODULES = {
    "Prim.Native.Nat": "_-_ _≤_",
    "mathlib.Core.Path": "_≡_ refl sym ap _∙_",
    "mathlib.Core.Bool": "true false false≢true",
    "lib.ListN": "length",
    "native.Mathlib.Omega": "arith",
    "borrow.Author.Needs": "needs",
    "borrow.Author.Tests": "eqb-true eqb-false",
    "Rattle·definitions.specs.Token": "tokens-of",
    "Rattle·definitions.specs.Prog": "no item propvalues eat-cell loop",
    "Rattle·definitions.specs.Check": "silent",
    "Rattle·definitions.specs.Grammar": "eat-inside branch-turn branch cond-branches-turn cond-branches-and-end eat-preprocessor-directive cells-turn cells dt-cell-list bits-value propvalue propvalues-turn propvalues-body dt-property node-body-turn dt-node-body no-property eat-node-or-prop item-body grammar",
    "Rattle·machine.specs.Walk": "Walked said walk-rule walk-prog unlabelled",
    "Rattle·parser.specs.View": "tokens-left parser-view ans-of span-of",
    "Rattle·grammar·specs.specs.Subprograms": "inside-of",
    "Rattle·machine.proofs.Way": "c-walk c-act c-ret c-seq c-yes c-no c-told c-mark completed c-call c-fn way rule-closed rule-body",
    "Rattle·steps.specs.View": "took-unless-no",
    "Rattle·steps.proofs.Left": "ahead-falls",
    "Rattle·steps.proofs.Steps": "c-brace c-said-no c-said-also c-ret-yes c-ret-no c-any closing ignored answered-is answered-yes",
    "Rattle·grammar·proofs.proofs.Laws": "cell-body-is",
    "Rattle·grammar·proofs.proofs.Ways": "c-same c-prog c-call-on c-prog-on closes prog-on again-prog last-yes last-no as-yes c-said-other other-no c-answered c-inside c-assoc answered-left unless-no-other",
}

PROOFS = "Rattle·grammar·proofs.proofs"


def spelled(name):
    """A function's name as antt has it."""
    return name.replace("_", "-")


def module(function):
    return "".join(word.capitalize() for word in function.split("_"))


def use_lines(text):
    words = set(re.split(r"[\s(),{}]+", text))
    lines = []
    for place, names in MODULES.items():
        found = [n for n in names.split() if n in words or (n.startswith("_") and n.strip("_") in words)]
        if found:
            lines.append(f"use {place}.{{{', '.join(found)}}}")
    return lines


class Cycle:
    def __init__(self, generated, crate):
        proofs = os.path.join(generated, "Rattle·grammar·proofs", "proofs")
        self.name = next(d for d in os.listdir(proofs) if d.startswith("+") and not d.endswith(".antt"))
        self.functions = self.name[1:].split("+")
        self.names = [spelled(f) for f in self.functions]
        self.module = f"{PROOFS}.{self.name}"
        self.out = os.path.join(crate, "proofs", self.name)
        self.lts = {f: parse(os.path.join(proofs, self.name, f"Lts-{f}.antt")) for f in self.functions}

    def write(self, path, lines):
        path = os.path.join(self.out, path)
        os.makedirs(os.path.dirname(path), exist_ok=True)
        with open(path, "w", encoding="utf8") as file:
            file.write("\n".join(lines).rstrip("\n") + "\n")

    def called(self, function):
        """The functions that this one calls, in the order of the needs."""
        found = [re.match(r"(.*?)-requires(-\d+)?$", need) for need in self.lts[function][1]]
        return list(dict.fromkeys(m.group(1) for m in found if m))

    def readings(self):
        return [f"use {PROOFS}.{f}.Reads as {spelled(f)}" for f in self.functions]

    def places(self):
        return [f"use {self.module}.Lts-{f} as {spelled(f)}-lts" for f in self.functions]

    def called_readings(self):
        """The readings of the functions outside that the cycle calls."""
        where = {spelled(f): f"{place}.{f}" for place, functions in CALLED.items() for f in functions.split()}
        outside = {c for f in self.functions for c in self.called(f)} - set(self.names)
        return [f"use {where[c]}.Reads as {c}-reads" for c in sorted(outside)]

    def measures(self):
        lines = [
            "-- What falls in the cycle of calls, the tokens left and then a rank of the member, and what is known of each member's",
            "-- calls.",
            "use Prim.Native.Nat.{ℕ, _+_, _*_, _<_}",
            "use borrow.Fn.Kinds.{In}",
            "use borrow.Fn.PlainCycle.{Measures, is, falls, and}",
            "use Rattle·parser.specs.View.{tokens-left}",
            *self.readings(),
            *self.called_readings(),
            *[f"use {PROOFS}.{f}.Kinds as {spelled(f)}-kinds" for f in self.functions],
            *self.places(),
            "",
        ]
        for name in self.names:
            lines += self.measure(name)
        for function in self.functions:
            lines += self.claims(function)
        self.write("Proof/Measures.antt", lines)

    def measure(self, name):
        """What falls, a call where it is known, and a call below."""
        kinds = f"4 {name}-kinds.ps"
        return [
            f"abbrev pub μ-{name} : Measures {kinds} ℕ",
            f"μ-{name} κs a = 16 * tokens-left (a .1 .0 .now) (a .0 .s) + {RANK[name]}",
            "",
            f"abbrev pub {name}-at : ℕ → In {kinds}",
            f"{name}-at t = and {kinds} (is {kinds} μ-{name} t) {name}.Pre",
            "",
            f"abbrev pub {name}-below : ℕ → In {kinds}",
            f"{name}-below t = and {kinds} (falls {kinds} _<_ μ-{name} t) {name}.Pre",
            "",
        ]

    def claims(self, function):
        """What is known of the functions that this one calls: of those in the cycle, below alone."""
        name = spelled(function)
        known = [f"{c}-below t, {c}.Post" if c in self.names else f"{c}-reads.Asked, {c}-reads.Learnt" for c in self.called(function)]
        return [f"abbrev pub {name}-claims : ℕ → {name}-lts.Claims", f"{name}-claims t = ({', '.join(known)})", ""]

    def invariant(self, name):
        told, program = LOOPS[name]
        arguments = f"tokens events₀ reports₀ pool₀ {told} events reports pool q"
        allowed = "(allowed - 1)" if name in RULES else "allowed"
        label = "(span-of lcurly)" if name == "dt-node-body" else "unlabelled"
        walk = f"walk-prog {allowed} (tokens-of tokens) {label} ({program})"
        return [
            "-- the loop from here is the loop from the start",
            "abbrev pub Inv-loop : lts.InvT-loop",
            f"Inv-loop {arguments} =",
            "    (tokens-left tokens (q .s) ≤ tokens-left tokens (q₀ .s))",
            "    × ((length events ≡ length events₀)",
            "    × ((length reports ≡ length reports₀)",
            f"    × ((length pool ≡ length pool₀) × ({walk} (parser-view q events reports pool) ≡ {walk} (parser-view q₀ events₀ reports₀ pool₀)))))",
            "",
            "abbrev pub μ-loop : lts.MeasureT-loop",
            f"μ-loop {arguments} = tokens-left tokens (q .s)",
            "",
        ]

    def need(self, function, need, place):
        """One need with its answer."""
        name = spelled(function)
        way, start = way_to(self.lts[function][0], place)
        unfolds, text = Answers(name, way).answer(need)
        lets, text = name_places(text, way, start)
        loop = " Inv-loop μ-loop" if name in LOOPS else ""
        lines = [f"pub {need} : (t : ℕ) → lts.Need-{need} ({name}-claims t) ({name}-at t) reads.Post{loop}"]
        if unfolds:
            lines.append(f"unfolding {unfolds}")
        head = f"{need} t c κs =" if re.search(r"-requires(-\d+)?$", need) else f"{need} t c ="
        body = lets + text.split("\n")
        return lines + ([f"{head} {text}"] if len(body) == 1 else [head] + ["    " + line for line in body]) + [""]

    def function(self, function):
        name = spelled(function)
        body = self.invariant(name) if name in LOOPS else []
        for need, place in self.lts[function][1].items():
            body += self.need(function, need, place)
        head = [
            f"-- `{function}` is the walk of its program, step by step.",
            "use Prim.Native.Nat.{ℕ}",
            *use_lines("\n".join(body)),
            f"use {PROOFS}.{function}.Reads as reads",
            f"use {self.module}.Lts-{function} as lts",
            f"use {self.module}.Proof.Measures.{{{name}-at, {name}-claims}}",
            "",
        ]
        self.write(f"Proof/{module(function)}.antt", head + body)

    def met(self, function):
        """That a function meets its contract, by its needs."""
        name, file = spelled(function), module(function)
        loop = f" {file}.Inv-loop {file}.μ-loop" if name in LOOPS else ""
        needs = [f"    ({file}.{need} t)" for need in self.lts[function][1]]
        needs[-1] += ")"
        return [f"    (λ t. {name}-lts.spec ({name}-claims t) ({name}-at t) {name}.Post{loop}", *needs]

    def whole(self):
        measured = [f"μ-{n}" for n in self.names] + [f"{n}-at" for n in self.names] + [f"{n}-claims" for n in self.names]
        lines = [
            "-- The functions of the cycle meet their contracts: a file for each member, and what falls in Measures.",
            *self.readings(),
            *self.places(),
            f"use {self.module}.{{statement}}",
            f"use {self.module}.Tie.{{close}}",
            f"use {self.module}.Proof.Measures.{{{', '.join(measured)}}}",
            *[f"use {self.module}.Proof.{module(f)} as {module(f)}" for f in self.functions],
            "mod Measures",
            *[f"mod {module(f)}" for f in self.functions],
            "",
            f"pub {spelled(self.name)}-spec : {{M : Type 1}} → statement M",
            f"{spelled(self.name)}-spec =",
            "    close",
            *[f"    μ-{n}" for n in self.names],
        ]
        for function in self.functions:
            lines += self.met(function)
        self.write("Proof.antt", lines)


def main(generated):
    cycle = Cycle(generated, os.path.join("crates", "grammar"))
    cycle.measures()
    for function in cycle.functions:
        cycle.function(function)
    cycle.whole()


if __name__ == "__main__":
    main(sys.argv[1])
