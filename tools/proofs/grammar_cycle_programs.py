# The programs of the functions in the cycle of calls of crate `grammar`, as trees (see program_ways.py), and the way
# through one as a term of the steps of machine/proofs/Way.antt, steps/proofs/Steps.antt and grammar/proofs/Ways.antt.
# Read by grammar_cycle_answers.py.
import re

from program_ways import AGAIN, NO, SAME_NO, SAME_YES, YES, Walk, both, call, close, either, ignore, mark, negated, ret, seq, when

# Functions outside that are told the interpreter and the label, and how many buffers more.
TELLS = {
    **dict.fromkeys("at-item at-cells-end at-cells-recovery forbidden-property".split(), 3),
    **dict.fromkeys("eat-plain-cell after-propvalue eat-dts-include eat-dts-directive eat-node-or-prop-prefix".split(), 0),
    **dict.fromkeys("macro-invocation silent-eat-reference".split(), 0),
}

# The step that cites a contract over a rule, over a program, and over a program that closes the marker handed to it.
STEPS = {
    **dict.fromkeys("eat-cell propvalues".split(), "c-call"),
    **dict.fromkeys("dt-expr cells cell-rest value bits value-rest item-rest eat-node-or-prop eat-inside branch eat-pp-directive".split(), "c-fn"),
    **dict.fromkeys("dt-cell-list dt-property dt-node-body node".split(), "c-same"),
}

# Contracts that tell no answer are cited together with what follows the call.
STEPS_ON = {"item": "c-call-on", "cond-branches-and-end": "c-prog-on"}

# The code returns the last test's own result, where a literal yes does for the step.
TESTED_YES = ("tested_yes",)
# No: the last test's own result where it failed, else a literal.
LAST_NO = ("last_no",)


def closed_before_test(test, kind):
    """The marker is completed between a call and the test of its result."""
    return ("closed_before_test", test, kind)


def match(test, arms):
    """A match on a call's answer. The arms stand in the code's order; `_` is the arm for the rest."""
    return ("match", test, arms)


def inside(arms):
    """A match on what a conditional's branch holds."""
    return ("inside", arms)


def answered(name):
    """A match that passes the call's answer on."""
    return ("answered", name)


BUMP, ERROR, AT, AT_END, SILENT_AT, SILENT_AT_SET = map(call, "bump error at at-end silent-at silent-at-set".split())
ADD_EXPECTED, EXPECT, EXPECT_RECOVERABLE, SILENT_EAT = map(call, "add-expected expect expect-recoverable silent-eat".split())
DIRECTIVE, INCLUDE = call("eat-pp-directive"), call("eat-dts-include")
PARSE_ERROR = close("ParseError")

# Of each function what is unfolded, and the program. Of a loop: one turn.
PROGRAMS = {
    # cells
    "cells": ("cells cells-turn silent",
        when(call("eat-cell"), AGAIN,
        when(call("at-cells-end"), TESTED_YES,
        when(call("at-cells-recovery"), seq(ERROR, NO), seq(ERROR, AGAIN))))),
    "eat-cell": ("grammar",
        when(call("eat-plain-cell"), SAME_YES,
        when(SILENT_AT, seq(call("dt-expr"), YES), call("cell-rest")))),
    "cell-rest": ("silent",
        when(either(INCLUDE, DIRECTIVE), SAME_YES,
        when(both(SILENT_AT_SET, negated(AT)), seq(ERROR, YES), LAST_NO))),
    "dt-cell-list": ("dt-cell-list",
        seq(BUMP, when(call("cells"), seq(EXPECT, close("DtCellList")), close("ParseError", "no")))),
    # values
    "propvalues": ("grammar propvalues-body propvalues-turn",
        when(AT_END, TESTED_YES,
        match(call("value"), {"No": NO, "Also": YES, "_": answered("after-propvalue")}))),
    "value": ("propvalue silent",
        seq(ADD_EXPECTED,
        when(SILENT_AT, call("bits"),
        when(SILENT_EAT, YES,
        when(SILENT_AT, mark(call("dt-cell-list")), call("value-rest")))))),
    "bits": ("bits-value",
        mark(seq(mark(seq(seq(BUMP, EXPECT), close("DtsDirective"))),
        when(AT, call("dt-cell-list"), seq(ERROR, PARSE_ERROR))))),
    "value-rest": ("silent",
        when(call("silent-eat-reference"), YES,
        when(SILENT_AT, seq(call("macro-invocation"), YES),
        when(either(SILENT_EAT, either(INCLUDE, DIRECTIVE)), YES, seq(ERROR, ret("also")))))),
    # properties and nodes
    "dt-property": ("dt-property",
        when(call("eat"), close("DtProperty"),
        seq(BUMP,
        when(mark(closed_before_test(call("propvalues"), "PropValueList")), seq(EXPECT_RECOVERABLE, close("DtProperty")), PARSE_ERROR)))),
    "dt-node-body": ("node-body-turn",
        when(call("at-item"), seq(call("item"), AGAIN), YES)),
    # items
    "item": ("grammar item-body silent",
        when(call("eat-node-or-prop"), YES,
        when(SILENT_AT, mark(seq(seq(ERROR, mark(call("dt-property"))), PARSE_ERROR)),
        when(SILENT_AT, mark(seq(seq(ERROR, mark(call("dt-node-body"))), PARSE_ERROR)), call("item-rest"))))),
    "item-rest": ("silent",
        when(SILENT_AT, ERROR,
        when(either(call("eat-dts-directive"), DIRECTIVE), YES, ERROR))),
    "eat-node-or-prop": ("eat-node-or-prop",
        mark(match(call("eat-node-or-prop-prefix"), {
            "No": ignore("no"),
            "Also": when(AT, call("dt-property"), call("node")),
            "_": call("node"),
        }))),
    "node": ("no-property silent",
        when(AT, call("dt-node-body"),
        when(SILENT_AT, seq(ERROR, PARSE_ERROR),
        when(call("forbidden-property"), seq(ERROR, mark(call("dt-property")), PARSE_ERROR), call("unfinished"))))),
    # conditionals
    "eat-inside": ("eat-inside",
        inside({"Item": seq(call("item"), YES), "Values": seq(call("propvalues"), YES), "Cell": call("eat-cell")})),
    "branch": ("branch branch-turn silent",
        when(either(AT, AT_END), NO,
        when(SILENT_AT_SET, YES,
        when(call("eat-inside"), AGAIN, NO)))),
    "cond-branches-and-end": ("cond-branches-and-end cond-branches-turn",
        when(call("branch"), seq(BUMP, AGAIN), YES)),
    "eat-pp-directive": ("eat-preprocessor-directive silent",
        seq(ADD_EXPECTED,
        when(negated(SILENT_AT_SET), SAME_NO,
        when(SILENT_AT_SET,
            seq(mark(seq(seq(BUMP, call("cond-branches-and-end")), close("PreprocessorConditional"))), YES),
            seq(BUMP, YES))))),
}


def plain(thing):
    """A call's name without the number that tells it from others of the same function."""
    return re.sub(r"\d+$", "", thing)


class CycleWalk(Walk):
    """One way of a function in the cycle. allowed: how many calls may still be opened."""

    # the parser keeps the codes: they are not a buffer of the contract
    marker = " _ _"
    acts = {"at-end": 3, "silent-at": 3, "silent-at-set": 3, "bump": 2}
    walks = {"at": 3, "silent-eat": 2, "eat": 2, "expect": 0, "expect-recoverable": 0, "error": 0}

    def __init__(self, way, allowed, ask, span):
        super().__init__(way, TELLS, {"unfinished"})
        self.allowed, self.ask, self.span = allowed, ask, span
        # the test whose own result is returned: where it held, and where it failed
        self.returned_yes = self.returned_no = None

    def counts(self, thing, fields):
        """The variant that an arm names is given, and counts."""
        return super().counts(thing, fields) or thing.startswith("enum-") or plain(thing) == "inside"

    def plain(self, thing):
        return plain(thing)

    def leaf(self, name, more):
        if name not in STEPS:
            return super().leaf(name, more)
        self.last, _ = self.next(name)
        ensured = f"(@{self.last} .ensures .0)"
        if STEPS[name] == "c-same":
            self.closes = f"(closing {ensured})"
            return f"(c-same {self.allowed})"
        return f"({STEPS[name]} {self.allowed} {ensured})"

    def of_seq(self, first, rest):
        """Where such a call ends the first part, c-assoc moves it to the front of the rest."""
        if first[0] == "seq" and first[2][0] == "call" and first[2][1] in STEPS_ON:
            term, answer = self.emit(seq(first[1], first[2], rest))
            return f"(c-assoc {term})", answer
        if first[0] == "call" and first[1] in STEPS_ON:
            thing, _ = self.next(first[1])
            term, answer = self.emit(rest)
            return f"({STEPS_ON[first[1]]} {self.allowed} (@{thing} .ensures .0) {term})", answer
        return super().of_seq(first, rest)

    def of_same(self, answer):
        if answer == "no":
            self.returned_no = self.test[0]
        return super().of_same(answer)

    def of_last_no(self):
        return ("c-ret", "no") if self.test[1] == "taken" else self.of_same("no")

    def of_tested_yes(self):
        self.returned_yes = self.test[0]
        return "c-ret", "yes"

    def of_closed_before_test(self, test, kind):
        term, _ = self.emit(test)
        self.closes = self.completed()
        return f"(c-told (@{self.last} .result .yes) {term})", None

    def arm(self, names):
        """The arm that a match has taken: its name, the tags that it leaves, and what tells its variant."""
        thing, fields = self.next("match")
        key = next(f for f in fields if f.startswith("keys"))
        given = self.next()[0] if self.facts and "given" in self.facts[0][1] else None
        return names[int(key[4:]) - 1], f"(@{thing} .{key})", given

    def of_match(self, test, arms):
        """An arm that names its variant has the equation, the arm for the rest has its tags."""
        term, _ = self.emit(test)
        result = f"(@{self.last} .result .ans)"
        arm, tags, given = self.arm(list(arms))
        rest, answer = self.emit(arms[arm])
        if arm == "_":
            return f"(c-said-other {result} {term} {tags} {rest})", answer
        return f"(c-said-{arm.lower()} {result} {term} (ap ans-of (@{given} .given .1)) {rest})", answer

    def of_answered(self, name):
        term = self.leaf(name, None)
        arm, tags, given = self.arm(["again", "yes", "no"])
        known = f"(ap ans-of (@{given} .given .1))"
        if arm == "no":
            known = f"(other-no (@{self.last} .result .ans) (@{self.last} .ensures .1 .1) {tags})"
        return f"(c-answered {known} {term})", arm

    def of_inside(self, arms):
        arm, _, given = self.arm(list(arms))
        term, answer = self.emit(arms[arm])
        return f"(c-inside (@{given} .given .1) {term})", answer
