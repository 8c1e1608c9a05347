# The answers to the needs of the functions in the cycle of calls of crate `grammar`. Read by grammar_cycle_proofs.py.
# An answer is antt with @NAME for the call or the test of that name on the way to the need, and @@ for the entry (see
# code_proofs.py).
import re

from grammar_cycle_programs import PROGRAMS, CycleWalk, plain

ROWS = "@@ .args .tokens .now"
TOKENS = f"(tokens-of ({ROWS}))"
ALLOWED = "@@ .args .allowed"

# The functions that open a call, as rules. Their first test is whether one may still be opened.
RULES = {"item": "item", "propvalues": "(propvalues (@@ .args .semicolon))", "eat-cell": "(eat-cell (@@ .args .until-end))"}
OPEN = f"eqb-false ({ALLOWED}) 0 (@if1 .left)"

# Functions that close the marker they are handed.
CLOSING = ("dt-cell-list", "dt-property", "node")

# Functions that ensure something more of the answer yes.
ENSURE_YES = ("eat-cell", "cell-rest", "eat-node-or-prop", "eat-inside", "branch", "eat-pp-directive")

# What the loop has kept of the walk: the last part of its invariant.
LOOP = "@loop .inv .1 .1 .1 .1"

# A node's label is the place of its brace.
BRACE = "(span-of (@range .result))"

# Where a contract says what is left: always, and by the outcome of the test of its answer.
LEFT = {
    "le": (".ensures .1", {}),
    "all": (f".ensures .1 ({ROWS})", {}),
    "first": (".ensures .1 .0", {}),
    "yes": (".ensures .1 .0", {"taken": ".ensures .1 .1"}),
    "no": (".ensures .1 .0", {"left": ".ensures .1 .1"}),
    "end": (".ensures .1 .0", {"left": ".ensures .1 .1 .0", "taken": ".ensures .1 .1 .1"}),
}
CALLS = {
    **dict.fromkeys("bump expect-recoverable error at-cells-end forbidden-property macro-invocation dt-expr".split(), "le"),
    **dict.fromkeys("eat-node-or-prop-prefix unfinished node-end cond-branches-and-end cells dt-cell-list".split(), "le"),
    **dict.fromkeys("propvalues value bits value-rest dt-property dt-node-body item item-rest node".split(), "le"),
    **dict.fromkeys("start complete ignore add-expected".split(), "all"),
    **dict.fromkeys("silent-at silent-at-set at silent-eat eat expect at-item silent-eat-reference".split(), "yes"),
    **dict.fromkeys([*"eat-plain-cell eat-dts-include eat-dts-directive".split(), *ENSURE_YES], "yes"),
    "at-end": "end",
    "at-cells-recovery": "no",
    "after-propvalue": "first",
}

# Calls that lend no buffer to write.
LOOKS = "silent-at silent-at-set at at-end add-expected at-item at-cells-end at-cells-recovery forbidden-property".split()

# Calls that return the parser alone.
PARSERS = ("item", "bump", "error")


def on(equation):
    """Of what is walked, the parser alone."""
    return f"ap (λ (w : Walked). w .on) ({equation})"


class Answers:
    """The answers of one function along one way."""

    def __init__(self, function, way):
        self.function, self.way = function, way
        self.rule = RULES.get(function)
        self.allowed = f"({ALLOWED} - 1)" if self.rule else f"({ALLOWED})"
        self.ask = f"(walk-rule {self.allowed} {TOKENS})"
        opened = self.rule and any(thing == "if1" and "left" in fields for thing, _, fields in way)
        self.open = [OPEN] if opened else []

    def calls(self):
        return [thing for thing, _, fields in self.way if not fields and plain(thing) in CALLS]

    def named(self, name):
        """The things of this name on the way, whatever their numbers."""
        return [(thing, fields) for thing, _, fields in self.way if plain(thing) == name]

    def progress(self, *more):
        """By what the calls and the outcomes of their tests ensure of what is left."""
        facts, last = [], None
        for thing, _, fields in self.way:
            if not fields and plain(thing) in CALLS:
                always, outcomes = LEFT[CALLS[plain(thing)]]
                facts.append(f"@{thing} {always}")
                last = thing, outcomes
            elif thing.startswith("if") and last:
                facts += [f"@{last[0]} {path} (@{thing} .{how})" for how, path in last[1].items() if how in fields]
            elif thing == "loop":
                facts.append("@loop .inv .0")
                last = None
        return f"omega ({', '.join(['arith', *facts, *more])})"

    def kept(self):
        """By the lengths of the buffers, which each call keeps."""
        facts = [f"@{thing} .kept" for thing in self.calls() if plain(thing) not in LOOKS]
        if self.named("loop"):
            facts.append("@loop .inv .1")
        return f"omega ({', '.join(['arith', *facts])})"

    def answer(self, need):
        """What is unfolded, and the answer."""
        called = re.match(r"(.*?)-requires(-\d+)?$", need)
        if called:
            return "", self.required(called.group(1))
        if need.startswith("sub-"):
            return "", f"omega (arith, {OPEN})"
        if need.startswith("same-length"):
            return "", self.kept()
        if need.startswith("enum-"):
            return "", self.tags()
        if need.startswith("slice-"):
            return "", "search needs"
        if need.startswith("loop-holds"):
            return "", "(omega arith, (refl, (refl, (refl, refl))))"
        if need.startswith("loop-less"):
            return "", self.progress(*self.open)
        if need.startswith("loop-again"):
            return self.turn()
        return self.refused() if self.named("refuse") else self.returned()

    def required(self, callee):
        """A function of the cycle requires that what falls has fallen."""
        return f"({self.progress('@@ .pre .0', *self.open)}, tt)" if callee in PROGRAMS else "tt"

    def tags(self):
        thing, fields = self.named("match")[-1]
        return f"@{thing} .{next(f for f in fields if f.startswith('keys'))}"

    def walked(self):
        """The program along the way, or one turn of it from the loop's start."""
        things = [thing for thing, _, _ in self.way]
        way = self.way
        if "loop" in things:
            way = way[things.index("loop") + 1:]
        elif self.rule:
            way = [step for step in way if step[0] != "if1"]
        walk = CycleWalk(way, self.allowed, self.ask, BRACE if self.function == "dt-node-body" else "unlabelled")
        return walk, *walk.emit(PROGRAMS[self.function][1])

    def turn(self):
        """A turn that goes on: less is left, the lengths are kept, the loop from here is the loop from the start."""
        _, term, _ = self.walked()
        last = self.calls()[-1]
        result = f"@{last} .result" if plain(last) in PARSERS else f"@{last} .result .p"
        less, kept = self.progress(*self.open), self.kept()
        falls = f"(ahead-falls ({ROWS}) (@loop .q .s) ({result} .s) ({less}))"
        equation = f"again-prog {self.allowed} {term} {falls} ∙ {LOOP}"
        return PROGRAMS[self.function][0], f"({less},\n({kept},\n({kept},\n({kept},\n{equation}))))"

    def refused(self):
        """No call may be opened: the rule is closed."""
        equation = f"ap (said no) (@refuse .ensures .0 _ _ _) ∙ rule-closed ({ALLOWED}) {TOKENS} {self.rule} _ (eqb-true ({ALLOWED}) 0 (@if1 .taken))"
        if self.function == "item":
            equation = on(equation)
        less = f"omega (arith, @refuse .ensures .1 ({ROWS}) (@@ .good .1 .0 .0))"
        if self.function in ENSURE_YES:
            less = f"({less}, λ e. absurd (false≢true e))"
        return "", f"({equation},\n{less})"

    def returned(self):
        walk, term, answer = self.walked()
        more = [*self.open, *self.found(), *self.answered_left(walk)]
        unfolds = PROGRAMS[self.function][0]
        if self.function == "dt-node-body":
            unfolds = "dt-node-body " + unfolds
        equation = self.answered(walk, answer) + self.equation(walk, term, answer)
        return unfolds, f"({equation},\n{self.less(walk, answer, more)})"

    def less(self, walk, answer, more):
        """What the contract says of what is left."""
        always = self.progress(*more)
        if self.function not in ENSURE_YES:
            return always
        if answer == "no":
            no = f"(sym (@{walk.returned_no} .left) ∙ e)" if walk.returned_no else "e"
            return f"({always}, λ e. absurd (false≢true {no}))"
        if answer is None and CALLS[plain(walk.last)] == "yes":
            return f"({always}, λ e. {self.progress(*more, f'@{walk.last} .ensures .1 .1 e')})"
        return f"({always}, λ e. {always})"

    def found(self):
        """How much a node's or a property's prefix has surely taken, by the arm."""
        if self.function != "eat-node-or-prop":
            return []
        given = [thing for thing, _, fields in self.way if thing.startswith("enum-") and "given" in fields]
        return [f"ap took-unless-no (@{given[0]} .given .1)" if given else f"unless-no-other (@eat-node-or-prop-prefix .result .ans) ({self.tags()})"]

    def answered_left(self, walk):
        return [f"answered-left ({ROWS}) (@{thing} .result) (@{walk.last} .result) (@{thing} .ensures .0)" for thing, _ in self.named("answered")]

    def answered(self, walk, answer):
        """Where a call's result is returned through `answered`: that it is the same."""
        for thing, _ in self.named("answered"):
            same = f"(@{thing} .result) (@{walk.last} .result) _ _ _ (@{thing} .ensures .0) (@{thing} .ensures .1)"
            return f"answered-yes {same} (@{walk.test[0]} .taken) ∙ " if answer == "yes" else f"answered-is {same} ∙ "
        return ""

    def equation(self, walk, term, answer):
        """That what is returned is the walk of the program."""
        if self.function in CLOSING:
            return f"closes {self.allowed} {term} {walk.closes}"
        own = getattr(self, "of_" + self.function.replace("-", "_"), None)
        return own(walk, term, answer) if own else f"way {self.allowed} {term}"

    def last_turn(self, walk, term, answer):
        """The loop, by its last turn."""
        ended = f"last-{answer} {self.allowed} {term}"
        if walk.returned_yes:
            ended = f"as-yes (@{walk.returned_yes} .taken) ({ended})"
        return f"{ended} ∙ {LOOP}"

    def rule_body(self):
        return f"rule-body ({ALLOWED}) {TOKENS} {self.rule} _ (omega (arith, {OPEN}))"

    def of_cells(self, walk, term, answer):
        return self.last_turn(walk, term, answer)

    def of_propvalues(self, walk, term, answer):
        return f"{self.last_turn(walk, term, answer)} ∙ {self.rule_body()}"

    def of_eat_cell(self, walk, term, answer):
        return f"way {self.allowed} {term} ∙ cell-body-is {self.allowed} {TOKENS} (@@ .args .until-end) _ ∙ {self.rule_body()}"

    def of_item(self, walk, term, answer):
        return on(f"way {self.allowed} {term} ∙ {self.rule_body()}")

    def of_dt_node_body(self, walk, term, answer):
        """The brace, the loop, and the end, which closes the marker."""
        loop = f"(c-prog {self.allowed} ({self.last_turn(walk, term, answer)}))"
        body = f"(c-seq (c-act (@bump .ensures .0 {BRACE} _ _)) (c-seq {loop} c-any))"
        return f"closes {self.allowed} (c-brace (@range .ensures _ _ _ _) {body}) (closing (@node-end .ensures .0 {self.ask}))"

    def of_branch(self, walk, term, answer):
        """A marker around the loop."""
        step = "c-yes {t = true}" if answer == "yes" else "c-no {t = false}"
        loop = f"(c-prog {self.allowed} ({self.last_turn(walk, term, answer)}))"
        return f"way {self.allowed} (c-mark (@new .ensures) (@start .ensures .0 _ _) ({step} {loop} refl c-ret) {walk.completed()})"

    def of_cond_branches_and_end(self, walk, term, answer):
        """The loop, and the directive that ends the conditional."""
        loop = f"(c-prog {self.allowed} ({self.last_turn(walk, term, answer)}))"
        return f"prog-on {self.allowed} (c-seq {loop} {walk.leaf('expect', None)})"
