# Writes the proofs of a crate below `grammar`: ends, directives, prefixes or plain_cells. Run in the repository, NAME
# being the crate:
#   rt dev NAME --generated target/generated/NAME
#   python3 tools/proofs/below_grammar_proofs.py NAME target/generated/NAME; rt fmt
# The first command writes what the check generates for each function; it may fail, and writes all the same. Where a
# function has no proof file yet, give it one with a hole first, or the check searches for each need.
import os
import re
import sys

sys.path.insert(0, os.path.dirname(__file__))
from code_proofs import Crate, parse, way_to
from program_ways import AGAIN, NO, SAME_NO, SAME_YES, YES, Walk, both, by, call, close, flag, ignore, mark, name_places, negated, seq, starting, when

# What a call ensures of what is left. le: no more. all: the same, for every list. yes: no more, and something of the
# answer yes.
CALLS = {
    **dict.fromkeys("bump bump-all error emit expect-recoverable consume macro-invocation directive-end eat-deleted memreserve-arguments delete-arguments at-cells-end at-values-end after-propvalue label-or-name eat-unit-address-and-at-colon labels-and-name unfinished".split(), "le"),
    **dict.fromkeys("start complete ignore add-expected".split(), "all"),
    **dict.fromkeys("silent-at silent-at-set at eat eat-starting expect silent-eat eat-dts-include eat-directive-with-arguments eat-dts-directive at-item".split(), "yes"),
    "at-end": "end",
    "at-cells-recovery": "end",
    "new": "none",
    "some": "none",
    # two clauses, cited where they are used
    "turn": "own",
    "eat-node-or-prop-prefix": "le",
}

# Calls that lend no buffer to write.
LOOKS = "new some silent-at silent-at-set at at-end add-expected at-cells-end at-cells-recovery at-values-end at-item".split()

# The crates' own functions, and how many buffers their contracts are told.
TELLS = {**dict.fromkeys("memreserve-arguments delete-arguments eat-deleted eat-directive-with-arguments eat-dts-include macro-invocation label-or-name eat-unit-address-and-at-colon labels-and-name consume turn".split(), 0), "at-values-end": 3}

# Where a name comes from.
MODULES = {
    "Prim.Native.Nat": "ℕ _+_ _-_ _≤_ _<_",
    "mathlib.Core.Path": "_≡_ refl sym ap _∙_",
    "mathlib.Core.Bool": "true false false≢true true≢false",
    "mathlib.Core.List": "List [] _∷_",
    "native.Mathlib.Omega": "arith",
    "native.Mathlib.Nat": "le-refl",
    "lib.ListN": "length",
    "Rattle·definitions.specs.Token": "tokens-of",
    "Rattle·definitions.specs.Skeleton": "Span",
    "Rattle·definitions.specs.Prog": "Rule no loop",
    "Rattle·definitions.specs.Run": "truth",
    "Rattle·definitions.specs.Check": "set of-kind silent eat-starting_inside_else_",
    "Rattle·definitions.specs.Grammar": "eat-dts-include eat-dts-directive cells-end after-propvalue prefix-turn eat-node-or-prop-prefix Reference forbidden-property left-over-turn left-over",
    "Rattle·machine.specs.Machine": "Machine",
    "Rattle·machine.specs.Walk": "Walked said walk unlabelled",
    "Rattle·machine.proofs.Turns": "few-rows",
    "Rattle·machine.proofs.Way": "c-walk c-act c-ret c-seq c-yes c-no c-mark completed",
    "Rattle·parser.specs.View": "view parser-view tokens-left ans-of span-of",
    "Rattle·steps.specs.View": "own-name took-if-again took-unless-no",
    "Rattle·steps.proofs.Left": "ahead-falls some-left",
    "Rattle·steps.proofs.Ways": "turns stops-yes closes-to c-flag c-unclosed",
    "Rattle·steps.proofs.Steps": "c-started c-unstarted c-ret-yes c-ret-no c-any closing ignored again-one unless-no-one went-told ended-told other-ends no-also yes-also again-also some-is at-one at-none taken-some starting-some",
}

# What of a crate's own Subprograms its proofs name.
SUBPROGRAMS = {"ends": "at-values-end", "prefixes": "label-or-name"}


class Below(Crate):
    def write(self, fn, text):
        """Puts the use lines below the heading."""
        head, rest = text.split("\n", 1)
        body = re.sub(r"^use .*$", "", rest, flags=re.M)
        words = set(re.findall(r"(?<![\w.-])[^\s(){},.]+", body))
        uses = ["use Rattle·definitions.specs.TokenKind as K"] if "K" in words else []
        own = {f"Rattle·{self.name}·specs.specs.Subprograms": SUBPROGRAMS.get(self.name, "")}
        for module, names in {**MODULES, **own}.items():
            found = [n for n in names.split() if n in words or (n.startswith("_") and n.strip("_") in words)]
            if found:
                uses.append(f"use {module}.{{{', '.join(found)}}}")
        super().write(fn, "\n".join([head, *uses, rest]))

    def way(self, fn, program, rest, unfolds="", given="ask b", closing=False, before=None, own={}, head=None):
        """Along a tree: one equation by steps for each return, and the rest of the contract by `rest`."""
        records, needs = parse(os.path.join(self.generated, fn, "Lts.antt"))
        answers = {}
        for need, place in needs.items():
            if not need.startswith("returns"):
                continue
            steps, _ = way_to(records, place)
            walk = Walk(steps, TELLS, {"directive-end"})
            term, answer = walk.emit(program)
            equation = f"closes-to {term} {walk.closes}" if closing else f"{term} .is"
            if before and before[0] in [s[0] for s in steps]:
                equation = f"{before[1]} ∙ {equation}"
            text = f"(λ {given}. {equation}, {rest(need, answer, walk)})"
            answers[need] = (unfolds, text) if unfolds else text
        name = fn.split("/")[-1]
        self.proof(fn, answers, head or f"`{name}` is the walk of its program, step by step.", own=own)


# The use lines of `node_end`.
NODE_END = """use native.Mathlib.Omega.{arith}
use borrow.Author.Needs.{needs}
use Rattle·parser.specs.View.{span-of}
use Rattle·machine.proofs.Way.{c-walk, c-act, c-ret, c-seq, c-yes, c-no, completed}
use Rattle·steps.proofs.Ways.{closes-to, c-unclosed}"""


class NodeEnd(Crate):
    """`node_end` is written as the functions of the cycle are: its places have the names of the calls, and its use
    lines are given."""

    def resolve(self, text, way, start):
        return name_places(text, way, start)

    def write(self, fn, text):
        """No use line twice."""
        head, rest = text.split("\n\n", 1)
        super().write(fn, "\n".join(dict.fromkeys(head.split("\n"))) + "\n\n" + rest)


LEFT = "omega (arith, PROGRESS)"
KEPT = "omega (arith, KEPT)"

# The tokens, and an interpreter that a law on a take is cited for: any will do.
T = "(@@ .args .tokens .now)"
ASK = "(λ (r : Rule) (m : Machine). said no m)"


def le(need, answer, walk):
    return LEFT


def if_yes(more={}):
    """No more is left, and something of the answer yes."""
    def rest(need, answer, walk):
        if answer == "no":
            return f"({LEFT}, λ h. absurd (false≢true h))"
        return f"({LEFT}, λ h. omega (arith, PROGRESS{more.get(need, '')}))"
    return rest


def directives(c):
    end = call("directive-end")
    version = "(set (K.V1Directive ∷ K.PluginDirective ∷ []))"
    delete = "(set (K.DeleteNodeDirective ∷ K.DeletePropertyDirective ∷ []))"
    arguments = close("DtsDirectiveArguments")
    # what was taken was there
    there = f", some-left {T} (@@ .args .s) (starting-some {ASK} (tokens-of {T}) unlabelled K.DtIncludeDirective _ _ _ (@eat-starting .result .yes) (few-rows {T} (omega arith)) (@eat-starting .ensures .0 {ASK} unlabelled [] []) (@if1 .taken))"
    c.way("dts_directive/eat_dts_include", starting("(of-kind K.DtIncludeDirective)", seq(call("expect"), close("DtsDirective")), NO), if_yes({"returns": there}), "eat-dts-include eat-starting_inside_else_")
    c.way("dts_directive/directive_end", seq(call("expect-recoverable"), close("DtsDirective")), le, closing=True)
    c.way("dts_directive/memreserve_arguments", mark(seq(seq(call("expect"), call("expect")), arguments)), le)
    c.way("dts_directive/eat_deleted", when(call("eat", 0), SAME_YES, when(call("eat", 0), call("eat", 0), call("error"))), le)
    c.way("dts_directive/delete_arguments", mark(seq(call("eat-deleted"), arguments)), le)
    c.way("dts_directive/eat_directive_with_arguments", starting("(of-kind K.MemreserveDirective)", seq(call("memreserve-arguments"), end), starting(delete, seq(call("delete-arguments"), end), NO)),
          if_yes(), "eat-starting_inside_else_")
    c.way("dts_directive/eat_dts_directive", starting(version, end, when(call("eat-dts-include"), SAME_YES, call("eat-directive-with-arguments"))),
          if_yes({"returns-3": ", @eat-directive-with-arguments .ensures .1 .1 h"}), "eat-dts-directive eat-starting_inside_else_")


def lists(c):
    said = "ask b events reports pool"
    c.way("lists/at_item", both(negated(call("at")), negated(call("at-end"))), if_yes(), given=said)
    c.way("lists/at_cells_end", flag("cells-end", seq(call("add-expected"), call("at-end")), call("at")), le, "cells-end", said)

    def recovery(need, answer, walk):
        if walk.test[1] == "taken":
            return f"({LEFT}, λ h. absurd (true≢false (sym (@{walk.test[0]} .taken) ∙ h)))"
        return f"({LEFT}, λ h. {LEFT})"
    c.way("lists/at_cells_recovery", when(call("silent-at-set"), SAME_YES, when(call("at-end"), SAME_YES, when(call("silent-at-set"), SAME_YES, call("silent-at")))), recovery, "silent", "ask b codes events reports pool")
    c.way("lists/at_values_end", flag("at-values-end", by("at-one K.Semicolon", call("at")), by("at-none", call("silent-at-set"))), le, given=said)
    c.way("lists/after_propvalue", when(call("eat"), AGAIN, when(call("at-values-end"), YES, when(call("silent-at-set"), seq(call("error"), AGAIN), NO))),
          lambda need, answer, walk: f"({LEFT}, {answer}-also)", "after-propvalue silent")
    c.way("lists/unfinished", seq(call("error"), when(both(negated(call("silent-at-set")), negated(call("at-end"))), call("bump"), YES), close("ParseError")), le, "silent", closing=True)


def plain_cells(c):
    # what was taken was there
    number = f", some-left {T} (@add-expected .result) (taken-some {ASK} (tokens-of {T}) unlabelled (K.Number ∷ K.Char ∷ []) (set (K.Number ∷ K.Char ∷ [])) _ _ (@silent-eat .result .yes) refl (@silent-eat .ensures .0 {ASK} unlabelled [] [] []) (@if1 .taken))"
    ref = f", @silent-eat2 .ensures .1 .1 h, some-left {T} (@silent-at .result .s) (taken-some {ASK} (tokens-of {T}) unlabelled (K.Ampersand ∷ []) Reference _ _ (@silent-eat2 .result .yes) refl (@silent-eat2 .ensures .0 {ASK} unlabelled) h)"
    c.way("plain_cell/eat", seq(call("add-expected"), when(call("silent-eat"), SAME_YES, when(call("silent-at"), seq(call("macro-invocation"), YES), call("silent-eat", 0)))),
          if_yes({"returns": number, "returns-3": ref}), "silent Reference")


def prefixes(c):
    c.proof("node_or_prop_prefix/some", {
        "returns": "(refl, sym (ap own-name (@if1 .taken)))",
        "returns-2": "(refl, sym (ap own-name (@if1 .left)))",
    }, "`some` answers by its flag.")
    c.way("node_or_prop_prefix/eat_unit_address_and_at_colon", when(call("eat", 0), call("silent-at"), SAME_NO), le, "silent")
    some = "some-is (@some .result) (@ignore .result) _ _ _ _ _ (@some .ensures .0) (@some .ensures .1)"

    def name_or_label(need, answer, walk):
        same = ", ap (tokens-left (@@ .args .tokens .now)) (@some .ensures .0)" if answer == "own" else ""
        return f"omega (arith, PROGRESS{same})"
    c.way("node_or_prop_prefix/label_or_name", mark(seq(call("consume"), when(call("eat"), close("DtLabel", "again"), when(call("eat-unit-address-and-at-colon"), seq(call("error"), close("ParseError", "again")), ignore("own"))))),
          name_or_label, "silent", before=("some", some))

    def progress(need, answer, walk):
        one = "" if answer else ", again-one (@label-or-name .result .ans), unless-no-one (@label-or-name .result .ans)"
        return f"(omega (arith, PROGRESS{one}), omega (arith, PROGRESS{one}))"
    c.way("node_or_prop_prefix/turn", when(call("at", 3), call("label-or-name"), when(call("eat", 0), YES, when(call("eat", 2), YES, NO))),
          progress, "prefix-turn eat-starting_inside_else_")
    again = "@turn .ensures .1 .0, ap took-if-again (@enum-told .given .1)"
    whole = "walk ask (tokens-of tokens) b (loop (prefix-turn (own-name allow)))"
    c.proof("node_or_prop_prefix/labels_and_name", {
        "loop-holds": "(λ ask b. refl, (le-refl _, (refl, (refl, refl))))",
        "loop-less": f"omega (arith, {again})",
        "loop-again": f"(λ ask b. went-told (@turn .result .ans) (c-walk (@turn .ensures .0 ask b)) (ap ans-of (@enum-told .given .1)) (ahead-falls (@@ .args .tokens .now) (@loop .q) (@turn .result .s) (omega (arith, {again}))) ∙ @loop .inv .0 ask b, (omega (arith, {again}, @loop .inv .1 .0), (omega (arith, KEPT), (omega (arith, KEPT), omega (arith, KEPT)))))",
        "returns": "(λ ask b. ended-told (@turn .result .ans) (c-walk (@turn .ensures .0 ask b)) (other-ends (@turn .result .ans) (@match .keys2)) ∙ @loop .inv .0 ask b, omega (arith, @turn .ensures .1 .1, @loop .inv .1 .0))",
    }, "`labels_and_name`: the loop of `prefix-turn`.",
        inv=("codes₀ tokens events₀ reports₀ pool₀ allow q₀ codes events reports pool q",
             f"((ask : Rule → Machine → Walked) (b : Span) → {whole} (view q codes events reports pool) ≡ {whole} (view q₀ codes₀ events₀ reports₀ pool₀)) × ((tokens-left tokens q ≤ tokens-left tokens q₀) × ((length events ≡ length events₀) × ((length reports ≡ length reports₀) × (length pool ≡ length pool₀))))"),
        measure="tokens-left tokens q")
    c.way("node_or_prop_prefix/eat_node_or_prop_prefix", when(call("eat"), call("labels-and-name"), call("labels-and-name")), le, "eat-node-or-prop-prefix")


def answers(c):
    c.proof("nodes/answered", {
        "returns": "(refl, sym (ap truth (@if1 .taken)))",
        "returns-2": "(refl, sym (ap truth (@if1 .left)))",
    }, "`answered` answers by its flag.")
    c.proof("nodes/forbidden_property", {
        "returns": ("forbidden-property", "(λ ask b events reports pool. c-flag forbidden-property (@if1 .taken) c-ret .is, omega arith)"),
        "returns-2": ("forbidden-property silent", f"(λ ask b events reports pool. c-flag forbidden-property (@if1 .left) (c-act (@silent-at-set .ensures .0 b events reports pool)) .is, {LEFT})"),
    }, "`forbidden_property`: no test where properties are allowed.")


def node_end(c):
    brace = "(span-of (@@ .args .lcurly-span))"
    end = f"(c-act (@at-end .ensures .0 {brace} _ _ _))"
    brackets = f"c-seq (c-walk (@expect .ensures .0 ask {brace})) (c-seq (c-walk (@expect-recoverable .ensures .0 ask {brace})) c-ret)"
    # nothing is needed of the test that failed
    left = "omega (arith, @at-end .ensures .1 .0, @expect .ensures .1 .0, @expect-recoverable .ensures .1, @complete2 .ensures .1 (@@ .args .tokens .now))"
    c.proof("nodes/node_end", {
        "returns": f"(λ ask. closes-to (c-yes {end} (@if1 .taken) (c-seq (c-unclosed (@emit .ensures .0)) c-ret)) (completed (@complete .ensures .0 _ _)),\n    {LEFT})",
        "returns-2": f"(λ ask. closes-to (c-no {end} (@if1 .left) ({brackets})) (completed (@complete2 .ensures .0 _ _)),\n    {left})",
    }, "`node_end`: the end of a node's body.", uses=NODE_END.split("\n"))


def unmatched_rcurly(c):
    marked = "c-mark (@new .ensures) (@start .ensures .0 _ _) (c-seq (c-act (@bump .ensures .0 b _ _)) c-ret) (completed (@complete .ensures .0 _ _))"
    c.proof("nodes/unmatched_rcurly", {
        "returns": f"(λ ask b. c-seq (c-walk (@error .ensures .0 ask b)) ({marked}) .is, {LEFT})",
    }, "`unmatched_rcurly`: a report, and the bracket in a node of its own.")


def left_over(c):
    whole = "walk ask (tokens-of tokens) b (loop left-over-turn)"
    end = "(c-act (@at-end .ensures .0 b _ reports pool))"
    c.proof("nodes/bump_all", {
        "loop-holds": "(λ ask b reports pool. refl, (le-refl _, refl))",
        "loop-less": LEFT,
        "loop-again": ("left-over-turn", f"(λ ask b reports pool. turns (c-yes {{t = true}} (c-no {end} (@if1 .left) c-ret) refl (c-seq (c-act (@bump .ensures .0 b reports pool)) c-ret)) (ahead-falls {T} (@loop .q .s) (@bump .result .s) ({LEFT})) ∙ @loop .inv .0 ask b reports pool, ({LEFT}, {KEPT}))"),
        "returns": ("left-over-turn", f"(λ ask b reports pool. stops-yes (c-no {{t = false}} (c-yes {end} (@if1 .taken) c-ret) refl c-ret) ∙ @loop .inv .0 ask b reports pool, {LEFT})"),
    }, "`bump_all`: the loop of `left-over-turn`.",
        inv=("tokens events₀ q₀ events q",
             f"((ask : Rule → Machine → Walked) (b : Span) (reports pool : List ℕ) → {whole} (parser-view q events reports pool) ≡ {whole} (parser-view q₀ events₀ reports pool)) × ((tokens-left tokens (q .s) ≤ tokens-left tokens (q₀ .s)) × (length events ≡ length events₀))"),
        measure="tokens-left tokens (q .s)")
    end = "(c-act (@at-end .ensures .0 b _ _ _))"
    wrapped = "c-mark (@new .ensures) (@start .ensures .0 _ _) (c-seq (c-seq (c-walk (@error .ensures .0 ask b)) (c-walk (@bump-all .ensures .0 ask b _ _))) c-ret) (completed (@complete .ensures .0 _ _))"
    c.proof("nodes/left_over", {
        "returns": ("left-over", f"(λ ask b. c-yes {end} (@if1 .taken) c-ret .is, {LEFT})"),
        "returns-2": ("left-over", f"(λ ask b. c-no {end} (@if1 .left) (c-seq (c-act (@add-expected .ensures .0 (tokens-of {T}) b _ _ _)) ({wrapped})) .is, {LEFT})"),
    }, "`left_over`: what an entry leaves, in one node.")


def covers(c, functions):
    """The functions for the cycle of calls, which has the codes in the parser."""
    for fn in functions.split():
        callee = {"eat_plain_cell": "eat"}.get(fn, fn.replace("_", "-"))
        # one that takes no codes ensures its equation for any
        ensured = f"(λ ask b. @{callee} .ensures .0 ask b _, @{callee} .ensures .1)" if fn == "at_cells_recovery" else f"@{callee} .ensures"
        c.proof(fn, {"returns": ensured}, f"`{fn}`, with the codes in the parser.")


def main(name, generated):
    crate = os.path.join("crates", name)
    c = Below(name, generated, crate, CALLS, LOOKS)
    if name == "directives":
        directives(c)
        covers(c, "eat_dts_include eat_dts_directive")
    elif name == "plain_cells":
        plain_cells(c)
        covers(c, "eat_plain_cell")
    elif name == "prefixes":
        prefixes(c)
        covers(c, "eat_node_or_prop_prefix")
    else:
        lists(c)
        answers(c)
        node_end(NodeEnd(name, generated, crate, CALLS, LOOKS))
        unmatched_rcurly(c)
        left_over(c)
        covers(c, "at_cells_end at_cells_recovery after_propvalue at_item unfinished")


if __name__ == "__main__":
    main(sys.argv[1], sys.argv[2])
