# Writes the proofs of the crate `names`. Run in the repository:
#   rt dev names --generated target/generated/names
#   python3 tools/proofs/names_proofs.py target/generated/names; rt fmt
# The first command writes what the check generates for each function; it may fail, and writes all the same.
# macros_proofs.py does the same for the crate `macros`.
import os
import re
import sys

sys.path.insert(0, os.path.dirname(__file__))
from code_proofs import Crate

# What a call ensures of what is left. le: no more. all: the same, for every list. yes: no more, and something of the
# answer yes.
CALLS = {
    **dict.fromkeys("bump bump-name error peek consume macro-invocation arguments argument-list path-segment path-segments path-rest path reference-noamp".split(), "le"),
    **dict.fromkeys("start complete ignore add-expected push-expected".split(), "all"),
    **dict.fromkeys("silent silent-at silent-at-set silent-at-macro-invocation-with-args at at-immediate eat expect silent-eat bump-argument at-segment".split(), "yes"),
    "at-end": "end",
    "new": "none",
}

# Calls that lend no buffer to write.
LOOKS = "new peek silent silent-at silent-at-set silent-at-macro-invocation-with-args at at-immediate at-end at-segment add-expected push-expected kind-at role-of".split()

# Where a name comes from, for all crates.
MODULES = {
    "Prim.Native.Nat": "ℕ _+_ _-_ _/_ _≤_ _<_",
    "mathlib.Core.Path": "_≡_ refl sym ap _∙_",
    "mathlib.Core.Bool": "true false false≢true",
    "mathlib.Core.List": "List",
    "native.Mathlib.Omega": "arith",
    "native.Mathlib.Nat": "le-refl",
    "lib.Dec": "lit<",
    "lib.ListN": "length drop",
    "borrow.Author.Tests": "eqb-true eqb-false",
    "Rattle·basics.proofs.Flags": "flags",
    "Rattle·definitions.specs.Token": "tokens-of",
    "Rattle·definitions.specs.Skeleton": "Span",
    "Rattle·definitions.specs.Prog": "Rule again yes loop",
    "Rattle·definitions.specs.Run": "truth",
    "Rattle·definitions.specs.Check": "Name",
    "Rattle·definitions.specs.Grammar": "macro-argument-turn path-turn MacroSubstitutableName UnitAddress Reference",
    "Rattle·machine.specs.Machine": "Machine",
    "Rattle·machine.specs.Walk": "Walked walk unlabelled",
    "Rattle·machine.proofs.Turns": "argue few-rows",
    "Rattle·machine.proofs.Way": "c-walk c-act c-ret c-seq",
    "Rattle·parser.specs.View": "view tokens-left",
    "Rattle·steps.proofs.Ways": "whole ends opened lands shown if-no if-yes completes turns stops-yes stops-no",
    "Rattle·steps.proofs.Left": "ahead-falls",
}

# Where a name comes from, in `names` alone.
NAMES_MODULES = {
    "Rattle·names·proofs.proofs.Opened": "silent-eat-is eat-is expect-is name-matches-is name-expected-is name-consume-is name-at-is address-matches-is address-expected-is address-consume-is reference-matches-is reference-expected-is reference-consume-is path-segment-is at-segment-is path-turn-is path-rest-is path-is reference-noamp-is",
}


class Ways(Crate):
    def __init__(self, name, generated, modules):
        super().__init__(name, generated, os.path.join("crates", name), CALLS, LOOKS)
        self.modules = {**MODULES, **modules}

    def write(self, fn, text):
        """Puts the use lines below the heading."""
        head, rest = text.split("\n", 1)
        body = re.sub(r"^use .*$", "", rest, flags=re.M)
        words = set(re.findall(r"(?<![\w.-])[^\s(){},.]+", body))
        uses = []
        for module, names in self.modules.items():
            found = [n for n in names.split() if n in words or (n.startswith("_") and n.strip("_") in words)]
            if found:
                uses.append(f"use {module}.{{{', '.join(found)}}}")
        super().write(fn, "\n".join([head, *uses, rest]))


def answered(test, way):
    """The test's answer, for `if-yes` and `if-no`."""
    return f"(ap truth (@{test} .{way}))"


def act(call, more="_ _ _"):
    return f"(c-act (@{call} .ensures .0 b {more}))"


def does(call, more=""):
    return f"(c-walk (@{call} .ensures .0 ask b {more}))"


def lands(call, more=""):
    return f"(lands (@{call} .ensures .0 ask b {more}))"


def yes(test, asked, then):
    return f"(if-yes {asked} {answered(test, 'taken')} {then})"


def no(test, asked, then):
    return f"(if-no {asked} {answered(test, 'left')} {then})"


def on(way, given="ask b"):
    """What a function without an answer returns."""
    return f"(λ {given}. ends {way}, omega (flags, PROGRESS))"


def said(way, given="ask b"):
    return f"(λ {given}. whole {way}, omega (flags, PROGRESS))"


def said_yes(way, given="ask b"):
    """What a function returns that answers yes here."""
    return f"(λ {given}. whole {way}, (omega (flags, PROGRESS), λ h. omega (flags, PROGRESS)))"


def said_no(way, given="ask b"):
    return f"(λ {given}. whole {way}, (omega (flags, PROGRESS), λ h. absurd (false≢true h)))"


def then(*ways):
    return ways[0] if len(ways) == 1 else f"(c-seq {ways[0]} {then(*ways[1:])})"


def opened(name, way):
    return f"(opened {name} {way})"


def node(inside, end="complete"):
    """A marker around, started by `start` and completed."""
    return f"(completes (lit< tt) (@new .ensures) (@start .ensures .0 _ _ _) {then(inside, 'c-ret')} (@{end} .ensures .0 _ _ _))"


def main(generated):
    c = Ways("names", generated, NAMES_MODULES)
    t = "(@@ .args .tokens .now)"
    ts = f"(tokens-of {t})"

    # ---- macro_substitutable_name.rt
    c.proof("macro_substitutable_name/at", {
        "returns": "(λ ask b events reports pool. whole (opened name-at-is (c-walk (@at .ensures .0 ask b events reports pool))), @at .ensures .1)",
    }, "`at`: the test of a plain name.")
    c.proof("macro_substitutable_name/consume", {
        "returns": said(opened("name-consume-is", yes("if1", does("silent-at-macro-invocation-with-args", "_ _ _ _"), does("macro-invocation")))),
        "returns-2": said(opened("name-consume-is", no("if1", does("silent-at-macro-invocation-with-args", "_ _ _ _"), act("bump-name")))),
    }, "`consume`: a macro invocation with arguments, or a name.")
    c.proof("macro_substitutable_name/eat", {
        "returns": said_yes(opened("(eat-is MacroSubstitutableName)", yes("if1", opened("name-matches-is", act("silent", "_ _ _ _")), then(does("consume"), "c-ret")))),
        "returns-2": said_no(opened("(eat-is MacroSubstitutableName)", no("if1", opened("name-matches-is", act("silent", "_ _ _ _")), then(opened("name-expected-is", f"(c-walk (@push-expected .ensures .0 ask {ts} b _ _ _))"), "c-ret")))),
    }, "`eat`: the test, and the name, or else its expectation.")
    c.proof("macro_substitutable_name/expect", {
        "returns": on(opened("(expect-is MacroSubstitutableName)", yes("if1", does("eat"), "c-ret"))),
        "returns-2": on(opened("(expect-is MacroSubstitutableName)", no("if1", does("eat"), then(does("error"), "c-ret")))),
    }, "`expect`: what `eat` takes, or a report.")

    # ---- unit_address.rt
    c.proof("unit_address/consume", {
        "returns": said(opened("address-consume-is", node(then(act("bump"), lands("expect"))))),
    }, "`consume`: an AtSign and a name, in a UnitAddress.", own={"expect": "le"})
    for matcher, module, file in (("UnitAddress", "address", "unit_address"), ("Reference", "reference", "reference")):
        test = opened(f"{module}-matches-is", act("silent-at", "_ _ _ _"))
        c.proof(f"{file}/eat", {
            "returns": said_yes(opened(f"(eat-is {matcher})", yes("if1", test, then(does("consume"), "c-ret")))),
            "returns-2": said_no(opened(f"(eat-is {matcher})", no("if1", test, then(opened(f"{module}-expected-is", f"(c-act (@add-expected .ensures .0 {ts} b _ _ _))"), "c-ret")))),
        }, "`eat`: the test, and what it begins, or else its expectation.")
    c.proof("reference/silent_eat", {
        "returns": said_yes(opened("(silent-eat-is Reference)", yes("if1", test, then(does("consume"), "c-ret")))),
        "returns-2": f"(λ ask b. whole (shown (@if1 .left) (opened (silent-eat-is Reference) (if-no {test} {answered('if1', 'left')} c-ret))), (omega (flags, PROGRESS), λ h. absurd (false≢true (sym (@if1 .left) ∙ h))))",
    }, "`silent_eat`: the test, and the reference.")

    # ---- reference.rt
    c.proof("reference/path_segment", {
        "returns": on(opened("path-segment-is", yes("if1", does("eat", "_ _"), does("eat2")))),
        "returns-2": on(opened("path-segment-is", no("if1", does("eat", "_ _"), does("error")))),
    }, "`path_segment`: a name and perhaps a unit address, or a report.")
    at, end, branch, endif = does("at", "_ _ _"), act("at-end", "_ _ _ _"), act("silent-at-set", "_ _ _ _"), act("silent-at", "_ _ _ _")
    steps = lambda *ws: opened("at-segment-is", conj(ws))
    c.proof("reference/at_segment", {
        "returns": said_no(steps(("if1", at, "taken")), "ask b events reports pool"),
        "returns-2": said_no(steps(("if1", at, "left"), ("if2", end, "taken")), "ask b events reports pool"),
        "returns-3": said_no(steps(("if1", at, "left"), ("if2", end, "left"), ("if3", branch, "taken")), "ask b events reports pool"),
        "returns-4": said_no(steps(("if1", at, "left"), ("if2", end, "left"), ("if3", branch, "left"), ("if4", endif, "taken")), "ask b events reports pool"),
        "returns-5": said_yes(steps(("if1", at, "left"), ("if2", end, "left"), ("if3", branch, "left"), ("if4", endif, "left")), "ask b events reports pool"),
    }, "`at_segment`: four tests, of which each may end the path.")
    c.proof("reference/path_segments", {
        "loop-holds": "(λ ask b. refl, (le-refl _, (refl, (refl, refl))))",
        "loop-less": "omega (flags, PROGRESS)",
        "loop-again": f"(λ ask b. turns (opened path-turn-is (if-yes {does('at-segment', '_ _ _')} {answered('if1', 'taken')} {then(then(does('expect'), lands('path-segment')), 'c-ret')})) (ahead-falls {t} (@loop .q) (@path-segment .result) (omega (flags, PROGRESS))) ∙ @loop .inv .0 ask b, (omega (flags, PROGRESS), (omega (arith, KEPT), (omega (arith, KEPT), omega (arith, KEPT)))))",
        "returns": f"(λ ask b. stops-yes (opened path-turn-is (if-no {does('at-segment', '_ _ _')} {answered('if1', 'left')} c-ret)) ∙ @loop .inv .0 ask b, omega (flags, PROGRESS))",
    }, "`path_segments`: the loop of `path-turn`.",
        inv=("codes₀ tokens events₀ reports₀ pool₀ q₀ codes events reports pool q",
             "((ask : Rule → Machine → Walked) (b : Span) → walk ask (tokens-of tokens) b (loop path-turn) (view q codes events reports pool) ≡ walk ask (tokens-of tokens) b (loop path-turn) (view q₀ codes₀ events₀ reports₀ pool₀)) × ((tokens-left tokens q ≤ tokens-left tokens q₀) × ((length events ≡ length events₀) × ((length reports ≡ length reports₀) × (length pool ≡ length pool₀))))"),
        measure="tokens-left tokens q")
    c.proof("reference/path_rest", {
        "returns": on(opened("path-rest-is", then(does("path-segments"), does("expect")))),
    }, "`path_rest`: the segments, and the RCurly.")
    c.proof("reference/path", {
        "returns": on(opened("path-is", yes("if1", does("eat", "_ _"), yes("if2", does("eat2", "_ _"), "c-ret")))),
        "returns-2": on(opened("path-is", yes("if1", does("eat", "_ _"), no("if2", does("eat2", "_ _"), then(lands("path-segment"), lands("path-rest")))))),
        "returns-3": on(opened("path-is", no("if1", does("eat", "_ _"), then(yes("if3", does("eat3", "_ _"), "c-ret"), lands("path-rest2"))))),
        "returns-4": on(opened("path-is", no("if1", does("eat", "_ _"), then(no("if3", does("eat3", "_ _"), does("error")), lands("path-rest3"))))),
    }, "`path`: absolute, or from a label.")
    args = does("silent-at-macro-invocation-with-args", "_ _ _ _")
    c.proof("reference/reference_noamp", {
        "returns": on(opened("reference-noamp-is", yes("if1", does("eat", "_ _"), lands("path")))),
        "returns-2": on(opened("reference-noamp-is", no("if1", does("eat", "_ _"), yes("if2", args, does("macro-invocation"))))),
        "returns-3": on(opened("reference-noamp-is", no("if1", does("eat", "_ _"), no("if2", args, yes("if3", does("eat2", "_ _"), "c-ret"))))),
        "returns-4": on(opened("reference-noamp-is", no("if1", does("eat", "_ _"), no("if2", args, no("if3", does("eat2", "_ _"), does("error")))))),
    }, "`reference_noamp`: a path, a macro invocation with arguments, or a label.")
    c.proof("reference/consume", {
        "returns": said(opened("reference-consume-is", node(then(act("bump"), lands("reference-noamp"))))),
    }, "`consume`: an Ampersand and a reference, in a DtPhandle.")

    # ---- lib.rt: the whole parser by value
    c.proof("silent_eat_reference", {"returns": "@silent-eat .ensures"}, "`silent_eat_reference`, with the codes in the parser.")
    c.proof("reference_noamp", {"returns": "@reference-noamp .ensures"}, "`reference_noamp`, with the codes in the parser.")


def yes_not(test, asked, then_):
    """`if not! asked then ..`, where asked answered no."""
    return f"(if-yes (if-no {asked} {answered(test, 'left')} c-ret) refl {then_})"


def no_not(test, asked, else_):
    return f"(if-no (if-yes {asked} {answered(test, 'taken')} c-ret) refl {else_})"


def conj(steps):
    """`not! a and not! b and ..`: each test answered no, except the last where it was taken."""
    (test, asked, way), rest = steps[0], steps[1:]
    this = f"(if-{'yes' if way == 'taken' else 'no'} {asked} {answered(test, way)} c-ret)"
    if way == "taken":
        # the last operand of all stands alone
        return this if test == "if4" else f"(if-no {this} refl c-ret)"
    return this if test == "if4" else f"(if-yes {this} refl {conj(rest)})"


if __name__ == "__main__":
    main(sys.argv[1])
