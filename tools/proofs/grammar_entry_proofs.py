# Writes the proofs of the functions of crate `grammar` that are not in its cycle of calls: the entries, and
# `catch_unmatched_pp_directive`. Run in the repository:
#   rt dev grammar --generated target/generated/grammar
#   python3 tools/proofs/grammar_entry_proofs.py target/generated/grammar; rt fmt
# The first command writes what the check generates for each function; it may fail, and writes all the same. Where a
# function has no proof file yet, give it one with a hole first, or the check searches for each need. The cycle:
# grammar_cycle_proofs.py.
import os
import re
import sys

sys.path.insert(0, os.path.dirname(__file__))
from code_proofs import Crate

# What a call ensures of what is left. le: no more. all: the same, for every list. yes: no more, and something of the
# answer yes.
CALLS = {
    **dict.fromkeys("bump error cond-branches-and-end unmatched-rcurly item sourcefile-part entry-sourcefile reference-noamp propvalues cells enter left-over".split(), "le"),
    **dict.fromkeys("start complete".split(), "all"),
    **dict.fromkeys("silent-at silent-at-set catch-unmatched-pp-directive".split(), "yes"),
    "at-end": "end",
    "new": "none",
}

# Calls that lend no buffer to write.
LOOKS = "new silent-at silent-at-set at-end".split()

# Where a name comes from.
MODULES = {
    "Prim.Native.Nat": "_≤_",
    "mathlib.Core.Path": "_≡_ refl sym ap _∙_",
    "mathlib.Core.Bool": "true false false≢true",
    "mathlib.Core.List": "List",
    "native.Mathlib.Omega": "arith",
    "native.Mathlib.Nat": "le-refl",
    "lib.ListN": "length",
    "Rattle·definitions.specs.Layout": "MOST-OPEN-CALLS",
    "Rattle·definitions.specs.Token": "Token tokens-of",
    "Rattle·definitions.specs.Skeleton": "Span",
    "Rattle·definitions.specs.Prog": "Rule",
    "Rattle·definitions.specs.Check": "silent",
    "Rattle·definitions.specs.Grammar": "catch-unmatched-pp-directive sourcefile-part sourcefile-turn entry-sourcefile entry whole",
    "Rattle·machine.specs.Machine": "Machine",
    "Rattle·machine.specs.Walk": "Walked walk walk-rule walk-prog unlabelled",
    "Rattle·machine.proofs.Way": "Way c-walk c-act c-ret c-seq c-yes c-no c-mark completed c-call c-fn way",
    "Rattle·parser.specs.View": "tokens-left parser-view",
    "Rattle·steps.proofs.Left": "ahead-falls",
    "Rattle·steps.proofs.Steps": "c-ret-no c-any",
    "Rattle·grammar·specs.specs.declared.entry.Entrypoint": "Entrypoint",
    "Rattle·grammar·specs.specs.Subprograms": "entry-for",
    "Rattle·grammar·proofs.proofs.Ways": "c-prog-on prog-on again-prog last-yes c-assoc",
}

# `enter`: the program by the variant that a match has told.
ENTERED = """-- by the variant
entered : {ask : Rule → Machine → Walked} {ts : List Token} {b : Span} {m : Machine} {e f : Entrypoint} {w : Walked} → e ≡ f → Way ask ts b (entry (entry-for f)) m w → Way ask ts b (entry (entry-for e)) m w
entered {ask = ask} {ts = ts} {b = b} {m = m} h k = record { is = k .is ∙ sym (ap (λ (e : Entrypoint). walk ask ts b (entry (entry-for e)) m) h) }
"""


class Grammar(Crate):
    def write(self, fn, text):
        """Puts the use lines below the heading, and what a file has of its own below them."""
        own = ENTERED if fn == "entry/enter" else ""
        head, rest = text.split("\n", 1)
        body = re.sub(r"^use .*$|: tie\..*$|^pub .*$|^\S+-spec = .*$", "", rest, flags=re.M) + own
        words = set(re.findall(r"(?<![\w.@-])[^\s(){},.]+", body))
        uses = []
        for module, names in MODULES.items():
            found = [n for n in names.split() if n in words or (n.startswith("_") and n.strip("_") in words)]
            if found:
                uses.append(f"use {module}.{{{', '.join(found)}}}")
        given, rest = rest.split("\n\n", 1)
        super().write(fn, "\n".join([head, *uses, given, ""] + ([own] if own else []) + [rest]))


LEFT = "omega (arith, PROGRESS)"
KEPT = "omega (arith, KEPT)"
ROWS = "(@@ .args .tokens .now)"


def asked(allowed):
    """The rules that a function may call, with so many open calls left."""
    return f"(walk-rule {allowed} (tokens-of {ROWS})) unlabelled"


def directive(c):
    allowed = "(@@ .args .allowed)"
    endif = "(c-act (@silent-at .ensures .0 unlabelled _ _ _))"
    branch = "(c-act (@silent-at-set .ensures .0 unlabelled _ _ _))"
    wrapped = f"c-mark (@new .ensures) (@start .ensures .0 _ _) (c-assoc (c-seq (c-act (@bump .ensures .0 unlabelled _ _)) (c-prog-on {allowed} (@cond-branches-and-end .ensures .0) c-ret))) (completed (@complete .ensures .0 _ _))"
    opened = "catch-unmatched-pp-directive silent"
    c.proof("preprocessor_directive/catch_unmatched_pp_directive", {
        "returns": (opened, f"(way {allowed} (c-yes {endif} (@if1 .taken) (c-seq (c-walk (@error .ensures .0 {asked(allowed)})) c-ret)), ({LEFT}, λ h. {LEFT}))"),
        "returns-2": (opened, f"(way {allowed} (c-no {endif} (@if1 .left) (c-yes {branch} (@if2 .taken) (c-seq (c-walk (@error2 .ensures .0 {asked(allowed)})) (c-seq ({wrapped}) c-ret)))), ({LEFT}, λ h. {LEFT}))"),
        "returns-3": (opened, f"(way {allowed} (c-no {endif} (@if1 .left) (c-no {branch} (@if2 .left) (c-ret-no (@if2 .left)))), ({LEFT}, λ h. absurd (false≢true (sym (@if2 .left) ∙ h))))"),
    }, "`catch_unmatched_pp_directive`: an `#endif`, or a branch, without its conditional.")


def source_file(c):
    rcurly = "(c-act (@silent-at .ensures .0 unlabelled _ _ _))"
    caught = "(c-fn MOST-OPEN-CALLS (@catch-unmatched-pp-directive .ensures .0))"
    opened = "sourcefile-part silent"
    c.proof("entry/sourcefile_part", {
        "returns": (opened, f"(prog-on MOST-OPEN-CALLS (c-yes {rcurly} (@if1 .taken) (c-walk (@unmatched-rcurly .ensures .0 {asked('MOST-OPEN-CALLS')}))), {LEFT})"),
        "returns-2": (opened, f"(prog-on MOST-OPEN-CALLS (c-no {rcurly} (@if1 .left) (c-yes {caught} (@if2 .taken) c-ret)), {LEFT})"),
        "returns-3": (opened, f"(@item .ensures .0 ∙ prog-on MOST-OPEN-CALLS (c-no {rcurly} (@if1 .left) (c-no {caught} (@if2 .left) (c-call MOST-OPEN-CALLS refl))), {LEFT})"),
    }, "`sourcefile_part`: one turn of the loop over the source file.")
    whole = "walk-prog MOST-OPEN-CALLS (tokens-of tokens) unlabelled entry-sourcefile"
    end = "(c-act (@at-end .ensures .0 unlabelled _ _ _))"
    opened = "entry-sourcefile sourcefile-turn"
    c.proof("entry/entry_sourcefile", {
        "loop-holds": "(refl, (le-refl _, (refl, (refl, refl))))",
        "loop-less": LEFT,
        "loop-again": (opened, f"(again-prog MOST-OPEN-CALLS (c-yes {{t = true}} (c-no {end} (@if1 .left) c-ret) refl (c-prog-on MOST-OPEN-CALLS (@sourcefile-part .ensures .0) c-ret)) (ahead-falls {ROWS} (@loop .q .s) (@sourcefile-part .result .s) ({LEFT})) ∙ @loop .inv .0, ({LEFT}, ({KEPT}, ({KEPT}, {KEPT}))))"),
        "returns": (opened, f"(last-yes MOST-OPEN-CALLS (c-no {{t = false}} (c-yes {end} (@if1 .taken) c-ret) refl c-ret) ∙ @loop .inv .0, {LEFT})"),
    }, "`entry_sourcefile`: the loop of `sourcefile-turn`.",
        inv=("tokens events₀ reports₀ pool₀ q₀ events reports pool q",
             f"({whole} (parser-view q events reports pool) ≡ {whole} (parser-view q₀ events₀ reports₀ pool₀)) × ((tokens-left tokens (q .s) ≤ tokens-left tokens (q₀ .s)) × ((length events ≡ length events₀) × ((length reports ≡ length reports₀) × (length pool ≡ length pool₀))))"),
        measure="tokens-left tokens (q .s)")


def entries(c):
    c.proof("entry/enter", {
        "returns": ("entry", f"(prog-on MOST-OPEN-CALLS (entered (@enum-told .given .1) (c-fn MOST-OPEN-CALLS (@entry-sourcefile .ensures .0))), {LEFT})"),
        "returns-2": ("entry", f"(@reference-noamp .ensures .0 {asked('MOST-OPEN-CALLS')} ∙ prog-on MOST-OPEN-CALLS (entered (@enum-told2 .given .1) c-any), {LEFT})"),
        "returns-3": ("entry", f"(prog-on MOST-OPEN-CALLS (entered (@enum-told3 .given .1) (c-call MOST-OPEN-CALLS (@propvalues .ensures .0))), {LEFT})"),
        "returns-4": ("entry", f"(prog-on MOST-OPEN-CALLS (entered (@enum-told4 .given .1) (c-fn MOST-OPEN-CALLS (@cells .ensures .0))), {LEFT})"),
    }, "`enter`: the entry that is asked for.")
    start = f"ap (λ (m : Machine). walk-prog MOST-OPEN-CALLS (tokens-of {ROWS}) unlabelled (whole (entry-for (@@ .args .entrypoint))) m .on) (@new .ensures _ _ _)"
    c.proof("entry/run_entry", {
        "returns": ("whole", f"prog-on MOST-OPEN-CALLS (c-prog-on MOST-OPEN-CALLS (@enter .ensures .0) (c-walk (@left-over .ensures .0 {asked('MOST-OPEN-CALLS')}))) ∙ {start}"),
    }, "`run_entry`: a new parser, the entry, and what it leaves.")


def main(generated):
    c = Grammar("grammar", generated, os.path.join("crates", "grammar"), CALLS, LOOKS)
    directive(c)
    source_file(c)
    entries(c)


if __name__ == "__main__":
    main(sys.argv[1])
