# Writes the proofs of the crate `macros`. Run in the repository:
#   rt dev macros --generated target/generated/macros
#   python3 tools/proofs/macros_proofs.py target/generated/macros; rt fmt
import os
import sys

sys.path.insert(0, os.path.dirname(__file__))
from names_proofs import Ways, act, answered, does, lands, no, no_not, node, on, opened, said, then, yes, yes_not

# Where a name comes from, in `macros` alone.
MODULES = {
    "Rattle·macros·specs.specs.Role": "role",
    "Rattle·macros·proofs.proofs.Opened": "macro-argument-turn-is argument-list-is macro-invocation-is",
    "Rattle·macros·proofs.proofs.Arguments": "role-opens role-ends role-comma role-closes role-plain role-less role-inner argue-comma argue-end argue-on argue-whole comma-some inside-some inside-most row-left few-left",
}


def main(generated):
    c = Ways("macros", generated, MODULES)
    k, level, t = "(@@ .args .k)", "(@@ .args .level)", "(@@ .args .tokens .now)"
    ts = f"(tokens-of {t})"

    # ---- invocation.rt
    c.proof("invocation/outer_role", {
        "returns": f"λ h i. role-comma {k} (@if1 .taken)",
        "returns-2": f"λ h i. role-closes {k} (@if2 .taken)",
        "returns-3": f"λ h i. role-plain {k} h i (@if2 .left) (@if1 .left)",
    }, "`outer_role`: a comma, an RParen, or any other token.")
    c.proof("invocation/role_of", {
        "returns": f"role-ends {k} {level} (@if1 .taken)",
        "add-t8": "omega flags",
        "returns-2": f"role-opens {k} {level} (@if2 .taken)",
        "returns-3": f"@outer-role .ensures (@if1 .left) (@if2 .left) ∙ ap (role {k}) (sym (eqb-true {level} 0 (@if3 .taken)))",
        "sub-t9": f"omega (flags, eqb-false {level} 0 (@if3 .left))",
        "returns-4": f"role-less {k} {level} (@if3 .left) (@if4 .taken)",
        "returns-5": f"role-inner {k} {level} (@if3 .left) (@if1 .left) (@if2 .left) (@if4 .left)",
    }, "`role_of`: the end, an LParen, and outside or inside inner brackets all others.")

    few = f"(few-rows {t} (omega arith))"
    here = f"{ts} (@loop .level) (view (@loop .q) codes (@loop .events) reports pool) (view (@peek .result) codes (@loop .events) reports pool) {few} (@peek .ensures .0 codes (@loop .events) reports pool) (@role-of .result) (@role-of .ensures ∙ ap (λ k. role k (@loop .level)) (@kind-at .ensures .0))"
    start = f"@loop .inv .0 codes reports pool ∙ argue-whole {ts} b (view (@@ .args .s) codes (@@ .args .events .now) reports pool)"
    kind = "(@kind-at .result) (@loop .level)"
    inside = f"row-left {t} (@peek .result) (@kind-at .ensures .1 (inside-some {kind} (@here-is .given .0 .0) (@role-of .result) (@role-of .ensures) (@here-is .given .1)))"
    c.proof("invocation/bump_argument", {
        "loop-holds": "(λ codes reports pool. refl, (le-refl _, refl))",
        "role-of-requires": f"omega (flags, @loop .inv .1 .0, few-left {t} (@@ .args .s) (omega arith))",
        "returns": f"(λ b codes reports pool. argue-comma {here} (@enum-told .given .1) ∙ {start}, (omega (flags, @peek .ensures .1, @loop .inv .1 .0), λ h. row-left {t} (@peek .result) (@kind-at .ensures .1 (comma-some {kind} (@role-of .result) (@role-of .ensures) (@enum-told .given .1)))))",
        "returns-2": f"(λ b codes reports pool. argue-end {here} (@enum-told2 .given .1) ∙ {start}, (omega (flags, @peek .ensures .1, @loop .inv .1 .0), λ h. absurd (false≢true h)))",
        "loop-less": f"omega (flags, {inside}, @peek .ensures .1, @bump .ensures .1)",
        "loop-again": f"(λ codes reports pool. argue-on {here} unlabelled (@here-is .given .0 .0) (view (@bump .result) codes _ reports pool) (@here-is .given .1) (@bump .ensures .0 unlabelled codes reports pool) ∙ @loop .inv .0 codes reports pool, (omega (flags, {inside}, inside-most {kind} (@here-is .given .0 .0) (@role-of .result) (@role-of .ensures) (@here-is .given .1), @peek .ensures .1, @bump .ensures .1, @loop .inv .1 .0), omega (arith, @bump .kept, @loop .inv .1 .1)))",
    }, "`bump_argument`: the rest of the argument from here is the argument from its start.",
        inv=("tokens events₀ q₀ level₀ events q level",
             "((codes reports pool : List ℕ) → argue (tokens-of tokens) level (view q codes events reports pool) ≡ argue (tokens-of tokens) level₀ (view q₀ codes events₀ reports pool)) × ((level + tokens-left tokens q ≤ level₀ + tokens-left tokens q₀) × (length events ≡ length events₀))"),
        measure="tokens-left tokens q")

    argument = lambda test, way: f"(completes (lit< tt) (@new .ensures) (@start .ensures .0 _ _ _) (if-{way[0]} (c-act (@bump-argument .ensures .0 b _ _ _)) {answered(test, way[1])} c-ret) (@complete .ensures .0 _ _ _))"
    c.proof("invocation/arguments", {
        "loop-holds": "(λ ask b codes reports pool. refl, (le-refl _, refl))",
        "loop-less": "omega (flags, PROGRESS)",
        "loop-again": f"(λ ask b codes reports pool. turns (opened macro-argument-turn-is (if-yes {argument('if1', ('yes', 'taken'))} refl (c-seq (c-act (@bump .ensures .0 b codes reports pool)) c-ret))) (ahead-falls {t} (@loop .q) (@bump .result) (omega (flags, PROGRESS))) ∙ @loop .inv .0 ask b codes reports pool, (omega (flags, PROGRESS), omega (arith, KEPT)))",
        "returns": f"(λ ask b codes reports pool. stops-yes (opened macro-argument-turn-is (if-no {argument('if1', ('no', 'left'))} refl c-ret)) ∙ @loop .inv .0 ask b codes reports pool, omega (flags, PROGRESS))",
    }, "`arguments`: the loop of `macro-argument-turn`.", tests={"bump-argument": "if1"},
        inv=("tokens events₀ q₀ events q",
             "((ask : Rule → Machine → Walked) (b : Span) (codes reports pool : List ℕ) → walk ask (tokens-of tokens) b (loop macro-argument-turn) (view q codes events reports pool) ≡ walk ask (tokens-of tokens) b (loop macro-argument-turn) (view q₀ codes events₀ reports pool)) × ((tokens-left tokens q ≤ tokens-left tokens q₀) × (length events ≡ length events₀))"),
        measure="tokens-left tokens q")
    c.proof("invocation/argument_list", {
        "returns": on(opened("argument-list-is", then(act("bump"), no_not("if1", does("at", "_ _ _"), "c-ret"), does("expect")))),
        "returns-2": on(opened("argument-list-is", then(act("bump"), yes_not("if1", does("at", "_ _ _"), does("arguments", "_ _ _")), does("expect2")))),
    }, "`argument_list`: the LParen, the arguments if there are any, the RParen.")
    c.proof("invocation/macro_invocation", {
        "returns": said(opened("macro-invocation-is", node(then(act("bump"), yes("if1", does("at-immediate", "_ _ _"), lands("argument-list")))))),
        "returns-2": said(opened("macro-invocation-is", node(then(act("bump"), no("if1", does("at-immediate", "_ _ _"), "c-ret")), "complete2"))),
    }, "`macro_invocation`: the Ident, and a list if an LParen is right after it.")

    # ---- lib.rt: the whole parser by value
    c.proof("macro_invocation", {"returns": "@macro-invocation .ensures"}, "`macro_invocation`, with the codes in the parser.")


if __name__ == "__main__":
    main(sys.argv[1])
