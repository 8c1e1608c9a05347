#!/usr/bin/env python3
"""Writes the proof of crate expr's cycle of calls, the files below
crates/expr/proofs/+expr_binding_power+..+ternary_rhs/, and that of `dt_expr`.

    rt dev expr --generated target/generated/expr; python3 tools/proofs/expr_proofs.py target/generated/expr; rt fmt

The first command writes what the check generates for each function; it may fail, and writes all the same. Where the
cycle has no proof file yet, give it one with a hole first, or the check searches for each need.

What a need's answer says stands here, in WAYS, RULE and LOOP: for each return the way through the function's program,
as steps of crates/machine/proofs/Way.antt, in the order of the code; «x» is the call or the test x on the way. The
script puts in the paths to these, and the facts for `omega`: what each call on the way ensures of the tokens left, and
that it keeps the buffers' lengths. Nothing is believed of it: the check reads what it wrote."""
import os
import re
import sys

sys.path.insert(0, os.path.dirname(__file__))
from code_proofs import Crate, parse

MEMBERS = ['expr_binding_power', 'infix_chain', 'infix_turn', 'lhs', 'missing_lhs', 'no_lhs', 'paren_expr', 'prefix_expr', 'rhs', 'ternary_rhs']
CYCLE = ''.join('+' + m for m in MEMBERS)
HOME = 'crates/expr/proofs/' + CYCLE + '/'
PROOFS = 'Rattle·expr·proofs.proofs.'
NAMES = [m.replace('_', '-') for m in MEMBERS]

# the order of the members at the same number of open calls left
RANK = {'expr-binding-power': 0, 'rhs': 1, 'prefix-expr': 1, 'paren-expr': 1, 'missing-lhs': 1, 'ternary-rhs': 2, 'no-lhs': 2,
        'infix-turn': 3, 'lhs': 3, 'infix-chain': 4}

TOKENS = '«s» .args .tokens .now'
ALLOWED = '«s» .args .allowed'
ASK = f'(walk-rule ({ALLOWED}) (tokens-of ({TOKENS})))'

# where a call's contract says what is left: always, and where its test held
LEFT = {'start': f'.ensures .1 ({TOKENS})', 'complete': f'.ensures .1 ({TOKENS})', 'ignore': f'.ensures .1 ({TOKENS})',
        'precede': f'.ensures .1 ({TOKENS})', 'bump': '.ensures .1', 'error': '.ensures .1', 'macro-invocation': '.ensures .1',
        'literal-expr': '.ensures .1', 'at': '.ensures .1 .0', 'silent-at': '.ensures .1 .0', 'at-prefix-op': '.ensures .1 .0',
        'expect': '.ensures .1 .0', 'infix-op-at': '.ensures .1 .1 .1 .1 .0', 'expr-binding-power': '.ensures .1 .0', 'lhs': '.ensures .1 .0',
        'infix-chain': '.ensures .1', 'infix-turn': '.ensures .1 .0', 'rhs': '.ensures .1', 'ternary-rhs': '.ensures .1',
        'prefix-expr': '.ensures .1', 'paren-expr': '.ensures .1', 'no-lhs': '.ensures .1', 'missing-lhs': '.ensures .1'}
LEFT_IF = ['at', 'silent-at', 'at-prefix-op', 'expect', 'expr-binding-power', 'lhs', 'infix-turn']
BUFFERS = {'start', 'bump', 'complete', 'ignore', 'precede', 'error', 'expect', 'macro-invocation', 'literal-expr'} | set(NAMES)


# ---------------------------------------------------------------- the ways

def walked(x, more=''):
    return f'c-walk («{x}» .ensures .0 {ASK} unlabelled{more})'


def failed(n, last):
    """The first n tests of `lhs` failed, and then last."""
    tests = ['at-prefix-op', 'at', 'at2', 'at3']
    for i in reversed(range(n)):
        last = f'(c-no ({walked(tests[i], " _ _ _")}) («if{i + 1}» .left) {last})'
    return last


def held(x, n, then):
    return f'(c-yes ({walked(x, " _ _ _")}) («if{n}» .taken) {then})'


def member(x):
    return f'(c-fn ({ALLOWED}) («{x}» .ensures .0))'


BUMP = '(c-act («bump» .ensures .0 unlabelled _ _))'
CALL = f'(c-call ({ALLOWED}) («expr-binding-power» .ensures .0))'
YES = '(«expr-binding-power» .result .yes)'
MARK = 'c-mark («new» .ensures) («start» .ensures .0 _ _)'
DONE = '(«complete» .ensures .0 _ _)'
OPERATOR = '(«infix-op-at» .result .left) («infix-op-at» .result .right) («infix-op-at» .ensures .0 _ _ _) («infix-op-at» .ensures .1 .0)'
TURN = f'(«s» .args .min-bp) {OPERATOR} («infix-op-at» .ensures .1 .1 .0)'
BINARY = '(at-binary («infix-op-at» .result .binary) («infix-op-at» .ensures .0 _ _ _) («infix-op-at» .ensures .1 .1 .1 .0))'
RPAREN = '(c-act («silent-at» .ensures .0 unlabelled _ _ _))'
MIDDLE = f'(c-yes {CALL} («if1» .taken) ({walked("expect")}))'

# member, return: what is unfolded, and the way
WAYS = {
    ('lhs', 'returns'): ('lhs-prog', held('at-prefix-op', 1, member('prefix-expr'))),
    ('lhs', 'returns-2'): ('lhs-prog', failed(1, held('at', 2, member('paren-expr')))),
    ('lhs', 'returns-3'): ('lhs-prog', failed(2, held('at2', 3, f'(c-seq ({walked("macro-invocation")}) c-ret)'))),
    ('lhs', 'returns-4'): ('lhs-prog', failed(3, held('at3', 4, f'({walked("literal-expr", " _ _")})'))),
    ('lhs', 'returns-5'): ('lhs-prog', failed(4, member('no-lhs'))),
    ('prefix-expr', 'returns'): ('', f'({MARK} (c-seq {BUMP} (c-told {YES} {CALL})) (completed {DONE}))'),
    ('paren-expr', 'returns'): ('', f'({MARK} (c-seq {BUMP} (c-told-past {YES} {CALL} ({walked("expect")}))) (completed {DONE}))'),
    ('missing-lhs', 'returns'): ('', f'(c-seq ({walked("error")}) (c-seq ({MARK} (c-seq (c-seq {BUMP} {CALL}) c-ret) (completed {DONE})) c-ret))'),
    ('no-lhs', 'returns'): ('silent', f'(c-yes {BINARY} («if1» .taken) {member("missing-lhs")})'),
    ('no-lhs', 'returns-2'): ('silent', f'(c-no {BINARY} («if1» .left) (c-yes {RPAREN} («if2» .taken) (c-seq ({walked("error")}) c-ret)))'),
    ('no-lhs', 'returns-3'): ('silent', f'(c-no {BINARY} («if1» .left) (c-no {RPAREN} («if2» .left) (c-seq ({walked("error2")}) c-ret)))'),
    ('rhs', 'returns'): ('rhs-prog', f'(c-again {YES} {CALL})'),
    ('ternary-rhs', 'returns'): ('', f'(c-yes {MIDDLE} («if2» .taken) {member("rhs")})'),
    ('ternary-rhs', 'returns-2'): ('', f'(c-no {MIDDLE} («if2» .left) c-ret)'),
    ('ternary-rhs', 'returns-3'): ('', f'(c-no {{t = false}} (c-no {CALL} («if1» .left) c-ret) refl c-ret)'),
    ('infix-turn', 'returns'): ('', f'(turn-none {TURN} («if1» .taken))'),
    ('infix-turn', 'returns-2'): ('', f'(turn-weaker {TURN} («if1» .left) («if2» .taken))'),
    ('infix-turn', 'returns-3'): ('', f'(turn-ternary {TURN} («if1» .left) («if2» .left) («if3» .taken) (c-seq {BUMP} {member("ternary-rhs")}))'),
    ('infix-turn', 'returns-4'): ('', f'(turn-binary {TURN} («if1» .left) («if2» .left) («if3» .left) (c-seq {BUMP} {member("rhs")}))'),
}

# `expr_binding_power`
SOME = f'eqb-false ({ALLOWED}) 0 («if1» .left)'
OF_RULE = f'({ALLOWED}) (tokens-of ({TOKENS})) (expr-binding-power («s» .args .min-bp)) _'
PARTS = f'({ALLOWED} - 1) (tokens-of ({TOKENS})) (if lhs-prog then tell again else tell no) (infix-turn («s» .args .min-bp))'
BODY = f'∙ rule-body {OF_RULE} (omega (arith, {SOME}))'
RULE = {
    'returns': ('', f'ap (said no) («refuse» .ensures .0 _ _ _) ∙ rule-closed {OF_RULE} (eqb-true ({ALLOWED}) 0 («if1» .taken))'),
    'returns-2': ('grammar expr-binding-power-body', f'way ({ALLOWED} - 1) (chained-on {PARTS} («new» .ensures) («start» .ensures .0 _ _) (c-yes (c-fn ({ALLOWED} - 1) («lhs» .ensures .0)) («if2» .taken) c-ret) («infix-chain» .ensures .0)) {BODY}'),
    'returns-3': ('grammar expr-binding-power-body', f'way ({ALLOWED} - 1) (chained-off {PARTS} («start» .ensures .0 _ _) (c-no (c-fn ({ALLOWED} - 1) («lhs» .ensures .0)) («if2» .left) c-ret) («ignore» .ensures .0 _ _)) {BODY}'),
}

# `infix_chain`
LONG = '«s» .good .1 .0 .0'
CHAIN = '(infix-turn («s» .args .min-bp)) (marker-of («loop» .m))'
LINK = f'({ALLOWED}) ({TOKENS}) {CHAIN} 5 {DONE} («precede» .ensures .0 _ _)'
STEP = member('infix-turn')
FALLS = f'(ahead-falls ({TOKENS}) («loop» .q .s) («infix-turn» .result .p .s) («infix-turn» .ensures .1 .1 («if1» .taken)))'
LOOP = {
    'loop-again': f'linked-again {LINK} («linked» .ensures) ({LONG}) (step-again {STEP} («if1» .taken) («if2» .taken)) {FALLS} ∙ «loop» .inv .1 .1 .1 .1',
    'returns': f'linked-last {LINK} («ignore» .ensures .0 _ _) (step-last {STEP} («if1» .taken) («if2» .left)) ∙ «loop» .inv .1 .1 .1 .1',
    'returns-2': f'linked-stop ({ALLOWED}) (tokens-of ({TOKENS})) {CHAIN} («ignore2» .ensures .0 _ _) (step-none («infix-turn» .result .again) {STEP} («if1» .left)) ∙ «loop» .inv .1 .1 .1 .1',
}
FROM = 'links-from allowed (tokens-of tokens) (infix-turn min-bp)'
INVARIANT = f'''-- the chain from here is the chain from the start
abbrev pub Inv-loop : lts.InvT-loop
Inv-loop tokens events₀ reports₀ pool₀ allowed min-bp m₀ q₀ events reports pool m q =
    (tokens-left tokens (q .s) ≤ tokens-left tokens (q₀ .s))
    × ((length events ≡ length events₀)
    × ((length reports ≡ length reports₀)
    × ((length pool ≡ length pool₀) × ({FROM} (marker-of m) (parser-view q events reports pool) ≡ {FROM} (marker-of m₀) (parser-view q₀ events₀ reports₀ pool₀)))))

abbrev pub μ-loop : lts.MeasureT-loop
μ-loop tokens events₀ reports₀ pool₀ allowed min-bp m₀ q₀ events reports pool m q = tokens-left tokens (q .s)

'''

SAYS = {
    'expr-binding-power': '`expr_binding_power` is the walk of its rule: a chain from its marker on, or refusal 5.',
    'infix-chain': '`infix_chain` is the rest of the chain, link by link.',
    'infix-turn': '`infix_turn` is one turn of the chain: which arm it takes is decided by the operator at the cursor.',
    'lhs': "`lhs` is the walk of the definitions' `lhs`, test by test.",
    'missing-lhs': '`missing_lhs`: a report, and a ParseError around the operator and what follows.',
    'no-lhs': '`no_lhs` is what `lhs` does where no test held.',
    'paren-expr': '`paren_expr`: a marker around an expression in brackets.',
    'prefix-expr': '`prefix_expr`: a marker around an operator and its right side.',
    'rhs': '`rhs`: the right side of an operator.',
    'ternary-rhs': '`ternary_rhs`: what follows the question mark.'}

# what an answer may cite, by module
LIBRARY = [
    ('Prim.Native.Nat', ['ℕ', '_-_', '_≤_']), ('mathlib.Core.Path', ['_≡_', 'refl', 'sym', 'ap', '_∙_']), ('mathlib.Core.Bool', ['false', 'false≢true']),
    ('lib.ListN', ['length']), ('native.Mathlib.Omega', ['arith']), ('borrow.Author.Tests', ['eqb-true', 'eqb-false']),
    ('Rattle·definitions.specs.Token', ['tokens-of']), ('Rattle·definitions.specs.Prog', ['no', 'again', 'expr-binding-power']),
    ('Rattle·definitions.specs.Check', ['tell', 'if_then_else_', 'silent']),
    ('Rattle·definitions.specs.Grammar', ['lhs as lhs-prog', 'rhs as rhs-prog', 'infix-turn', 'expr-binding-power-body', 'grammar']),
    ('Rattle·machine.specs.Walk', ['said', 'walk-rule', 'unlabelled']), ('Rattle·parser.specs.View', ['tokens-left', 'marker-of', 'parser-view']),
    ('Rattle·expr·specs.specs.Chain', ['links-from']),
    ('Rattle·machine.proofs.Way', ['c-walk', 'c-act', 'c-ret', 'c-seq', 'c-yes', 'c-no', 'c-told', 'c-again', 'c-told-past', 'c-mark', 'completed',
                                   'c-call', 'c-fn', 'way', 'rule-closed', 'rule-body']),
    ('Rattle·steps.proofs.Left', ['ahead-falls']),
    (PROOFS + 'Chain', ['chained-on', 'chained-off', 'linked-again', 'linked-last', 'linked-stop', 'step-again', 'step-last', 'step-none']),
    (PROOFS + 'Levels', ['turn-none', 'turn-weaker', 'turn-ternary', 'turn-binary', 'at-binary'])]


# the functions outside that the members call, by the module that their readings stand in
CALLED = [
    ('Rattle·expr·proofs.proofs', 'at_prefix_op infix_op_at literal_expr'), ('Rattle·macros.proofs', 'macro_invocation'),
    ('Rattle·parser.proofs.Parser', 'at bump complete error expect ignore precede refuse silent_at start'),
    ('Rattle·parser.proofs.marker.Marker', 'linked new')]


# ---------------------------------------------------------------- the places of the code

def way_to(records, place):
    """What was bound on the way to a place, first to last: its name, its fields, and how many `.before` lead to it."""
    things, back = [], 0
    while records.get(place) and records[place][0][0] == 'before':
        thing = records[place][1][0]
        things.append((thing, [f for f, _ in records.get(place + '·own', [])], back))
        place, back = records[place][0][1], back + 1
    return things[::-1], back


def with_paths(things, start, body):
    """The body with each «x» put in by its path, and a `let` for each place that is used, the nearest first."""
    used = [(t, b, True) for t, _, b in things if f'«{t}»' in body] + ([('s', start, False)] if '«s»' in body else [])
    lines, last, at = '', 'c', 0
    for thing, back, own in sorted(used, key=lambda u: u[1]):
        if own and back == 0:
            body = body.replace(f'«{thing}»', f'c .{thing}')
            continue
        name = thing + '′'
        lines += f'    let {name} = {last}' + ' .before' * (back - at) + ' in\n'
        body = body.replace(f'«{thing}»', f'{name} .{thing}' if own else name)
        last, at = name, back
    return lines + '    ' + body.replace('\n', '\n    ')


def plain(thing):
    return re.sub(r'\d+$', '', thing)


def tokens_left(things, *more):
    facts = ['arith']
    for i, (thing, fields, _) in enumerate(things):
        if plain(thing) in LEFT:
            facts.append(f'«{thing}» {LEFT[plain(thing)]}')
        if 'taken' in fields:
            before = [t for t, _, _ in things[:i] if plain(t) in LEFT]
            if before and plain(before[-1]) in LEFT_IF:
                facts.append(f'«{before[-1]}» .ensures .1 .1 («{thing}» .taken)')
        if thing == 'loop':
            facts.append('«loop» .inv .0')
    return 'omega (' + ', '.join(facts + list(more)) + ')'


def lengths_kept(things):
    facts = [f'«{t}» .kept' for t, _, _ in things if plain(t) in BUFFERS]
    return 'omega (' + ', '.join(['arith'] + facts + ['«loop» .inv .1'] * any(t == 'loop' for t, _, _ in things)) + ')'


# ---------------------------------------------------------------- the answers

def answer(name, need, things):
    """What is unfolded, and the answer."""
    called = re.match(r'(.*?)-requires(-\d+)?$', need)
    if called:
        if called.group(1) not in NAMES:
            return '', 'tt'
        return '', '(omega (arith, «s» .pre .0' + (f', {SOME}' if name == 'expr-binding-power' else '') + '), tt)'
    if need.startswith('sub-'):
        return '', f'omega (arith, {SOME})'
    if need.startswith('same-length'):
        return '', lengths_kept(things)
    left, never = tokens_left(things), 'λ e. absurd (false≢true e)'
    if name == 'expr-binding-power':
        unfold, way = RULE[need]
        if need == 'returns':
            left = f'omega (arith, «refuse» .ensures .1 ({TOKENS}) ({LONG}))'
        return unfold, f'({way},\n({left},\n{never if need == "returns-3" else "λ e. " + left}))'
    if name == 'infix-chain':
        if need == 'loop-holds':
            return '', '(omega arith, (refl, (refl, (refl, refl))))'
        if need == 'loop-less':
            return '', left
        if need == 'loop-again':
            kept = lengths_kept(things)
            return '', f'({left},\n({kept},\n({kept},\n({kept},\n{LOOP[need]}))))'
        return '', f'({LOOP[need]},\n{left})'
    unfold, way = WAYS[name, need]
    if name == 'lhs':
        left = f'({left},\n{never if need == "returns-5" else "λ e. " + left})'
    if name == 'infix-turn':
        some = '«infix-op-at» .ensures .1 .1 .1 .1 .1 (eqb-false («infix-op-at» .result .left) 0 («if1» .left))'
        left = f'({left},\n{never if need in ("returns", "returns-2") else "λ e. " + tokens_left(things, some)})'
    return unfold, f'(way ({ALLOWED}) {way},\n{left})'


def cites(text):
    words = set(re.split(r'[\s(),{}]+', text))

    def cited(name):
        name = name.split(' as ')[-1]
        return 'then' in words if name == 'if_then_else_' else name.strip('_') in words if name.startswith('_') else name in words

    return ''.join(f'use {module}.{{{", ".join(filter(cited, names))}}}\n' for module, names in LIBRARY if any(map(cited, names)))


def title(name):
    return name.title().replace('-', '')


def write(file, text):
    os.makedirs(os.path.dirname(HOME + file), exist_ok=True)
    with open(HOME + file, 'w', encoding='utf8') as out:
        out.write(text.rstrip() + '\n')


def called(needs):
    """The functions that one calls, in the order of its needs."""
    found = [re.match(r'(.*?)-requires(-\d+)?$', need) for need in needs]
    return list(dict.fromkeys(m.group(1) for m in found if m))


def readings(needs):
    """The use lines of what is known of the members and of the functions that they call."""
    own = [f'use {PROOFS}{m}.{part} as {m.replace("_", "-")}{end}' for m in MEMBERS for part, end in (('Reads', ''), ('Kinds', '-kinds'))]
    outside = {c for n in NAMES for c in called(needs[n])} - set(NAMES)
    return own + [f'use {place}.{f}.Reads as {f.replace("_", "-")}-reads' for place, functions in CALLED for f in functions.split() if f.replace('_', '-') in outside]


def measures(needs, uses):
    text = '''-- What falls in the cycle of calls, the open calls left and then the members' order, and what is known of each member's
-- calls.
use Prim.Native.Nat.{ℕ, _+_, _*_, _<_}
use borrow.Fn.Kinds.{In}
use borrow.Fn.PlainCycle.{Measures, is, falls, and}
''' + '\n'.join(uses) + '\n'
    for n in NAMES:
        text += f'''
abbrev pub μ-{n} : Measures 4 {n}-kinds.ps ℕ
μ-{n} κs a = a .1 .1 .1 .1 .1 .0 * 8 + {RANK[n]}

abbrev pub {n}-at : ℕ → In 4 {n}-kinds.ps
{n}-at t = and 4 {n}-kinds.ps (is 4 {n}-kinds.ps μ-{n} t) {n}.Pre

abbrev pub {n}-below : ℕ → In 4 {n}-kinds.ps
{n}-below t = and 4 {n}-kinds.ps (falls 4 {n}-kinds.ps _<_ μ-{n} t) {n}.Pre
'''
    for n in NAMES:
        claims = ', '.join(f'{c}-below t, {c}.Post' if c in NAMES else f'{c}-reads.Asked, {c}-reads.Learnt' for c in called(needs[n]))
        text += f'\nabbrev pub {n}-claims : ℕ → {n}-lts.Claims\n{n}-claims t = ({claims})\n'
    return text


def member_proof(member, records, needs):
    """The file of a member, and what the whole says of it."""
    name = member.replace('_', '-')
    loop = ' Inv-loop μ-loop' if name == 'infix-chain' else ''
    text = INVARIANT if loop else ''
    for need, place in needs.items():
        things, start = way_to(records, place)
        unfold, body = answer(name, need, things)
        body = with_paths(things, start, body)
        lifetimes = ' κs' if re.search(r'-requires(-\d+)?$', need) else ''
        text += f'pub {need} : (t : ℕ) → lts.Need-{need} ({name}-claims t) ({name}-at t) reads.Post{loop}\n'
        text += f'unfolding {unfold}\n' if unfold else ''
        text += f'{need} t c{lifetimes} =' + ('\n' + body if '\n' in body else ' ' + body.strip()) + '\n\n'
    head = f'-- {SAYS[name]}\n' + cites(text) + f'use {PROOFS}{member}.Reads as reads\nuse {PROOFS}{CYCLE}.Lts-{member} as lts\n'
    write(f'Proof/{title(name)}.antt', head + f'use {PROOFS}{CYCLE}.Proof.Measures.{{{name}-at, {name}-claims}}\n\n' + text)
    closing = f'    (λ t. {name}-lts.spec ({name}-claims t) ({name}-at t) {name}.Post'
    return closing + loop.replace(' ', f' {title(name)}.') + ''.join(f'\n    ({title(name)}.{need} t)' for need in needs) + ')\n'


def cycle(generated):
    found = {m: parse(f'{generated}/Rattle·expr·proofs/proofs/{CYCLE}/Lts-{m}.antt') for m in MEMBERS}
    lts = [f'use {PROOFS}{CYCLE}.Lts-{m} as {n}-lts' for m, n in zip(MEMBERS, NAMES)]
    needs = {n: found[m][1] for m, n in zip(MEMBERS, NAMES)}
    write('Proof/Measures.antt', measures(needs, readings(needs) + lts))
    closing = ''.join(member_proof(m, *found[m]) for m in MEMBERS)
    text = '-- The functions of the cycle meet their contracts: a file for each member, and what falls in Measures.\n'
    text += ''.join(f'use {PROOFS}{m}.Reads as {n}\n' for m, n in zip(MEMBERS, NAMES)) + '\n'.join(lts)
    text += f'\nuse {PROOFS}{CYCLE}.{{statement}}\nuse {PROOFS}{CYCLE}.Tie.{{close}}\n'
    shared = [f'μ-{n}' for n in NAMES] + [f'{n}-at' for n in NAMES] + [f'{n}-claims' for n in NAMES]
    text += f'use {PROOFS}{CYCLE}.Proof.Measures.{{{", ".join(shared)}}}\n'
    text += ''.join(f'use {PROOFS}{CYCLE}.Proof.{title(n)} as {title(n)}\n' for n in NAMES)
    text += 'mod Measures\n' + ''.join(f'mod {title(n)}\n' for n in NAMES)
    whole = CYCLE.replace('_', '-') + '-spec'
    text += f'\npub {whole} : {{M : Type 1}} → statement M\n{whole} =\n    close\n' + ''.join(f'    μ-{n}\n' for n in NAMES) + closing
    write('Proof.antt', text)


# ---------------------------------------------------------------- `dt_expr`

DT_EXPR = """use native.Mathlib.Omega.{arith}
use Rattle·definitions.specs.Token.{tokens-of}
use Rattle·definitions.specs.Grammar.{dt-expr}
use Rattle·machine.specs.Walk.{walk-rule, unlabelled}
use Rattle·machine.proofs.Way.{c-walk, c-act, c-ret, c-seq, c-mark, completed, c-call, way}"""


def dt_expr(generated):
    calls = {'bump': 'le', 'start': 'all', 'complete': 'all', 'expect': 'yes', 'expr': 'yes', 'new': 'none'}
    allowed = '(@@ .args .allowed)'
    asked = f'(walk-rule {allowed} (tokens-of (@@ .args .tokens .now))) unlabelled'
    inside = f'c-seq (c-seq (c-act (@bump .ensures .0 unlabelled _ _)) (c-seq (c-call {allowed} (@expr .ensures .0)) (c-walk (@expect .ensures .0 {asked})))) c-ret'
    Crate('expr', generated, 'crates/expr', calls, ['new']).proof('dt_expr', {
        'returns': ('dt-expr', f'(way {allowed} (c-mark (@new .ensures) (@start .ensures .0 _ _) ({inside}) (completed (@complete .ensures .0 _ _))), omega (arith, PROGRESS))'),
    }, '`dt_expr`: a marker around an expression in brackets.', uses=DT_EXPR.split('\n'))


if __name__ == '__main__':
    cycle(sys.argv[1])
    dt_expr(sys.argv[1])
