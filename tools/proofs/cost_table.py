#!/usr/bin/env python3
"""Finds the numbers of the tables in crates/bounds/proofs/Tables.antt.

    python3 tools/proofs/cost_table.py events      (or: reports, nodes)
    python3 tools/proofs/cost_table.py 1 2 1 13 100     (any other price: leaf, marker, report, credit, base)

The grammar is written here a second time, without its kinds, in the order of crates/definitions/specs/Grammar.antt; the
analysis is that of Row.antt and Cost.antt beside the tables. Nothing is believed of this program: the proof computes
every bill again and refuses a table that does not hold. After a change of the grammar: make the change here, run this
for each of the three, and write the rows that it prints into Tables.antt. Where it says `pays: False`, some loop's turn
costs more than a token brings: raise the credit, here and in `price` of Tables.antt, and with it the bounds in
specs/Numbers.antt."""
import sys

# what a token or a name costs, a marker, a report; what a token that the cursor passes brings; what stands for cost 0
PRICES = {'events': (1, 2, 1, 13, 100), 'reports': (0, 0, 1, 3, 100), 'nodes': (0, 1, 0, 5, 100)}
LEAF, MARKER, REPORT, CREDIT, BASE = PRICES[sys.argv[1]] if len(sys.argv) == 2 else [int(x) for x in sys.argv[1:6]]
ANSWERS = ['no', 'yes', 'also', 'again']


# ---------------------------------------------------------------- programs: Prog.antt, Check.antt

def ret(a): return ('ret', a)
def act(a): return ('act', a)
def case(c, n, y, a): return ('case', c, n, y, a)
def mark(p): return ('mark', p)
def loop(p): return ('loop', p)
def chain(p, q): return ('chain', p, q)
def call(r): return ('call', r)


def seq(*ps):
    r = ps[-1]
    for p in reversed(ps[:-1]):
        r = ('seq', p, r)
    return r


tell = ret
def If(c, p, q): return case(c, q, p, p)
def And(p, q): return If(p, q, tell('no'))
def Or(p, q): return If(p, tell('yes'), q)
def Not(p): return If(p, tell('no'), tell('yes'))
def While(c, p): return If(c, seq(p, tell('again')), tell('yes'))
def node(p): return mark(seq(p, ret('yes')))


end, bump, expected, error = act('at-end'), act('bump'), act('expected'), act('emit')
silent_at, immediate = act('silent'), act('test')
error_bump = seq(error, If(end, tell('yes'), bump))
error_wrap = seq(error, If(end, tell('yes'), node(bump)))


class Matcher:
    def __init__(self, matches, push, consume):
        self.matches, self.push, self.consume = matches, push, consume


def push_all(n): return tell('yes') if n == 0 else seq(expected, push_all(n - 1))
def set_(n): return Matcher(silent_at, push_all(n), bump)


kind = Matcher(silent_at, expected, bump)
Name = LabelName = Matcher(silent_at, expected, bump)
def silent(m): return m.matches
def at(m): return seq(m.push, m.matches)
def silent_eat(m): return If(m.matches, seq(m.consume, tell('yes')), tell('no'))
def eat(m): return If(m.matches, seq(m.consume, tell('yes')), seq(m.push, tell('no')))
def expect(m): return If(eat(m), tell('yes'), seq(error, tell('no')))
def expect_recoverable(m): return If(eat(m), tell('yes'), seq(If(silent_at, error, error_wrap), tell('no')))
def eat_starting(m, p, q): return If(at(m), mark(seq(m.consume, p)), q)


# ---------------------------------------------------------------- the grammar: Grammar.antt

INSIDE = {'item': seq(call('item'), tell('yes')), 'vals': seq(call('vals'), tell('yes')), 'cell': call('cell')}


def branch_turn(i):
    return If(Or(at(kind), end), tell('no'), If(silent(kind), tell('yes'), If(INSIDE[i], tell('again'), tell('no'))))


def branch(i): return mark(If(loop(branch_turn(i)), ret('yes'), ret('no')))
def cond_branches_turn(i): return If(branch(i), seq(bump, tell('again')), tell('yes'))
def cond_branches_and_end(i): return seq(loop(cond_branches_turn(i)), expect(kind))


def eat_preprocessor_directive(i):
    return seq(expected, If(Not(silent(kind)), tell('no'), If(silent(kind), seq(node(seq(bump, cond_branches_and_end(i))), tell('yes')), seq(bump, tell('yes')))))


def catch_unmatched_pp_directive(i):
    return If(silent(kind), seq(error_wrap, tell('yes')), If(silent(kind), seq(error, node(seq(bump, cond_branches_and_end(i))), tell('yes')), tell('no')))


macro_argument_turn = If(mark(If(act('argument'), ret('yes'), ret('no'))), seq(bump, tell('again')), tell('yes'))
macro_invocation = node(seq(bump, If(seq(expected, immediate), seq(bump, If(Not(at(kind)), loop(macro_argument_turn), tell('yes')), expect(kind)), tell('yes'))))
at_macro = And(silent_at, immediate)
MacroName = Matcher(silent_at, expected, If(at_macro, macro_invocation, Name.consume))
UnitAddress = Matcher(silent_at, expected, node(seq(bump, expect(MacroName))))
path_segment = If(eat(Name), eat(UnitAddress), error_wrap)
path_turn = While(And(Not(at(kind)), And(Not(end), And(Not(silent_at), Not(silent_at)))), seq(expect(kind), path_segment))
path_rest = seq(loop(path_turn), expect(kind))
reference_noamp = If(eat(kind), If(eat(kind), If(eat(kind), tell('yes'), seq(path_segment, path_rest)), seq(If(eat(Name), tell('yes'), error_wrap), path_rest)),
                     If(at_macro, macro_invocation, If(eat(LabelName), tell('yes'), error_wrap)))
Reference = Matcher(silent_at, expected, node(seq(bump, reference_noamp)))

rhs = If(call('expr'), ret('again'), ret('yes'))
def infix_levels(n): return tell('yes') if n == 0 else If(silent_at, If(act('test'), tell('yes'), seq(bump, rhs)), infix_levels(n - 1))


infix_turn = seq(expected, If(silent_at, If(act('test'), tell('yes'), seq(bump, If(And(call('expr'), expect(kind)), rhs, ret('yes')))), infix_levels(10)))
lhs = If(seq(expected, silent_at), mark(seq(bump, If(call('expr'), ret('yes'), ret('no')))),
         If(at(kind), mark(seq(bump, If(call('expr'), seq(expect(kind), ret('yes')), seq(expect(kind), ret('no'))))),
            If(at(kind), seq(macro_invocation, tell('yes')),
               If(at(set_(2)), node(bump),
                  If(seq(expected, silent_at), seq(error, node(seq(bump, call('expr'))), tell('no')),
                     If(silent_at, seq(error, tell('no')), seq(error_wrap, tell('no'))))))))
expr_body = chain(If(lhs, tell('again'), tell('no')), infix_turn)

dt_expr = node(seq(bump, call('expr'), expect(kind)))
eat_dts_include = eat_starting(kind, seq(expect(kind), ret('yes')), tell('no'))
cell_body = seq(expected, If(silent_eat(kind), tell('yes'), If(silent_at, seq(macro_invocation, tell('yes')), If(silent_eat(Reference), tell('yes'),
                If(silent_at, seq(dt_expr, tell('yes')), If(Or(eat_dts_include, eat_preprocessor_directive('cell')), tell('yes'),
                   If(And(silent_at, Not(at(kind))), seq(error_wrap, tell('yes')), tell('no'))))))))


def cells(at_end):
    cells_end = seq(expected, end) if at_end else at(kind)
    return loop(If(call('cell'), tell('again'), If(cells_end, tell('yes'), If(Or(silent_at, Or(end, Or(silent_at, silent_at))), seq(error, tell('no')), seq(error_wrap, tell('again'))))))


dt_cell_list = seq(bump, If(cells(False), seq(expect(kind), ret('yes')), ret('no')))
bits_value = mark(seq(node(seq(bump, expect(kind))), If(at(kind), dt_cell_list, seq(error_bump, ret('yes')))))
propvalue = seq(expected, If(silent_at, bits_value, If(silent_eat(kind), tell('yes'), If(silent_at, mark(dt_cell_list), If(silent_eat(Reference), tell('yes'),
                If(silent_at, seq(macro_invocation, tell('yes')),
                   If(Or(silent_eat(kind), Or(eat_dts_include, eat_preprocessor_directive('vals'))), tell('yes'), seq(error_wrap, tell('also')))))))))


def after_propvalue(semicolon):
    return If(eat(kind), tell('again'), If(at(set_(1 if semicolon else 0)), tell('yes'), If(silent_at, seq(error, tell('again')), tell('no'))))


def propvalues_body(semicolon): return loop(If(end, tell('yes'), case(propvalue, tell('no'), after_propvalue(semicolon), tell('yes'))))


dt_property = If(eat(kind), ret('yes'), seq(bump, If(mark(If(call('vals'), ret('yes'), ret('no'))), seq(expect_recoverable(kind), ret('yes')), ret('yes'))))
node_body_turn = While(And(Not(at(kind)), Not(end)), call('item'))
dt_node_body = seq(bump, loop(node_body_turn), If(end, seq(error, ret('yes')), seq(expect(kind), expect_recoverable(kind), ret('yes'))))


def prefix_turn(own):
    return eat_starting(MacroName, If(eat(kind), ret('again'), If(And(eat(UnitAddress), silent_at), seq(error_bump, ret('again')), ret(own))),
                        If(eat(Reference), tell('yes'), If(eat(kind), tell('yes'), tell('no'))))


prefix = If(eat(kind), loop(prefix_turn('yes')), loop(prefix_turn('also')))


def no_property(allow):
    forbidden = tell('no') if allow else silent_at
    return If(at(kind), dt_node_body, If(silent_at, seq(error_bump, ret('yes')), If(forbidden, seq(error, mark(dt_property), ret('yes')),
              seq(error, If(And(Not(silent_at), Not(end)), bump, tell('yes')), ret('yes')))))


eat_node_or_prop = mark(case(prefix, ret('no'), no_property(False), If(at(set_(2)), dt_property, no_property(True))))
eat_dts_directive = eat_starting(set_(2), seq(expect_recoverable(kind), ret('yes')), If(eat_dts_include, tell('yes'),
    eat_starting(kind, seq(node(seq(expect(kind), expect(kind))), expect_recoverable(kind), ret('yes')),
                 eat_starting(set_(2), seq(node(If(eat(Reference), tell('yes'), If(eat(MacroName), eat(UnitAddress), error))), expect_recoverable(kind), ret('yes')), tell('no')))))
item_body = If(eat_node_or_prop, tell('yes'), If(silent_at, node(seq(error, mark(dt_property))), If(silent_at, node(seq(error, mark(dt_node_body))), If(silent_at, error_wrap,
               If(Or(eat_dts_directive, eat_preprocessor_directive('item')), tell('yes'), error_wrap)))))

GRAMMAR = {'item': [item_body], 'vals': [propvalues_body(True), propvalues_body(False)], 'cell': [cell_body], 'expr': [expr_body]}
sourcefile_part = If(silent_at, seq(error, node(bump)), If(catch_unmatched_pp_directive('item'), tell('yes'), call('item')))
left_over = If(end, tell('yes'), seq(expected, node(seq(error, loop(While(Not(end), bump))))))
ENTRIES = {'SourceFile': loop(While(Not(end), sourcefile_part)), 'ReferenceNoamp': reference_noamp, 'PropValues': call('vals'), 'Cells': cells(True)}
WHOLE = {e: seq(ENTRIES[e], left_over) for e in ENTRIES}


# ---------------------------------------------------------------- the analysis: Cost.antt. Three: (still, there, took)

Z = (0, 0, 0)
def glue(v, w): return 0 if v == 0 or w == 0 else max(1, v + w - BASE)
def most(*ts): return tuple(max(c) for c in zip(*ts))
def four(**given): return {a: given.get(a, Z) for a in ANSWERS}
def both(*fs): return {a: most(*[f[a] for f in fs]) for a in ANSWERS}
def rais(n, f): return {a: tuple(v + n if v else 0 for v in f[a]) for a in ANSWERS}


def after(x, u, k):
    return (max(glue(x[0], u[0]), glue(x[1], k[0])), max(glue(x[0], u[1]), glue(x[1], k[1])),
            max(glue(x[2], max(u)), glue(x[0], u[2]), glue(x[1], k[2])))


def then(x, q): return {a: after(x, q[1][a], q[2][a]) for a in ANSWERS}


# what a turn that moved the cursor and goes on costs: one that took no token has dropped trivia
def moved(x):
    return max([x[2]] + [max(1, v - CREDIT) if v else 0 for v in x[:2]])


def repeat(f, q):
    x = f['again']
    on = max(glue(max(x[0], x[2]), moved(q[1]['again'])), glue(x[1], moved(q[2]['again'])))
    last = {a: (0, 0, glue(on, max(q[1][a]))) for a in ANSWERS}
    stopped = dict(f, again=Z)
    return both(stopped, then(x, q), last)


def S(n): return (BASE + n, 0, 0)
def H(n): return (0, BASE + n, 0)


TOOK = (0, 0, max(1, BASE + LEAF - CREDIT))


def acts(a):
    if a == 'silent': return four(no=S(0), yes=H(0)), four(no=H(0), yes=H(0))
    if a == 'at-end': return four(no=H(0), yes=S(0)), four(no=H(0))
    if a == 'test': return four(no=S(0), yes=S(0)), four(no=H(0), yes=H(0))
    if a == 'expected': return four(yes=S(0)), four(yes=H(0))
    if a == 'bump': return four(yes=most(S(0), TOOK)), four(yes=TOOK)
    if a == 'argument': x = most(S(0), TOOK); return four(no=x, yes=x), four(no=x, yes=x)
    if a == 'emit': return four(yes=S(REPORT)), four(yes=H(REPORT))


memo = {}
def bill(t, p):
    if id(p) not in memo:
        memo[id(p)] = bill_(t, p)
    return memo[id(p)]


def bill_(t, p):
    c = p[0]
    if c == 'ret': return True, four(**{p[1]: S(0)}), four(**{p[1]: H(0)})
    if c == 'act': return (True,) + acts(p[1])
    if c == 'seq':
        P, Q = bill(t, p[1]), bill(t, p[2])
        return (P[0] and Q[0],) + tuple(then(most(*P[i].values()), Q) for i in (1, 2))
    if c == 'case':
        C, N, Y, L = [bill(t, q) for q in p[1:]]
        return (C[0] and N[0] and Y[0] and L[0],) + tuple(both(then(C[i]['no'], N), then(most(C[i]['yes'], C[i]['again']), Y), then(C[i]['also'], L)) for i in (1, 2))
    if c == 'mark':
        P = bill(t, p[1])
        return P[0], rais(MARKER, P[1]), rais(MARKER, P[2])
    if c == 'loop':
        Q = bill(t, p[1])
        return Q[0] and moved(Q[1]['again']) <= BASE, repeat(four(again=S(0)), Q), repeat(four(again=H(0)), Q)
    if c == 'chain':
        P, Q = bill(t, p[1]), bill(t, p[2])
        Q = (Q[0], rais(MARKER, Q[1]), rais(MARKER, Q[2]))
        return (P[0] and Q[0] and moved(Q[1]['again']) <= BASE,) + tuple(rais(MARKER, repeat(P[i], Q)) for i in (1, 2))
    if c == 'call': return t[p[1]]


NAMES = {'item': 'item', 'vals': '(propvalues s)', 'cell': '(eat_cell b)', 'expr': '(expr_binding_power m)'}


# the entries that `row` of Tables.antt writes down; the others must be 0
def kept(f):
    assert not any(f['also']) and not f['yes'][1] and not any(f['again'][:2])
    return f['no'] + (f['yes'][0], f['yes'][2], f['again'][2])


def main():
    t = {r: (True, four(no=S(0)), four(no=H(0))) for r in GRAMMAR}
    for turn in range(12):
        memo.clear()
        rows = {r: [bill(t, b) for b in GRAMMAR[r]] + [t[r]] for r in GRAMMAR}
        n = {r: (all(x[0] for x in rows[r]), both(*[x[1] for x in rows[r]]), both(*[x[2] for x in rows[r]])) for r in GRAMMAR}
        rest = all(n[r][1:] == t[r][1:] for r in GRAMMAR)
        pays = {r: n[r][0] for r in GRAMMAR}
        t = {r: (True,) + n[r][1:] for r in GRAMMAR}
        if rest:
            break
    print('at rest:', rest, 'after', turn, 'turns; pays:', all(pays.values()))
    for r in GRAMMAR:
        print(NAMES[r], '= costs', *['(row ' + ' '.join(str(v) for v in kept(t[r][d])) + ')' for d in (1, 2)])
    memo.clear()
    for e in WHOLE:
        b = bill(t, WHOLE[e])
        print(e, 'pays:', b[0], 'at most', CREDIT, '* n +', max(max(v) for v in b[1].values()) - BASE)


main()
