#!/usr/bin/env python3
"""How many words each node's code has, with far slots and temps, addresses of up to 3 words, and branches of 2."""
import sys, random, collections
import model, trees
from model import *
IMPLICIT = ('Read', 'Decay', 'Convert', 'Paren')
def nodes_of(e, out):
    out[e.id] = e; n = e.node
    for x in n[1:]:
        if isinstance(x, E):
            if n[0] != 'SizeofExpr': nodes_of(x, out)
        elif isinstance(x, list):
            for y in x: nodes_of(y, out)
def owner(e):
    while e.node[0] in IMPLICIT: e = e.node[1]
    return e.id
def stmts_of(s, out):
    out[s.id] = s
    for x in s.node[1:]:
        if isinstance(x, S): stmts_of(x, out)
        elif isinstance(x, list):
            for y in x:
                if isinstance(y, tuple) and y[0] == 'Stmt': stmts_of(y[1], out)
def check(u, t0, worst):
    for f in u.functions:
        fr = frame(f, t0); g = GenS(fr, t0); items = g.function_code(f)(0); es = {}; ss = {}
        for e in exprs_of(f.body): nodes_of(e, es)
        stmts_of(f.body, ss); own = collections.Counter(); stack = ['function']
        scopes = 0
        for i in items:
            if i[0] == 'M':
                if i[1] in ('start', 'sstart'): stack.append(i[3] if i[1] == 'start' else ('s', i[2]))
                elif i[1] in ('done', 'send'): stack.pop()
                continue
            n = item_length(fr, i, True)
            if i[0] in ('SlotAddress', 'GlobalAddress', 'ExternAddress', 'TextAddress'): n = max(n, 2)
            if i[0] in ('EnterScope', 'LeaveScope'): scopes += n; continue
            own[stack[-1]] += n
        tot = collections.Counter()
        for k, n in own.items():
            if k in es: tot[('e', owner(es[k]))] += n
            else: tot[k] += n
        for k, n in tot.items():
            if k == 'function': kind = 'function'
            elif k[0] == 'e':
                e = es[k[1]]; kind = e.node[0] + (str(e.node[1]) if e.node[0] in ('Assign', 'Unary', 'Step') else '')
                if e.node[0] == 'Call': kind = 'Call%d' % len(e.node[2])
            else: kind = ss[k[1]].node[0]
            if n > worst.get(kind, (0, ''))[0]: worst[kind] = (n, show(es[k[1]])[:100] if k[0] == 'e' else '')
        explicit = len(set(owner(e) for e in es.values())); words = sum(own.values()) - own['function']
        if explicit:
            r = words / explicit
            if r > worst.get('ratio', (0, ''))[0]: worst['ratio'] = (round(r, 2), '%d words of expressions and statements, %d expression nodes' % (words, explicit))
        if words > 24 * (explicit + len(ss)): print('OVER', words, explicit)
if __name__ == '__main__':
    worst = {}; sys.setrecursionlimit(20000)
    for seed in range(int(sys.argv[1]), int(sys.argv[2])):
        random.seed(seed); E.n = 0
        u = trees.Prog(scopes=seed % 2 == 0, big=.2, depth=random.choice([2, 3, 4, 5])).make(); check(u, random.choice([0, 4088, 4100]), worst)
    for k, v in sorted(worst.items(), key=lambda x: -x[1][0]): print(k, v)
