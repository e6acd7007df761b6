#!/usr/bin/env python3
"""Each list of gen_base by itself, on edge and random numbers."""
import random, sys
import model
from model import *
from trees import EDGE
random.seed(5)
def run(code, x16, r, v, extra={}):
    m = Machine(1024, [], [5], 0, []); m.x[16] = x16; m.x[r] = v; m.x.update(extra); before = dict(m.x); items = code(7); k = 0
    labels = {i[1]: j for j, i in enumerate(items) if i[0] == 'Label'}
    while k < len(items):
        i = items[k]; k += 1
        if i[0] == 'Plain':
            try: m.effect(i[1])
            except Ends as e: return e.args[0], m, before
        elif i[0] == 'JumpIfNotZero': k = labels[i[2]] if m.x[i[1]] else k
        elif i[0] == 'JumpIfZero': k = k if m.x[i[1]] else labels[i[2]]
    return m.x[r], m, before
def values(t, n): return [wrap(t, random.choice(EDGE) if random.random() < .6 else random.getrandbits(64)) for _ in range(n)] + [wrap(t, 2 ** (bits_of(t) - 1)), M64 if is_signed(t) else wrap(t, M64), 0, 1]
N = 0
def eq(what, got, want):
    global N; N += 1
    if got != want: print('FAULT', what, hex(got) if isinstance(got, int) else got, want if not isinstance(want, int) else hex(want))
BIN = ['BitAnd', 'BitOr', 'BitXor', 'Multiply', 'Add', 'Subtract', 'Divide', 'Remainder', 'ShiftLeft', 'ShiftRight', 'Less', 'Greater', 'LessEqual', 'GreaterEqual', 'Equal', 'NotEqual']
PROM = ['Int', 'UInt', 'Long', 'ULong']
def others(what, m, before, r, allowed):
    bad = [k for k in range(31) if m.x[k] != before[k] and k != r and k not in allowed]
    if bad: print('FAULT', what, 'changes', bad)
for o in BIN:
    for t in PROM:
        for t2 in (PROM if 'Shift' in o else [t]):
            vs, ws = values(t, 14), values(t2, 14)
            for a in vs:
                for b in ws:
                    r = random.choice(range(9, 16)); g, m, bf = run(on_integers(o, t, r), a, r, b); w = binary_num(o, t, a, b)
                    eq((o, t, t2, hex(a), hex(b)), g, 'Divide' if w is None else w); others((o, t), m, bf, r, (17,))
for o in ('Plus', 'Minus', 'Complement', 'Not'):
    for t in PROM:
        for a in values(t, 40):
            r = random.choice(range(9, 16)); g, m, bf = run(plain(on_integer(o, t, r)), 1, r, a); eq((o, t, hex(a)), g, unary_num(o, t, a)); others((o, t), m, bf, r, ())
for s in INTS:
    for t in INTS:
        for a in values(s, 30):
            r = random.choice(range(9, 16)); g, m, bf = run(plain(convert(I(s), I(t), r)), 1, r, a); eq(('convert', s, t, hex(a)), g, wrap(t, a)); others('convert', m, bf, r, ())
AS = ['Add', 'Subtract', 'Multiply', 'Divide', 'Remainder', 'ShiftLeft', 'ShiftRight', 'BitAnd', 'BitXor', 'BitOr']
for o in AS:
    for s in INTS:
        for t in PROM:
            if computing_type(o, s, t) not in PROM: continue
            for a in values(s, 6):
                for b in values(t, 6):
                    r = random.choice(range(9, 16)); by = computing_type(o, s, t); w = binary_num(o, by, wrap(by, a), b)
                    g, m, bf = run(combined(o, I(s), I(t), r), a, r, b); eq(('compound', o, s, t, hex(a), hex(b)), g, 'Divide' if w is None else wrap(s, w)); others('compound', m, bf, r, (16, 17))
for st in ('PreIncrement', 'PostIncrement', 'PreDecrement', 'PostDecrement'):
    for t in INTS:
        for a in values(t, 30):
            r = 9; g, m, bf = run(plain(stepped(st, I(t), r)), 1, r, a); eq((st, t, hex(a)), m.x[16], wrap(t, a + (1 if is_increment(st) else M64))); eq('old', g, a); others('step', m, bf, r, (16,))
# pointers: a base, offsets near and far, sizes up to the largest type
for size_ in (1, 2, 4, 8, 3, 12, 100, 4096, 65536, 65537, 16777216):
    for _ in range(400):
        start = random.getrandbits(40) * 16 + random.randrange(16) * 2 ** 56
        off = lambda: random.choice([random.randrange(64), random.randrange(64) * size_, 2 ** 63, 2 ** 63 - 1, M64, random.getrandbits(64)])
        p, q = off(), off()
        if random.random() < .2: q = p
        np_, nq = (start + p) % 2 ** 64, (start + q) % 2 ** 64; r = random.choice(range(9, 16)); d = (p - q) % 2 ** 64
        for o in ('Less', 'LessEqual', 'Greater', 'GreaterEqual', 'Equal', 'NotEqual', 'Subtract'):
            neg, e = d >= 2 ** 63, d == 0; back = (q - p) % 2 ** 64 >= 2 ** 63
            w = {'Less': neg, 'LessEqual': neg or e, 'Greater': back, 'GreaterEqual': back or e, 'Equal': e, 'NotEqual': not e, 'Subtract': m_quotient('Long', d, size_)}[o]
            g, m, bf = run(plain(on_two_pointers(o, size_, r)), np_, r, nq); eq(('pointers', o, size_, hex(p), hex(q)), g, int(w)); others('pointers', m, bf, r, (17,))
        t = random.choice(INTS); n = values(t, 1)[0]
        for o in ('Add', 'Subtract'):
            g, m, bf = run(plain(pointer_and_number(o, size_, r)), np_, r, n); eq(('pointer', o, size_, n), g, (start + p + (n if o == 'Add' else negated(n)) * size_) % 2 ** 64); others('p', m, bf, r, (17,))
        g, m, bf = run(plain(number_and_pointer(size_, r)), n, r, np_); eq(('number', size_, n), g, (start + p + n * size_) % 2 ** 64)
        g, m, bf = run(plain(element(size_, 1, r)), np_, r, n); eq('element', g, (start + p + n * size_) % 2 ** 64)
        g, m, bf = run(plain(element(size_, None, r)), n, r, np_); eq('element', g, (start + p + n * size_) % 2 ** 64)
for n in EDGE + [random.getrandbits(64) for _ in range(200)]:
    r = 9; g, m, bf = run(plain(constant_moves(r, n)), 1, r, 3); eq('constant', g, n)
print(N, 'cases')
