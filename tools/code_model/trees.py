#!/usr/bin/env python3
"""Random well-typed trees as c_types makes them (Read, Decay and Convert as `value` and `converted` put them)."""
import random
from model import *
R = random
class Misfit(Exception): pass
def lvalue(e):
    k = e.node[0]
    return lvalue(e.node[1]) if k == 'Paren' else k in ('Text', 'Local', 'Global', 'Extern', 'Index') or (k == 'Unary' and e.node[1] == 'Dereference')
def value(e):
    if e.ty[0] == 'arr': return E(('Decay', e), P(e.ty[1]))
    return E(('Read', e), e.ty) if lvalue(e) else e
def converted(t, e): return e if e.ty == t else E(('Convert', e), t)
def is_null(e): u = uses(e)[0]; return u == 0 and e.ty[0] == 'int'
def assignable(t, e): return (t[0] == 'int' and e.ty[0] == 'int') or (t[0] == 'ptr' and (t == e.ty or is_null(e)))
def const(n, t='Int'): return E(('Constant', n, t), I(t))
def paren(e): return E(('Paren', e), e.ty)
def unary(o, e):
    if o == 'AddressOf':
        if not lvalue(e): raise Misfit
        return E(('Unary', o, e), P(e.ty))
    e = value(e)
    if o == 'Dereference':
        if e.ty[0] != 'ptr': raise Misfit
        return E(('Unary', o, e), e.ty[1])
    if o == 'Not':
        if not is_scalar(e.ty): raise Misfit
        return E(('Unary', o, e), INT)
    if e.ty[0] != 'int': raise Misfit
    t = I(promoted(e.ty[1])); return E(('Unary', o, converted(t, e)), t)
ARITH = ['Multiply', 'Divide', 'Remainder', 'BitAnd', 'BitXor', 'BitOr']; ORDER = ['Less', 'Greater', 'LessEqual', 'GreaterEqual']
def binary(o, a, b):
    a, b = value(a), value(b); s, t = a.ty, b.ty
    if s[0] == 'int' and t[0] == 'int':
        if o in ('And', 'Or'): return E(('Binary', o, a, b), INT)
        if o in ('ShiftLeft', 'ShiftRight'):
            x, y = I(promoted(s[1])), I(promoted(t[1])); return E(('Binary', o, converted(x, a), converted(y, b)), x)
        u = I(usual(s[1], t[1])); return E(('Binary', o, converted(u, a), converted(u, b)), INT if o in ORDER + ['Equal', 'NotEqual'] else u)
    if s[0] == 'void' or t[0] == 'void': raise Misfit
    if o in ('And', 'Or'): return E(('Binary', o, a, b), INT)
    if o == 'Add' and s[0] != t[0]: return E(('Binary', o, a, b), s if s[0] == 'ptr' else t)
    if o == 'Subtract' and s[0] == 'ptr': 
        if t[0] == 'int': return E(('Binary', o, a, b), s)
        if s == t: return E(('Binary', o, a, b), I('Long'))
        raise Misfit
    if o in ORDER and s == t: return E(('Binary', o, a, b), INT)
    if o in ('Equal', 'NotEqual'):
        if s == t: return E(('Binary', o, a, b), INT)
        if s[0] == 'ptr' and is_null(b): return E(('Binary', o, a, converted(s, b)), INT)
        if t[0] == 'ptr' and is_null(a): return E(('Binary', o, converted(t, a), b), INT)
    raise Misfit
def assign(o, a, b):
    b = value(b)
    if not lvalue(a) or not is_scalar(a.ty): raise Misfit
    if o is None:
        if not assignable(a.ty, b): raise Misfit
        return E(('Assign', None, a, converted(a.ty, b)), a.ty)
    if b.ty[0] != 'int': raise Misfit
    if a.ty[0] == 'ptr':
        if o not in ('Add', 'Subtract'): raise Misfit
        return E(('Assign', o, a, b), a.ty)
    t = promoted(b.ty[1]) if o in ('ShiftLeft', 'ShiftRight') else usual(a.ty[1], b.ty[1])
    return E(('Assign', o, a, converted(I(t), b)), a.ty)
def cond(c, a, b):
    c, a, b = value(c), value(a), value(b)
    if not is_scalar(c.ty): raise Misfit
    s, t = a.ty, b.ty
    if s[0] == 'int' and t[0] == 'int': u = I(usual(s[1], t[1])); return E(('Cond', c, converted(u, a), converted(u, b)), u)
    if s == t: return E(('Cond', c, a, b), s)
    if s[0] == 'ptr' and is_null(b): return E(('Cond', c, a, converted(s, b)), s)
    if t[0] == 'ptr' and is_null(a): return E(('Cond', c, converted(t, a), b), t)
    raise Misfit
def cast(t, e):
    e = value(e)
    if not (t[0] == 'void' or (t[0] == 'int' and e.ty[0] == 'int') or (t[0] == 'ptr' and (e.ty[0] == 'ptr' or is_null(e)))): raise Misfit
    return E(('Cast', t, e), t)
def index(a, i):
    a, i = value(a), value(i)
    if sorted((a.ty[0], i.ty[0])) != ['int', 'ptr']: raise Misfit
    return E(('Index', a, i), a.ty[1] if a.ty[0] == 'ptr' else i.ty[1])
def step(s, e):
    if not lvalue(e) or not is_scalar(e.ty): raise Misfit
    return E(('Step', s, e), e.ty)
def call(callee, params, result, args):
    args = [value(a) for a in args]
    if len(args) != len(params) or not all(assignable(t, a) for t, a in zip(params, args)): raise Misfit
    return E(('Call', callee, [converted(t, a) for t, a in zip(params, args)]), result)
# ------------------------------------------------------------------ random
EDGE = [0, 0, 1, 1, 2, 3, 5, 7, 8, 31, 32, 33, 63, 64, 127, 128, 255, 256, 32767, 32768, 65535, 65536, 2 ** 31 - 1, 2 ** 31, 2 ** 32 - 1, 2 ** 32,
        2 ** 63 - 1, 2 ** 63, 2 ** 64 - 1, 0x123456789abcdef0, 0x100000000, 0xffff0000]
def rconst():
    n = R.choice(EDGE) if R.random() < .6 else R.randrange(20) if R.random() < .6 else R.getrandbits(R.choice([8, 16, 32, 64]))
    ts = [t for t in ('Int', 'UInt', 'Long', 'ULong') if n < 2 ** (bits_of(t) - is_signed(t))]
    return const(n, R.choice(ts))
class Prog:
    def __init__(p, **o):
        p.o = dict(tame=.93, big=.05, depth=4, scopes=False, div=.9, rec=.1); p.o.update(o); p.unit = Unit_(); p.sigs = []
    def scalar_type(p):
        r = R.random()
        if r < .7: return I(R.choice(INTS) if R.random() < .7 else 'Int')
        if r < .93: return P(I(R.choice(INTS)))
        return P(P(I(R.choice(['Int', 'Char']))))
    def object_type(p):
        r = R.random()
        if p.o['scopes'] and r < .5: return R.choice([P(INT), P(I('Char')), INT, I('Char'), A(I('Char'), 16), A(INT, R.randrange(1, 12))])
        if r < .65: return p.scalar_type()
        if r < .92: return A(I(R.choice(INTS)), R.randrange(1, 9))
        if r < .95: return A(A(I(R.choice(['Int', 'Char', 'Short'])), R.randrange(1, 4)), R.randrange(1, 4))
        if r < .97: return A(P(INT), 2)
        if R.random() < p.o['big'] * 5: return A(I(R.choice(['Char', 'Int', 'Long'])), R.choice([300, 520, 1100]))
        return INT
    def objects(p):  # lvalues with their types
        return [(('Local', k), p.locals[k]) for k in p.scope] + [(('Global', i), t) for i, (t, _) in enumerate(p.unit.globals)]
    def var(p, ok):
        c = [x for x in p.objects() if ok(x[1])]
        if not c: raise Misfit
        n, t = R.choice(c)
        if n[0] == 'Global' and R.random() < .3: n = ('Extern', n[1])
        e = E(n, t); return paren(e) if R.random() < .06 else e
    def small(p, n, d):  # an index below n, mostly
        if R.random() > p.o['tame']: return p.int(d)
        r = R.random()
        if r < .45: return const(R.randrange(n))
        x = p.int(min(d, 2)); m = 1
        while m * 2 <= n: m *= 2
        return binary('BitAnd', cast(I('UInt'), x) if R.random() < .3 else x, const(m - 1)) if R.random() < .7 else \
            binary('Remainder', cast(I('UInt'), x), const(n, 'UInt'))
    def array_elem(p, d, ok):
        a = p.var(lambda t: t[0] == 'arr' and (ok(t[1]) or (t[1][0] == 'arr' and ok(t[1][1]))))
        i = p.small(a.ty[2], d); e = index(i, a) if R.random() < .1 else index(a, i)
        if e.ty[0] == 'arr': e = index(e, p.small(e.ty[2], d))
        return e
    def lv(p, d, ok):
        r = R.random()
        if r < .5 or d <= 0: return p.var(ok)
        if r < .75: return p.array_elem(d - 1, ok)
        q = p.ptr(d - 1, ok)
        if R.random() < .6: return unary('Dereference', q)
        return index(q, const(0) if R.random() < p.o['tame'] else p.int(d - 1))
    def ptr(p, d, ok):  # a pointer to a type that is ok
        r = R.random()
        okp = lambda t: t[0] == 'ptr' and ok(t[1])
        if d <= 0: r = R.choice([.1, .3])
        if r < .25: return value(p.var(okp))
        if r < .5: return unary('AddressOf', p.lv(d - 1, ok))
        if r < .62:
            a = p.var(lambda t: t[0] == 'arr' and ok(t[1])); return value(a)
        if r < .72:
            a = value(p.var(lambda t: t[0] == 'arr' and ok(t[1]))); i = p.small(2, d - 1)
            return binary('Add', *R.sample([a, i], 2)) if R.random() < .7 else binary('Subtract', a, unary('Minus', i))
        if r < .78: q = p.ptr(d - 1, ok); return cond(p.scalar(d - 1), q, p.ptr(d - 1, lambda t: t == q.ty[1]))
        if r < .84: return assign(None, q := p.lv(d - 1, okp), p.ptr(d - 1, lambda t: t == q.ty[1]))
        if r < .87: q = p.lv(d - 1, okp); return assign(R.choice(['Add', 'Subtract']), q, const(0) if R.random() < p.o['tame'] else p.int(d - 1))
        if r < .89 and R.random() > p.o['tame']: return step(R.choice(STEPS), p.lv(d - 1, okp))
        if r < .93: q = p.ptr(d - 1, lambda t: is_scalar(t)); t = [t for t in [q.ty[1]] + [I(x) for x in INTS if BYTES[x] <= size(q.ty[1])] if ok(t)]; \
            return cast(P(R.choice(t)), q) if t else p.ptr(d - 1, ok)
        if r < .95:
            c = [(i, s) for i, s in enumerate(p.sigs) if okp(s[1])]
            if c: return p.call(R.choice(c), d)
        if r < .965 and ok(I('Char')) and p.unit.texts: n = R.randrange(len(p.unit.texts)); return value(E(('Text', n), A(I('Char'), len(p.unit.texts[n]))))
        if r < .98: return value(p.lv(d - 1, okp))
        return paren(p.ptr(d - 1, ok))
    def call(p, c, d):
        i, (ps, res) = c
        args = [p.arg(t, d - 1) for t in ps]; return call((R.choice(['Function', 'Function', 'Extern']), i), ps, res, args)
    def arg(p, t, d):
        if t[0] == 'int': return p.int(d)
        if p.o['scopes'] and R.random() < .5:
            c = [k for k in p.scope if p.locals[k] in (t[1], ('arr', t[1]) + p.locals[k][2:])]
            if c: k = R.choice(c); x = E(('Local', k), p.locals[k]); return unary('AddressOf', x) if x.ty == t[1] else value(x)
        return const(0) if R.random() < .03 else p.ptr(d, lambda u: u == t[1])
    def scalar(p, d): return p.int(d) if R.random() < .85 else p.ptr(d, lambda t: is_scalar(t))
    def int(p, d):
        r = R.random(); isint = lambda t: t[0] == 'int'
        if d <= 0: return rconst() if r < .4 else value(p.var(isint))
        if r < .10: return rconst()
        if r < .22: return value(p.lv(d, isint))
        if r < .30: return unary(R.choice(['Plus', 'Minus', 'Complement', 'Not']), p.int(d - 1))
        if r < .52:
            o = R.choice(ARITH + ORDER + ['Add', 'Subtract', 'ShiftLeft', 'ShiftRight', 'Equal', 'NotEqual'])
            b = p.int(d - 1)
            if o in ('Divide', 'Remainder') and R.random() < p.o['div']: b = binary('BitOr', b, const(1))
            return binary(o, p.int(d - 1), b)
        if r < .60: return binary(R.choice(['And', 'Or']), p.scalar(d - 1), p.scalar(d - 1))
        if r < .64: return cond(p.scalar(d - 1), p.int(d - 1), p.int(d - 1))
        if r < .69: return cast(I(R.choice(INTS)), p.int(d - 1))
        if r < .71: return E(('SizeofName', p.object_type()), I('ULong')) if R.random() < .5 else E(('SizeofExpr', p.int(d - 1)), I('ULong'))
        if r < .77: return assign(None, p.lv(d, isint), p.int(d - 1))
        if r < .84:
            o = R.choice(ARITH + ['Add', 'Subtract', 'ShiftLeft', 'ShiftRight']); b = p.int(d - 1)
            if o in ('Divide', 'Remainder') and R.random() < p.o['div']: b = binary('BitOr', b, const(1))
            return assign(o, p.lv(d, isint), b)
        if r < .89: return step(R.choice(STEPS), p.lv(d, isint))
        if r < .94:
            if R.random() < .3: return call('Putchar', [INT], INT, [p.int(d - 1)]) if R.random() < .7 else call('Getchar', [], INT, [])
            c = [(i, s) for i, s in enumerate(p.sigs) if s[1][0] == 'int']
            if c: return p.call(R.choice(c), d)
            return p.int(d - 1)
        if r < .955:
            a = p.var(lambda t: t[0] == 'arr'); j = lambda: R.choice([lambda: unary('AddressOf', index(a2(), p.small(a.ty[2], d - 1))), lambda: binary('Add', a2(), p.small(a.ty[2], d - 1)),
                lambda: binary('Subtract', a2(), p.small(2, 1)), lambda: binary('Add', a2(), p.int(1)), a2])()
            a2 = lambda: E(a.node, a.ty)
            return binary(R.choice(ORDER + ['Equal', 'NotEqual', 'Subtract']), j(), j())
        if r < .97:
            q = p.ptr(d - 1, lambda t: is_scalar(t)); s = p.ptr(d - 1, lambda t: t == q.ty[1])
            return binary(R.choice(ORDER + ['Equal', 'NotEqual', 'Subtract']) if R.random() < .4 else R.choice(['Equal', 'NotEqual']), q, s) \
                if R.random() < .8 else binary(R.choice(['Equal', 'NotEqual']), *R.sample([q, const(0)], 2))
        if r < .985: return unary('Not', p.ptr(d - 1, lambda t: is_scalar(t)))
        return paren(p.int(d - 1))
    def try_(p, f, *a):
        for _ in range(40):
            try: return f(*a)
            except Misfit: pass
        return const(R.randrange(5))
    def anyexpr(p, d):
        r = R.random()
        if r < .75: return value(p.int(d))
        if r < .9: return value(p.ptr(d, lambda t: is_scalar(t)))
        c = [(i, s) for i, s in enumerate(p.sigs) if s[1] == VOID]
        if c and r < .96: return p.call(R.choice(c), d)
        return cast(VOID, p.int(d))
    def decl(p, d, declared):
        k = len(p.locals); t = p.object_type(); p.locals.append(t); declared.append(k); init = None
        if is_scalar(t) and R.random() < .9:
            init = p.try_(lambda: converted(t, value(p.arg(t, d))) )
            if init.ty != t: init = converted(t, const(0)) if t[0] == 'int' or R.random() < .5 else None
        p.scope.append(k); return Decl(k, init)
    def fill(p, k):  # writes to an array's elements, so that reads are of something
        t = p.locals[k]; e = E(('Local', k), t); out = []
        while t[0] == 'arr': i = const(R.randrange(t[2])); out.append((e, i)); e = index(e, i); t = t[1]
        if not is_scalar(t): return None
        return S('Expr', assign(None, e, p.try_(lambda: p.arg(t, 1)) if t[0] == 'int' else const(0)))
    def block(p, d, loop, depth):
        n = R.randrange(2, 7) if p.o['scopes'] else R.randrange(1, 6); its = []; saved = list(p.scope); declared = []
        for _ in range(n):
            if R.random() < (.5 if p.o['scopes'] else .35) and len(p.locals) < 32:
                ds = [p.decl(depth - 1, declared) for _ in range(R.choice([1, 1, 2]))]; its.append(('Local', ds))
                for dd in ds:
                    if p.locals[dd.local][0] == 'arr':
                        for _ in range(min(6, p.locals[dd.local][2])):
                            f = p.fill(dd.local)
                            if f and R.random() < .8: its.append(('Stmt', f))
            else: its.append(('Stmt', p.stmt(d - 1, loop, depth)))
        p.scope = saved; return S('Block', its)
    def cnd(p, depth): return p.try_(lambda: value(p.scalar(depth - 1)))
    def stmt(p, d, loop, depth):
        r = R.random()
        if p.o['scopes']:
            if loop and R.random() < .16:
                x = S(R.choice(['Break', 'Continue'])); return x if R.random() < .4 else S('If', p.cnd(2), x, None)
            if R.random() < .12 and p.scope: return p.escape()
            if d > 0 and R.random() < .6: r = R.choice([.6, .68, .75, .75, .85, .85, .95, .95, .95])
        if d <= 0: r = r * .5
        if r < .36: return S('Expr', p.try_(lambda: p.anyexpr(depth)))
        if r < .38: return S('Empty')
        if r < .44 and loop: return S(R.choice(['Break', 'Continue'])) if R.random() < .5 else S('If', p.cnd(depth), S(R.choice(['Break', 'Continue'])), None)
        if r < .455: return p.ret(depth)
        if r < .5: return S('Expr', call('Putchar', [INT], INT, [p.try_(lambda: p.int(depth - 1))]))
        if r < .64: return S('If', p.cnd(depth), p.stmt(d - 1, loop, depth), p.stmt(d - 1, loop, depth) if R.random() < .5 else None)
        if r < .72: return S('While', p.loop_cond(depth), p.stmt(d - 1, True, depth))
        if r < .79: return S('DoWhile', p.stmt(d - 1, True, depth), p.loop_cond(depth))
        if r < .9:
            saved = list(p.scope); ds = []; first = None; dl = []
            if R.random() < .5 and len(p.locals) < 32: ds = [p.decl(depth - 1, dl) for _ in range(R.choice([1, 1, 2]))]
            elif R.random() < .7: first = p.try_(lambda: p.anyexpr(2))
            c = p.loop_cond(depth) if R.random() < .8 else None; nx = p.try_(lambda: p.anyexpr(2)) if R.random() < .7 else None
            s = S('For', ds, first, c, nx, p.stmt(d - 1, True, depth)); p.scope = saved; return s
        return p.block(d, loop, depth)
    def escape(p):  # a pointer to a local goes into a pointer that lives longer, or something is done through such a pointer
        t = I(R.choice(['Int', 'Char'])); ps = [k for k in p.scope if p.locals[k] == P(t)]; xs = [k for k in p.scope if p.locals[k] == t or p.locals[k][:2] == ('arr', t)]
        if not ps: return S('Empty')
        q = E(('Local', R.choice(ps)), P(t))
        if xs and R.random() < .6:
            k = R.choice(xs[-3:]); x = E(('Local', k), p.locals[k])
            return S('Expr', assign(None, q, unary('AddressOf', x) if x.ty == t else binary('Add', x, p.try_(lambda: p.small(x.ty[2], 1)))))
        return S('Expr', R.choice([lambda: assign(None, unary('Dereference', q), const(1)), lambda: value(unary('Dereference', q)), lambda: step(R.choice(STEPS), unary('Dereference', q))])())
    def loop_cond(p, depth):
        ks = [k for k in p.scope if p.locals[k][0] == 'int']
        if ks and R.random() < .7: k = R.choice(ks); e = E(('Local', k), p.locals[k]); return binary('BitAnd', step('PostDecrement', e), const(R.choice([1, 3, 7])))
        return p.cnd(depth)
    def ret(p, depth):
        t = p.result
        if t == VOID: return S('Return', None)
        e = p.try_(lambda: converted(t, p.arg(t, depth - 1)))
        if e.ty != t: e = converted(t, const(0))
        return S('Return', e)
    def function(p, params, result, d, depth):
        p.locals = list(params); p.scope = list(range(len(params))); p.result = result
        pre = []
        if p.o['scopes']:
            for t in [INT, I('Char'), P(INT), P(I('Char'))]:
                k = len(p.locals); p.locals.append(t); p.scope.append(k)
                pre.append(('Local', [Decl(k, converted(t, const(R.randrange(9))) if t[0] == 'int' else unary('AddressOf', E(('Local', k - 2), t[1])))]))
        its = pre + list(p.block(d, False, depth).node[1]);         body = S('Block', its); return Fn(len(params), result, p.locals, body)
    def make(p):
        for _ in range(R.randrange(0, 4)):
            t = p.object_type()
            if size(t) > 200: t = INT
            z = ['x'] * 0
            def zero(t): return [0] * size(t) if t[0] == 'int' else [('p', k, 0, 0) for k in range(8)] if t[0] == 'ptr' else zero(t[1]) * t[2]
            init = zero(t)
            if t[0] == 'int' and R.random() < .5: init = [R.getrandbits(8) for _ in range(size(t))]
            p.unit.globals.append((t, init))
        for _ in range(R.randrange(0, 3)): p.unit.texts.append([R.randrange(1, 256) for _ in range(R.randrange(0, 6))] + [0])
        n = R.choice([0, 1, 1, 2, 3])
        for i in range(n):
            ps = [p.scalar_type() for _ in range(R.choice([0, 1, 2, 3, 5, 8]))]; res = VOID if R.random() < .2 else p.scalar_type()
            if R.random() < p.o['rec']: p.sigs.append((ps, res)); rec = True
            else: rec = False
            f = p.function(ps, res, 3 if p.o['scopes'] else 2, max(2, p.o['depth'] - 1)); p.unit.functions.append(f)
            if not rec: p.sigs.append((ps, res))
        p.unit.functions.append(p.function([], INT, 5 if p.o['scopes'] else 3, p.o['depth'])); return p.unit
STEPS = ['PreIncrement', 'PostIncrement', 'PreDecrement', 'PostDecrement']
