#!/usr/bin/env python3
"""A model of gen_base, gen_expr, gen_stmt (and of gen_unit's entry, exit and lists) against block_meaning, run side by side. It was written from
the definitions by somebody who did not write them. `run.py FIRST BEHIND [OPTIONS]` runs random programs with these seeds, `ops.py` single
operators, and `words.py FIRST BEHIND` counts words for each node. What differs is a line FAULT.
The code carries markers that have no length: where a part starts and is done, and where its unit of work is asked for. The meaning
calls the machine forward to the next marker, which has to be its own."""
import random, sys
M64 = 2 ** 64 - 1
# ------------------------------------------------------------------ types (c_type_base)
INTS = ['Char', 'SignedChar', 'UnsignedChar', 'Short', 'UShort', 'Int', 'UInt', 'Long', 'ULong']
BYTES = dict(Char=1, SignedChar=1, UnsignedChar=1, Short=2, UShort=2, Int=4, UInt=4, Long=8, ULong=8)
VOID = ('void',)
def I(t): return ('int', t)
def P(t): return ('ptr', t)
def A(t, n): return ('arr', t, n)
INT = I('Int')
def is_signed(t): return t in ('SignedChar', 'Short', 'Int', 'Long')
def bits_of(t): return 8 * BYTES[t]
def promoted(t): return t if t in ('UInt', 'Long', 'ULong') else 'Int'
def common(s, t):
    for x in ('ULong', 'Long', 'UInt'):
        if x in (s, t): return x
    return 'Int'
def usual(s, t): return common(promoted(s), promoted(t))
def wrap(t, n):
    b = bits_of(t); low = n % 2 ** b
    return low + (2 ** 64 - 2 ** b) if is_signed(t) and low >= 2 ** (b - 1) else low
def size(t): return {'void': lambda: 0, 'int': lambda: BYTES[t[1]], 'ptr': lambda: 8, 'arr': lambda: t[2] * size(t[1])}[t[0]]()
def align(t): return {'void': lambda: 1, 'int': lambda: BYTES[t[1]], 'ptr': lambda: 8, 'arr': lambda: align(t[1])}[t[0]]()
def int_of(t): return t[1] if t[0] == 'int' else None
def int_in(t): return t[1] if t[0] == 'int' else 'Int'
def target_of(t): return t[1] if t[0] == 'ptr' else None
def is_scalar(t): return t[0] in ('int', 'ptr')
# Arithmetic
def is_negative(t, n): return is_signed(t) and n >= 2 ** 63
def negated(n): return (2 ** 64 - n) % 2 ** 64
def magnitude(t, n): return negated(n) if is_negative(t, n) else n
def m_quotient(t, a, b):
    n = magnitude(t, a) // magnitude(t, b); return wrap(t, negated(n) if is_negative(t, a) != is_negative(t, b) else n)
def m_remainder(t, a, b):
    n = magnitude(t, a) % magnitude(t, b); return wrap(t, negated(n) if is_negative(t, a) else n)
def is_below(t, a, b): return ((a + 2 ** 63) % 2 ** 64 < (b + 2 ** 63) % 2 ** 64) if is_signed(t) else a < b
def shifted_right(t, a, c):
    return M64 - (M64 - a) // 2 ** (c % bits_of(t)) if is_negative(t, a) else a // 2 ** (c % bits_of(t))
def binary_num(o, t, a, b):
    if o == 'BitAnd': return a & b
    if o == 'BitOr': return a | b
    if o == 'BitXor': return a ^ b
    if o == 'Multiply': return wrap(t, a * b)
    if o == 'Add': return wrap(t, a + b)
    if o == 'Subtract': return wrap(t, a + negated(b))
    if o == 'Divide': return None if b == 0 else m_quotient(t, a, b)
    if o == 'Remainder': return None if b == 0 else m_remainder(t, a, b)
    if o == 'ShiftLeft': return wrap(t, a * 2 ** (b % bits_of(t)))
    if o == 'ShiftRight': return shifted_right(t, a, b)
    if o == 'Less': return int(is_below(t, a, b))
    if o == 'Greater': return int(is_below(t, b, a))
    if o == 'LessEqual': return int(not is_below(t, b, a))
    if o == 'GreaterEqual': return int(not is_below(t, a, b))
    if o == 'Equal': return int(a == b)
    if o == 'NotEqual': return int(a != b)
    raise Exception(o)
def unary_num(o, t, a):
    return {'Plus': a, 'Minus': wrap(t, negated(a)), 'Complement': wrap(t, M64 - a), 'Not': int(a == 0)}[o]
# ------------------------------------------------------------------ trees
class E:
    __slots__ = ('node', 'ty', 'id'); n = 0
    def __init__(s, node, ty): s.node = node; s.ty = ty; E.n += 1; s.id = E.n
    def __repr__(s): return show(s)
class S:
    def __init__(s, *node): s.node = node; E.n += 1; s.id = E.n
class Decl:
    def __init__(s, local, init): s.local = local; s.init = init; E.n += 1; s.id = E.n
class Fn:
    def __init__(s, params, result, locals_, body): s.params = params; s.result = result; s.locals = locals_; s.body = body
class Unit_:  # globals: (type, init cells), texts: bytes
    def __init__(s): s.globals = []; s.texts = []; s.functions = []
def tyname(t):
    return {'void': lambda: 'void', 'int': lambda: t[1], 'ptr': lambda: tyname(t[1]) + '*', 'arr': lambda: '%s[%d]' % (tyname(t[1]), t[2])}[t[0]]()
def show(e):
    n = e.node; k = n[0]
    if k == 'Constant': return '%d%s' % (n[1] if n[1] < 2 ** 63 else n[1] - 2 ** 64, {'Int': ''}.get(n[2], ':' + n[2]))
    if k in ('Text', 'Local', 'Global', 'Extern'): return '%s%d' % (dict(Text='text', Local='x', Global='g', Extern='ext')[k], n[1])
    if k == 'Paren': return '(%s)' % show(n[1])
    if k == 'Unary': return '%s[%s]' % (n[1], show(n[2]))
    if k == 'Binary': return '{%s %s %s}' % (show(n[2]), n[1], show(n[3]))
    if k == 'Assign': return '{%s %s= %s}' % (show(n[2]), n[1] or '', show(n[3]))
    if k == 'Cond': return '{%s ? %s : %s}' % tuple(map(show, n[1:]))
    if k == 'Cast': return 'Cast(%s)%s' % (tyname(n[1]), show(n[2]))
    if k == 'SizeofExpr': return 'sizeof(%s)' % show(n[1])
    if k == 'SizeofName': return 'sizeof(%s)' % tyname(n[1])
    if k == 'Call': return '%s(%s)' % (n[1], ', '.join(map(show, n[2])))
    if k == 'Index': return '%s[[%s]]' % (show(n[1]), show(n[2]))
    if k == 'Step': return '%s(%s)' % (n[1], show(n[2]))
    return '%s%s(%s)' % (k, ':' + tyname(e.ty) if k == 'Convert' else '', show(n[1]))
def showd(d): return 'decl x%d%s;' % (d.local, '' if d.init is None else ' = ' + show(d.init))
def shows(s, ind=1):
    n = s.node; k = n[0]; p = '  ' * ind
    if k == 'Block': return p + '{\n' + ''.join(showi(i, ind + 1) for i in n[1]) + p + '}\n'
    if k == 'Expr': return p + show(n[1]) + ';\n'
    if k == 'Empty': return p + ';\n'
    if k == 'If': return p + 'if %s\n' % show(n[1]) + shows(n[2], ind + 1) + (p + 'else\n' + shows(n[3], ind + 1) if n[3] else '')
    if k == 'While': return p + 'while %s\n' % show(n[1]) + shows(n[2], ind + 1)
    if k == 'DoWhile': return p + 'do\n' + shows(n[1], ind + 1) + p + 'while %s;\n' % show(n[2])
    if k == 'For':
        return p + 'for (%s %s; %s; %s)\n' % (' '.join(map(showd, n[1])), n[2] or '', n[3] or '', n[4] or '') + shows(n[5], ind + 1)
    if k == 'Return': return p + 'return %s;\n' % (n[1] or '')
    return p + k.lower() + ';\n'
def showi(i, ind): return '  ' * ind + ' '.join(map(showd, i[1])) + '\n' if i[0] == 'Local' else shows(i[1], ind)
def showf(n, f):
    return 'fn %d (%s) -> %s, locals %s\n' % (n, f.params, tyname(f.result), ['x%d:%s' % (k, tyname(t)) for k, t in enumerate(f.locals)]) + shows(f.body)
# ------------------------------------------------------------------ slot_safety
def uses(e):  # (constancy, path, harmed); constancy None or number or 'div'; path None | ('o',k) | ('e',k,n)
    n = e.node; k = n[0]
    start = lambda p: [] if p is None else [p[1]]
    allof = lambda u: u[2] + start(u[1])
    touched = lambda x, u: u[2] + ([] if u[1] is not None and u[1][0] == 'o' and is_scalar(x.ty) else start(u[1]))
    if k == 'Constant': return (n[1], None, [])
    if k in ('Text', 'Global', 'Extern'): return (None, None, [])
    if k == 'Local': return (None, ('o', n[1]), [])
    if k == 'Paren': return uses(n[1])
    if k == 'Unary':
        u = uses(n[2]); t = int_of(n[2].ty)
        c = None if n[1] in ('AddressOf', 'Dereference') or t is None or u[0] is None else (u[0] if u[0] == 'div' else unary_num(n[1], t, u[0]))
        return (c, None, allof(u))
    if k == 'Binary':
        a, b = uses(n[2]), uses(n[3]); t = int_of(n[2].ty); c = None
        if t is not None and a[0] is not None and b[0] is not None:
            if n[1] in ('And', 'Or'):
                if a[0] == 'div': c = 'div'
                elif b[0] == 'div': c = (0 if a[0] == 0 else 'div') if n[1] == 'And' else ('div' if a[0] == 0 else 1)
                else: c = int(bool(a[0]) and bool(b[0])) if n[1] == 'And' else int(bool(a[0]) or bool(b[0]))
            elif 'div' in (a[0], b[0]): c = 'div'
            else:
                c = binary_num(n[1], t, a[0], b[0]); c = 'div' if c is None else c
        return (c, None, allof(a) + allof(b))
    if k == 'Assign': return (None, None, touched(n[2], uses(n[2])) + allof(uses(n[3])))
    if k == 'Cond':
        c, a, b = map(uses, n[1:]); r = None
        if None not in (c[0], a[0], b[0]): r = 'div' if c[0] == 'div' else (b[0] if c[0] == 0 else a[0])
        return (r, None, allof(c) + allof(a) + allof(b))
    if k in ('Cast', 'Convert'):
        u = uses(n[2] if k == 'Cast' else n[1]); t = int_of(e.ty if k == 'Convert' else n[1])
        return (None if t is None else (wrap(t, u[0]) if isinstance(u[0], int) else u[0]), None, allof(u))
    if k == 'SizeofExpr': return (size(n[1].ty), None, [])
    if k == 'SizeofName': return (size(n[1]), None, [])
    if k == 'Call': return (None, None, [x for a in n[2] for x in allof(uses(a))])
    if k == 'Step': return (None, None, touched(n[2], uses(n[2])))
    if k == 'Read': return (None, None, touched(n[1], uses(n[1])))
    if k == 'Decay':
        u = uses(n[1]); p = ('e', u[1][1], n[1].ty[2]) if u[1] is not None and u[1][0] == 'o' and n[1].ty[0] == 'arr' else None
        return (None, p, u[2] + (start(u[1]) if p is None else []))
    if k == 'Index':
        a, i = uses(n[1]), uses(n[2])
        p = ('o', a[1][1]) if a[1] is not None and a[1][0] == 'e' and isinstance(i[0], int) and i[0] < a[1][2] else None
        return (None, p, a[2] + allof(i) + (start(a[1]) if p is None else []))
    raise Exception(k)
def harmed(e): u = uses(e); return u[2] + ([] if u[1] is None else [u[1][1]])
def exprs_of(s):  # the expressions of a statement with the declared locals' initialisers, and its scopes
    n = s.node; k = n[0]
    if k == 'Block':
        for i in n[1]:
            if i[0] == 'Local':
                for d in i[1]:
                    if d.init is not None: yield d.init
            else: yield from exprs_of(i[1])
    elif k == 'Expr': yield n[1]
    elif k == 'If':
        yield n[1]; yield from exprs_of(n[2])
        if n[3]: yield from exprs_of(n[3])
    elif k == 'While': yield n[1]; yield from exprs_of(n[2])
    elif k == 'DoWhile': yield from exprs_of(n[1]); yield n[2]
    elif k == 'For':
        for d in n[1]:
            if d.init is not None: yield d.init
        for x in n[2:5]:
            if x is not None: yield x
        yield from exprs_of(n[5])
    elif k == 'Return' and n[1] is not None: yield n[1]
# ------------------------------------------------------------------ frame_layout
def need(e):
    n = e.node; k = n[0]
    if k in ('Constant', 'Text', 'Local', 'Global', 'Extern', 'SizeofExpr', 'SizeofName'): return 0
    if k in ('Paren', 'Read', 'Decay', 'Convert'): return need(n[1])
    if k in ('Unary', 'Cast', 'Step'): return need(n[2])
    if k == 'Binary': return max(need(n[2]), need(n[3])) if n[1] in ('And', 'Or') else max(need(n[2]), need(n[3]) + 1)
    if k == 'Assign': return max(need(n[2]), need(n[3]) + 1)
    if k == 'Index': return max(need(n[1]), need(n[2]) + 1)
    if k == 'Cond': return max(map(need, n[1:]))
    if k == 'Call': return max([len(n[2])] + [i + need(a) for i, a in enumerate(n[2])])
    raise Exception(k)
class Slot:
    def __init__(s, start, bytes_, tagged, index, inner): s.start = start; s.bytes = bytes_; s.tagged = tagged; s.index = index; s.inner = inner
class Frame: pass
def round_up(p, u): return (p + u - 1) // u * u
def declared_of(items): return [d.local for i in items if i[0] == 'Local' for d in i[1]]
def frame(f, extra_temps=0):
    h = set(x for e in exprs_of(f.body) for x in harmed(e)); outer = set(declared_of(f.body.node[1]))
    fr = Frame(); fr.temps = max([0] + [need(e) for e in exprs_of(f.body)]) + extra_temps
    safe = 24 + 8 * fr.temps; parts = [(size(t), align(t), k in h, not (k < f.params or k in outer)) for k, t in enumerate(f.locals)]
    end = safe
    for b, a, tg, _ in parts:
        if not tg: end = round_up(end, a) + b
    tagged = round_up(end, 16); fr.slots = []; count = 0
    for b, a, tg, inner in parts:
        if tg: fr.slots.append(Slot(tagged, round_up(b, 16), True, count % 15, inner)); tagged += round_up(b, 16); count += 1
        else: fr.slots.append(Slot(round_up(safe, a), b, False, 0, inner)); safe = round_up(safe, a) + b
    fr.bytes = round_up(tagged, 16); return fr
def copies(f):
    m = 0
    def st(s):
        nonlocal m
        n = s.node; k = n[0]
        if k == 'Block':
            for i in n[1]:
                if i[0] == 'Local':
                    for d in i[1]:
                        if d.init is not None: m = max(m, size(f.locals[d.local]))
                else: st(i[1])
        elif k == 'If':
            st(n[2]); n[3] and st(n[3])
        elif k == 'While': st(n[2])
        elif k == 'DoWhile': st(n[1])
        elif k == 'For':
            for d in n[1]:
                if d.init is not None: m = max(m, size(f.locals[d.local]))
            st(n[5])
    st(f.body); return m
def per_of(unit, frames): return 96 + 6 * max(fr.bytes // 16 for fr in frames) + 8 * max(copies(f) for f in unit.functions)
# ------------------------------------------------------------------ a64_laws: forms, constants, comparisons; tag_plan: lists
SP = ZR = 31
def constant_moves(rd, v):
    out = [('Movz', True, 0, v % 2 ** 16, rd)]
    for hw, b in ((1, v // 2 ** 16 % 2 ** 16), (2, v // 2 ** 32 % 2 ** 16), (3, v // 2 ** 48)):
        if b != 0: out.append(('Movk', True, hw, b, rd))
    return out
OPI = dict(Add='AddReg', Sub='SubReg', And='AndReg', Or='OrrReg', Xor='EorReg', ShiftLeft='Lslv', ShiftRight='Lsrv', ShiftRightSigned='Asrv')
def operation_instr(o, wide, rm, rn, rd): return (OPI[o], wide, rm, rn, rd)
CODE = dict(Equal=0, Unequal=1, HigherOrSame=2, Lower=3, Higher=8, LowerOrSame=9, AtLeast=10, Less=11, Greater=12, AtMost=13)
CONTRARY = dict(Equal='Unequal', Unequal='Equal', HigherOrSame='Lower', Lower='HigherOrSame', Higher='LowerOrSame', LowerOrSame='Higher',
                AtLeast='Less', Less='AtLeast', Greater='AtMost', AtMost='Greater')
def comparison_instrs(r, wide, second, rn, rd):
    cmp = ('SubsReg', wide, second[1], rn, ZR) if second[0] == 'With' else ('SubsImm', wide, 0, second[1], rn, ZR)
    return [cmp, ('Csinc', True, ZR, CODE[CONTRARY[r]], ZR, rd)]
def divide_instr(signed, wide, rm, rn, rd): return ('Sdiv' if signed else 'Udiv', wide, rm, rn, rd)
def remainder_instrs(signed, wide, rm, rn, rq, rd): return [divide_instr(signed, wide, rm, rn, rq), ('Msub', wide, rm, rn, rq, rd)]
def offset_from(rn, n, rd):
    return [('AddImm', True, 0, n, rn, rd)] if n < 4096 else [('AddImm', True, 1, n // 4096, rn, rd), ('AddImm', True, 0, n % 4096, rd, rd)]
def slot_address_list(s, rd):
    if not s.tagged: return offset_from(SP, s.start, rd)
    if s.start < 1024: return [('Addg', s.start // 16, s.index, 28, rd)]
    return offset_from(28, s.start, rd) + [('Addg', 0, s.index, rd, rd)]
def tags_from(rt, rn, first, n):
    out = []
    while n >= 2: out.append(('St2g', first, rn, rt)); first += 2; n -= 2
    return out + ([('Stg', first, rn, rt)] if n else [])
def tags_in_rounds(rt, rn, count, pairs, rounds, rest):
    return ([('Movz', True, 0, rounds, count)] + tags_from(rt, rn, 0, 2 * pairs)
            + [('AddImm', True, 0, 32 * pairs, rn, rn), ('SubImm', True, 0, 1, count, count), ('Cbnz', True, 2 ** 19 - (pairs + 2), count)]
            + tags_from(rt, rn, 0, rest))
def tag_quickly(rt, rn, c, n): return tags_from(rt, rn, 0, n) if n < 16 else tags_in_rounds(rt, rn, c, 8, n // 16, n % 16)
def tag_shortly(rt, rn, c, n): return tags_from(rt, rn, 0, n) if n < 4 else tags_in_rounds(rt, rn, c, 1, n // 2, n % 2)
def slot_list(s): return offset_from(SP, s.start, 9) + [('Addg', 0, s.index, 28, 11)] + tag_shortly(11, 9, 10, s.bytes // 16)
def clear_list(ss): return offset_from(SP, ss[0].start, 9) + tag_quickly(SP, 9, 10, sum(s.bytes for s in ss) // 16) if ss else []
def tagged_slots(ss): return [s for s in ss if s.tagged]
def entry_list(f):
    if not tagged_slots(f.slots): return []
    return [('Str', True, 2, SP, 28), ('Irg', ZR, SP, 28)] + [i for s in tagged_slots(f.slots) if not s.inner for i in slot_list(s)]
def exit_list(f): return clear_list(tagged_slots(f.slots)) + [('Ldr', True, 2, SP, 28)] if tagged_slots(f.slots) else []
def between(ss, first, last): return ss[first:][:max(0, last + 1 - first)]
def enter_list(f, ks): return [i for k in ks if k < len(f.slots) for i in slot_list(f.slots[k])]
def leave_list(f, first, last): return clear_list(tagged_slots(between(f.slots, first, last)))
# ------------------------------------------------------------------ gen_base
OPT = dict(adv=None)  # adv: (places, values, convert takes one): the steps that each part is said to leave of its bound
def length(items): return sum(1 for i in items if i[0] != 'M')
def nothing(at): return []
def only(i): return lambda at: [i]
def plain(instrs): return lambda at: [('Plain', i) for i in instrs]
def in_turn(cs):
    def go(at):
        out = []
        for c in cs: x = c(at); out += x; at += length(x)
        return out
    return go
def labelled(f): return lambda at: f(4 * at)(at)
def M(*m): return only(('M',) + m)
LEFT, SCRATCH = 16, 17
def argument(k): return k % 8
def move(frm, into): return operation_instr('Or', True, frm, ZR, into)
def paying(l): return l if l else [('Nop',)]
def temp_offset(t): return 24 + 8 * t
def keep(t, r):
    return [('Str', True, 3 + t, SP, r)] if 3 + t < 4096 else offset_from(SP, temp_offset(t), LEFT) + [('Str', True, 0, LEFT, r)]
def fetch(t, r):
    return [('Ldr', True, 3 + t, SP, r)] if 3 + t < 4096 else offset_from(SP, temp_offset(t), r) + [('Ldr', True, 0, r, r)]
def is_wide(t): return bits_of(t) == 64
def extend(signed, bits, r): return [('Sbfm' if signed else 'Ubfm', True, 0, bits - 1, r, r)]
def with_sign(t, r): return ([] if is_wide(t) else extend(True, bits_of(t), r)) if is_signed(t) else []
def operation(o, t, r): return [operation_instr(o, is_wide(t), r, LEFT, r)] + with_sign(t, r)
def bitwise(o, r): return [operation_instr(o, True, r, LEFT, r)]
def product(t, r): return [('Madd', is_wide(t), r, ZR, LEFT, r)] + with_sign(t, r)
def unless_zero(r): return labelled(lambda l: in_turn([only(('JumpIfNotZero', r, l)), plain([('Svc', 4)]), only(('Label', l))]))
def division(t, r): return [divide_instr(is_signed(t), is_wide(t), r, LEFT, r)] + with_sign(t, r)
def remaining(t, r): return remainder_instrs(is_signed(t), is_wide(t), r, LEFT, SCRATCH, r) + with_sign(t, r)
def relation(o, signed):
    return {'Less': ('Less', 'Lower'), 'Greater': ('Greater', 'Higher'), 'LessEqual': ('AtMost', 'LowerOrSame'),
            'GreaterEqual': ('AtLeast', 'HigherOrSame'), 'NotEqual': ('Unequal', 'Unequal')}.get(o, ('Equal', 'Equal'))[0 if signed else 1]
def compare(rel, r): return comparison_instrs(rel, True, ('With', r), LEFT, r)
def is_zero(r): return comparison_instrs('Equal', True, ('WithNumber', 0), r, r)
def is_other(r): return comparison_instrs('Unequal', True, ('WithNumber', 0), r, r)
def on_integers(o, t, r):
    if o in ('BitAnd', 'BitOr', 'BitXor'): return plain(bitwise({'BitAnd': 'And', 'BitOr': 'Or', 'BitXor': 'Xor'}[o], r))
    if o == 'Multiply': return plain(product(t, r))
    if o == 'Add': return plain(operation('Add', t, r))
    if o == 'Subtract': return plain(operation('Sub', t, r))
    if o == 'Divide': return in_turn([unless_zero(r), plain(division(t, r))])
    if o == 'Remainder': return in_turn([unless_zero(r), plain(remaining(t, r))])
    if o == 'ShiftLeft': return plain(operation('ShiftLeft', t, r))
    if o == 'ShiftRight': return plain(operation('ShiftRightSigned' if is_signed(t) else 'ShiftRight', t, r))
    if o in ('And', 'Or'): return nothing
    return plain(compare(relation(o, is_signed(t)), r))
def on_integer(o, t, r):
    if o == 'Minus': return [operation_instr('Sub', is_wide(t), r, ZR, r)] + with_sign(t, r)
    if o == 'Complement': return [operation_instr('Sub', is_wide(t), r, ZR, r), ('SubImm', is_wide(t), 0, 1, r, r)] + with_sign(t, r)
    if o == 'Not': return is_zero(r)
    return [('Nop',)]
def wrap_into(t, r): return [] if 64 <= bits_of(t) else extend(is_signed(t), bits_of(t), r)
def has_all(t, s):
    bt, bs = bits_of(t), bits_of(s)
    return 64 <= bt or (is_signed(t) and bs <= bt if is_signed(s) else bs < bt or (bs <= bt and not is_signed(t)))
def between_integers(s, t, r): return [] if has_all(t, s) else wrap_into(t, r)
def into_integer(s, t, r): return wrap_into(t, r) if s is None else between_integers(s, t, r)
def into_pointer(s, r): return [] if s is None else constant_moves(r, 0)
def convert(s, t, r):
    if t[0] == 'int': return into_integer(int_of(s), t[1], r)
    if t[0] == 'ptr': return into_pointer(int_of(s), r)
    return []
def advance(bytes_, p, c, into): return constant_moves(SCRATCH, bytes_) + [('Madd', True, SCRATCH, p, c, into)]
def retreat(bytes_, p, c, into): return constant_moves(SCRATCH, bytes_) + [('Msub', True, SCRATCH, p, c, into)]
def pointer_and_number(o, bytes_, r): return retreat(bytes_, LEFT, r, r) if o == 'Subtract' else advance(bytes_, LEFT, r, r)
def number_and_pointer(bytes_, r): return advance(bytes_, r, LEFT, r)
def objects_apart(bytes_, r): return [operation_instr('Sub', True, r, LEFT, r)] + constant_moves(SCRATCH, bytes_) + [('Sdiv', True, SCRATCH, r, r)]
def by_difference(first, second, rel, r):
    return [operation_instr('Sub', True, second, first, r)] + comparison_instrs(rel, True, ('WithNumber', 0), r, r)
def on_two_pointers(o, bytes_, r):
    if o == 'Subtract': return objects_apart(bytes_, r)
    if o == 'Less': return by_difference(LEFT, r, 'Less', r)
    if o == 'LessEqual': return by_difference(LEFT, r, 'AtMost', r)
    if o == 'Greater': return by_difference(r, LEFT, 'Less', r)
    if o == 'GreaterEqual': return by_difference(r, LEFT, 'AtMost', r)
    return compare(relation(o, False), r)
LOADS = dict(Char='Byte', SignedChar='SignedByte', UnsignedChar='Byte', Short='SignedHalf', UShort='Half', Int='SignedWord', UInt='Word',
             Long='Whole', ULong='Whole')
LOAD_SIZE = dict(Whole=8, Word=4, Half=2, Byte=1, SignedWord=4, SignedHalf=2, SignedByte=1)
def load_of(t): return LOADS[t[1]] if t[0] == 'int' else 'Whole'
def load_instr(l, imm, rn, rt):
    return {'Whole': ('Ldr', True, imm, rn, rt), 'Word': ('Ldr', False, imm, rn, rt), 'Half': ('Ldrh', imm, rn, rt), 'Byte': ('Ldrb', imm, rn, rt),
            'SignedWord': ('Ldrsw', imm, rn, rt), 'SignedHalf': ('Ldrsh', imm, rn, rt), 'SignedByte': ('Ldrsb', imm, rn, rt)}[l]
def store_instr(l, imm, rn, rt):
    return {8: ('Str', True, imm, rn, rt), 4: ('Str', False, imm, rn, rt), 2: ('Strh', imm, rn, rt), 1: ('Strb', imm, rn, rt)}[LOAD_SIZE[l]]
def load_scalar(t, where, r):
    l = load_of(t); return load_instr(l, where[1] // LOAD_SIZE[l], SP, r) if where[0] == 'OnStack' else load_instr(l, 0, where[1], r)
def store_scalar(t, where, r):
    l = load_of(t); return store_instr(l, where[1] // LOAD_SIZE[l], SP, r) if where[0] == 'OnStack' else store_instr(l, 0, where[1], r)
def reached(t, s):
    if s is None or not is_scalar(t) or s.tagged: return None
    return s.start if s.start < 4096 * LOAD_SIZE[load_of(t)] else None
def operated(o, s, t, r):
    a, b = target_of(s), target_of(t)
    if a is None and b is None: return on_integers(o, int_in(s), r)
    if b is None: return plain(pointer_and_number(o, size(a), r))
    if a is None: return plain(number_and_pointer(size(b), r))
    return plain(on_two_pointers(o, size(a), r))
def element(bytes_, target, r): return advance(bytes_, LEFT, r, r) if target is not None else advance(bytes_, r, LEFT, r)
def computing_type(o, s, t): return promoted(s) if o in ('ShiftLeft', 'ShiftRight') else t
def combined(o, s, t, r):
    if target_of(s) is not None: return plain(pointer_and_number(o, size(target_of(s)), r))
    by = computing_type(o, int_in(s), int_in(t))
    return in_turn([plain(between_integers(int_in(s), by, LEFT)), on_integers(o, by, r), plain(between_integers(by, int_in(s), r))])
def is_increment(s): return s in ('PreIncrement', 'PostIncrement')
def gives_old(s): return s in ('PostIncrement', 'PostDecrement')
def stepped(s, t, r):
    if target_of(t) is None: return [('AddImm' if is_increment(s) else 'SubImm', True, 0, 1, r, LEFT)] + wrap_into(int_in(t), LEFT)
    return constant_moves(LEFT, size(target_of(t))) + [operation_instr('Add' if is_increment(s) else 'Sub', True, LEFT, r, LEFT)]
# ------------------------------------------------------------------ gen_expr
class Coded:
    def __init__(s, **k): s.__dict__.update(k)
    def but(s, **k): d = dict(s.__dict__); d.update(k); return Coded(**d)
no_code = lambda t, r: nothing
def computed(alone, value, ty): return Coded(ty=ty, slot=None, alone=alone, value=value, place=no_code, pointer=no_code, asks=None)
def designated(alone, place, ty): return Coded(ty=ty, slot=None, alone=alone, value=no_code, place=place, pointer=place, asks=None)
def pointed(alone, pointer, ty, e):
    return Coded(ty=ty, slot=None, alone=alone, value=no_code, place=lambda t, r: in_turn([pointer(t, r), M('ask', e.id), plain([('Nop',)])]),
                 pointer=lambda t, r: in_turn([pointer(t, r), M('ask', e.id)]), asks=None)
def read_slot(e, t, r):
    if e.slot is not None: return in_turn([M('ask', e.asks), plain([load_scalar(e.ty, ('OnStack', e.slot), r)])])
    return in_turn([e.pointer(t, r), plain([load_scalar(e.ty, ('Behind', r), r)])])
def first_waits(into, first, b):
    def go(t, r):
        if b.alone: return in_turn([first(t, r), plain([move(r, into)]), b.value(t, r)])
        return in_turn([first(t, r), plain(keep(t, r)), b.value(t + 1, r), plain(fetch(t, into))])
    return go
def item_at(at, i): return in_turn([M('ask', at), only(i)])
def constant(e, n): return lambda t, r: in_turn([M('ask', e.id), plain(constant_moves(r, n))])
class Gen:
    """of a function: its frame, and what code was made with markers"""
    def __init__(g, fr): g.frame = fr; g.emitted = set(); g.words = {}; g.memo = {}
    def coded(g, e):
        if e not in g.memo: g.memo[e] = g.marked(e, g.node_code(e))
        return g.memo[e]
    def marked(g, e, c):
        if e.node[0] == 'Paren': return c
        nd = need(e)
        def around(emit, kind):
            if emit is no_code: return no_code
            def go(t, r):
                def at_(at):
                    g.emitted.add((e.id, kind)); assert t >= 0
                    return in_turn([M('start', kind, e.id, t, r, c.alone, nd), emit(t, r), M('done', kind, e.id, t, r, c.alone, nd)])(at)
                return at_
            return go
        return c.but(value=around(c.value, 'value'), place=around(c.place, 'place'), pointer=around(c.pointer, 'pointer'))
    def node_code(g, e):
        n = e.node; k = n[0]; ty = e.ty; co = g.coded
        if k == 'Constant': return computed(True, constant(e, n[1]), ty)
        if k == 'Text': return designated(True, lambda t, r: item_at(e.id, ('TextAddress', n[1], r)), ty)
        if k == 'Local':
            s = g.frame.slots[n[1]] if n[1] < len(g.frame.slots) else None
            return designated(True, lambda t, r: item_at(e.id, ('SlotAddress', n[1], r)), ty).but(slot=reached(ty, s), asks=e.id)
        if k == 'Global': return designated(True, lambda t, r: item_at(e.id, ('GlobalAddress', n[1], r)), ty)
        if k == 'Extern': return designated(True, lambda t, r: item_at(e.id, ('ExternAddress', n[1], r)), ty)
        if k == 'Paren': return co(n[1]).but(ty=ty)
        if k == 'Unary':
            o, a = n[1], co(n[2])
            if o == 'Dereference': return pointed(a.alone, a.value, ty, e)
            if o == 'AddressOf': return computed(a.alone, lambda t, r: in_turn([a.place(t, r), M('ask', e.id), plain([('Nop',)])]), ty)
            return computed(a.alone, lambda t, r: in_turn([a.value(t, r), M('ask', e.id), plain(on_integer(o, int_in(a.ty), r))]), ty)
        if k == 'Binary':
            o, a, b = n[1], co(n[2]), co(n[3])
            if o == 'And':
                v = lambda t, r: in_turn([a.value(t, r), M('ask', e.id), labelled(lambda l: in_turn([
                    only(('JumpIfZero', r, l)), b.value(t, r), plain(is_other(r)), only(('Label', l))]))])
            elif o == 'Or':
                v = lambda t, r: in_turn([a.value(t, r), M('ask', e.id), plain(is_other(r)), labelled(lambda l: in_turn([
                    only(('JumpIfNotZero', r, l)), b.value(t, r), plain(is_other(r)), only(('Label', l))]))])
            else: v = lambda t, r: in_turn([first_waits(LEFT, a.value, b)(t, r), M('ask', e.id), operated(o, a.ty, b.ty, r)])
            return computed(False, v, ty)
        if k == 'Assign':
            o, a, b = n[1], co(n[2]), co(n[3])
            if o is None:
                if a.slot is not None:
                    v = lambda t, r: in_turn([M('ask', a.asks), plain([('Nop',)]), b.value(t, r), M('ask', e.id),
                                              plain([store_scalar(a.ty, ('OnStack', a.slot), r)])])
                else:
                    v = lambda t, r: in_turn([first_waits(SCRATCH, a.pointer, b)(t, r), M('ask', e.id),
                                              plain([store_scalar(a.ty, ('Behind', SCRATCH), r)])])
            elif a.slot is not None:
                v = lambda t, r: in_turn([M('ask', a.asks), plain([('Nop',)]), b.value(t, r), M('ask', e.id),
                    plain([load_scalar(a.ty, ('OnStack', a.slot), LEFT)]), combined(o, a.ty, b.ty, r), plain([store_scalar(a.ty, ('OnStack', a.slot), r)])])
            else:
                v = lambda t, r: in_turn([a.pointer(t, r), plain(keep(t, r)), b.value(t + 1, r), M('ask', e.id),
                    plain(fetch(t, SCRATCH) + [load_scalar(a.ty, ('Behind', SCRATCH), LEFT)]), combined(o, a.ty, b.ty, r),
                    plain(fetch(t, SCRATCH) + [store_scalar(a.ty, ('Behind', SCRATCH), r)])])
            return computed(False, v, ty)
        if k == 'Cond':
            c, a, b = map(co, n[1:])
            return computed(False, lambda t, r: in_turn([c.value(t, r), M('ask', e.id), labelled(lambda l: in_turn([
                only(('JumpIfZero', r, l)), a.value(t, r), only(('Jump', l + 1)), only(('Label', l)), b.value(t, r), only(('Label', l + 1))]))]), ty)
        if k == 'Cast':
            a = co(n[2])
            return computed(a.alone, lambda t, r: in_turn([a.value(t, r), M('ask', e.id), plain(paying(convert(a.ty, n[1], r)))]), ty)
        if k == 'SizeofExpr': return computed(True, constant(e, size(n[1].ty) % 2 ** 64), ty)
        if k == 'SizeofName': return computed(True, constant(e, size(n[1]) % 2 ** 64), ty)
        if k == 'Call':
            args = list(map(co, n[2])); callee = n[1]
            def v(t, r):
                cs = [c for i, a in enumerate(args) for c in (a.value(t + i, r), plain(keep(t + i, r)))]
                got = [i for j in range(len(args)) for i in fetch(t + j, argument(j))]
                if callee == 'Putchar': call = plain([('Svc', 1)])
                elif callee == 'Getchar': call = plain([('Svc', 2)])
                else: call = in_turn([only(('CallFunction' if callee[0] == 'Function' else 'CallExtern', callee[1])), M('back', e.id)])
                return in_turn(cs + [M('ask', e.id), plain(got), call, plain([move(0, r)])])
            return computed(False, v, ty)
        if k == 'Index':
            a, i = co(n[1]), co(n[2])
            return designated(False, lambda t, r: in_turn([first_waits(LEFT, a.value, i)(t, r), M('ask', e.id),
                                                           plain(element(size(ty), target_of(a.ty), r))]), ty)
        if k == 'Step':
            s, a = n[1], co(n[2]); nov = lambda r: [] if gives_old(s) else [move(LEFT, r)]
            if a.slot is not None:
                return computed(False, lambda t, r: in_turn([M('ask', a.asks), plain([('Nop',)]), M('ask', e.id), plain(
                    [load_scalar(a.ty, ('OnStack', a.slot), r)] + stepped(s, a.ty, r) + [store_scalar(a.ty, ('OnStack', a.slot), LEFT)] + nov(r))]), ty)
            return computed(False, lambda t, r: in_turn([a.pointer(t, r), plain([move(r, SCRATCH)]), M('ask', e.id), plain(
                [load_scalar(a.ty, ('Behind', r), r)] + stepped(s, a.ty, r) + [store_scalar(a.ty, ('Behind', SCRATCH), LEFT)] + nov(r))]), ty)
        if k == 'Read':
            a = co(n[1]); return computed(a.alone, lambda t, r: read_slot(a, t, r), ty)
        if k == 'Decay':
            a = co(n[1]); return computed(a.alone, a.place, ty)
        if k == 'Convert':
            a = co(n[1]); return computed(a.alone, lambda t, r: in_turn([a.value(t, r), plain(convert(a.ty, ty, r))]), ty)
        raise Exception(k)
# ------------------------------------------------------------------ gen_stmt
RESULT = 9
class Around:
    def __init__(s, broke, continued, opened=None): s.broke = broke; s.continued = continued; s.opened = opened
def range_(k, ks): return (k, max([k] + ks))
def widened(around, r):
    if around is None: return r
    return (min(around[0], r[0]), max(around[1], r[1]))
class GenS(Gen):
    def __init__(g, fr, t0=0, reg=RESULT): Gen.__init__(g, fr); g.t0 = t0; g.scope_ids = {}
    def value(g, e): return g.coded(e).value(g.t0, RESULT)
    def maybe(g, e): return nothing if e is None else g.value(e)
    def enter(g, ks):
        ts = [k for k in ks if k < len(g.frame.slots) and g.frame.slots[k].tagged]
        return plain([('Nop',)]) if not ts else only(('EnterScope', ts))
    def leave(g, r):
        if r is None: return nothing
        return only(('LeaveScope', r[0], r[1])) if any(s.tagged for s in between(g.frame.slots, r[0], r[1])) else nothing
    def jump_out(g, opened, label): return in_turn([g.leave(opened), only(('Jump', label))])
    def store_local(g, k, ty, start, r):
        if start is not None: return plain([store_scalar(ty, ('OnStack', start), r)])
        return in_turn([only(('SlotAddress', k, SCRATCH)), plain([store_scalar(ty, ('Behind', SCRATCH), r)])])
    def declarations(g, ds):
        out = []
        for d in ds:
            if d.init is not None:
                slot = g.frame.slots[d.local] if d.local < len(g.frame.slots) else None
                out += [M('ask', d.id), plain([('Nop',)]), g.value(d.init), g.store_local(d.local, d.init.ty, reached(d.init.ty, slot), RESULT)]
        return in_turn(out)
    def scope(g, ks, body, around, sid):
        if not ks: return body(around)
        inner = Around(around.broke, around.continued, widened(around.opened, range_(ks[0], ks[1:])))
        return in_turn([M('ask', sid), g.enter(ks), body(inner), g.leave(range_(ks[0], ks[1:]))])
    def items(g, its, around): return in_turn([g.declarations(i[1]) if i[0] == 'Local' else g.stmt(i[1], around) for i in its])
    def back_to(g, body, cond): return only(('Jump', body)) if cond is None else in_turn([cond, only(('JumpIfNotZero', RESULT, body))])
    def stmt(g, s, around): return in_turn([M('sstart', s.id), g.stmt_code(s, around), M('send', s.id)])
    def stmt_code(g, s, around):
        n = s.node; k = n[0]; lab = lambda l: only(('Label', l))
        if k == 'Block': return g.scope(declared_of(n[1]), lambda ar: g.items(n[1], ar), around, s.id)
        if k == 'Expr': return g.value(n[1])
        if k == 'Empty': return nothing
        if k == 'If':
            if n[3] is None:
                return in_turn([g.value(n[1]), labelled(lambda l: in_turn([only(('JumpIfZero', RESULT, l)), g.stmt(n[2], around), lab(l)]))])
            return in_turn([g.value(n[1]), labelled(lambda l: in_turn([only(('JumpIfZero', RESULT, l)), g.stmt(n[2], around),
                only(('Jump', l + 1)), lab(l), g.stmt(n[3], around), lab(l + 1)]))])
        if k == 'While':
            return labelled(lambda l: in_turn([only(('Jump', l)), lab(l + 1), g.stmt(n[2], Around(l + 2, l)), lab(l), M('ask', s.id),
                                               g.back_to(l + 1, g.value(n[1])), lab(l + 2)]))
        if k == 'DoWhile':
            return labelled(lambda l: in_turn([plain([('Nop',)]), lab(l + 1), M('ask', s.id), g.stmt(n[1], Around(l + 2, l)), lab(l),
                                               g.back_to(l + 1, g.value(n[2])), lab(l + 2)]))
        if k == 'For':
            loop = labelled(lambda l: in_turn([only(('Jump', l + 3)), lab(l + 1), g.stmt(n[5], Around(l + 2, l)), lab(l), g.maybe(n[4]),
                lab(l + 3), M('ask', ('turn', s.id)), g.back_to(l + 1, None if n[3] is None else g.value(n[3])), lab(l + 2)]))
            return g.scope([d.local for d in n[1]], lambda ar: in_turn([g.declarations(n[1]), g.maybe(n[2]), loop]), around, s.id)
        if k == 'Return':
            if n[1] is None: return in_turn([plain(constant_moves(0, 0)), M('leave', s.id), only(('Leave',))])
            return in_turn([g.value(n[1]), plain([move(RESULT, 0)]), M('leave', s.id), only(('Leave',))])
        if k == 'Break': return in_turn([M('jump', s.id, around.broke), g.jump_out(around.opened, around.broke)])
        if k == 'Continue': return in_turn([M('jump', s.id, around.continued), g.jump_out(around.opened, around.continued)])
    def function_code(g, f):
        st = [g.store_local(k, f.locals[k], reached(f.locals[k], g.frame.slots[k]), argument(k)) for k in range(f.params)]
        return in_turn(st + [M('body'), g.items(f.body.node[1], Around(0, 0)), plain(constant_moves(0, 0)), M('fallen')])
# ------------------------------------------------------------------ gen_unit: entry, exit, lengths
def lower(b): return [('SubImm', True, 0, b, SP, SP)] if b < 4096 else [('SubImm', True, 1, b // 4096, SP, SP), ('SubImm', True, 0, b % 4096, SP, SP)]
def entry(f): return lower(f.bytes) + [('Stp', 0, 30, SP, 29)] + entry_list(f)
def exit_(f): return exit_list(f) + [('Ldp', 0, 30, SP, 29)] + offset_from(SP, f.bytes, SP) + [('Ret',)]
def item_length(fr, i, far=False):
    k = i[0]
    if k == 'Plain' or k == 'Jump' or k in ('CallFunction', 'CallExtern', 'Leave'): return 1
    if k in ('Label', 'M'): return 0
    if k in ('JumpIfZero', 'JumpIfNotZero'): return 2 if far else 1
    if k == 'SlotAddress': return len(slot_address_list(fr.slots[i[1]], i[2]))
    if k in ('GlobalAddress', 'ExternAddress', 'TextAddress'): return 2
    if k == 'EnterScope': return len(enter_list(fr, i[1]))
    if k == 'LeaveScope': return len(leave_list(fr, i[1], i[2]))
# ------------------------------------------------------------------ the machine (a64_code Effect, Access, Services)
def sgn(k, n): n %= 2 ** k; return n - 2 ** k if n >= 2 ** (k - 1) else n
def tdiv(a, b): q = abs(a) // abs(b); return q if (a < 0) == (b < 0) else -q
def next_tag(tag, off, exclude):
    if exclude & 0xffff == 0xffff: return 0
    t = tag
    if off == 0:
        while exclude >> t & 1: t = (t + 1) % 16
        return t
    for _ in range(off):
        t = (t + 1) % 16
        while exclude >> t & 1: t = (t + 1) % 16
    return t
def base_tag(c): return next_tag(c, 0, 1)
def slot_tag(c, i): return next_tag(base_tag(c), i, 1)
def tag_of(p): return p >> 56 & 15
def with_tag(p, t): return p // 2 ** 60 * 2 ** 60 + t * 2 ** 56 + p % 2 ** 56
def addr(p): return p % 2 ** 56
class Ends(Exception): pass
class Fault(Exception):
    pass
STACK_END, GUARD = 0x40000000, 524288
WIDTHS = dict(Movz=(2, 16, 5), Movk=(2, 16, 5), AddImm=(1, 12, 5, 5), SubImm=(1, 12, 5, 5), SubsImm=(1, 12, 5, 5), Sbfm=(6, 6, 5, 5), Ubfm=(6, 6, 5, 5),
              Ldr=(12, 5, 5), Str=(12, 5, 5), Csinc=(5, 4, 5, 5), Cbnz=(19, 5), Madd=(5, 5, 5, 5), Msub=(5, 5, 5, 5))
NARROW = dict(Ldrb=(12, 5, 5), Strb=(12, 5, 5), Ldrh=(12, 5, 5), Strh=(12, 5, 5), Ldrsw=(12, 5, 5), Ldrsb=(12, 5, 5), Ldrsh=(12, 5, 5),
              Stp=(7, 5, 5, 5), Ldp=(7, 5, 5, 5), Svc=(16,), Addg=(6, 4, 5, 5), Irg=(5, 5, 5), Stg=(9, 5, 5), St2g=(9, 5, 5), Nop=(), Ret=())
def encodable(i):
    fs, ws = (i[1:], NARROW[i[0]]) if i[0] in NARROW else (i[2:], WIDTHS.get(i[0], (5, 5, 5)))
    if len(fs) != len(ws) or not all(isinstance(f, int) and 0 <= f < 2 ** w for f, w in zip(fs, ws)): raise Fault('not encodable %s' % (i,))
    if i[0] in ('Movz', 'Movk') and not i[1] and i[2] > 1: raise Fault('not encodable %s' % (i,))
class Machine:
    def __init__(m, stack, regions, choices, drawn, inp):
        m.x = {k: random.getrandbits(64) for k in range(31)}; m.sp = STACK_END; m.flags = (0, 0, 0, 0)
        m.regions = [(STACK_END - stack, bytearray(random.getrandbits(8) for _ in range(stack)), True)] + regions
        m.stack = stack; m.tags = {}; m.choices = choices; m.drawn = drawn; m.inp = list(inp); m.out = []; m.ways = 0
    def g(m, r): return m.x[r] if r < 31 else 0
    def gs(m, r): return m.x[r] if r < 31 else m.sp
    def put(m, r, v):
        assert 0 <= v <= M64
        if r < 31: m.x[r] = v
    def puts(m, r, v):
        assert 0 <= v <= M64
        if r < 31: m.x[r] = v
        else: m.sp = v
    def region(m, a):
        for s, b, w in m.regions:
            if s <= a < s + len(b): return s, b, w
        return None
    def load(m, n, a): s, b, w = m.region(a); return int.from_bytes(b[a - s:a - s + n], 'little')
    def store(m, n, a, v): s, b, w = m.region(a); b[a - s:a - s + n] = (v % 256 ** n).to_bytes(n, 'little')
    def judge(m, p, unit, start, n, writes, checked):
        if addr(p) % unit: raise Ends('AlignFault', addr(p))
        gs = STACK_END - m.stack - GUARD
        if start < gs + GUARD and start + n > gs: raise Ends('StackFault')
        for a in (start, start + n - 1):
            r = m.region(a)
            if r is None or (writes and not r[2]): raise Ends('MemoryFault', addr(p))
        if checked:
            for gr in (start // 16, (start + n - 1) // 16):
                t = m.tags.get(gr, 0)
                if t != tag_of(p): raise Ends('TagFault', addr(p), tag_of(p), t)
    def settag(m, p, n, t):
        m.judge(p, 16, addr(p), 16 * n, True, False)
        for k in range(n):
            if t: m.tags[addr(p) // 16 + k] = t
            else: m.tags.pop(addr(p) // 16 + k, None)
    def sub_flags(m, k, x, y):
        y2 = 2 ** k - 1 - y; u = x + y2 + 1; r = u % 2 ** k
        return r, (int(r >= 2 ** (k - 1)), int(r == 0), int(r != u), int(sgn(k, r) != sgn(k, x) + sgn(k, y2) + 1))
    def cond(m, c):
        n, z, cc, v = m.flags
        b = [z, cc, n, v, cc and not z, n == v, n == v and not z, True][c // 2]
        return (not b) if c < 14 and c % 2 == 1 else bool(b)
    def effect(m, i):
        """the instruction's effect; gives a branch's words or None"""
        encodable(i); o = i[0]
        if o in ('Movz', 'Movk'):
            _, w, hw, imm, rd = i
            v = imm << 16 * hw if o == 'Movz' else m.g(rd) % 2 ** (16 * hw) + (imm << 16 * hw) + m.g(rd) // 2 ** (16 * hw + 16) * 2 ** (16 * hw + 16)
            m.put(rd, v if w else v % 2 ** 32)
        elif o in ('AddImm', 'SubImm'):
            _, w, sh, imm, rn, rd = i; k = 64 if w else 32
            m.puts(rd, ((m.gs(rn) % 2 ** k) + (imm << 12 * sh) * (1 if o == 'AddImm' else -1)) % 2 ** k)
        elif o == 'SubsImm':
            _, w, sh, imm, rn, rd = i; k = 64 if w else 32
            r, m.flags = m.sub_flags(k, m.gs(rn) % 2 ** k, imm << 12 * sh); m.put(rd, r)
        elif o == 'SubsReg':
            _, w, rm, rn, rd = i; k = 64 if w else 32
            r, m.flags = m.sub_flags(k, m.g(rn) % 2 ** k, m.g(rm) % 2 ** k); m.put(rd, r)
        elif o in ('AddReg', 'SubReg', 'AndReg', 'OrrReg', 'EorReg', 'Lslv', 'Lsrv', 'Asrv', 'Udiv', 'Sdiv'):
            _, w, rm, rn, rd = i; k = 64 if w else 32; x, y = m.g(rn) % 2 ** k, m.g(rm) % 2 ** k
            v = {'AddReg': lambda: x + y, 'SubReg': lambda: x - y, 'AndReg': lambda: x & y, 'OrrReg': lambda: x | y, 'EorReg': lambda: x ^ y,
                 'Lslv': lambda: x << y % k, 'Lsrv': lambda: x >> y % k, 'Asrv': lambda: sgn(k, x) >> y % k,
                 'Udiv': lambda: x // y if y else 0, 'Sdiv': lambda: tdiv(sgn(k, x), sgn(k, y)) if y else 0}[o]()
            m.put(rd, v % 2 ** k)
        elif o in ('Madd', 'Msub'):
            _, w, rm, ra, rn, rd = i; k = 64 if w else 32
            m.put(rd, (m.g(ra) + m.g(rn) * m.g(rm) * (1 if o == 'Madd' else -1)) % 2 ** k)
        elif o in ('Sbfm', 'Ubfm'):
            _, w, immr, imms, rn, rd = i; k = 64 if w else 32; x = m.g(rn) % 2 ** k; immr %= k; imms %= k
            ext = (lambda b, n: sgn(b, n) % 2 ** k) if o == 'Sbfm' else (lambda b, n: n % 2 ** b)
            m.put(rd, ext(imms - immr + 1, x >> immr) if immr <= imms else (ext(imms + 1, x) << (k - immr)) % 2 ** k)
        elif o == 'Csinc':
            _, w, rm, c, rn, rd = i; k = 64 if w else 32
            m.put(rd, m.g(rn) % 2 ** k if m.cond(c) else (m.g(rm) % 2 ** k + 1) % 2 ** k)
        elif o in ('Ldr', 'Ldrb', 'Ldrh', 'Ldrsw', 'Ldrsb', 'Ldrsh'):
            w = i[1] if o == 'Ldr' else None; imm, rn, rt = i[-3:]
            n = {'Ldr': 8 if w else 4, 'Ldrb': 1, 'Ldrh': 2, 'Ldrsw': 4, 'Ldrsb': 1, 'Ldrsh': 2}[o]
            p = (m.gs(rn) + imm * n) % 2 ** 64; m.judge(p, n, addr(p), n, False, rn != 31)
            v = m.load(n, addr(p)); m.put(rt, sgn(8 * n, v) % 2 ** 64 if o in ('Ldrsw', 'Ldrsb', 'Ldrsh') else v)
        elif o in ('Str', 'Strb', 'Strh'):
            imm, rn, rt = i[-3:]; n = {'Str': 8 if i[1] else 4, 'Strb': 1, 'Strh': 2}[o]
            p = (m.gs(rn) + imm * n) % 2 ** 64; m.judge(p, n, addr(p), n, True, rn != 31); m.store(n, addr(p), m.g(rt))
        elif o in ('Stp', 'Ldp'):
            _, imm7, rt2, rn, rt = i; p = (m.gs(rn) + 8 * sgn(7, imm7)) % 2 ** 64
            m.judge(p, 8, addr(p), 16, o == 'Stp', rn != 31)
            if o == 'Stp': m.store(8, addr(p), m.g(rt)); m.store(8, addr(p) + 8, m.g(rt2))
            else: a, b = m.load(8, addr(p)), m.load(8, addr(p) + 8); m.put(rt, a); m.put(rt2, b)
        elif o == 'Nop' or o == 'Ret': pass
        elif o == 'Svc':
            if i[1] == 1: m.x[0] %= 256; m.out.append(m.x[0])
            elif i[1] == 2: m.x[0] = m.inp.pop(0) if m.inp else M64
            elif i[1] == 3: raise Ends('Exited', m.x[0] % 256)
            elif i[1] == 4: raise Ends('Divide')
            else: raise Ends('BadCode')
        elif o == 'Addg':
            _, u6, u4, rn, rd = i; m.puts(rd, with_tag((m.gs(rn) + 16 * u6) % 2 ** 64, next_tag(tag_of(m.gs(rn)), u4, 1)))
        elif o == 'Irg':
            _, rm, rn, rd = i; c = m.choices[m.drawn]; m.drawn = (m.drawn + 1) % len(m.choices)
            m.puts(rd, with_tag(m.gs(rn), next_tag(c, 0, m.g(rm) % 65536 | 1)))
        elif o in ('Stg', 'St2g'):
            _, s9, rn, rt = i; m.settag((m.gs(rn) + 16 * sgn(9, s9)) % 2 ** 64, 1 if o == 'Stg' else 2, tag_of(m.gs(rt)))
        elif o == 'Cbnz':
            _, w, imm, rt = i; return sgn(19, imm) if m.g(rt) % 2 ** (64 if w else 32) else None
        else: raise Exception(o)
    def run_list(m, l):
        k = steps = 0
        while k != len(l):
            b = m.effect(l[k]); steps += 1; k = k + 1 if b is None else k + b
            if not 0 <= k <= len(l): raise Fault('branch out of list')
        return steps
# ------------------------------------------------------------------ the meaning (block_meaning) beside the machine
class Block:
    def __init__(b, kind, cells): b.kind = kind; b.size = len(cells); b.live = True; b.cells = cells
class Call:
    def __init__(c, number, fn, place): c.number = number; c.fn = fn; c.place = place
class Ctx:
    def __init__(c, calls, local): c.open_calls = calls; c.local = local
class Stop(Exception):
    def __init__(s, why, access=None): s.why = why; s.access = access
class Stats:
    def __init__(s): s.n = {}; s.worst = {}
    def count(s, k, n=1): s.n[k] = s.n.get(k, 0) + n
    def least(s, k, v):
        if k not in s.worst or v < s.worst[k]: s.worst[k] = v
STATS = Stats()
GLOBALS_AT, TEXTS_AT = 0x20000000, 0x28000000
class Sim:
    def __init__(z, unit, work, inp, choices, stack=16384, t0=0, strict=True):
        z.unit = unit; z.work = work; z.t0 = t0; z.input = list(inp); z.output = []; z.calls = []; z.choices = choices; z.strict = strict
        z.frames = [frame(f, t0) for f in unit.functions]; z.per = per_of(unit, z.frames); z.stack_bytes = stack
        z.blocks = [Block(('null',), [])]; z.starts = {}; gl = bytearray(); tx = bytearray(); tag = base_tag(choices[0]); z.first = 1 if unit.globals else 0
        for i, (t, init) in enumerate(unit.globals):
            z.starts[len(z.blocks)] = (GLOBALS_AT + len(gl), tag); z.blocks.append(Block(('global', i), list(init)))
            gl += bytearray(round_up(size(t), 16)); tag = next_tag(tag, 1, 1)
        for i, b in enumerate(unit.texts):
            z.starts[len(z.blocks)] = (TEXTS_AT + len(tx), 0); z.blocks.append(Block(('text', i), list(b))); tx += bytes(b) + bytes(-len(b) % 16)
        z.m = Machine(stack, [(GLOBALS_AT, gl, True), (TEXTS_AT, tx, False)], choices, z.first % len(choices), inp); m = z.m
        for n, (st, tg) in z.starts.items():
            b = z.blocks[n]
            if b.kind[0] == 'global':
                for k, c in enumerate(b.cells): m.store(1, st + k, z.cell_byte(c))
                for k in range(0, b.size, 16): m.tags[(st + k) // 16] = tg
        z.code = []; z.loaded_tags = {k: v for k, v in m.tags.items()}; z.loaded28 = m.x[28]
        for f, fr in zip(unit.functions, z.frames):
            g = GenS(fr, t0); items = g.function_code(f)(0); labels = {}
            for k, i in enumerate(items):
                if i[0] == 'Label':
                    if i[1] in labels: raise Fault('label %d stands twice' % i[1])
                    labels[i[1]] = k
            for i in items:
                if i[0] in ('Jump', 'JumpIfZero', 'JumpIfNotZero') and i[-1] not in labels: raise Fault('jump to no label %s' % (i,))
            z.code.append((items, labels, g))
        z.units = 0; z.smin = z.smax = 0; z.acts = []; z.nodes = []; z.ctx = None
    # ---- numbers
    def choice_of(z, c): return z.choices[(z.first + sum(1 for d in z.calls[:c.number] if tagged_slots(z.frames[d.fn].slots))) % len(z.choices)]
    def site(z, n):
        k = z.blocks[n].kind
        if k[0] == 'local':
            c = z.calls[k[1]]; s = z.frames[c.fn].slots[k[2]]
            return STACK_END - c.place + s.start, (slot_tag(z.choice_of(c), s.index) if s.tagged else 0)
        return z.starts.get(n, (0, 0))
    def is_tagged(z, b): return b.kind[0] == 'global' or (b.kind[0] == 'local' and z.frames[z.calls[b.kind[1]].fn].slots[b.kind[2]].tagged)
    def number(z, p): s, t = z.site(p[0]); return (s + t * 2 ** 56 + p[1]) % 2 ** 64
    def num(z, v): return v[1] if v[0] == 'n' else z.number(v[1])
    def cell_byte(z, c): return c if isinstance(c, int) else z.number((c[2], c[3])) >> 8 * c[1] & 255
    # ---- the relation
    def relates(z, where):
        m = z.m; want = {}; STATS.count('relations')
        for n, b in enumerate(z.blocks):
            if b.kind[0] == 'null' or not b.live: continue
            st, tg = z.site(n)
            for k, c in enumerate(b.cells):
                if c is not None and m.load(1, st + k) != z.cell_byte(c): raise Fault('%s: cell %d of block %d %s is not the byte' % (where, k, n, b.kind))
            if b.kind[0] == 'local' and z.is_tagged(b):
                s = z.frames[z.calls[b.kind[1]].fn].slots[b.kind[2]]
                for gr in range(st // 16, (st + s.bytes) // 16): want[gr] = tg
        lo = (STACK_END - z.stack_bytes) // 16
        have = {k: v for k, v in m.tags.items() if lo <= k < STACK_END // 16}
        if have != want:
            k = [k for k in set(have) | set(want) if have.get(k) != want.get(k)][0]
            raise Fault('%s: tag of granule 0x%x (SP + %d) is %d, not %d' % (where, k * 16, k * 16 - m.sp, have.get(k, 0), want.get(k, 0)))
        if {k: v for k, v in m.tags.items() if k < lo} != z.loaded_tags: raise Fault(where + ': tags outside')
        place = z.ctx.open_calls[0].place if z.ctx.open_calls else 0
        if m.sp != STACK_END - place: raise Fault(where + ': SP')
        if m.out != z.output or m.inp != z.input: raise Fault(where + ': outside')
        def base(cs):
            for c in cs:
                if tagged_slots(z.frames[c.fn].slots): return with_tag(STACK_END - c.place, base_tag(z.choice_of(c)))
            return z.loaded28
        if m.x[28] != base(z.ctx.open_calls): raise Fault(where + ': X28')
        for i, c in enumerate(z.ctx.open_calls):
            if tagged_slots(z.frames[c.fn].slots) and m.load(8, STACK_END - c.place + 16) != base(z.ctx.open_calls[i + 1:]): raise Fault(where + ': base word')
        if m.drawn != (z.first + sum(1 for d in z.calls if tagged_slots(z.frames[d.fn].slots))) % len(z.choices): raise Fault(where + ': drawn')
        for a in z.acts:
            if m.load(8, a['sp']) != a['x29'] or m.load(8, a['sp'] + 8) != a['token']: raise Fault(where + ': saved pair')
    # ---- the machine, item by item
    def took(z, lo, hi): z.smin += lo; z.smax += hi
    def enter(z, fn):
        m = z.m; token = random.getrandbits(40) * 4; m.x[30] = token; x29 = m.x[29]
        act = dict(fn=fn, idx=0, token=token, x29=x29, sp0=m.sp, units=z.units - 1, smin=z.smin, smax=z.smax, nodes=z.nodes); z.took(1, 1)
        n = m.run_list(entry(z.frames[fn])); z.took(n, n); act['sp'] = m.sp
        z.acts.append(act); z.nodes = []; z.scramble(keep_=set(range(8)) | {28})
    def back(z):
        m = z.m; a = z.acts.pop(); l = exit_(z.frames[a['fn']]); n = m.run_list(l); z.took(n, n)
        if m.x[30] != a['token'] or m.x[29] != a['x29'] or m.sp != a['sp0']: raise Fault('X29, X30 or SP after a call')
        k = z.unit.functions[a['fn']].params; u = z.units - a['units']; z.nodes = a['nodes']
        STATS.least('call: per*u + k - 8 - steps', z.per * u + k - 8 - (z.smax - a['smax'])); STATS.least('call: steps - u', z.smin - a['smin'] - u)
        if z.smin - a['smin'] < u: raise Fault('a call of %d units takes %d steps' % (u, z.smin - a['smin']))
        if z.smax - a['smax'] > z.per * u + k - 8: z.over('call', a['fn'], z.smax - a['smax'] - (z.per * u + k - 8))
        z.smin = a['smin'] + u; z.smax = a['smax'] + z.per * u + k - 8
        z.scramble(keep_={0, 28})
    def over(z, what, which, by):
        STATS.count('over the bound from above: ' + what)
        if z.strict: raise Fault('%s %s is %d steps over its bound' % (what, which, by))
    def scramble(z, keep_):
        for k in range(31):
            if k not in keep_: z.m.x[k] = random.getrandbits(64)
        z.m.flags = tuple(random.getrandbits(1) for _ in range(4))
    def item(z):
        """runs items up to the next marker, which it gives"""
        m = z.m
        while True:
            a = z.acts[-1]; items, labels, g = z.code[a['fn']]
            if a['idx'] == len(items): return ('end',)
            i = items[a['idx']]; a['idx'] += 1; k = i[0]
            if k == 'M': return i[1:]
            z.do(i, a, labels, g)
    def do(z, i, a, labels, g):
        m = z.m; k = i[0]; fr = g.frame; STATS.count('items')
        if k == 'Plain': m.effect(i[1]); z.took(1, 1)
        elif k == 'Label': pass
        elif k == 'Jump': a['idx'] = labels[i[1]]; z.took(1, 2)
        elif k in ('JumpIfZero', 'JumpIfNotZero'):
            z.took(1, 2)
            if (m.x[i[1]] == 0) == (k == 'JumpIfZero'): a['idx'] = labels[i[2]]
        elif k == 'SlotAddress': n = m.run_list(slot_address_list(fr.slots[i[1]], i[2])); assert 1 <= n <= 3; z.took(1, 3)
        elif k in ('GlobalAddress', 'ExternAddress'): m.x[i[2]] = z.number((1 + i[1], 0)); z.took(1, 3)
        elif k == 'TextAddress': m.x[i[2]] = z.number((1 + len(z.unit.globals) + i[1], 0)); z.took(1, 3)
        elif k in ('CallFunction', 'CallExtern'): z.enter(i[1])
        elif k == 'Leave':
            z.took(1, 2); a['idx'] = len(z.code[a['fn']][0])
        elif k == 'EnterScope':
            gr = sum(fr.slots[x].bytes for x in i[1]) // 16; n = m.run_list(enter_list(fr, i[1])); assert n <= 4 * gr + 24, 'enter'; z.took(1, 4 * gr + 24)
            z.scramble(set(range(31)) - set(range(9, 18)))
        elif k == 'LeaveScope':
            gr = sum(s.bytes for s in tagged_slots(between(fr.slots, i[1], i[2]))) // 16
            n = m.run_list(leave_list(fr, i[1], i[2])); assert n <= 3 * gr // 4 + 24, 'leave'; z.took(0, 3 * gr // 4 + 24); z.left = 3 * gr // 4 + 24
            z.scramble(set(range(31)) - set(range(9, 18)))
    def expect(z, *want):
        try: got = z.item()
        except Ends as e: raise Fault('machine ends %s before %s' % (e.args, want))
        if got[:len(want)] != want: raise Fault('marker %s where %s was due' % (got, want))
        return got
    # ---- hooks of the meaning
    def ask(z, id_):
        if z.acts:
            z.expect('ask', id_)
            a = z.acts[-1]
            if z.smin - a['smin'] < z.units - a['units']: raise Fault('ask %s: %d units, %d steps in this call' % (id_, z.units - a['units'], z.smin - a['smin']))
            for nd in z.nodes:
                if z.smin - nd['smin'] < z.units - nd['units']:
                    raise Fault('ask %s: %d units, %d steps since %s' % (id_, z.units - nd['units'], z.smin - nd['smin'], nd['what']))
            if isinstance(id_, tuple): z.relates('turn %s' % (id_,))
        if m_out(z.m) != z.output: raise Fault('output at an ask')
        if z.work == 0: raise Stop('More')
        z.work -= 1; z.units += 1; STATS.count('units')
    def temps(z): fr = z.frames[z.acts[-1]['fn']]; return [z.m.load(8, z.m.sp + 24 + 8 * k) for k in range(fr.temps)] if z.t0 == 0 else \
        [z.m.load(8, z.m.sp + 24 + 8 * k) for k in range(z.t0 - 3, fr.temps)]
    def start(z, e, kinds):
        em = z.code[z.acts[-1]['fn']][2].emitted
        kind = next((k for k in kinds if (e.id, k) in em), None)
        if kind is None: return None
        got = z.expect('start', kind, e.id); _, _, _, t, r, alone, nd = got
        z.nodes.append(dict(what=(kind, show(e)), smin=z.smin, smax=z.smax, units=z.units, temps=z.temps(), x=dict(z.m.x), got=got)); return kind
    def done(z, e, kind, v):
        if kind is None: return
        z.expect('done', kind, e.id); nd = z.nodes.pop(); _, _, _, t, r, alone, need_ = nd['got']; m = z.m; STATS.count('nodes')
        if v is not None and m.x[r] != z.num(v): raise Fault('%s is 0x%x, not 0x%x' % (nd['what'], m.x[r], z.num(v)))
        now = z.temps(); off = 0 if z.t0 == 0 else z.t0 - 3
        for k, (x, y) in enumerate(zip(nd['temps'], now)):
            if x != y and not t <= k + off < t + need_: raise Fault('%s changes temp %d, with t %d and need %d' % (nd['what'], k + off, t, need_))
        if t + need_ > z.frames[z.acts[-1]['fn']].temps: raise Fault('temps past the frame')
        if alone and any(m.x[k] != nd['x'][k] for k in range(31) if k != r): raise Fault('%s is not alone' % (nd['what'],))
        u = z.units - nd['units']; lo = z.smin - nd['smin'] - u; spare = leaves(e, kind) if OPT['adv'] else 4
        hi = z.per * u - spare - (z.smax - nd['smax'])
        owed = 1 if kind == 'pointer' else 0
        k_ = e.node[0]
        STATS.least('node %s %s: steps - u' % (kind, k_), lo); STATS.least('node %s %s: per*u - 4 - steps' % (kind, k_), hi)
        if lo < -owed: raise Fault('%s: %d units, %d steps' % (nd['what'], u, z.smin - nd['smin']))
        if hi < 0: z.over('node %s %s' % (kind, k_), nd['what'], -hi)
        if OPT['adv']: z.smax = nd['smax'] + z.per * u - spare; z.smin = nd['smin'] + u - owed
        if not alone: z.scramble({r, 28})
        fr = z.frames[z.acts[-1]['fn']]
        for k in range(t, t + need_): m.store(8, m.sp + 24 + 8 * k, random.getrandbits(64))
    # ---- accesses
    def read_scalar(z, ty, p):
        b = z.judged(ty, p, False); cells = b.cells[p[1]:p[1] + size(ty)]
        acc = (p, size(ty), True, False)
        if any(c is None for c in cells): raise Stop('Indeterminate', acc)
        if ty[0] == 'int':
            if not all(isinstance(c, int) for c in cells): raise Stop('Part', acc)
            return ('n', wrap(ty[1], sum(c << 8 * k for k, c in enumerate(cells))))
        c0 = cells[0]
        if isinstance(c0, int) or any(c != ('p', k, c0[2], c0[3]) for k, c in enumerate(cells)): raise Stop('Part', acc)
        return ('p', (c0[2], c0[3]))
    def judged(z, ty, p, writes):
        b = z.blocks[p[0]]; acc = (p, size(ty), True, writes)
        if p[1] % align(ty): raise Stop('Misaligned', acc)
        if b.kind[0] == 'null': raise Stop('Null', acc)
        if not b.live: raise Stop('Dead', acc)
        if b.size < p[1] + size(ty): raise Stop('Outside', acc)
        if writes and b.kind[0] == 'text': raise Stop('ReadOnly', acc)
        return b
    def cells_of(z, ty, v):
        if ty[0] == 'int': return [v[1] >> 8 * k & 255 for k in range(size(ty))]
        return [('p', k) + v[1] for k in range(8)]
    def write(z, ty, p, v): b = z.judged(ty, p, True); c = z.cells_of(ty, v); b.cells = b.cells[:p[1]] + c + b.cells[p[1] + len(c):]
    # ---- operators
    def inside(z, p): b = z.blocks[p[0]]; return b.live and p[1] < b.size
    def at_most_end(z, p): b = z.blocks[p[0]]; return b.live and p[1] <= b.size
    def compared(z, o, p, q):
        d = lambda a, b: is_negative('Long', (a[1] + 2 ** 64 - b[1]) % 2 ** 64)
        if p[0] == q[0]:
            return {'Less': d(p, q), 'LessEqual': d(p, q) or p[1] == q[1], 'Greater': d(q, p), 'GreaterEqual': d(q, p) or p[1] == q[1],
                    'Equal': p[1] == q[1], 'NotEqual': p[1] != q[1]}[o]
        known = (z.inside(p) and z.inside(q)) or (p == (0, 0) and z.at_most_end(q)) or (q == (0, 0) and z.at_most_end(p))
        if known and o in ('Equal', 'NotEqual'): return o == 'NotEqual'
        raise Stop('Compare')
    def truth(z, v): return z.compared('NotEqual', v[1], (0, 0)) if v[0] == 'p' else v[1] != 0
    def moved(z, p, n): return (p[0], (p[1] + n) % 2 ** 64)
    def on_values(z, o, s, t, v, w):
        if v[0] == 'n' and w[0] == 'n':
            r = binary_num(o, int_in(s), v[1], w[1])
            if r is None: raise Stop('Divide')
            return ('n', r)
        ts = size(target_of(s)) if target_of(s) else 1; tt = size(target_of(t)) if target_of(t) else 1
        if v[0] == 'p' and w[0] == 'n': return ('p', z.moved(v[1], (w[1] if o == 'Add' else negated(w[1])) * ts))
        if v[0] == 'n': return ('p', z.moved(w[1], v[1] * tt))
        if o == 'Subtract':
            if v[1][0] != w[1][0]: raise Stop('Compare')
            return ('n', m_quotient('Long', (v[1][1] + 2 ** 64 - w[1][1]) % 2 ** 64, ts))
        return ('n', int(z.compared(o, v[1], w[1])))
    def converted(z, t, v):
        if t[0] == 'void': return None
        if t[0] == 'int': return ('n', wrap(t[1], v[1] if v and v[0] == 'n' else 0))
        if t[0] == 'ptr' and v[0] == 'n': return ('p', (0, 0))
        return v
    # ---- expressions
    def value(z, e):
        if e.node[0] == 'Paren': return z.value(e.node[1])
        k = z.start(e, ['value']); v = z.value_node(e)
        if k is None: raise Fault('no code of ' + show(e))
        z.done(e, k, v); return v
    def place(z, e):
        if e.node[0] == 'Paren': return z.place(e.node[1])
        k = z.start(e, ['place', 'pointer']); p = z.place_node(e); z.done(e, k, ('p', p)); return p
    def place_node(z, e):
        n = e.node; k = n[0]
        if k == 'Text': z.ask(e.id); return (1 + len(z.unit.globals) + n[1], 0)
        if k == 'Local': z.ask(e.id); return (z.ctx.local[n[1]], 0)
        if k in ('Global', 'Extern'): z.ask(e.id); return (1 + n[1], 0)
        if k == 'Unary': v = z.value(n[2]); z.ask(e.id); return v[1]
        if k == 'Index':
            v = z.value(n[1]); w = z.value(n[2]); z.ask(e.id); b = size(e.ty)
            return z.moved(v[1], w[1] * b) if v[0] == 'p' else z.moved(w[1], v[1] * b)
        raise Exception(k)
    def value_node(z, e):
        n = e.node; k = n[0]
        if k == 'Constant': z.ask(e.id); return ('n', n[1])
        if k == 'Unary':
            o = n[1]
            if o == 'AddressOf': p = z.place(n[2]); z.ask(e.id); return ('p', p)
            v = z.value(n[2]); z.ask(e.id)
            if o == 'Not': return ('n', int(not z.truth(v)))
            return ('n', unary_num(o, int_in(n[2].ty), v[1]))
        if k == 'Binary':
            o = n[1]
            if o in ('And', 'Or'):
                v = z.value(n[2]); z.ask(e.id); f = z.truth(v)
                if f == (o == 'Or'): return ('n', int(f))
                return ('n', int(z.truth(z.value(n[3]))))
            v = z.value(n[2]); w = z.value(n[3]); z.ask(e.id); return z.on_values(o, n[2].ty, n[3].ty, v, w)
        if k == 'Assign':
            o, a, b = n[1:]; p = z.place(a); w = z.value(b); z.ask(e.id)
            if o is None: z.write(a.ty, p, w); return w
            v = z.read_scalar(a.ty, p)
            if v[0] == 'n' and w[0] == 'n':
                by = computing_type(o, int_in(a.ty), int_in(b.ty)); r = binary_num(o, by, wrap(by, v[1]), w[1])
                if r is None: raise Stop('Divide')
                r = z.converted(a.ty, ('n', r))
            else: r = z.on_values(o, a.ty, b.ty, v, w)
            z.write(a.ty, p, r); return r
        if k == 'Cond': v = z.value(n[1]); z.ask(e.id); return z.value(n[2] if z.truth(v) else n[3])
        if k == 'Cast': v = z.value(n[2]); z.ask(e.id); return z.converted(n[1], v)
        if k == 'SizeofExpr': z.ask(e.id); return ('n', size(n[1].ty))
        if k == 'SizeofName': z.ask(e.id); return ('n', size(n[1]))
        if k == 'Call':
            vs = [z.value(a) for a in n[2]]; z.ask(e.id)
            if n[1] == 'Putchar': z.output.append(vs[0][1] % 256); return ('n', vs[0][1] % 256)
            if n[1] == 'Getchar': return ('n', z.input.pop(0) if z.input else M64)
            v = z.call(n[1][1], vs); z.expect('back', e.id); return v
        if k == 'Step':
            s, a = n[1:]; p = z.place(a); z.ask(e.id); v = z.read_scalar(a.ty, p); by = 1 if is_increment(s) else M64
            w = ('p', z.moved(v[1], by * size(target_of(a.ty)))) if v[0] == 'p' else z.converted(a.ty, ('n', v[1] + by))
            z.write(a.ty, p, w); return v if gives_old(s) else w
        if k == 'Read': p = z.place(n[1]); return z.read_scalar(n[1].ty, p)
        if k == 'Decay': return ('p', z.place(n[1]))
        if k == 'Convert': return z.converted(e.ty, z.value(n[1]))
        raise Exception(k)
    # ---- calls
    def call(z, fn, vs):
        f = z.unit.functions[fn]; place = (z.ctx.open_calls[0].place if z.ctx.open_calls else 0) + z.frames[fn].bytes
        if place > z.stack_bytes: raise Stop('Deep')
        c = Call(len(z.calls), fn, place); z.calls.append(c); before = z.ctx; z.ctx = Ctx([c] + before.open_calls, {})
        for k, v in enumerate(vs): z.new_block(k, Block(('local', c.number, k), z.cells_of(f.locals[k], v)))
        for k in declared_of(f.body.node[1]): z.new_local(k)
        z.expect('body'); z.relates('entry')
        flow = z.items(f.body.node[1])
        if flow == 'Next': z.expect('fallen')
        v = flow[1] if flow[0] == 'Returned' else None
        if v is None: v = {'int': ('n', 0), 'ptr': ('p', (0, 0)), 'void': None}[f.result[0]]
        if v is not None and z.m.x[0] != z.num(v): raise Fault('X0 at the end of a function')
        for b in z.blocks:
            if b.kind[0] == 'local' and b.kind[1] == c.number: b.live = False; b.cells = []
        a = z.acts[-1]; items, labels, g = z.code[fn]
        if flow != 'Next': z.do(items[a['idx']], a, labels, g)   # Leave
        elif a['idx'] != len(items): raise Fault('items behind the end')
        z.back(); z.ctx = before; z.relates('return')
        if v is not None and z.m.x[0] != z.num(v): raise Fault('X0 after a call')
        return v
    def new_block(z, k, b): z.ctx = Ctx(z.ctx.open_calls, dict(z.ctx.local)); z.ctx.local[k] = len(z.blocks); z.blocks.append(b)
    def new_local(z, k):
        c = z.ctx.open_calls[0]; z.new_block(k, Block(('local', c.number, k), [None] * size(z.unit.functions[c.fn].locals[k])))
    # ---- statements
    def declarations(z, ds):
        for d in ds:
            if d.init is not None:
                z.ask(d.id); v = z.value(d.init); z.write(z.unit.functions[z.ctx.open_calls[0].fn].locals[d.local], (z.ctx.local[d.local], 0), v)
    def scoped(z, ks, body, sid):
        if not ks: return body()
        z.ask(sid); before = z.ctx
        for k in ks: z.new_local(k)
        r = body()
        for k in ks: b = z.blocks[z.ctx.local[k]]; b.live = False; b.cells = []
        z.ctx = before; return r
    def items(z, its):
        for i in its:
            if i[0] == 'Local': z.declarations(i[1])
            else:
                fl = z.stmt(i[1])
                if fl != 'Next': return fl
        return 'Next'
    def stmt(z, s):
        z.expect('sstart', s.id); nd = dict(what='statement %s' % s.node[0], smin=z.smin, smax=z.smax, units=z.units); z.nodes.append(nd)
        fl = z.stmt_node(s)
        if fl == 'Next': z.expect('send', s.id); z.relates('end of %s' % s.node[0])
        z.nodes.pop(); u = z.units - nd['units']; lo = z.smin - nd['smin'] - u; hi = z.per * u - (z.smax - nd['smax'])
        if fl in ('Broke', 'Continued'): hi += 8 + z.left_extra
        elif fl != 'Next': hi += 8
        STATS.count('statements'); STATS.least('statement %s %s: steps - u' % (s.node[0], fl if isinstance(fl, str) else 'Returned'), lo)
        STATS.least('statement %s %s: room' % (s.node[0], fl if isinstance(fl, str) else 'Returned'), hi)
        if lo < 0: raise Fault('%s: too few steps' % nd['what'])
        if hi < 0: z.over('statement', s.node[0] + ' ' + str(fl), -hi)
        if OPT['adv']: z.smax += max(0, hi); z.smin = nd['smin'] + u
        return fl
    def stmt_node(z, s):
        n = s.node; k = n[0]
        if k == 'Block': return z.scoped(declared_of(n[1]), lambda: z.items(n[1]), s.id)
        if k == 'Expr': z.value(n[1]); return 'Next'
        if k == 'Empty': return 'Next'
        if k == 'If':
            if z.truth(z.value(n[1])): return z.stmt(n[2])
            return z.stmt(n[3]) if n[3] is not None else 'Next'
        if k == 'While':
            while True:
                z.ask(s.id); z.relates('turn')
                if not z.truth(z.value(n[1])): return 'Next'
                fl = z.stmt(n[2])
                if fl == 'Broke': return 'Next'
                if fl not in ('Next', 'Continued'): return fl
        if k == 'DoWhile':
            while True:
                z.ask(s.id); z.relates('turn'); fl = z.stmt(n[1])
                if fl == 'Broke': return 'Next'
                if fl not in ('Next', 'Continued'): return fl
                if not z.truth(z.value(n[2])): return 'Next'
        if k == 'For':
            def loop():
                z.declarations(n[1])
                if n[2] is not None: z.value(n[2])
                while True:
                    z.ask(('turn', s.id))
                    if n[3] is not None and not z.truth(z.value(n[3])): return 'Next'
                    fl = z.stmt(n[5])
                    if fl == 'Broke': return 'Next'
                    if fl not in ('Next', 'Continued'): return fl
                    if n[4] is not None: z.value(n[4])
            return z.scoped([d.local for d in n[1]], loop, s.id)
        if k == 'Return':
            v = z.value(n[1]) if n[1] is not None else None; z.expect('leave', s.id); return ('Returned', v)
        z.expect('jump', s.id); a = z.acts[-1]; items, labels, g = z.code[a['fn']]; z.left_extra = 0; z.left = 0
        if items[a['idx']][0] == 'LeaveScope': i = items[a['idx']]; a['idx'] += 1; z.do(i, a, labels, g); z.left_extra = z.left
        if items[a['idx']][0] != 'Jump': raise Fault('no jump at ' + k)
        i = items[a['idx']]; a['idx'] += 1; z.do(i, a, labels, g)
        if OPT.get('f2'): z.relates('label of a ' + k)
        return 'Broke' if k == 'Break' else 'Continued'
    # ---- a whole run
    def run(z):
        z.ctx = Ctx([], {}); main = len(z.unit.functions) - 1
        if z.frames[main].bytes > z.stack_bytes: return 'main is too deep'
        try:
            z.ask('main'); z.enter(main); v = z.call(main, [])
            return 'Done'
        except Stop as s: return z.stopped(s)
        except Ends as e:
            if e.args[0] == 'StackFault':   # the machine is ahead: the meaning has to say Deep
                return z.deep(main)
            raise Fault('machine ends %s' % (e.args,))
    def deep(z, main): raise Fault('StackFault without Deep')
    def stopped(z, s):
        m = z.m
        if s.why == 'More': return 'More'
        if s.why == 'Divide':
            try: z.item(); raise Fault('no end at Divide')
            except Ends as e:
                if e.args != ('Divide',): raise Fault('ends %s, not Divide' % (e.args,))
            if m.out != z.output: raise Fault('output at Divide')
            z.took(1, 1); z.bounds_at_end('Divide'); return 'Divide'
        if s.why == 'Deep':
            try: z.item(); raise Fault('no end at Deep')
            except Ends as e:
                if e.args != ('StackFault',): raise Fault('ends %s, not StackFault' % (e.args,))
            if m.out != z.output: raise Fault('output at Deep')
            z.took(1, 1); z.bounds_at_end('Deep'); return 'Deep'
        if m.out != z.output: raise Fault('output at Undefined')
        if s.why in ('Dead', 'Outside'):
            p, n, _, writes = s.access; number = z.number(p); a = z.acts[-1]; items, labels, g = z.code[a['fn']]
            while True:
                i = items[a['idx']]
                if i[0] == 'M': raise Fault('marker %s before the access %s' % (i, s.why))
                if i[0] == 'Plain' and i[1][0] in ('Ldr', 'Ldrb', 'Ldrh', 'Ldrsw', 'Ldrsb', 'Ldrsh', 'Str', 'Strb', 'Strh'):
                    j = i[1]; sz = {'Ldr': 8 if j[1] else 4, 'Str': 8 if j[1] else 4, 'Ldrb': 1, 'Strb': 1, 'Ldrh': 2, 'Strh': 2, 'Ldrsw': 4, 'Ldrsb': 1, 'Ldrsh': 2}[j[0]]
                    if j[-2] != 31 and sz == n and (m.x[j[-2]] + j[-3] * sz) % 2 ** 64 == number and (j[0][0] == 'S') == writes: break
                a['idx'] += 1; z.do(i, a, labels, g)
            z.relates('undefined ' + s.why); z.took(1, 1); z.bounds_at_end('undefined'); z.caught(s, p, n, i[1]); return 'Undefined ' + s.why
        return 'Undefined ' + s.why
    def bounds_at_end(z, what):
        a = z.acts[-1] if z.acts else None
        if z.smin < z.units: raise Fault('%s: %d units, %d steps' % (what, z.units, z.smin))
        if z.smax > z.per * z.units: z.over(what, '', z.smax - z.per * z.units)
        for nd in z.nodes:
            if z.smin - nd['smin'] < z.units - nd['units']: raise Fault('%s: too few steps since %s' % (what, nd['what']))
            if z.smax - nd['smax'] > z.per * (z.units - nd['units']): z.over(what, nd['what'], z.smax - nd['smax'] - z.per * (z.units - nd['units']))
    def caught(z, s, p, n, instr):
        b = z.blocks[p[0]]
        if b.kind[0] != 'local': return
        c = z.calls[b.kind[1]]; fr = z.frames[c.fn]; sl = fr.slots[b.kind[2]]
        if not sl.tagged: return
        at = (sl.start + p[1]) % 2 ** 64; live = [x.kind[2] for x in z.blocks if x.live and x.kind[0] == 'local' and x.kind[1] == c.number]
        there = [(k, x) for k, x in enumerate(fr.slots) if x.tagged and x.start <= at < x.start + x.bytes]
        mt = slot_tag(z.choice_of(c), there[0][1].index) if there and there[0][0] in live else 0
        neighbour = s.why == 'Outside' and p[1] % n == 0 and at < fr.bytes and not any(x.index == sl.index for _, x in there)
        gr = (STACK_END - c.place + at) // 16
        ended = s.why == 'Dead' and p[1] < sl.bytes and gr not in [
            q for nb, x in enumerate(z.blocks) if x.live and x.kind[0] == 'local' and z.is_tagged(x) and x.kind[1] in [o.number for o in z.ctx.open_calls]
            for q in range(z.site(nb)[0] // 16, z.site(nb)[0] // 16 + z.frames[z.calls[x.kind[1]].fn].slots[x.kind[2]].bytes // 16)]
        if not neighbour and not ended: return
        want = ('TagFault', STACK_END - c.place + at, slot_tag(z.choice_of(c), sl.index), mt if neighbour else 0)
        STATS.count('caught ' + ('neighbour' if neighbour else 'ended'))
        try: z.m.effect(instr)
        except Ends as e:
            if e.args != want: raise Fault('ends %s, not %s' % (e.args, want))
            return
        raise Fault('an access is not caught: %s' % (want,))
def m_out(m): return m.out
def leaves(e, kind):
    places, values, less = OPT['adv']
    if kind != 'value': return places
    if not less: return values
    def v(e):
        k = e.node[0]
        return v(e.node[1]) if k == 'Paren' else v(e.node[1]) - 1 if k == 'Convert' else values
    return v(e)
