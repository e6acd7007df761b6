#!/usr/bin/env python3
"""Rows of objects and of the image of each list of them, for crates/link_rows. The answers come from tools/linking.py, a linker that shares
nothing with the toolchain.

    tools/link_rows.py crates/link_rows            writes stdin and stdout there: rows by hand, of objects that Debian's assembler made,
                                                   and of random lists
    tools/link_rows.py --random SEED N             writes rows of N random lists, alone, to the standard output

The objects of the assembler stand in tools/link_objects.s, which says how each is one of ours. Without `aarch64-linux-gnu-as` their rows
are kept as they are.
"""
import pathlib
import random
import shutil
import struct
import subprocess
import sys
import tempfile

import linking
from linking import ABS64, ADD_LOW, ADR_PAGE, CALL26, GOT_LOW, GOT_PAGE, JUMP26, Parts, Reloc, Symbol, answer, faults, text_of

SEED, RANDOM_ROWS = 20261202, 250
RET, NOP, BL, B, ADRP, ADD, LDR = 0xD65F03C0, 0xD503201F, 0x94000000, 0x14000000, 0x90000000, 0x91000000, 0xF9400000
LEAST, MOST = -2**63, 2**63 - 1


class Rows:
    def __init__(self):
        self.lines, self.count = [], 0

    def title(self, text):
        self.lines += ['', '# ' + text]

    def object(self, name, parts):
        assert not faults(parts), (name, faults(parts))
        self.lines.append(('object %s %s' % (name, text_of(parts))).rstrip())
        return parts

    def link(self, **objects):
        """Objects, each under a name, and a row of them in this order."""
        for name, parts in objects.items():
            self.object(name, parts)
        self.row(list(objects.items()))

    def row(self, named):
        for name, parts in named:
            assert not faults(parts), (name, faults(parts))
        self.lines.append(' '.join(['link'] + [name for name, _ in named]) + ' => ' + answer([parts for _, parts in named]))
        self.count += 1


def function(name, value=0, size=4, local=False):
    return Symbol(name, 'T', value, size, local, True)


def data(name, home, value=0, size=16, local=False):
    return Symbol(name, home, value, size, local, False)


def undefined(name):
    return Symbol(name, 'U')


def main_object(words=(RET,), **rest):
    """An object that defines `main`, whose other symbols stand before and behind it."""
    before, behind = rest.pop('before', []), rest.pop('behind', [])
    return Parts(words=list(words), symbols=before + [function(b'main', 0, 4 * len(words))] + behind, **rest)


# ---- by hand

def names(rows):
    rows.title('names: each condition, in each order of the objects')
    rows.row([])
    rows.link(a=main_object())
    rows.link(a=Parts())
    rows.link(a=Parts(words=[RET], symbols=[function(b'main', local=True)]))
    rows.link(a=Parts(init=bytes(16), symbols=[data(b'main', 'I')]))
    rows.link(a=Parts(symbols=[undefined(b'main')]))
    rows.link(a=Parts(symbols=[function(b'main', size=0)]))
    main = main_object([BL, RET], behind=[undefined(b'f')], code=[Reloc(0, CALL26, 1)])
    f = Parts(words=[RET], symbols=[function(b'f')])
    hidden = Parts(words=[RET, NOP], symbols=[function(b'f', 4, local=True)])
    again = Parts(zero=32, symbols=[data(b'f', 'Z', 16)])
    other = Parts(symbols=[undefined(b'x'), undefined(b'f')])
    named = {'main': main, 'f': f, 'hidden': hidden, 'again': again, 'other': other}
    for name, parts in named.items():
        rows.object(name, parts)

    def orders(words):
        for at in range(len(words)):
            yield words[at:] + words[:at]
            yield (words[at:] + words[:at])[::-1]

    for words in ['main', 'f'], ['main', 'hidden'], ['f', 'again'], ['main', 'main'], ['main', 'other'], ['f', 'other']:
        rows.row([(name, named[name]) for name in words])
        rows.row([(name, named[name]) for name in words[::-1]])
    for words in ['main', 'f', 'hidden'], ['main', 'f', 'again'], ['main', 'f', 'other'], ['hidden', 'again', 'other'], ['main', 'hidden', 'other'], \
            ['main', 'f', 'again', 'other'], ['main', 'f', 'f', 'f']:
        for order in orders(words):
            rows.row([(name, named[name]) for name in order])
    rows.title('names with other bytes, long names, and names that are the beginning of others')
    odd = b' :,*|=>#\x01\x7f\x80\xff"\\{}'
    rows.link(a=main_object(behind=[undefined(odd)]))
    rows.link(a=main_object(behind=[undefined(odd)]), b=Parts(words=[RET], symbols=[function(odd)]))
    rows.link(a=main_object(behind=[function(odd)]), b=Parts(words=[RET], symbols=[function(odd)]))
    rows.link(a=main_object(behind=[undefined(b'ma'), undefined(b'mainn'), undefined(b'Main')]))
    rows.link(a=main_object(), b=Parts(words=[RET], symbols=[function(b'ma')]), c=Parts(words=[RET], symbols=[function(b'mainn')]))
    rows.link(a=main_object(behind=[undefined(b'n' * 300)]), b=Parts(words=[RET], symbols=[function(b'n' * 299)]))
    rows.title('the first of several: duplicates and undefined names within one object and across them')
    pair = [function(b'p'), function(b'q')]
    rows.link(a=main_object([RET, NOP], behind=pair), b=Parts(words=[RET], symbols=pair[::-1]))
    rows.link(a=main_object(behind=[undefined(b'u2'), undefined(b'u1')]), b=Parts(symbols=[undefined(b'u0')]))
    rows.link(b=Parts(symbols=[undefined(b'u0')]), a=main_object(behind=[undefined(b'u2'), undefined(b'u1')]))
    rows.link(a=main_object(), b=main_object(behind=[undefined(b'x')]))
    rows.link(a=Parts(words=[RET], symbols=[function(b'f')]), b=Parts(words=[RET], symbols=[function(b'f'), undefined(b'main')]))


def counts(rows):
    rows.title('sixteen objects and seventeen; the count is judged before the names')
    named = [('n0', main_object([BL] * 15 + [RET], behind=[undefined(b'f%d' % n) for n in range(1, 16)],
                                code=[Reloc(4 * n - 4, CALL26, n) for n in range(1, 16)]))]
    named += [('n%d' % n, Parts(words=[0x52800000 | n << 5, RET], symbols=[function(b'f%d' % n, 0, 8)])) for n in range(1, 17)]
    for name, parts in named:
        rows.object(name, parts)
    rows.row(named[:16])
    rows.row(named[15::-1])
    rows.row(named)
    rows.row(named[:15])
    rows.row(named[:1] * 16)
    rows.row(named[:1] * 17)
    rows.row(named[1:2] * 17)
    rows.row(named * 3)
    empty = ('e', Parts())
    rows.object(*empty)
    rows.row([empty] * 15 + named[:1])
    alone = ('main', main_object())
    rows.object(*alone)
    rows.row([empty] * 15 + [alone])
    rows.row([empty] * 16)
    rows.row([empty] * 16 + [alone])


def calls(rows):
    rows.title('calls and jumps across objects, forwards and backwards, with addends, and other bits of the word kept')
    for addend in 0, 4, -4, 8, 2, 1, 2**27, -2**27, 2**28, MOST, LEAST:
        rows.link(a=main_object([BL, B, RET], behind=[undefined(b'f')], code=[Reloc(0, CALL26, 1, addend), Reloc(4, JUMP26, 1, addend)]),
                  b=Parts(words=[NOP, RET], symbols=[function(b'f', 4)]))
    rows.link(b=Parts(words=[BL, 0xFFFFFFFF, RET], symbols=[function(b'f', 8), undefined(b'main')], code=[Reloc(0, CALL26, 1), Reloc(4, JUMP26, 0)]),
              a=main_object([0x97FFFFFF, 0x17FFFFFF, RET], behind=[undefined(b'f')], code=[Reloc(0, CALL26, 1), Reloc(4, JUMP26, 0)]))
    rows.link(a=main_object([0xFFFFFFFF, 0, RET], before=[function(b'', 8, 4, True)], code=[Reloc(0, CALL26, 0), Reloc(4, JUMP26, 1)]))
    for words in range(1, 9):
        rows.link(a=main_object([NOP] * words), b=Parts(words=[BL, RET], symbols=[undefined(b'main')], code=[Reloc(0, CALL26, 0)]))
    rows.title('where main lies: behind other functions and in a later object')
    rows.link(a=Parts(words=[NOP] * 3 + [RET], symbols=[function(b'main', 12)]))
    rows.link(b=Parts(words=[NOP] * 5, symbols=[function(b'g')]), a=Parts(words=[NOP] * 6, symbols=[function(b'main', 20)]))


def addresses(rows):
    rows.title('addresses of texts and data in code: the page and the low 12 bits, with addends')
    fields = [Reloc(0, ADR_PAGE, 0), Reloc(4, ADD_LOW, 0)]
    text = Parts(words=[ADRP, ADD, RET], rodata=b'text' + bytes(12), symbols=[data(b'', 'R', local=True), function(b'main', 0, 12)], code=fields)
    rows.link(a=text)
    rows.link(b=Parts(rodata=bytes(range(1, 34))), a=text)
    for addend in 1, 15, 16, -1, 4095, 4096, -4096, 0xFFF, 2**32, 2**33 + 4096, -2**32, MOST, LEAST:
        rows.link(a=Parts(words=[0xFFFFFFFF, 0xFFFFFFFF, RET], rodata=bytes(16), init=bytes(16), zero=16,
                          symbols=[data(b't', 'R', local=True), data(b'i', 'I', local=True), data(b'z', 'Z', local=True), function(b'main', 8)],
                          code=[Reloc(0, ADR_PAGE, 0, addend), Reloc(4, ADD_LOW, 2, addend)]))
        rows.link(a=Parts(words=[ADRP | 31, ADD | 0x3FF, RET], init=bytes(16), zero=16,
                          symbols=[data(b'i', 'I', local=True), data(b'z', 'Z', local=True), function(b'main', 8)],
                          code=[Reloc(0, ADR_PAGE, 1, addend), Reloc(4, ADD_LOW, 0, addend)]))
    rows.title('code in several pages: the page of the place counts')
    for words in 1020, 1022, 1023, 1024, 1025, 2044:
        last = 4 * words
        rows.link(a=Parts(words=[NOP] * words + [ADRP, LDR, RET], rodata=bytes(16), zero=16,
                          symbols=[data(b't', 'R', local=True), function(b'main', last, 12), data(b'g', 'Z')],
                          code=[Reloc(0, ADR_PAGE, 0), Reloc(4, ADD_LOW, 2), Reloc(last, GOT_PAGE, 2), Reloc(last + 4, GOT_LOW, 2)], tagged=[2]))


def got_rows(rows):
    rows.title('symbols through the GOT: one word each, in the order in which relocations first name them; a local symbol is its own')
    access = lambda symbol, at=0: [Reloc(at, GOT_PAGE, symbol), Reloc(at + 4, GOT_LOW, symbol)]
    both = [ADRP, LDR]
    g = Parts(init=struct.pack('<Q', 7) + bytes(8), zero=16, symbols=[data(b'g', 'I'), data(b'h', 'Z')], tagged=[0, 1])
    user = Parts(words=both * 2 + [RET], symbols=[function(b'main', 0, 20), undefined(b'h'), undefined(b'g')], code=access(1) + access(2, 8))
    rows.link(a=user, b=g)
    rows.link(b=g, a=user)
    second = Parts(words=both * 3, symbols=[function(b'k', 0, 24), undefined(b'g'), undefined(b'main'), undefined(b'h')],
                   code=access(1) + access(2, 8) + access(3, 16))
    rows.link(a=user, b=g, c=second)
    rows.link(c=second, b=g, a=user)
    local = Parts(words=both * 3 + [RET], init=bytes(32), zero=16,
                  symbols=[data(b'x', 'I', local=True), data(b'x', 'I', 16, local=True), data(b'y', 'Z', local=True), function(b'main', 24)],
                  code=access(1) + access(0, 8) + access(1, 16), tagged=[0, 1, 2])
    twin = Parts(words=both * 2, init=bytes(16), symbols=[data(b'x', 'I', local=True), function(b'f', 0)], code=access(0) + access(0, 8), tagged=[0])
    rows.link(a=local)
    rows.link(a=local, b=twin)
    rows.link(b=twin, a=local)
    rows.link(b=twin, a=local, c=twin_of(twin, b'f2'), d=twin_of(twin, b'f3'))
    rows.link(a=Parts(words=both + [RET], symbols=[function(b'l', 4, 0, True), function(b'main', 8)], code=access(0)))
    rows.link(a=Parts(words=both + both, rodata=bytes(16), symbols=[data(b't', 'R', local=True), function(b'main', 8)], code=access(0) + access(1, 8)))
    rows.link(a=Parts(words=both, symbols=[function(b'main', 0, 8), undefined(b'g')], code=[Reloc(4, GOT_LOW, 1)]), b=g)
    rows.link(a=Parts(words=[0xFFFFFFFF, 0xFFFFFFFF], symbols=[function(b'main', 0, 8), undefined(b'g')], code=access(1)), b=g)
    rows.title('a GOT of many words: the GOT is rounded up to 16')
    for count in 1, 2, 3, 4, 40:
        words = both * count
        parts = Parts(words=words + [RET], zero=16 * count, symbols=[data(b'', 'Z', 16 * n, local=True) for n in range(count)] + [function(b'main', 8 * count)],
                      code=[reloc for n in range(count) for reloc in access(n, 8 * n)], tagged=[count - 1])
        rows.link(a=parts)


def twin_of(parts, name):
    return Parts(words=parts.words, init=parts.init, symbols=[parts.symbols[0], function(name)], code=parts.code, tagged=parts.tagged)


def pointers(rows):
    rows.title('an array with a pointer one past its end: the place holds the negative of the addend')
    array = Parts(words=[RET], init=bytes(32), symbols=[function(b'main'), data(b'a', 'I'), data(b'p', 'I', 16)], data=[Reloc(16, ABS64, 1, 16)], tagged=[1, 2])
    rows.link(a=array)
    rows.title('two tagged objects side by side, and pointers to the end of each: in one object, and in two')
    rows.link(a=Parts(words=[RET], init=bytes(64), symbols=[function(b'main'), data(b'a', 'I'), data(b'b', 'I', 16), data(b'p', 'I', 32, 32)],
                      data=[Reloc(32, ABS64, 1, 16), Reloc(40, ABS64, 2, 16), Reloc(48, ABS64, 2, -16), Reloc(56, ABS64, 1, 15)], tagged=[1, 2, 3]))
    left = Parts(words=[RET], init=bytes(range(16)), symbols=[function(b'main'), data(b'left', 'I')], tagged=[1])
    right = Parts(init=bytes(range(16, 48)), symbols=[data(b'right', 'I', 0, 32), undefined(b'left')], data=[Reloc(8, ABS64, 1, 16), Reloc(24, ABS64, 0, 0)], tagged=[0])
    rows.link(a=left, b=right)
    rows.link(b=right, a=left)
    rows.title('addends within the object of a symbol and out of it, the greatest and the least, of each kind of symbol')
    for addend in 0, 1, 15, 16, 17, 31, 32, 33, -1, -16, -32, 255, 256, MOST, LEAST, LEAST + 1, MOST - 1:
        rows.link(a=Parts(words=[RET], rodata=bytes(16), init=bytes([255] * 64), zero=32,
                          symbols=[data(b't', 'R', local=True), function(b'l', 0, 0, True), function(b'main'), data(b'i', 'I', 0, 32), data(b'z', 'Z', 0, 32),
                                   undefined(b'u')],
                          data=[Reloc(0, ABS64, 3, addend), Reloc(8, ABS64, 4, addend), Reloc(16, ABS64, 0, addend), Reloc(24, ABS64, 2, addend),
                                Reloc(32, ABS64, 1, addend), Reloc(56, ABS64, 5, addend)], tagged=[3, 4]),
                  b=Parts(words=[NOP, RET], symbols=[function(b'u', 4, 3)]))


def descriptors(rows):
    rows.title('descriptors: intervals of one to nine granules, apart and side by side, and static objects')
    for granules in list(range(1, 10)) + [127, 128, 129, 130, 2**14, 2**14 + 1]:
        rows.link(a=Parts(words=[RET], zero=16 * granules + 48,
                          symbols=[data(b's', 'Z', 16 * granules + 16, 16, True), function(b'main'), data(b'g', 'Z', 0, 16 * granules)], tagged=[0, 2]))
    rows.title('tagged symbols that lie in another order than they are counted, and some that are not tagged')
    rows.link(a=Parts(words=[RET], init=bytes(64), zero=64,
                      symbols=[data(b'z2', 'Z', 48, 16, True), data(b'i2', 'I', 32, 32, True), function(b'main'), data(b'z1', 'Z', 0, 32), data(b'i1', 'I')],
                      tagged=[0, 1, 3, 4]),
              b=Parts(init=bytes(16), zero=16, symbols=[data(b'j', 'I'), data(b'y', 'Z')], tagged=[0, 1]))
    rows.title('a list of descriptors whose length moves the addresses that it describes')
    for count in list(range(1, 4)) + list(range(14, 20)):
        for places in 0, 1:
            rows.link(a=Parts(words=[RET], init=bytes(16 * places), zero=16 * count,
                              symbols=[data(b'', 'Z', 16 * n, 16, True) for n in range(count)] + [function(b'main')] + [data(b'p', 'I')] * places,
                              data=[Reloc(8 * n, ABS64, n, 0) for n in range(2 * places)] if count > 1 else [], tagged=list(range(count))))
    rows.title('descriptors around the end of a page: with one granule more of texts, or of descriptors, all that follows moves by 4,096')
    for at in list(range(4096 - 0x140 - 64, 4096 - 0x140 + 17, 8)):
        rows.link(a=Parts(words=[RET], rodata=b'1' * at, zero=32, symbols=[data(b'', 'Z', 0, 16, True), function(b'main'), data(b'g', 'Z', 16)], tagged=[0, 2]))
    rows.title('addresses around 4,096 * 4, where the first number of the descriptors takes three bytes, and around 2^22')
    for size in 12000, 16320 - 0x1000, 16384 - 0x2000 - 208, 16384 - 0x2000 - 192, 4194304 - 0x2000 - 208, 4194304 - 0x2000 - 192:
        rows.link(a=Parts(words=[RET], zero=up16(size) + 16, symbols=[function(b'main'), data(b'g', 'Z', up16(size), 16)], tagged=[1]))


def up16(size):
    return -(-size // 16) * 16


def places(rows):
    rows.title('sections without bytes, in each place of a list, and lengths that are no multiples of 16')
    full = Parts(words=[RET], rodata=b'abc', init=bytes([1] * 9), zero=5, symbols=[function(b'main')])
    named = {'full': full, 'none': Parts(), 'code': Parts(words=[NOP] * 5), 'text': Parts(rodata=b'x' * 17), 'init': Parts(init=b'y' * 15), 'zero': Parts(zero=1)}
    for name, parts in named.items():
        rows.object(name, parts)
    for words in ['full'], ['full', 'none'], ['none', 'full'], ['full', 'none', 'none'], ['none', 'full', 'none', 'code'], ['full', 'code'], \
            ['code', 'full'], ['full', 'text'], ['text', 'full'], ['full', 'init'], ['init', 'full'], ['full', 'zero'], ['zero', 'full'], \
            ['full', 'code', 'text', 'init', 'zero'], ['zero', 'init', 'text', 'code', 'full'], ['full', 'code', 'none'], ['full', 'zero', 'zero', 'none']:
        rows.row([(name, named[name]) for name in words])
    for size in 1, 8, 15, 16, 17, 4095, 4096, 4097:
        rows.link(a=Parts(words=[RET] * size, rodata=bytes([7] * size), init=bytes([9] * size), zero=size, symbols=[function(b'main')]),
                  b=Parts(words=[NOP], rodata=b'r', init=b'i', zero=1))


def too_large(rows):
    rows.title('images over the limit: many zero bytes, so many that 64 bits do not hold their length, and the last length that is not over')
    main = rows.object('main', main_object())
    for zero in 2**28 - 0x20B0, 2**28 - 0x20B0 + 1, 2**28 - 0x20B0 - 16, 2**28, 2**32, 2**63, 2**64 - 1, 2**64 - 0x20B0, 2**64 - 0x20B1, 2**64 - 0x20C0, 2**64 - 0x20BF:
        zeros = rows.object('zeros', Parts(zero=zero))
        rows.row([('main', main), ('zeros', zeros)])
    zeros = rows.object('zeros', Parts(zero=2**63))
    for count in 2, 3, 15:
        rows.row([('main', main)] + [('zeros', zeros)] * count)
    rows.title('names are judged before the size')
    rows.row([('zeros', zeros)])
    unknown = rows.object('unknown', Parts(symbols=[undefined(b'x')]))
    rows.row([('zeros', zeros), ('main', main), ('unknown', unknown)])
    rows.row([('zeros', zeros), ('main', main), ('main', main)])
    rows.title('tagged objects far away: their descriptors are counted though no descriptors reach so far')
    for start in 2**47, 2**48 - 0x20D0, 2**48, 2**55, 2**60, 2**63 + 2**62:
        far = rows.object('far', Parts(zero=start + 16, symbols=[data(b'', 'Z', start, 16, True)], tagged=[0]))
        rows.row([('main', main), ('far', far)])
        rows.row([('main', main), ('far', far), ('far', far), ('far', far)])
    for start in 2**28 - 0x20D0, 2**28 - 0x20D0 - 16, 2**28 - 0x20D0 - 32:
        far = rows.object('far', Parts(zero=start + 16, symbols=[data(b'', 'Z', start, 16, True)], tagged=[0]))
        rows.row([('main', main), ('far', far)])


# ---- random

def random_parts(pick, globals_, others, main):
    """An object that defines some names, and may name the others."""
    words = [pick.getrandbits(32) for _ in range(pick.choice([0, 1, 2, 3, 4, 5, 8, 13]))]
    parts = Parts(words=words, rodata=bytes(pick.getrandbits(8) for _ in range(pick.choice([0, 0, 1, 5, 16, 17, 40]))),
                  init=bytes(pick.choice([0, 0, 255, pick.getrandbits(8)]) for _ in range(pick.choice([0, 8, 16, 16, 24, 32, 40, 64]))),
                  zero=pick.choice([0, 0, 1, 16, 16, 20, 32, 160, 5000, 2**20]))
    sizes = {'T': 4 * len(words), 'R': len(parts.rodata), 'I': len(parts.init), 'Z': parts.zero}

    def symbol(name, local):
        home = pick.choice('TRIZIZ')
        if name == b'main' and main:
            home = 'T'
        is_function = home == 'T' or pick.random() < 0.1 or sizes[home] < 16
        if is_function:
            value = pick.randint(0, sizes[home])
            return Symbol(name, home, value, pick.randint(0, sizes[home] - value), local, True)
        value = 16 * pick.randint(0, sizes[home] // 16 - 1)
        return Symbol(name, home, value, 16 * pick.randint(1, min(12, (sizes[home] - value) // 16)), local, False)

    locals_ = [symbol(pick.choice([b'', b'a', b'main', b'l']), True) for _ in range(pick.choice([0, 0, 1, 2, 3]))]
    rest = [symbol(name, False) for name in globals_] + [undefined(name) for name in others]
    pick.shuffle(rest)
    parts.symbols = locals_ + rest
    count = len(parts.symbols)
    addends = [0, 0, 0, 1, 8, 15, 16, 32, -1, -16, 4096, -4096, 2**31, MOST, LEAST, pick.randint(LEAST, MOST)]
    if count:
        for place in range(len(words)):
            if pick.random() < 0.6:
                kind = pick.choice(linking.CODE_KINDS)
                parts.code.append(Reloc(4 * place, kind, pick.randrange(count), 0 if kind in (GOT_PAGE, GOT_LOW) else pick.choice(addends)))
        for place in range(0, len(parts.init) - 7, 8):
            if pick.random() < 0.5:
                parts.data.append(Reloc(place, ABS64, pick.randrange(count), pick.choice(addends)))
    taken = []
    for number, found in enumerate(parts.symbols):
        if found.home in 'IZ' and not found.function and pick.random() < 0.8:
            span = found.home, found.value, found.value + found.size
            if all(home != span[0] or end <= span[1] or span[2] <= start for home, start, end in taken):
                taken.append(span)
                parts.tagged.append(number)
    return parts


def random_list(pick):
    """Objects that fit together, mostly: each name is defined once, and each name that is asked for is defined."""
    count = pick.choice([1, 1, 2, 2, 2, 3, 3, 4, 5, 7])
    names_ = [b'main'] + [b'n%d' % n for n in range(pick.randint(0, 6))]
    owner = {name: pick.randrange(count) for name in names_}
    fault = pick.random()
    objects = []
    for index in range(count):
        mine = [name for name in names_ if owner[name] == index]
        others = [name for name in names_ if owner[name] != index and pick.random() < 0.5]
        if fault < 0.05 and pick.random() < 0.5:
            others.append(b'nowhere%d' % pick.randint(0, 2))
        if 0.05 < fault < 0.1 and others and pick.random() < 0.5:
            mine.append(others.pop())
        objects.append(random_parts(pick, mine, others, fault < 0.95))
    if 0.1 < fault < 0.13:
        objects[pick.randrange(count)].zero = 2**pick.randint(27, 63) + 16 * pick.randint(0, 9) - 8
    return objects


def random_rows(rows, seed, count):
    pick = random.Random(seed)
    for _ in range(count):
        objects = random_list(pick)
        rows.link(**{chr(ord('a') + place): parts for place, parts in enumerate(objects)})


# ---- of the assembler

def assembled(rows, folder):
    """Rows of the objects of tools/link_objects.s, each made by the assembler and read by `object_of`."""
    source = (pathlib.Path(__file__).parent / 'link_objects.s').read_text()
    objects = {}
    for piece in source.split('// ---- ')[1:]:
        name, _, text = piece.partition('\n')
        path = pathlib.Path(folder) / 'object.o'
        subprocess.run(['aarch64-linux-gnu-as', '-o', path, '-'], input=text.encode(), check=True)
        objects[name.split(':')[0]] = rows.object(name.split(':')[0], object_of(path.read_bytes()))
    for line in source.split('// ---- ')[0].split('\n'):
        words = line.split()
        if words[1:2] == ['link']:
            rows.row([(name, objects[name]) for name in words[2:]])


def object_of(file):
    """The parts of an object of the assembler: its sections .text, .rodata, .data and .bss, its symbols but for those of sections and files, and
    its relocations. A relocation of a section is one of the symbol there that has its place, with the rest as the addend; sizes of objects are
    rounded up to 16, and all objects of .data and .bss are tagged."""
    shoff, = struct.unpack_from('<Q', file, 40)
    count, strings = struct.unpack_from('<HH', file, 60)
    heads = [struct.unpack_from('<IIQQQQIIQQ', file, shoff + 64 * n) for n in range(count)]
    text_at = lambda table, place: file[heads[table][4] + place:].split(b'\0')[0]
    named = {text_at(strings, head[0]): n for n, head in enumerate(heads)}
    content = lambda name: file[heads[named[name]][4]:][:heads[named[name]][5]] if name in named else b''
    homes = {named[name]: home for name, home in ((b'.text', 'T'), (b'.rodata', 'R'), (b'.data', 'I'), (b'.bss', 'Z')) if name in named}
    parts = Parts([word for word, in struct.iter_unpack('<I', content(b'.text'))], content(b'.rodata'), content(b'.data'), heads[named[b'.bss']][5])
    parts.init += bytes(-len(parts.init) % 16)
    parts.rodata += bytes(-len(parts.rodata) % 16)
    parts.zero = up16(parts.zero)
    table = heads[named[b'.symtab']]
    symbols, numbers = [], {}
    records = list(struct.iter_unpack('<IBBHQQ', content(b'.symtab')))
    for number, (name, info, _, home, value, size) in enumerate(records):
        text = text_at(table[6], name)
        if number == 0 or info % 16 in (3, 4) or text.startswith(b'$'):
            continue
        local, kind = info < 16, info % 16
        found = Symbol(text, homes.get(home, 'U'), value, size if kind == 2 else up16(size), local and home != 0, kind == 2)
        symbols.append((number, found))
    symbols.sort(key=lambda pair: not pair[1].local)
    for place, (number, found) in enumerate(symbols):
        numbers[number] = place
    parts.symbols = [found for _, found in symbols]
    for section, relocs in (b'.rela.text', parts.code), (b'.rela.data', parts.data):
        for offset, info, addend in struct.iter_unpack('<QQq', content(section)):
            number = info >> 32
            if number not in numbers:
                home = homes[records[number][3]]
                place = next(place for place, found in enumerate(parts.symbols)
                             if found.home == home and found.value <= addend < found.value + max(found.size, 1))
                addend -= parts.symbols[place].value
            else:
                place = numbers[number]
            relocs.append(Reloc(offset, info & 0xFFFFFFFF, place, addend))
        relocs.sort(key=lambda reloc: reloc.offset)
    parts.tagged = [place for place, found in enumerate(parts.symbols) if found.home in 'IZ']
    return parts


ASSEMBLED = '# objects that the assembler made, of tools/link_objects.s'


def main():
    if sys.argv[1] == '--random':
        rows = Rows()
        random_rows(rows, int(sys.argv[2]), int(sys.argv[3]))
        print('\n'.join(rows.lines))
        return
    folder = pathlib.Path(sys.argv[1])
    rows = Rows()
    rows.lines = ['# Objects, and the image of each list of them, by tools/link_rows.py.']
    for section in names, counts, calls, addresses, got_rows, pointers, descriptors, places, too_large:
        section(rows)
    rows.lines += ['', ASSEMBLED]
    if shutil.which('aarch64-linux-gnu-as'):
        with tempfile.TemporaryDirectory() as scratch:
            assembled(rows, scratch)
    else:
        old = (folder / 'stdin').read_text().split(ASSEMBLED + '\n')[1].split('\n\n')[0].split('\n')
        rows.lines += old
        rows.count += sum(line.startswith('link') for line in old)
    rows.title('random lists, of the seed %d' % SEED)
    random_rows(rows, SEED, RANDOM_ROWS)
    (folder / 'stdin').write_text('\n'.join(rows.lines) + '\n')
    (folder / 'stdout').write_text('%d rows, 0 differ\n' % rows.count)


main()
