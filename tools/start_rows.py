#!/usr/bin/env python3
"""Writes crates/start_rows/stdin: image files, the random tags of a run, and what the image's own code then finds in memory.

The files are put together here, byte by byte, as docs/FILES.md has them, and what is found is worked out here by its rules of
loading. Nothing of mtcc's own code is used. The code of each image puts out the numbers at some places (by SP, so that no tag is
checked), the tags of some granules, and the tag that the next IRG draws.
"""
import os
import random
import struct

LOAD, STACK_END, STACK = 0x10000000, 0x40000000, 65536
M64 = 1 << 64


def up(n, to):
    return (n + to - 1) // to * to


def uleb(n):
    out = []
    while True:
        low, n = n & 127, n >> 7
        out.append(low | (128 if n else 0))
        if not n:
            return bytes(out)


def described(intervals):
    """The descriptors of (start, bytes) in order."""
    out, end = b'', 0
    for start, size in intervals:
        distance, granules = (start - end) // 16, size // 16
        out += uleb(8 * distance + granules) if granules < 8 else uleb(8 * distance) + uleb(granules - 1)
        end = start + size
    return out


class Image:
    """Where the parts of an image lie that has one page of code at most."""

    def __init__(self, relocs, descriptors, rodata=b'', words=(), filled=b'', zeros=0):
        self.relocs, self.descriptors, self.rodata = list(relocs), descriptors, rodata
        self.words, self.filled, self.zeros = list(words), filled, zeros
        self.descriptors_at = 0x140 + 24 * len(self.relocs)
        self.rodata_at = up(self.descriptors_at + len(descriptors), 16)
        self.rodata_end = self.rodata_at + len(rodata)
        self.code = up(self.rodata_end, 4096)
        self.code_end = self.code + 4 * len(self.words)
        self.dynamic = up(self.code_end, 4096)
        self.entries = 13 if descriptors else 11
        self.filled_at = up(self.dynamic + 16 * self.entries, 16)
        self.file_end = self.filled_at + len(filled)
        self.end = self.file_end + zeros

    def file(self):
        out = bytearray(self.file_end)

        def put(at, piece):
            out[at:at + len(piece)] = piece

        put(0, bytes([0x7f, 0x45, 0x4c, 0x46, 2, 1, 1]) + bytes(9))
        put(16, struct.pack('<HHIQQQIHHHHHH', 3, 183, 1, self.code, 64, 0, 0, 64, 56, 4, 0, 0, 0))
        parts = [(1, 4, 0, self.rodata_end, self.rodata_end, 4096),
                 (1, 5, self.code, self.code_end - self.code, self.code_end - self.code, 4096),
                 (1, 6, self.dynamic, self.file_end - self.dynamic, self.end - self.dynamic, 4096),
                 (2, 6, self.dynamic, 16 * self.entries, 16 * self.entries, 8)]
        for k, (kind, flags, at, size, memory, align) in enumerate(parts):
            put(64 + 56 * k, struct.pack('<IIQQQQQQ', kind, flags, at, at, at, size, memory, align))
        for k, (place, addend) in enumerate(self.relocs):
            put(0x140 + 24 * k, struct.pack('<QQQ', place % M64, 1027, addend % M64))
        put(self.descriptors_at, self.descriptors)
        put(self.rodata_at, self.rodata)
        put(self.code, b''.join(struct.pack('<I', w) for w in self.words))
        entries = [(5, 0x138), (6, 0x120), (10, 1), (11, 24), (7, 0x140), (8, 24 * len(self.relocs)), (9, 24),
                   (0x70000009, 0), (0x7000000b, 0), (0x7000000c, 1)]
        if self.descriptors:
            entries += [(0x7000000d, self.descriptors_at), (0x7000000f, len(self.descriptors))]
        for k, (tag, value) in enumerate(entries + [(0, 0)]):
            put(self.dynamic + 16 * k, struct.pack('<QQ', tag, value))
        put(self.filled_at, self.filled)
        return bytes(out)


def asks(questions):
    """Code that puts out what is asked: ('n', place), ('t', place), ('d',)."""
    words = []
    for q in questions:
        if q[0] == 'd':
            words += [0x9ADF1000 | 3 << 5 | 2, 0xD3400000 | 56 << 16 | 63 << 10 | 2 << 5, 0xD4000021]
            continue
        at = LOAD + q[1]
        words += [0xD2800000 | (at & 0xffff) << 5 | 1, 0xF2A00000 | (at >> 16) << 5 | 1]
        if q[0] == 't':
            words += [0xD2800000 | 2, 0xD9600000 | 1 << 5 | 2, 0xD3400000 | 56 << 16 | 63 << 10 | 2 << 5, 0xD4000021]
        else:
            words += [0x9100003F, 0xF9400000 | 31 << 5 | 2]
            for k in range(8):
                words += [0xD3400000 | 8 * k << 16 | 63 << 10 | 2 << 5, 0xD4000021]
    return words + [0xD2800000, 0xD4000061]


def after(tag):
    """The tag after one, where 0 is left out."""
    return tag % 15 + 1


def found(image, intervals, choices, questions):
    """What is put out, or the refusal."""
    for k, (start, size) in enumerate(intervals):
        if start < image.dynamic or start + size > image.end:
            return 'Outside %d' % k
    for k, (place, _) in enumerate(image.relocs):
        if place % 8 or place < image.dynamic or place + 8 > image.end:
            return 'Outside %d' % (len(intervals) + k)
    file = image.file()

    def region(at):
        return any(LOAD + a <= at < LOAD + a + up(b - a, 16) for a, b in
                   [(0, image.rodata_end), (image.code, image.code_end), (image.dynamic, image.end)]) \
            or STACK_END - STACK <= at < STACK_END

    def before(place):
        return int.from_bytes(file[place:place + 8].ljust(8, b'\0'), 'little')

    tags, tag = {}, max(1, choices[0])
    for start, size in intervals:
        for granule in range(start // 16, (start + size) // 16):
            tags[LOAD // 16 + granule] = tag
        tag = after(tag)
    number = {}
    for place, addend in image.relocs:
        v = (LOAD + addend) % M64
        q = (v + before(place)) % M64
        number[place] = (v + ((tags.get(q // 16, 0) if region(q) else 0) << 56)) % M64
    out = b''
    for q in questions:
        if q[0] == 'd':
            out += bytes([max(1, choices[(1 if intervals else 0) % len(choices)])])
        elif q[0] == 't':
            out += bytes([tags.get((LOAD + q[1]) // 16, 0)])
        else:
            out += number.get(q[1], before(q[1])).to_bytes(8, 'little')
    return out.hex()


def bytes_text(data):
    """Bytes as hexadecimal numbers, and @N for zeros up to place N."""
    out, k = [], 0
    while k < len(data):
        end = k
        while end < len(data) and data[end] == 0:
            end += 1
        if end - k > 3:
            out.append('@%d' % end)
            k = end
        else:
            out.append('%02x' % data[k])
            k += 1
    return ' '.join(out)


ROWS = []


def row(note, choices, relocs, intervals, filled=b'', zeros=0, rodata=b'', ask=(), raw=None, refusal=None):
    """A row: relocations and objects are given by functions of the image, whose places hang on how many there are."""
    count, wide = len(relocs(None)), None
    for _ in range(6):
        probe = Image([(0, 0)] * count, wide if wide is not None else b'', rodata, asks(ask(None) if callable(ask) else ask), filled, zeros)
        spans = intervals(probe) if intervals else []
        wide = raw if raw is not None else described(spans)
    image = Image(relocs(probe), wide, rodata, asks(ask(probe)), filled, zeros)
    assert (image.filled_at, image.end) == (probe.filled_at, probe.end), note
    answer = refusal or found(image, spans, choices, ask(probe))
    ROWS.append('# %s\n%s %s => %s' % (note, ''.join('%x' % c for c in choices), bytes_text(image.file()), answer))


class Nowhere:
    """Places before there is an image: all of them 0."""

    def __getattr__(self, name):
        return 0


def places(f):
    return lambda image: f(image if image is not None else Nowhere())


def minus(n):
    return (-n % M64).to_bytes(8, 'little')


def by_hand():
    none = places(lambda i: [])
    row('no object: no choice is drawn', [5, 9], none, None, filled=bytes(16), ask=places(lambda i: [('t', i.filled_at), ('d',)]))
    row('one object: the first choice is drawn', [5, 9], none, lambda i: [(i.filled_at, 16)], filled=bytes(32),
        ask=places(lambda i: [('t', i.filled_at), ('t', i.filled_at + 16), ('d',)]))
    row('a list of one choice is gone round', [7], none, lambda i: [(i.filled_at, 16)], filled=bytes(16),
        ask=places(lambda i: [('t', i.filled_at), ('d',)]))
    row('the choice 0 gives the tag 1', [0, 0], none, lambda i: [(i.filled_at, 16), (i.filled_at + 16, 16)], filled=bytes(32),
        ask=places(lambda i: [('t', i.filled_at), ('t', i.filled_at + 16), ('d',)]))
    row('behind the tag 15 comes the tag 1', [14], none, lambda i: [(i.filled_at + 16 * k, 16) for k in range(4)], filled=bytes(64),
        ask=places(lambda i: [('t', i.filled_at + 16 * k) for k in range(4)]))
    row('an array with a pointer one past its end, and an object right behind the array', [5],
        places(lambda i: [(i.filled_at, i.filled_at + 32 + 16)]),
        lambda i: [(i.filled_at, 16), (i.filled_at + 32, 16), (i.filled_at + 48, 16)], filled=minus(16) + bytes(24), zeros=32,
        ask=places(lambda i: [('n', i.filled_at), ('t', i.filled_at), ('t', i.filled_at + 16), ('t', i.filled_at + 32), ('t', i.filled_at + 48)]))
    row('a pointer before an object, and one far behind it', [3],
        places(lambda i: [(i.filled_at, i.filled_at + 32 - 8), (i.filled_at + 8, i.filled_at + 32 + 4096)]),
        lambda i: [(i.filled_at + 16, 16), (i.filled_at + 32, 32)], filled=(8).to_bytes(8, 'little') + minus(4096) + bytes(48),
        ask=places(lambda i: [('n', i.filled_at), ('n', i.filled_at + 8)]))
    row('two objects side by side, and pointers to the bytes of each', [9],
        places(lambda i: [(i.filled_at + 8 * k, i.filled_at + 48 + at) for k, at in enumerate([0, 15, 16, 47, 48])]),
        lambda i: [(i.filled_at + 48, 16), (i.filled_at + 64, 32)], filled=bytes(112),
        ask=places(lambda i: [('n', i.filled_at + 8 * k) for k in range(5)] + [('t', i.filled_at + 48 + 16 * k) for k in range(4)]))
    row('two relocations at one place: the last counts, by what the place held at first', [4],
        places(lambda i: [(i.filled_at, 0x123456), (i.filled_at, i.filled_at + 48)]),
        lambda i: [(i.filled_at + 32, 16), (i.filled_at + 48, 16)], filled=minus(16) + bytes(56),
        ask=places(lambda i: [('n', i.filled_at)]))
    row('three at one place, with others between', [4],
        places(lambda i: [(i.filled_at, i.filled_at + 32), (i.filled_at + 8, i.filled_at + 32), (i.filled_at, i.filled_at + 48),
                          (i.filled_at + 8, 0), (i.filled_at, i.filled_at + 56)]),
        lambda i: [(i.filled_at + 32, 16), (i.filled_at + 48, 16)], filled=bytes(64),
        ask=places(lambda i: [('n', i.filled_at), ('n', i.filled_at + 8)]))
    row('a place in an object, which keeps its tag', [11], places(lambda i: [(i.filled_at + 8, i.filled_at)]),
        lambda i: [(i.filled_at, 16)], filled=bytes(16), ask=places(lambda i: [('n', i.filled_at + 8), ('n', i.filled_at), ('t', i.filled_at)]))
    row('pointers to a text, to code and to the stack have no tag', [6],
        places(lambda i: [(i.filled_at, i.rodata_at), (i.filled_at + 8, i.code), (i.filled_at + 16, STACK_END - LOAD - 16)]),
        lambda i: [(i.filled_at + 32, 16)], filled=bytes(48), rodata=b'text' + bytes(12),
        ask=places(lambda i: [('n', i.filled_at + 8 * k) for k in range(3)]))
    row('pointers to no region have no tag: behind the image, below it, at the top', [6],
        places(lambda i: [(i.filled_at, i.end), (i.filled_at + 8, -1), (i.filled_at + 16, -LOAD - 1)]),
        lambda i: [(i.filled_at + 32, 16)], filled=bytes(48), ask=places(lambda i: [('n', i.filled_at + 8 * k) for k in range(3)]))
    row('an address with a top byte is in no region; with that byte taken away by its place it is', [6],
        places(lambda i: [(i.filled_at, (5 << 56) + i.filled_at + 32), (i.filled_at + 8, (5 << 56) + i.filled_at + 32)]),
        lambda i: [(i.filled_at + 32, 16)], filled=bytes(8) + minus(5 << 56) + bytes(32),
        ask=places(lambda i: [('n', i.filled_at), ('n', i.filled_at + 8)]))
    row('a tag that is added to a top byte wraps', [15],
        places(lambda i: [(i.filled_at, (0xff << 56) + i.filled_at + 32)]), lambda i: [(i.filled_at + 32, 16)],
        filled=minus(0xff << 56) + bytes(40), ask=places(lambda i: [('n', i.filled_at)]))
    row('a place among the dynamic entries, and one in the zero bytes', [2],
        places(lambda i: [(i.dynamic + 8, i.filled_at), (i.end - 8, i.filled_at)]), lambda i: [(i.filled_at, 16)], filled=bytes(16),
        zeros=32, ask=places(lambda i: [('n', i.dynamic + 8), ('n', i.end - 8), ('n', i.dynamic)]))
    row('an object of the dynamic entries, and one that ends with the memory', [2], none,
        lambda i: [(i.dynamic, 16), (i.end - 16, 16)], filled=bytes(16), zeros=32,
        ask=places(lambda i: [('t', i.dynamic), ('t', i.dynamic + 16), ('t', i.end - 32), ('t', i.end - 16)]))
    row('an object of many granules', [13], none, lambda i: [(i.filled_at, 16), (i.filled_at + 32, 4096)], filled=bytes(16), zeros=8192,
        ask=places(lambda i: [('t', i.filled_at + at) for at in [0, 16, 32, 48, 32 + 4080, 32 + 4096]]))
    # refusals
    row('an object before the writable part', [1], none, lambda i: [(i.dynamic - 16, 16)], filled=bytes(16), ask=places(lambda i: []))
    row('an object that begins before it', [1], none, lambda i: [(i.dynamic - 16, 32)], filled=bytes(16), ask=places(lambda i: []))
    row('an object that ends behind the memory', [1], none, lambda i: [(i.filled_at, 16), (i.end - 16, 32)], filled=bytes(32),
        ask=places(lambda i: []))
    row('an object of the code, behind one that is in order', [1], none, lambda i: [(0x1000, 16), (i.filled_at, 16)], filled=bytes(16),
        ask=places(lambda i: []))
    row('the last of three objects', [1], none, lambda i: [(i.filled_at, 16), (i.filled_at + 16, 16), (i.end, 16)], filled=bytes(32),
        ask=places(lambda i: []))
    for note, place in [('a place that is no multiple of 8', lambda i: i.filled_at + 4), ('a place of one byte more', lambda i: i.filled_at + 1),
                        ('a place before the writable part', lambda i: i.dynamic - 8), ('a place behind the memory', lambda i: i.end),
                        ('a place of the code', lambda i: 0x1000), ('a place at the top', lambda i: M64 - 8),
                        ('a place at the top that wraps', lambda i: M64 - 1)]:
        row(note + ', behind two objects and one relocation', [1], places(lambda i, p=place: [(i.filled_at, 0), (p(i), 0), (0, 0)]),
            lambda i: [(i.filled_at, 16), (i.filled_at + 16, 16)], filled=bytes(32), ask=places(lambda i: []))
    row('a misplaced relocation without objects', [1], places(lambda i: [(4, 0)]), None, filled=bytes(16), ask=places(lambda i: []))
    row('an object outside comes before a misplaced relocation', [1], places(lambda i: [(4, 0)]), lambda i: [(0, 16)], filled=bytes(16),
        ask=places(lambda i: []))
    for note, raw, refusal in [('descriptors that are cut', b'\x81', 'Cut 1'), ('a second number that is cut', b'\x08', 'Cut 1'),
                               ('a long number', b'\x81\x80\x00', 'LongForm 0'), ('a long form', b'\x00\x02', 'LongForm 1'),
                               ('a number that is too far', b'\x81' * 8, 'TooFar 0'),
                               ('an interval that ends too far', b'\x80\x80\x80\x80\x80\x80\x7f\x07', 'TooFar 0')]:
        row(note + ' comes before all else', [1], places(lambda i: [(4, 0)]), None, filled=bytes(16), ask=places(lambda i: []), raw=raw,
            refusal=refusal)


def drawn(seed):
    """A random image that starts."""
    r = random.Random(seed)
    words, zeros = 2 * r.randrange(1, 12), 16 * r.randrange(0, 12)
    filled = b''.join(r.choice([bytes(8), minus(r.randrange(1, 40)), r.randrange(64).to_bytes(8, 'little')]) for _ in range(words))
    picks = [(r.randrange(words), r.randrange(-8, 8 * words + zeros + 40)) for _ in range(r.randrange(0, 9))]
    spans, at = [], 0
    while at < len(filled) + zeros:
        size = 16 * r.randrange(1, 4)
        if r.random() < 0.6 and at + size <= len(filled) + zeros:
            spans.append((at, size))
        at += size
    choices = [r.randrange(16) for _ in range(r.randrange(1, 4))]
    row('drawn %d' % seed, choices, places(lambda i: [(i.filled_at + 8 * k, i.filled_at + to) for k, to in picks]),
        (lambda i: [(i.filled_at + a, n) for a, n in spans]) if spans else None, filled=filled, zeros=zeros,
        ask=places(lambda i: [('n', i.filled_at + 8 * k) for k in range(min(words, 10))]
                   + [('t', i.filled_at + 16 * k) for k in range((len(filled) + zeros) // 16)] + [('d',)]))


def main():
    by_hand()
    for seed in range(60):
        drawn(seed)
    path = os.path.join(os.path.dirname(os.path.abspath(__file__)), '..', 'crates', 'start_rows', 'stdin')
    with open(path, 'w') as out:
        out.write('# Images, and what their code finds in memory at the start, or why they do not start. Made by `tools/start_rows.py`.\n')
        out.write('\n'.join(ROWS) + '\n')
    print('%d rows' % len(ROWS))


if __name__ == '__main__':
    main()
