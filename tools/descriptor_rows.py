#!/usr/bin/env python3
"""Writes the rows of crates/file_rows/stdin: bytes, and the intervals or the fault that they stand for, worked out from the
rules of docs/FILES.md by hand or by the few lines below, and by nothing of mtcc. Usage: descriptor_rows.py crates/file_rows"""
import sys

from file_row_sections import write_section

LIMIT = 2**48
rows = []


def uleb(n):
    out = []
    while n >= 128:
        out.append(n % 128 + 128)
        n //= 128
    return out + [n]


def described(intervals):
    end, out = 0, []
    for start, size in intervals:
        distance, granules = (start - end) // 16, size // 16
        out += uleb(8 * distance + granules) if granules <= 7 else uleb(8 * distance) + uleb(granules - 1)
        end = start + size
    return out


def title(text):
    rows.append(text)


def good(*intervals):
    rows.append((described(intervals), ', '.join(f'{s:#x} {n}' for s, n in intervals)))


def far(answer, *intervals):
    rows.append((described(intervals), answer))


def row(text, answer):
    rows.append(([int(word, 16) for word in text.split()], answer))


title('a short size, a short size behind it, and the least long size')
row('81 30 02 00 07', '0x3000 16, 0x3010 32, 0x3030 128')
title('no bytes')
row('', '')
title('a second number for a size that has a short form, a number with a last byte of 0, a number without its last byte')
row('00 02', 'LongForm 1')
row('81 80 00', 'LongForm 0')
row('81', 'Cut 1')
title('each short size, and the least long one')
for n in range(1, 8):
    good((0, 16 * n))
good((0, 128))
good((16, 128))
title('each second number that is too small')
for n in range(7):
    row(f'00 {n:02x}', 'LongForm 1')
title('numbers of one to seven bytes: the greatest distance of each length, and one more')
for k in range(1, 7):
    distance = (128**k - 8) // 8
    good((16 * distance, 112))
    good((16 * (distance + 1), 16))
title('sizes of one, two and three bytes, and the greatest')
for n in (127, 128, 129, 16384, 16385, 16386):
    good((0x40, 16 * n))
good((0, LIMIT))
good((LIMIT - 16, 16))
good((LIMIT - 128, 128))
good((LIMIT - 256, 128), (LIMIT - 128, 128))
title('intervals that end above 2^48, by their start and by their size, and behind others')
far('TooFar 0', (LIMIT, 16))
far('TooFar 0', (0, LIMIT + 16))
far('TooFar 0', (LIMIT - 16, 32))
far('TooFar 1', (0, 16), (LIMIT, 16))
far('TooFar 7', (LIMIT - 16, 16), (LIMIT, 16))
title('the end in each number: the first, the second, and those behind an interval')
row('80', 'Cut 1')
row('80 80', 'Cut 2')
row('80 80 80 80 80 80 80', 'Cut 7')
row('00', 'Cut 1')
row('00 87', 'Cut 2')
row('01 80', 'Cut 2')
row('01 00', 'Cut 2')
row('01 00 ff ff', 'Cut 4')
title('eight bytes that go on, in each number; seven and a last one are a number')
row('80 80 80 80 80 80 80 80', 'TooFar 0')
row('ff ff ff ff ff ff ff ff 01', 'TooFar 0')
row('00 80 80 80 80 80 80 80 80', 'TooFar 1')
row('01 00 ff ff ff ff ff ff ff ff 00', 'TooFar 2')
row('81 80 80 80 80 80 80 01', 'TooFar 0')
title('a last byte of 0 behind one to seven bytes')
for k in range(1, 8):
    row('81 ' + '80 ' * (k - 1) + '00', 'LongForm 0')
row('00 80 00', 'LongForm 1')
row('00 87 80 00', 'LongForm 1')
row('01 81 00', 'LongForm 1')
row('01 00 88 00', 'LongForm 2')
title('the first fault counts')
row('81 00 00 02', 'LongForm 0')
row('00 02 81 00', 'LongForm 1')
row('01 00 02 80', 'LongForm 2')
title('a second number that is too small comes before an interval that ends too high')
first = uleb(8 * (LIMIT // 16))
rows.append((first + [6], f'LongForm {len(first)}'))
rows.append((first + [7], 'TooFar 0'))
title('many intervals side by side, and far apart')
good(*[(16 * i, 16) for i in range(12)])
good(*[(4096 * i, 16 * (i + 1)) for i in range(12)])

lines = []
for one in rows:
    if isinstance(one, str):
        lines.append(f'\n# {one}')
    else:
        lines.append((' '.join(f'{b:02x}' for b in one[0]) + ' | ' + one[1]).strip())
write_section(sys.argv[1], 'Bytes that describe tagged intervals, and the intervals (start and bytes), or the fault and its place.', lines)
