#!/usr/bin/env python3
"""Writes the rows of crates/file_rows/stdin that say what an ELF file of any producer says of memory tagging. The files are made
of the fields below; each answer was worked out by hand from the rules of docs/FILES.md, and by nothing of mtcc.
Usage: memtag_rows.py crates/file_rows"""
import struct
import sys

from file_row_sections import write_section

MODE, HEAP, STACK, GLOBALS, SIZE = 0x70000009, 0x7000000B, 0x7000000C, 0x7000000D, 0x7000000F
LOAD, DYNAMIC, NOTE = 1, 2, 4
FAR = 2**64

rows = []


def title(text):
    rows.append(f'\n# {text}')


def spelled(data):
    """The bytes as words: two digits each, and @N for zeros up to place N."""
    words, at = [], 0
    while at < len(data):
        end = at
        while end < len(data) and data[end] == 0:
            end += 1
        if end - at >= 4:
            words.append(f'@{end}')
            at = end
        else:
            words.append(f'{data[at]:02x}')
            at += 1
    return ' '.join(words)


def row(data, answer):
    rows.append(f'memtag {spelled(data)} | {answer}'.rstrip())


def header(ident=b'\x7fELF\x02\x01\x01', machine=183, phoff=64, phentsize=56, phnum=0):
    fields = struct.pack('<16sHHIQQQIHHHHHH', ident, 3, machine, 1, 0, phoff, 0, 0, 64, phentsize, phnum, 0, 0, 0)
    assert len(fields) == 64
    return fields


def segment(kind, offset, vaddr, filesz):
    return struct.pack('<IIQQQQQQ', kind, 4, offset, vaddr, vaddr, filesz, filesz, 1)


def entries(*pairs):
    return b''.join(struct.pack('<QQ', tag, value) for tag, value in pairs)


def elf(segments, rest, **fields):
    """A header, program headers right after it, and the rest."""
    return header(phnum=len(segments), **fields) + b''.join(segment(*s) for s in segments) + rest


def with_entries(*pairs):
    """A file of one dynamic segment of these entries."""
    body = entries(*pairs)
    return elf([(DYNAMIC, 120, 120, len(body))], body)


def held(load, pairs, data, more=()):
    """A file of a PT_LOAD, perhaps other segments, and a dynamic segment of the entries, with the data behind them. The entries stand
    at 64 + 56 * (2 + len(more)), and the data right behind them."""
    body = entries(*pairs)
    place = 64 + 56 * (2 + len(more))
    return elf([load, *more, (DYNAMIC, place, place, len(body))], body + data)


WHOLE = with_entries((MODE, 1), (HEAP, 2), (STACK, 3), (0, 0))
TOLD = 'mode 1, heap 2, stack 3'

title('files that are no ELF files, as far as they go, and ones that are too short for a header')
row(b'', 'Truncated 0')
row(b'\x7f', 'Truncated 1')
row(b'\x7e', 'NotElf')
row(b'hello', 'NotElf')
row(b'\x7fELF\x02', 'Truncated 5')
row(b'\x7fELF\x01', 'NotElf')
row(b'\x7fELF\x02\x02', 'NotElf')
row(header()[:63], 'Truncated 63')
row(header(machine=62)[:63], 'Truncated 63')
for k in range(6):
    row(WHOLE[:k] + bytes([WHOLE[k] ^ 1]) + WHOLE[k + 1:], 'NotElf')
title('bytes of the identification behind the sixth, the type and the version count for nothing')
row(WHOLE, TOLD)
row(WHOLE[:6] + b'\xff' * 12 + WHOLE[18:], TOLD)
row(WHOLE[:20] + b'\xff' * 12 + WHOLE[32:], TOLD)
title('other machines, before the length of a program header')
row(header(machine=62, phentsize=0), 'NotThisMachine')
row(header(machine=0), 'NotThisMachine')
row(header(machine=183 + 256), 'NotThisMachine')
title('program headers of another length, before those that are not there')
row(header(phentsize=0, phoff=0), 'BadSegment 0')
row(header(phentsize=55), 'BadSegment 0')
row(header(phentsize=57, phnum=9), 'BadSegment 0')
row(header(phentsize=56 + 256, phnum=1), 'BadSegment 0')
title('program headers that are not all there, by their place and by their number')
row(header(phoff=65), 'Truncated 64')
row(header(phoff=FAR - 1), 'Truncated 64')
row(header(phnum=1), 'Truncated 64')
row(elf([(LOAD, 0, 0, 0)], b'')[:119], 'Truncated 119')
row(header(phnum=1, phoff=FAR - 56), 'Truncated 64')
row(header(phnum=1, phoff=FAR - 1), 'Truncated 64')
row(header(phnum=65535), 'Truncated 64')
row(header(phnum=2) + segment(DYNAMIC, 0, 0, 0), 'Truncated 120')
title('no dynamic segment')
row(header(), 'BadSegment 0')
row(header(phoff=0), 'BadSegment 0')
row(elf([(LOAD, 0, 0, 0)], b''), 'BadSegment 1')
row(elf([(LOAD, FAR - 1, 0, FAR - 1), (NOTE, 0, 0, 0), (0, 0, 0, 0)], b''), 'BadSegment 3')
row(elf([(DYNAMIC + 256, 0, 0, 0)], b''), 'BadSegment 1')
title('a dynamic segment that is not all there; the first one counts')
row(elf([(DYNAMIC, 120, 0, 1)], b''), 'Truncated 120')
row(elf([(DYNAMIC, 121, 0, 0)], b''), 'Truncated 120')
row(elf([(DYNAMIC, FAR - 16, 0, 32)], b''), 'Truncated 120')
row(elf([(DYNAMIC, 120, 0, FAR - 1)], b''), 'Truncated 120')
row(WHOLE[:-1], f'Truncated {len(WHOLE) - 1}')
row(elf([(DYNAMIC, 176, 0, 17), (DYNAMIC, 176, 0, 16)], entries((MODE, 5))), 'Truncated 192')
row(elf([(DYNAMIC, 176, 0, 16), (DYNAMIC, 176, 0, 17)], entries((MODE, 5))), 'mode 5')
row(elf([(LOAD, 0, 0, FAR - 1), (DYNAMIC, 176, 0, 16)], entries((MODE, 5))), 'mode 5')
row(elf([(DYNAMIC, 0, 0, 0), (DYNAMIC, 176, 0, 16)], entries((MODE, 5))), 'nothing')
title('no entries: no bytes, no whole entry, NULL first, others only')
row(elf([(DYNAMIC, 120, 0, 0)], b''), 'nothing')
row(elf([(DYNAMIC, 120, 0, 15)], entries((MODE, 1))), 'nothing')
row(with_entries((0, 0), (MODE, 1)), 'nothing')
row(with_entries((0, 7), (MODE, 1)), 'nothing')
row(with_entries((5, 1), (6, 2), (0x70000008, 3), (0x7000000A, 4)), 'nothing')
title('a last entry that is not whole, and no NULL')
row(elf([(DYNAMIC, 120, 0, 31)], entries((MODE, 1), (HEAP, 2))), 'mode 1')
row(elf([(DYNAMIC, 120, 0, 32)], entries((MODE, 1), (HEAP, 2))), 'mode 1, heap 2')
title('the first entry of each tag counts, in any order, and none behind NULL')
row(with_entries((MODE, 1), (MODE, 2)), 'mode 1')
row(with_entries((STACK, 3), (MODE, 1), (HEAP, 2)), TOLD)
row(with_entries((MODE, 1), (0, 0), (HEAP, 2)), 'mode 1')
row(with_entries((MODE, FAR - 1), (HEAP, 0)), 'mode 18446744073709551615, heap 0')
title('tags are compared whole')
row(with_entries((MODE + 2**32, 1), (0xFFFFFFFF00000000 + MODE, 2), (HEAP, 3)), 'heap 3')
row(with_entries((2**32, 1), (HEAP, 3)), 'heap 3')
title('descriptors are there where both of their entries are')
row(with_entries((GLOBALS, 0)), 'nothing')
row(with_entries((SIZE, 1)), 'nothing')
row(with_entries((GLOBALS, 0), (0, 0), (SIZE, 1)), 'nothing')
row(with_entries((SIZE, 0), (GLOBALS, 5)), 'descriptors')
row(with_entries((GLOBALS, FAR - 1), (SIZE, 0), (SIZE, 1)), 'descriptors')
title('descriptors that no segment holds: the index of MEMTAG_GLOBALS')
row(with_entries((GLOBALS, 0), (SIZE, 1)), 'BadDynamic 0')
row(with_entries((SIZE, 1), (MODE, 0), (GLOBALS, 0), (GLOBALS, 0)), 'BadDynamic 2')
row(with_entries((7, 0), (8, 0), (9, 0), (GLOBALS, FAR - 1), (SIZE, FAR - 1)), 'BadDynamic 3')
title('descriptors in a segment whose addresses are its places, and in one with others')
ROW = bytes([0x81, 0x30, 0x02, 0x00, 0x07])
THREE = 'descriptors 0x3000 16, 0x3010 32, 0x3030 128'
row(held((LOAD, 0, 0, 229), ((MODE, 1), (GLOBALS, 224), (SIZE, 5)), ROW), f'mode 1, {THREE}')
row(held((LOAD, 208, 0x10000, 5), ((GLOBALS, 0x10000), (SIZE, 5)), ROW), THREE)
row(held((LOAD, 200, 0x10000, 13), ((SIZE, 5), (GLOBALS, 0x10008)), ROW), THREE)
title('all of them within the bytes of the segment')
row(held((LOAD, 208, 0x10000, 4), ((GLOBALS, 0x10000), (SIZE, 5)), ROW), 'BadDynamic 0')
row(held((LOAD, 208, 0x10000, 5), ((SIZE, 5), (GLOBALS, 0x10001)), ROW + b'\x00'), 'BadDynamic 1')
row(held((LOAD, 208, 0x10000, 5), ((GLOBALS, 0xFFFF), (SIZE, 1)), ROW), 'BadDynamic 0')
row(held((LOAD, 208, 0x10000, 5), ((GLOBALS, 0x10005), (SIZE, 1)), ROW), 'BadDynamic 0')
row(held((LOAD, 208, 0x10000, 5), ((GLOBALS, 0x10000), (SIZE, FAR - 1)), ROW), 'BadDynamic 0')
title('and within those that the file has: a segment may name more')
row(held((LOAD, 208, 0x10000, FAR - 1), ((GLOBALS, 0x10000), (SIZE, 5)), ROW), THREE)
row(held((LOAD, 208, 0x10000, FAR - 1), ((GLOBALS, 0x10000), (SIZE, 6)), ROW), 'BadDynamic 0')
row(held((LOAD, 209, 0x10000, FAR - 1), ((GLOBALS, 0x10000), (SIZE, 5)), ROW), 'BadDynamic 0')
row(held((LOAD, FAR - 1, 0, FAR - 1), ((GLOBALS, 0x10000), (SIZE, 5)), ROW), 'BadDynamic 0')
row(held((LOAD, 208, 0, FAR - 1), ((GLOBALS, FAR - 1), (SIZE, 1)), ROW), 'BadDynamic 0')
title('addresses are numbers, and are not cut at 2^64')
row(held((LOAD, 208, FAR - 2, 64), ((GLOBALS, FAR - 2), (SIZE, 5)), ROW), THREE)
row(held((LOAD, FAR - 64, FAR - 64, 256), ((GLOBALS, FAR - 64), (SIZE, 5)), ROW), 'BadDynamic 0')
row(held((LOAD, 208, FAR - 64, FAR - 1), ((GLOBALS, 0), (SIZE, 5)), ROW), 'BadDynamic 0')
title('the first segment that holds them whole, and loaded ones alone')
row(held((LOAD, 264, 0x10000, 2), ((GLOBALS, 0x10000), (SIZE, 5)), ROW, [(LOAD, 264, 0x10000, 5)]), THREE)
row(held((LOAD, 269, 0x10000, 5), ((GLOBALS, 0x10000), (SIZE, 5)), ROW, [(LOAD, 264, 0x10000, 5)]), THREE)
row(held((LOAD, 264, 0x10000, 1), ((GLOBALS, 0x10000), (SIZE, 1)), b'\x01\x02', [(LOAD, 265, 0x10000, 1)]), 'descriptors 0x0 16')
row(held((NOTE, 264, 0x10000, 1), ((GLOBALS, 0x10000), (SIZE, 1)), b'\x01\x02', [(LOAD, 265, 0x10000, 1)]), 'descriptors 0x0 32')
row(held((NOTE, 264, 0x10000, 1), ((GLOBALS, 0x10000), (SIZE, 1)), b'\x01\x02', [(LOAD + 256, 265, 0x10000, 1)]), 'BadDynamic 0')
row(held((LOAD, 208, 0, 0), ((GLOBALS, 192), (SIZE, 16)), b''), 'BadDynamic 0')
title('the bytes are taken as they are, whatever they describe')
row(held((LOAD, 208, 0x10000, 1), ((GLOBALS, 0x10000), (SIZE, 1)), b'\x81'), 'descriptors Cut 1')
row(held((LOAD, 0, 0, 64), ((GLOBALS, 0), (SIZE, 1)), b''), 'descriptors 0xf0 112')

title('a shared object of clang and lld, which tools/globals-so makes: what llvm-readelf --memtag shows of it')
rows.append('memtag file globals.so | mode 0, heap 0, stack 0, descriptors 0x3600 16, 0x3610 112, 0x3680 128, 0x3800 64, 0x3840 16, 0x3850 1200')

title('the lines that dump prints of such files, with / between them, and its refusals')


def dump(data, answer):
    rows.append(f'dump {spelled(data)} | {answer}'.rstrip())


NEAR = (LOAD, 208, 0x10000, FAR - 1)
dump(held((LOAD, 224, 0x10000, 5), ((MODE, 1), (GLOBALS, 0x10000), (SIZE, 5)), ROW),
     'memtag-mode 1 / global 0x3000 16 / global 0x3010 32 / global 0x3030 128')
dump(WHOLE, 'memtag-mode 1 / memtag-heap 2 / memtag-stack 3')
dump(with_entries((STACK, 0), (HEAP, FAR - 1)), 'memtag-heap 18446744073709551615 / memtag-stack 0')
dump(with_entries((0, 0), (MODE, 1)), 'no memtag entries')
dump(with_entries((GLOBALS, 0)), 'no memtag entries')
dump(with_entries((GLOBALS, 0), (SIZE, 0)), '')
dump(with_entries((GLOBALS, 0), (SIZE, 0), (MODE, 0)), 'memtag-mode 0')
dump(held(NEAR, ((GLOBALS, 0x10000), (SIZE, 1)), b'\x07'), 'global 0x0 112')
dump(held(NEAR, ((GLOBALS, 0x10000), (SIZE, 7)), bytes([0xF9, 0xFF, 0xFF, 0xFF, 0xFF, 0xFF, 0x1F])), 'global 0xfffffffffff0 16')
dump(b'hello', 'NotElf')
dump(header(machine=62), 'NotThisMachine')
dump(WHOLE[:100], 'Truncated 100')
dump(header(phentsize=0), 'BadSegment 0')
dump(elf([(LOAD, 0, 0, 0), (NOTE, 0, 0, 0)], b''), 'BadSegment 2')
dump(with_entries((MODE, 1), (GLOBALS, 0), (SIZE, 1)), 'BadDynamic 1')
dump(held(NEAR, ((GLOBALS, 0x10000), (SIZE, 2)), b'\x01\x81'), 'Cut 2')
dump(held(NEAR, ((GLOBALS, 0x10000), (SIZE, 3)), b'\x01\x00\x02'), 'LongForm 2')
dump(held(NEAR, ((GLOBALS, 0x10000), (SIZE, 7)), bytes([0xFA, 0xFF, 0xFF, 0xFF, 0xFF, 0xFF, 0x1F])), 'TooFar 0')
rows.append('dump file globals.so | memtag-mode 0 / memtag-heap 0 / memtag-stack 0 / global 0x3600 16 / global 0x3610 112 / global 0x3680 128'
            ' / global 0x3800 64 / global 0x3840 16 / global 0x3850 1200')

write_section(sys.argv[1], 'What ELF files of any producer say of memory tagging, or the first thing that is wrong with them.', rows)
