#!/usr/bin/env python3
"""Times `mtcc link` of sixteen objects of some megabytes each, with many names, calls, pointers and tagged objects.

    tools/link_speed.py MTCC [WORDS]     WORDS: the words of code of each object, 250,000 if none is said
"""
import os
import resource
import subprocess
import sys
import tempfile
import time

from link_calls import file_of
from linking import ABS64, CALL26, Parts, Reloc, Symbol

OBJECTS = 16
NAMES = 2000
RET = 0xD65F03C0
CALL = 0x94000000


def object_of(number, count):
    """An object with that many words of code: functions, calls of those of the next object, and tagged objects that point to one another."""
    words = [RET] * count
    symbols = [Symbol(b'main', 'T', 0, 4, False, True)] if number == 0 else []
    symbols += [Symbol(b'f%d_%d' % (number, k), 'T', 16 + k * (count // NAMES - 1) * 4, 4, False, True) for k in range(NAMES)]
    first = len(symbols)
    symbols += [Symbol(b'd%d_%d' % (number, k), 'I', k * 512, 512) for k in range(NAMES)]
    others = len(symbols)
    symbols += [Symbol(b'f%d_%d' % ((number + 1) % OBJECTS, k), 'U', 0, 0, False, True) for k in range(NAMES)]
    calls = []
    for place in range(2, count, 12):
        words[place] = CALL
        calls.append(Reloc(4 * place, CALL26, others + place % NAMES))
    pointers = [Reloc(k * 512 + 8 * (k % 3), ABS64, first + 7 * k % NAMES, 8) for k in range(NAMES)]
    return Parts(words=words, rodata=bytes(200000), init=bytes(NAMES * 512), symbols=symbols, code=calls, data=pointers,
                 tagged=list(range(first, first + NAMES)))


def main(words):
    program, count = os.path.abspath(words[0]), int(words[1]) if len(words) > 1 else 250000
    with tempfile.TemporaryDirectory() as folder:
        names = [f'o{k}' for k in range(OBJECTS)]
        for number, name in enumerate(names):
            with open(f'{folder}/{name}', 'wb') as file:
                file.write(file_of(object_of(number, count)))
        size = os.path.getsize(f'{folder}/o1')
        for _ in range(3):
            before, start = resource.getrusage(resource.RUSAGE_CHILDREN).ru_utime, time.time()
            subprocess.run([program, 'link', *names, '--out', 'image'], cwd=folder, check=True)
            spent = resource.getrusage(resource.RUSAGE_CHILDREN).ru_utime - before
            print(f'{OBJECTS} objects of {size:,} bytes: {time.time() - start:.2f} s, {spent:.2f} s of a processor')


if __name__ == '__main__':
    main(sys.argv[1:])
