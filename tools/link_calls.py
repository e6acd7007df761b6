#!/usr/bin/env python3
"""Rows of the command `link` for crates/end_to_end: object files, calls with them, and what each answers and writes. Objects are laid out by
tools/object_rows.py and images by tools/image_rows.py, each from the tables of docs/FILES.md alone; which image is that of which objects comes
from tools/linking.py, and the rest was found by hand from docs/COMMANDS.md.

Usage: link_calls.py crates/end_to_end. It writes the section of `link` in stdin anew, or at its end where there is none, and the count of stdout."""
import pathlib
import re
import sys

import linking
import object_rows
from image_rows import Image
from linking import CALL26, Parts, Reloc, Symbol

TITLE, END = '# `link`: object files, their image, and each answer.', '# `link` ends here.'
RET, BL = 0xD65F03C0, 0x94000000


def file_of(parts):
    """The file of an object."""
    relocs = lambda found: [(reloc.offset, reloc.kind, reloc.symbol, reloc.addend) for reloc in found]
    symbols = [object_rows.symbol(found.name, 'UTRIZ'.index(found.home), found.value, found.size, found.local, found.function) for found in parts.symbols]
    return object_rows.build({'words': parts.words, 'rodata': parts.rodata, 'init': parts.init, 'zero': parts.zero, 'symbols': symbols,
                              'text_relocs': relocs(parts.code), 'init_relocs': relocs(parts.data), 'tagged': parts.tagged})


def image_file(objects):
    image = linking.image_of(objects)
    return Image(image.entry, image.relocs, image.descriptors, image.rodata, image.words, image.filled, image.zeros).file()


def quoted(data):
    """Bytes as a row writes them, with the runs of four zeros and more counted."""
    def plain(part):
        return ''.join(chr(byte) if 32 <= byte < 127 and byte not in b'"\\' else '\\x%02x' % byte for byte in part)

    out, at = '', 0
    for run in re.finditer(rb'\0{4,}', data):
        out += plain(data[at:run.start()]) + '\\{%d \\x00\\}' % (run.end() - run.start())
        at = run.end()
    return '"%s"' % (out + plain(data[at:]))


class Rows:
    def __init__(self):
        self.lines = []

    def comment(self, text):
        self.lines.append('# ' + text)

    def files(self, failing=None, **held):
        words = ' '.join('"%s" %s' % (name.replace('_', '.'), quoted(data)) for name, data in held.items())
        self.lines.append(('files %s => %d' if failing is None else 'failing %d ' % failing + '%s => %d') % (words, len(held)))

    def call(self, words, answer, mute=False):
        self.lines.append('%s %s => %s' % ('mute' if mute else 'call', ' '.join('"%s"' % word for word in words.split()), answer))

    def holds(self, name, text):
        self.lines.append('holds "%s" => "%s"' % (name, text))

    def same(self, name, other):
        self.lines.append('same "%s" "%s" => yes' % (name, other))


def function(name, value=0, size=4):
    return Symbol(name, 'T', value, size, False, True)


def error(number, text):
    return '67 Link { number: %d } err "mtcc: %s\\n"' % (number, text)


def bad(file, number, place, text):
    return '68 BadImage { file: %d, number: %d, place: %d } err "mtcc: %s\\n"' % (file, number, place, text)


F = Parts(words=[0x11000400, RET], symbols=[function(b'f', 0, 8)])
# stp x29, x30, [sp, #-16]! is none of ours: sub and stp
MAIN = Parts(words=[0xD10043FF, 0xA9007BFD, 0x52800520, BL, 0xA9407BFD, 0x910043FF, RET], symbols=[function(b'main', 0, 28), Symbol(b'f', 'U')],
             code=[Reloc(12, CALL26, 1)])
ALONE = Parts(words=[0x52800540, RET], symbols=[function(b'main', 0, 8)])
F2 = Parts(words=[RET], symbols=[function(b'f')])
PIECES = Parts(words=[0x90000000, 0xF9400000, RET], rodata=b'text' + bytes(12), init=bytes(32), zero=16,
               symbols=[Symbol(b't', 'R', 0, 16, True, False), function(b'main', 0, 12), Symbol(b'p', 'I', 0, 32), Symbol(b'a', 'Z', 0, 16)],
               code=[Reloc(0, linking.GOT_PAGE, 3), Reloc(4, linking.GOT_LOW, 3)], data=[Reloc(0, linking.ABS64, 3, 16), Reloc(16, linking.ABS64, 0, 1)],
               tagged=[2, 3])
LARGE = Parts(zero=2**28)


def reading(*words):
    """Two tagged objects side by side, 39 at the end of the first and 40 at the start of the second, and a pointer one past the end of the first. `main`
    has the pointer to the first in X0, and the address of the other pointer in X1, before these words."""
    return Parts(words=[0x90000000, 0xF9400000, 0x90000001, 0xF9400021, *words, RET], init=bytes(12) + b'\x27' + bytes(3) + b'\x28' + bytes(31),
                 symbols=[function(b'main', 0, 20 + 4 * len(words)), Symbol(b'a', 'I', 0, 16), Symbol(b'b', 'I', 16, 16), Symbol(b'p', 'I', 32, 16)],
                 code=[Reloc(0, linking.GOT_PAGE, 1), Reloc(4, linking.GOT_LOW, 1), Reloc(8, linking.GOT_PAGE, 3), Reloc(12, linking.GOT_LOW, 3)],
                 data=[Reloc(32, linking.ABS64, 1, 16)], tagged=[1, 2, 3])


LAST, NEXT = 0xB9400C00, 0xB9401000  # ldr w0, [x0, #12] and ldr w0, [x0, #16]
AT_END = 0xF9400020  # ldr x0, [x1]
BACK = 0xD1004000  # sub x0, x0, #16
FIRST = 0xB9400000  # ldr w0, [x0]


def beside(parts):
    """The address of the second tagged object, of one granule behind another, in the machine: an image is loaded at 0x10000000, and the first
    number of its descriptors is eight times the granules before its first tagged object, and 1."""
    number = 0
    for place, byte in enumerate(linking.image_of([parts]).descriptors):
        number |= (byte & 127) << 7 * place
        if byte < 128:
            break
    return 0x10000000 + 16 * (number // 8) + 16


def rows():
    out = Rows()
    f, main, alone = file_of(F), file_of(MAIN), file_of(ALONE)
    out.comment('the image of two objects, in either order, and of one; the run of each')
    for order, objects in ('f.o main.o', [F, MAIN]), ('main.o f.o', [MAIN, F]):
        out.files(f_o=f, main_o=main, x=b'before', wanted=image_file(objects))
        out.call('link %s --out x' % order, '0 Done')
        out.same('x', 'wanted')
        out.call('run x', '42 Exited')
    out.files(a_o=alone, wanted=image_file([ALONE]))
    out.call('link a.o --out a.o', '0 Done')
    out.same('a.o', 'wanted')
    out.call('run a.o', '42 Exited')
    out.comment('an object with each kind of section, a table of addresses and descriptors')
    out.files(a_o=file_of(PIECES), f_o=f, wanted=image_file([PIECES, F]))
    out.call('link a.o f.o --out x', '0 Done')
    out.same('x', 'wanted')
    out.call('link f.o a.o --out f.o', '0 Done')
    out.comment('the last word of a tagged object, the next word, which is of another; and the same by a pointer one past its end, which has its tag')
    fault = '80 TagFault { at: %d, pointer_tag: Tag { value: 5 }, memory_tag: Tag { value: 6 } } err "mtcc: tag fault: pointer tag 5, memory tag 6\\n"'
    for words, answer in (([LAST], '39 Exited'), ([NEXT], fault), ([AT_END, BACK, LAST], '39 Exited'), ([AT_END, FIRST], fault)):
        parts = reading(*words)
        out.files(a_o=file_of(parts))
        out.call('link a.o --out x', '0 Done')
        out.call('run x', answer.replace('%d', str(beside(parts))))
    out.comment('sixteen objects and seventeen')
    names = [b'f%d' % k for k in range(16)]
    out.files(main_o=alone, **{'%s_o' % name.decode(): file_of(Parts(words=[RET], symbols=[function(name)])) for name in names}, x=b'before')
    listed = ' '.join('%s.o' % name.decode() for name in names)
    out.call('link main.o %s --out x' % listed, error(41, 'TooManyObjects'))
    out.call('link %s --out x' % listed, error(40, 'NoMain'))
    out.holds('x', 'before')
    out.call('link main.o %s --out x' % listed.rpartition(' ')[0], '0 Done')
    out.call('run x', '42 Exited')
    out.comment('objects that do not link: nothing is written')
    out.files(f_o=f, main_o=main, alone_o=alone, g_o=file_of(F2), large_o=file_of(LARGE), x=b'before')
    for words, answer in (
            ('main.o f.o g.o', error(39, 'Duplicate f')), ('g.o main.o f.o', error(39, 'Duplicate f')), ('main.o alone.o', error(39, 'Duplicate main')),
            ('main.o', error(38, 'Undefined f')), ('f.o', error(40, 'NoMain')), ('large.o', error(40, 'NoMain')),
            ('alone.o large.o', error(42, 'ImageTooLarge')),
            ('main.o large.o', error(38, 'Undefined f')), (' '.join(['f.o'] * 17), error(41, 'TooManyObjects')),
            (' '.join(['f.o'] * 16), error(39, 'Duplicate f'))):
        out.call('link %s --out x' % words, answer)
        out.call('link %s --out x' % words, answer.split(' err ')[0], True)
    out.holds('x', 'before')
    out.comment('files that are no objects: the first of them, with its place')
    other = alone[:18] + b'\x3e' + alone[19:]
    out.files(a_o=alone, h_o=b'hello', e_o=b'', cut_o=alone[:-1], other_o=other, more_o=alone + b'\0', x=b'before')
    for words, answer in (
            ('h.o', bad(0, 24, 0, 'h.o: NotElf')), ('e.o', bad(0, 26, 0, 'e.o: Truncated 0')), ('a.o h.o', bad(1, 24, 0, 'h.o: NotElf')),
            ('cut.o', bad(0, 26, len(alone) - 1, 'cut.o: Truncated %d' % (len(alone) - 1))), ('other.o', bad(0, 25, 0, 'other.o: NotThisMachine')),
            ('more.o', bad(0, 27, 12, 'more.o: BadSection 12')), ('a.o a.o cut.o h.o', bad(2, 26, len(alone) - 1, 'cut.o: Truncated %d' % (len(alone) - 1))),
            ('h.o absent', bad(0, 24, 0, 'h.o: NotElf'))):
        out.call('link %s --out x' % words, answer)
    past_its_section = Parts(words=[RET], symbols=[function(b'main', 4, 4)])
    at_no_word = Parts(words=[RET], symbols=[function(b'main')], code=[Reloc(2, CALL26, 0)])
    out.files(s_o=file_of(past_its_section), r_o=file_of(at_no_word), x=b'before')
    out.call('link s.o --out x', bad(0, 28, 1, 's.o: BadSymbol 1'))
    out.call('link r.o s.o --out x', bad(0, 29, 0, 'r.o: BadRelocation 0'))
    out.holds('x', 'before')
    out.comment('files that are absent or not read, and a write that fails')
    out.files(a_o=alone, x=b'before')
    out.call('link b.o a.o --out x', '66 NoFile { file: 0 } err "mtcc: b.o: no such file\\n"')
    out.call('link a.o b.o c.o --out x', '66 NoFile { file: 1 } err "mtcc: b.o: no such file\\n"')
    out.holds('x', 'before')
    for failing, answer in ((0, '74 ReadFault { file: 0 } err "mtcc: f.o: read fault\\n"'), (1, '74 ReadFault { file: 1 } err "mtcc: main.o: read fault\\n"'),
                            (2, '73 WriteFault { file: 0 } err "mtcc: x: write fault\\n"'), (3, '0 Done')):
        out.files(failing, f_o=f, main_o=main, x=b'before')
        out.call('link f.o main.o --out x', answer)
        if failing < 2:
            out.holds('x', 'before')
    out.comment('words that ask for no link')
    out.files(a_o=alone, x=b'before')
    for words in 'link', 'link a.o', 'link --out x', 'link a.o --out', 'link a.o --out x --out y', 'link a.o --out x --steps 1', 'link a.o --out x --tags 5', \
            'link a.o --out x --stack 64', 'link a.o --out x --work 1':
        out.call(words, '64 Usage err "mtcc: usage\\n"')
    out.holds('x', 'before')
    return out.lines


def main():
    folder = pathlib.Path(sys.argv[1])
    text = (folder / 'stdin').read_text()
    section = '\n'.join([TITLE] + rows() + [END]) + '\n'
    before, title, rest = text.partition(TITLE + '\n')
    behind = rest.partition(END + '\n')[2]
    text = before + section + behind
    (folder / 'stdin').write_text(text)
    count = sum(1 for line in text.split('\n') if line and not line.startswith('#'))
    (folder / 'stdout').write_text('%d rows, 0 differ\n' % count)


if __name__ == '__main__':
    main()
