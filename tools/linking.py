"""Links objects by the rules of images, with nothing of the toolchain's: what the rows of crates/link_rows are compared with.

It was written from the requirements alone, before the linker's own code or definitions were read. Objects are `Parts`; `image_of` gives the
parts of their image, or raises `Refused`. `text_of` and `parts_of` write and read objects as rows do (crates/link_rows/src/main.rt).
"""
import dataclasses
import re
import struct

NONE, ABS64, ADR_PAGE, ADD_LOW, JUMP26, CALL26, GOT_PAGE, GOT_LOW = 0, 257, 275, 277, 282, 283, 311, 312
CODE_KINDS = (ADR_PAGE, ADD_LOW, JUMP26, CALL26, GOT_PAGE, GOT_LOW)
HOMES = 'UTRIZ'
MEMORY_LIMIT, CODE_LIMIT, OBJECT_LIMIT = 1 << 28, 1 << 27, 16
LAST = 2**64 - 1


class Refused(Exception):
    pass


@dataclasses.dataclass
class Symbol:
    name: bytes
    home: str           # one letter: undefined, text, rodata, init, zero
    value: int = 0
    size: int = 0
    local: bool = False
    function: bool = False


@dataclasses.dataclass
class Reloc:
    offset: int
    kind: int
    symbol: int         # counted from 0
    addend: int = 0


@dataclasses.dataclass
class Parts:
    words: list = dataclasses.field(default_factory=list)
    rodata: bytes = b''
    init: bytes = b''
    zero: int = 0
    symbols: list = dataclasses.field(default_factory=list)
    code: list = dataclasses.field(default_factory=list)    # relocations of words
    data: list = dataclasses.field(default_factory=list)    # relocations of init bytes
    tagged: list = dataclasses.field(default_factory=list)  # symbols that are tagged


@dataclasses.dataclass
class Image:
    entry: int
    relocs: list        # (place, addend)
    descriptors: bytes
    rodata: bytes
    words: list
    filled: bytes
    zeros: int


def up(number, step):
    return -(-number // step) * step


def signed(number):
    return (number + 2**63) % 2**64 - 2**63


def page(number):
    return number - number % 4096


# Validity

def faults(parts):
    """What a list of parts breaks of the rules for valid parts; an empty list where they are valid."""
    found = []
    sizes = {'T': 4 * len(parts.words), 'R': len(parts.rodata), 'I': len(parts.init), 'Z': parts.zero}

    def must(holds, what):
        if not holds:
            found.append(what)

    locals_first = [symbol.local for symbol in parts.symbols]
    must(locals_first == sorted(locals_first, reverse=True), 'a local symbol behind others')
    others = [symbol.name for symbol in parts.symbols if not symbol.local]
    must(len(others) == len(set(others)) and b'' not in others, 'names of symbols that are not local')
    for symbol in parts.symbols:
        must(b'\0' not in symbol.name, 'a zero byte in a name')
        if symbol.home == 'U':
            must(not symbol.local and not symbol.function and symbol.value == symbol.size == 0, 'an undefined symbol')
        else:
            must(0 <= symbol.value and 0 <= symbol.size and symbol.value + symbol.size <= sizes[symbol.home], 'a symbol past its section')
            if not symbol.function:
                must(symbol.value % 16 == 0 and symbol.size % 16 == 0 and symbol.size > 0, 'an object off its granules')
    must(all(a < b for a, b in zip(parts.tagged, parts.tagged[1:])), 'the order of tagged symbols')
    spans = []
    for number in parts.tagged:
        symbol = parts.symbols[number]
        must(symbol.home in 'IZ' and not symbol.function, 'a tagged symbol that is no object')
        must(all(home != symbol.home or end <= symbol.value or symbol.value + symbol.size <= start for home, start, end in spans), 'tagged twice')
        spans.append((symbol.home, symbol.value, symbol.value + symbol.size))
    for relocs, kinds, width, end in (parts.code, CODE_KINDS, 4, sizes['T']), (parts.data, (ABS64,), 8, sizes['I']):
        must(all(a.offset < b.offset for a, b in zip(relocs, relocs[1:])), 'the order of relocations')
        for reloc in relocs:
            must(reloc.kind in kinds and reloc.offset % width == 0 and 0 <= reloc.offset and reloc.offset + width <= end, 'a relocation')
            must(0 <= reloc.symbol < len(parts.symbols), 'the symbol of a relocation')
            must(reloc.kind not in (GOT_PAGE, GOT_LOW) or reloc.addend == 0, 'an addend of the GOT')
            must(-2**63 <= reloc.addend < 2**63, 'an addend')
    must(all(0 <= word < 2**32 for word in parts.words) and 0 <= parts.zero < 2**64, 'a number')
    return found


# Descriptors

def number(value):
    """ULEB128, shortest."""
    out = bytearray()
    while value >= 128:
        out.append(value % 128 + 128)
        value //= 128
    out.append(value)
    return bytes(out)


def described(intervals):
    """The descriptors of intervals (start, bytes), in their order."""
    out, end = b'', 0
    for start, size in intervals:
        granules = size // 16
        out += number((start - end) // 16 * 8 + (granules if granules < 8 else 0))
        if granules >= 8:
            out += number(granules - 1)
        end = start + size
    return out


# Names

def main_and_definitions(objects):
    """What each name of a symbol that is defined and not local stands for: the object and the symbol. Judges what is to be judged of names."""
    if len(objects) > OBJECT_LIMIT:
        raise Refused('TooManyObjects %d' % len(objects))
    found = {}
    for index, parts in enumerate(objects):
        for place, symbol in enumerate(parts.symbols):
            if symbol.home != 'U' and not symbol.local:
                if symbol.name in found:
                    raise Refused('Duplicate ' + escaped(symbol.name))
                found[symbol.name] = index, place
    main = found.get(b'main')
    if not main or not objects[main[0]].symbols[main[1]].function:
        raise Refused('NoMain')
    for parts in objects:
        for symbol in parts.symbols:
            if symbol.home == 'U' and symbol.name not in found:
                raise Refused('Undefined ' + escaped(symbol.name))
    return main, found


def got_order(objects, target):
    """The symbols with a word in the GOT, as pairs of object and symbol, in the order in which relocations first name them."""
    order = []
    for index, parts in enumerate(objects):
        for reloc in parts.code:
            if reloc.kind in (GOT_PAGE, GOT_LOW):
                symbol = target(index, reloc.symbol)
                if symbol not in order:
                    order.append(symbol)
    return order


# Places

class Layout:
    """Where all stands, for a length of the descriptors."""

    def __init__(self, objects, relocs, got, length):
        def placed(at, lengths, step):
            places = []
            for size in lengths:
                at = up(at, step)
                places.append(at)
                at += size
            return places, at

        self.descriptors = 0x140 + 24 * relocs
        self.rodata = up(self.descriptors + length, 16)
        self.rodatas, self.rodata_end = placed(self.rodata, [len(parts.rodata) for parts in objects], 16)
        self.code = up(self.rodata_end, 4096)
        self.texts, self.code_end = placed(self.code + 8, [4 * len(parts.words) for parts in objects], 16)
        self.dynamic = up(self.code_end, 4096)
        entries = 11 + (2 if length else 0)
        self.filled = up(self.dynamic + 16 * entries, 16)
        self.inits, end = placed(up(self.filled + 8 * got, 16), [len(parts.init) for parts in objects], 16)
        self.filled_end = up(end, 16)
        self.zeros, end = placed(self.filled_end, [parts.zero for parts in objects], 16)
        self.end = up(end, 16)

    def address(self, objects, symbol):
        index, place = symbol
        found = objects[index].symbols[place]
        return {'T': self.texts, 'R': self.rodatas, 'I': self.inits, 'Z': self.zeros}[found.home][index] + found.value

    def intervals(self, objects):
        found = []
        for index, parts in enumerate(objects):
            for place in parts.tagged:
                found.append((self.address(objects, (index, place)), parts.symbols[place].size))
        return sorted(found)


def agreed(objects, relocs, got):
    """The places whose descriptors have the length that leads to them, and these descriptors: the fewest bytes of those."""
    length = 0
    while True:
        layout = Layout(objects, relocs, got, length)
        descriptors = described(layout.intervals(objects))
        if len(descriptors) == length:
            return layout, descriptors
        length += 1


def field(word, kind, at, address, addend, got):
    """A word with the field of a relocation in it."""
    sum_ = signed(address + addend)
    if kind in (ADR_PAGE, GOT_PAGE):
        pages = page(got if kind == GOT_PAGE else sum_) - page(at) >> 12
        return word & 0x9F00001F | (pages & 3) << 29 | (pages >> 2 & 0x7FFFF) << 5
    if kind == ADD_LOW:
        return word & 0xFFC003FF | sum_ % 4096 << 10
    if kind == GOT_LOW:
        return word & 0xFFC003FF | got % 4096 // 8 << 10
    assert kind in (JUMP26, CALL26)
    return word & 0xFC000000 | (sum_ - at) // 4 % 2**26


def image_of(objects):
    """The image of objects that are valid."""
    main, definitions = main_and_definitions(objects)

    def target(index, symbol):
        found = objects[index].symbols[symbol]
        return definitions[found.name] if found.home == 'U' else (index, symbol)

    got = got_order(objects, target)
    layout, descriptors = agreed(objects, len(got) + sum(len(parts.data) for parts in objects), len(got))
    code_bytes = layout.code_end - layout.code
    if code_bytes > CODE_LIMIT:
        raise Refused('ImageTooLarge %d' % code_bytes)
    if layout.end > MEMORY_LIMIT:
        raise Refused('ImageTooLarge %d' % min(layout.end, LAST))

    relocs, slots = [], {}
    for place, symbol in enumerate(got):
        slots[symbol] = layout.filled + 8 * place
        relocs.append((slots[symbol], layout.address(objects, symbol)))
    words = [0] * (code_bytes // 4)
    words[0] = field(0x94000000, CALL26, layout.code, layout.address(objects, main), 0, 0)
    words[1] = 0xD4000001 | 3 << 5
    rodata = bytearray(layout.rodata_end - layout.rodata)
    filled = bytearray(layout.filled_end - layout.filled)
    for index, parts in enumerate(objects):
        first = (layout.texts[index] - layout.code) // 4
        words[first:first + len(parts.words)] = parts.words
        for reloc in parts.code:
            symbol = target(index, reloc.symbol)
            place = first + reloc.offset // 4
            words[place] = field(words[place], reloc.kind, layout.texts[index] + reloc.offset, layout.address(objects, symbol), reloc.addend, slots.get(symbol))
        first = layout.rodatas[index] - layout.rodata
        rodata[first:first + len(parts.rodata)] = parts.rodata
        first = layout.inits[index] - layout.filled
        filled[first:first + len(parts.init)] = parts.init
        for reloc in parts.data:
            owner, place = target(index, reloc.symbol)
            within = 0 <= reloc.addend <= objects[owner].symbols[place].size - 1
            struct.pack_into('<Q', filled, first + reloc.offset, 0 if within else -reloc.addend % 2**64)
            relocs.append((layout.inits[index] + reloc.offset, signed(layout.address(objects, (owner, place)) + reloc.addend)))
    return Image(layout.code, sorted(relocs), descriptors, bytes(rodata), words, bytes(filled), layout.end - layout.filled_end)


# Rows

def escaped(name):
    return ''.join(chr(byte) if chr(byte).isalnum() and byte < 128 or byte in b'_.' else '\\x%02x' % byte for byte in name)


def unescaped(text):
    return re.sub(rb'\\x(..)', lambda found: bytes([int(found[1], 16)]), text.encode())


def counted(items, shown):
    """A list with the runs of one item counted, `N*ITEM`, and commas."""
    out, at = [], 0
    while at < len(items):
        end = at
        while end < len(items) and items[end] == items[at]:
            end += 1
        out.append(shown(items[at]) if end - at == 1 else '%d*%s' % (end - at, shown(items[at])))
        at = end
    return ','.join(out)


def uncounted(text, read):
    out = []
    for word in filter(None, text.split(',')):
        count, star, item = word.rpartition('*')
        out += [read(item)] * int(count or 1)
    return out


def word_text(words):
    return counted(words, lambda word: '%x' % word)


def byte_text(data):
    return counted(data, lambda byte: '%x' % byte)


def text_of(parts):
    """An object as a row writes it: a letter for each part that is there, and what it has."""
    out = []
    if parts.words:
        out.append('w ' + word_text(parts.words))
    if parts.rodata:
        out.append('r ' + byte_text(parts.rodata))
    if parts.init:
        out.append('i ' + byte_text(parts.init))
    if parts.zero:
        out.append('z %d' % parts.zero)
    for symbol in parts.symbols:
        flags = ('l' if symbol.local else '') + ('f' if symbol.function else '')
        out.append('s %s:%s:%d:%d:%s' % (escaped(symbol.name), symbol.home, symbol.value, symbol.size, flags))
    for letter, relocs in ('c', parts.code), ('d', parts.data):
        for reloc in relocs:
            out.append('%s %d:%d:%d:%d' % (letter, reloc.offset, reloc.kind, reloc.symbol, reloc.addend))
    for number_ in parts.tagged:
        out.append('t %d' % number_)
    return ' '.join(out)


def parts_of(text):
    """The object of a row's words."""
    parts, words = Parts(), text.split()
    for letter, word in zip(words[::2], words[1::2]):
        if letter == 'w':
            parts.words = uncounted(word, lambda item: int(item, 16))
        elif letter == 'r':
            parts.rodata = bytes(uncounted(word, lambda item: int(item, 16)))
        elif letter == 'i':
            parts.init = bytes(uncounted(word, lambda item: int(item, 16)))
        elif letter == 'z':
            parts.zero = int(word)
        elif letter == 's':
            name, home, value, size, flags = word.split(':')
            parts.symbols.append(Symbol(unescaped(name), home, int(value), int(size), 'l' in flags, 'f' in flags))
        elif letter in 'cd':
            (parts.code if letter == 'c' else parts.data).append(Reloc(*map(int, word.split(':'))))
        elif letter == 't':
            parts.tagged.append(int(word))
        else:
            raise ValueError('a part %s' % letter)
    return parts


def answer(objects):
    """What a row says of a link."""
    try:
        image = image_of(objects)
    except Refused as refused:
        return str(refused)
    relocs = ' '.join('%x%+d' % reloc for reloc in image.relocs) or '-'
    return 'entry %x, relocs %s, descriptors %s, rodata %s, words %s, filled %s, zeros %d' % (
        image.entry, relocs, image.descriptors.hex() or '-', byte_text(image.rodata) or '-', word_text(image.words), byte_text(image.filled) or '-', image.zeros)
