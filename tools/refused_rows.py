#!/usr/bin/env python3
"""Rows of refused object files for crates/file_rows: one file, built here by `struct` from the tables of docs/FILES.md, and in each
row one field or condition of it broken, or two. No judge is in here: the number and the place of each fault were worked out by hand.

Usage: refused_rows.py crates/file_rows."""
import struct
import sys

from file_row_sections import write_section

LOCAL, GLOBAL = 0, 16
NONE, OBJECT, FUNCTION = 0, 1, 2
UNDEF, TEXT, RODATA, DATA, BSS = range(5)

# name, kind, flags, link, info, entry size
TABLE = [
    (b".text", 1, 6, 0, 0, 0), (b".rodata", 1, 2, 0, 0, 0), (b".data", 1, 3, 0, 0, 0), (b".bss", 8, 3, 0, 0, 0),
    (b".symtab", 2, 0, 6, 0, 24), (b".strtab", 3, 0, 0, 0, 0), (b".shstrtab", 3, 0, 0, 0, 0), (b".rela.text", 4, 0, 5, 1, 24),
    (b".rela.data", 4, 0, 5, 3, 24), (b".memtag.globals.static", 0x70000007, 0, 0, 0, 0),
    (b".rela.memtag.globals.static", 4, 0, 5, 10, 24),
]

# name, binding, type, section, value, size; the first is number 1
SYMBOLS = [
    (b"", LOCAL, OBJECT, RODATA, 0, 16),
    (b"step", LOCAL, FUNCTION, TEXT, 16, 8),
    (b"kept", LOCAL, OBJECT, DATA, 0, 16),
    (b"tail", LOCAL, OBJECT, BSS, 64, 32),
    (b"main", GLOBAL, FUNCTION, TEXT, 0, 16),
    (b"count", GLOBAL, OBJECT, DATA, 16, 32),
    (b"space", GLOBAL, OBJECT, BSS, 0, 64),
    (b"print", GLOBAL, NONE, UNDEF, 0, 0),
    (b"table", GLOBAL, NONE, UNDEF, 0, 0),
]

# place, kind, number of the symbol in the file, addend; numbers 0 to 5, 6 to 8 and 9 to 11
CODE = [(0, 311, 6, 0), (4, 312, 6, 0), (8, 275, 1, 0), (12, 277, 1, 4), (16, 283, 8, 0), (20, 282, 2, 0)]
DATA_RELOCS = [(0, 257, 9, 8), (16, 257, 3, 0), (48, 257, 1, -4)]
TAGGED = [(0, 0, 4, 0), (0, 0, 6, 0), (0, 0, 7, 0)]


class File:
    """An object file, and where its parts stand."""

    def __init__(self, symbols=SYMBOLS, code=CODE, data_relocs=DATA_RELOCS, tagged=TAGGED):
        strings, records = b"\0", bytes(24)
        for name, binding, kind, home, value, size in symbols:
            records += struct.pack("<IBBHQQ", len(strings), binding + kind, 0, home, value, size)
            strings += name + b"\0"
        names = b"\0" + b"".join(line[0] + b"\0" for line in TABLE)
        words = struct.pack("<6I", 0x90000000, 0xF9400000, 0x90000001, 0x91000021, 0x94000000, 0x14000000)
        relas = [b"".join(struct.pack("<QQq", place, (number << 32) + kind, addend) for place, kind, number, addend in records_of)
                 for records_of in (code, data_relocs, tagged)]
        contents = [words, b"what stands there is", bytes(range(1, 57)), b"", records, strings, names, relas[0], relas[1], b"", relas[2]]
        first_global = next((n for n, s in enumerate(symbols, 1) if s[1] == GLOBAL), len(symbols) + 1)
        out, headers, self.start, self.end = bytearray(64), bytes(64), [0], [0]
        for number, ((name, kind, flags, link, info, entry), content) in enumerate(zip(TABLE, contents), 1):
            out += bytes(-len(out) % 16)
            size = 96 if number == BSS else len(content)
            info = first_global if number == 5 else info
            headers += struct.pack("<IIQQQQIIQQ", names.index(b"\0" + name + b"\0") + 1, kind, flags, 0, len(out), size, link, info, 16, entry)
            self.start.append(len(out))
            out += content
            self.end.append(len(out))
        out += bytes(-len(out) % 16)
        self.headers = len(out)
        out[:64] = bytes.fromhex("7f454c46020101" + "00" * 9) + struct.pack(
            "<HHIQQQIHHHHHH", 1, 183, 1, 0, 0, self.headers, 0, 64, 0, 0, 64, 12, 7)
        self.bytes = bytes(out + headers)

    def header(self, number, field):
        """The place of a field of a section header."""
        places = {"name": 0, "kind": 4, "flags": 8, "addr": 16, "offset": 24, "size": 32, "link": 40, "info": 44, "align": 48, "entry": 56}
        return self.headers + 64 * number + places[field]

    def symbol(self, number, field):
        return self.start[5] + 24 * number + {"name": 0, "info": 4, "other": 5, "section": 6, "value": 8, "size": 16}[field]

    def rela(self, number, field):
        """The place of a field of a relocation, counted over the three tables."""
        table, number = (8, number) if number < 6 else (9, number - 6) if number < 9 else (11, number - 9)
        return self.start[table] + 24 * number + {"offset": 0, "kind": 8, "symbol": 12, "addend": 16}[field]


def b(*values):
    return bytes(values)


def h(n):
    return struct.pack("<H", n)


def w(n):
    return struct.pack("<I", n)


def q(n):
    return struct.pack("<Q", n % 2**64)


BASE = File()
SIZE = len(BASE.bytes)
H, S, R = BASE.header, BASE.symbol, BASE.rela


def starts():
    past = f"Truncated {SIZE}"
    yield "other bytes of the identification", [
        ([(0, b(0x7E))], "NotElf"), ([(3, b(0x47))], "NotElf"), ([(4, b(1))], "NotElf"), ([(5, b(2))], "NotElf"), ([(6, b(0))], "NotElf"),
        ([(7, b(3))], "NotElf"), ([(8, b(1))], "NotElf"), ([(15, b(1))], "NotElf"),
    ]
    yield "other types and machines, also where the section headers are not there", [
        ([(16, h(0))], "NotThisMachine"), ([(16, h(2))], "NotThisMachine"), ([(16, h(3))], "NotThisMachine"), ([(16, h(257))], "NotThisMachine"),
        ([(18, h(62))], "NotThisMachine"), ([(18, h(0))], "NotThisMachine"), ([(18, h(40))], "NotThisMachine"),
        ([(18, h(62)), (40, q(SIZE))], "NotThisMachine"), ([(15, b(1)), (16, h(2))], "NotElf"),
    ]
    yield "section headers that are not there", [
        ([(40, q(SIZE - 767))], past), ([(40, q(SIZE))], past), ([(40, q(2**63))], past), ([(40, q(-1))], past), ([(40, q(-768))], past),
    ]
    yield "contents that are not there, each section's by one byte", [
        ([(H(k, "size"), q(SIZE - BASE.start[k] + 1))], past) for k in (1, 2, 3, 5, 6, 7, 8, 9, 11)
    ]
    yield "places behind the end, sums above 2^64, and a content that is not there beside a wrong header", [
        ([(H(1, "offset"), q(SIZE))], past), ([(H(6, "offset"), q(-1))], past), ([(H(11, "offset"), q(-16))], past),
        ([(H(7, "size"), q(-1))], past), ([(H(5, "size"), q(2**63))], past), ([(20, w(2)), (H(9, "size"), q(SIZE))], past),
        ([(H(1, "flags"), q(7)), (H(11, "size"), q(-1))], past),
    ]
    yield "sections without bytes may name none that are not there: their headers are wrong", [
        ([(H(4, "offset"), q(SIZE + 16))], "BadSection 4"), ([(H(10, "offset"), q(-16))], "BadSection 10"),
        ([(H(10, "size"), q(-1))], "BadSection 10"),
    ]


def sections():
    yield "the rest of the file's header, and the section header 0", [
        ([(at, data)], "BadSection 0")
        for at, data in [(20, w(0)), (20, w(2)), (24, q(1)), (32, q(64)), (48, w(1)), (52, h(0)), (52, h(65)), (54, h(56)), (56, h(1)), (58, h(0)),
                         (58, h(40)), (60, h(11)), (60, h(13)), (62, h(6)), (62, h(0)), (40, q(BASE.headers - 16)), (H(0, "name"), w(1)),
                         (H(0, "kind"), w(1)), (H(0, "size"), q(12)), (H(0, "link"), w(7)), (H(0, "entry"), q(1))]
    ]
    wrong = [(1, "kind", w(8)), (1, "flags", q(7)), (1, "addr", q(64)), (1, "size", q(23)), (1, "align", q(4)), (2, "name", w(8)), (2, "flags", q(3)),
             (2, "offset", q(BASE.start[2] + 16)), (3, "name", w(21)), (3, "flags", q(2)), (3, "addr", q(16)), (4, "kind", w(1)), (4, "info", w(1)),
             (4, "align", q(8)), (5, "link", w(7)), (5, "info", w(4)), (5, "info", w(6)), (5, "info", w(10)), (5, "entry", q(16)), (5, "size", q(0)),
             (5, "size", q(239)), (6, "flags", q(0x20)), (6, "link", w(5)), (6, "kind", w(1)), (7, "entry", q(1)), (7, "size", q(124)),
             (7, "size", q(126)), (8, "link", w(6)), (8, "info", w(3)), (8, "kind", w(9)), (8, "flags", q(0x40)), (9, "info", w(1)), (9, "entry", q(16)),
             (9, "size", q(64)), (10, "kind", w(0x70000008)), (10, "size", q(16)), (10, "entry", q(8)), (11, "info", w(1)), (11, "link", w(0)),
             (11, "align", q(1)), (11, "entry", q(0)), (11, "size", q(71))]
    yield "a field of a section header", [([(H(k, field), data)], f"BadSection {k}") for k, field, data in wrong]
    yield "a size after which the next section stands elsewhere, or has bytes before it", [
        ([(H(2, "size"), q(33))], "BadSection 3"), ([(H(1, "size"), q(20))], "BadSection 2"), ([(H(5, "size"), q(216))], "BadSection 6"),
    ]
    yield "a byte before a section, and one before the section headers", [
        ([(BASE.end[1], b(1))], "BadSection 2"), ([(BASE.start[3] - 1, b(1))], "BadSection 3"), ([(BASE.end[3], b(255))], "BadSection 4"),
        ([(BASE.end[6], b(1))], "BadSection 7"), ([(BASE.start[8] - 1, b(1))], "BadSection 8"), ([(BASE.end[9], b(1))], "BadSection 10"),
        ([(BASE.end[11], b(1))], "BadSection 12"), ([(BASE.headers - 1, b(1))], "BadSection 12"),
    ]
    yield "bytes behind the last section header", [([(SIZE, b(0))], "BadSection 12"), ([(SIZE, bytes(64))], "BadSection 12")]
    yield "a first byte of .strtab, one byte more of it, and another name in .shstrtab", [
        ([(BASE.start[6], b(1))], "BadSection 6"), ([(H(6, "size"), q(BASE.end[6] - BASE.start[6] + 1))], "BadSection 6"),
        ([(BASE.start[7], b(1))], "BadSection 7"), ([(BASE.start[7] + 2, b(0x54))], "BadSection 7"), ([(BASE.end[7] - 1, b(1))], "BadSection 7"),
    ]
    yield "the first global symbol is not the one that .symtab names", [
        ([(S(5, "info"), b(2))], "BadSection 5"), ([(S(4, "info"), b(17))], "BadSection 5"),
    ]
    yield "the first section counts, and sections come before symbols", [
        ([(62, h(6)), (H(1, "flags"), q(7))], "BadSection 0"), ([(H(2, "flags"), q(0)), (BASE.end[2], b(1))], "BadSection 2"),
        ([(H(9, "link"), w(0)), (H(8, "link"), w(0))], "BadSection 8"), ([(H(11, "align"), q(8)), (SIZE, b(0))], "BadSection 11"),
        ([(BASE.start[5], b(1)), (SIZE, b(0))], "BadSection 12"), ([(S(1, "other"), b(1)), (H(11, "info"), w(9))], "BadSection 11"),
    ]


def symbols():
    yield "the symbol 0", [([(BASE.start[5], b(1))], "BadSymbol 0"), ([(BASE.start[5] + 23, b(1))], "BadSymbol 0"), ([(S(0, "info"), b(3))], "BadSymbol 0")]
    wrong = [(2, "name", w(1)), (5, "name", w(2)), (9, "name", w(0)), (3, "info", b(3)), (3, "info", b(0)), (5, "info", b(34)), (6, "info", b(22)),
             (8, "info", b(17)), (8, "info", b(18)), (8, "info", b(0)), (6, "other", b(2)), (6, "section", h(5)), (6, "section", h(0xFFF1)),
             (1, "section", h(0)), (6, "section", h(0)), (9, "section", h(4)), (6, "info", b(1)), (7, "info", b(1)), (9, "value", q(16)),
             (9, "size", q(16)), (2, "value", q(20)), (2, "value", q(25)), (2, "value", q(-4)), (2, "size", q(-8)), (5, "size", q(25)),
             (6, "value", q(8)), (6, "size", q(24)), (6, "size", q(8)), (6, "size", q(0)), (6, "size", q(48)), (6, "value", q(32)),
             (1, "size", q(32)), (1, "value", q(16)), (4, "value", q(80)), (7, "size", q(112)), (7, "value", q(-64))]
    yield "a field of a symbol", [([(S(k, field), data)], f"BadSymbol {k}") for k, field, data in wrong]
    text = BASE.start[6]
    yield "a zero byte in a name: bytes are left behind the last one; and a last name that does not end", [
        ([(text + BASE.bytes[text:].index(b"step") + 1, b(0))], "BadSection 6"), ([(text + BASE.bytes[text:].index(b"table") + 2, b(0))], "BadSection 6"),
        ([(BASE.end[6] - 1, b(0x65))], "BadSymbol 9"), ([(H(6, "size"), q(BASE.end[6] - text - 1))], "BadSymbol 9"),
    ]
    yield "a global name that is there already", [
        ([(text + BASE.bytes[text:].index(b"table"), b"print")], "BadSymbol 9"), ([(text + BASE.bytes[text:].index(b"print"), b"count")], "BadSymbol 8"),
    ]
    yield "the first symbol counts, and symbols come before relocations", [
        ([(S(7, "other"), b(1)), (S(3, "other"), b(1))], "BadSymbol 3"), ([(R(0, "kind"), w(0)), (S(9, "other"), b(1))], "BadSymbol 9"),
        ([(S(0, "size"), q(1)), (S(1, "size"), q(1))], "BadSymbol 0"),
    ]


def relocations():
    wrong = [(0, "kind", w(257)), (0, "kind", w(276)), (1, "kind", w(0)), (2, "kind", w(1025)), (3, "kind", w(278)), (5, "kind", w(284)),
             (0, "addend", q(-1)), (1, "addend", q(8)), (0, "offset", q(2)), (1, "offset", q(0)), (1, "offset", q(6)), (5, "offset", q(24)),
             (5, "offset", q(22)), (5, "offset", q(-4)), (2, "offset", q(4)), (4, "offset", q(4)), (0, "symbol", w(0)), (3, "symbol", w(10)),
             (5, "symbol", w(2**32 - 1)),
             (6, "kind", w(275)), (7, "kind", w(0)), (8, "kind", w(1027)), (6, "offset", q(4)), (7, "offset", q(0)), (8, "offset", q(52)),
             (8, "offset", q(56)), (8, "offset", q(8)), (8, "offset", q(-8)), (6, "symbol", w(0)), (8, "symbol", w(10)),
             (9, "offset", q(8)), (10, "addend", q(1)), (11, "addend", q(-1)), (9, "kind", w(257)), (9, "symbol", w(0)), (9, "symbol", w(1)),
             (9, "symbol", w(2)), (10, "symbol", w(5)), (10, "symbol", w(4)), (10, "symbol", w(3)), (11, "symbol", w(6)), (11, "symbol", w(8)),
             (11, "symbol", w(10)), (11, "symbol", w(2**32 - 1))]
    yield "a field of a relocation", [([(R(k, field), data)], f"BadRelocation {k}") for k, field, data in wrong]
    yield "a place before that of an earlier relocation, and one at it", [
        ([(R(1, "offset"), q(12))], "BadRelocation 2"), ([(R(0, "offset"), q(20))], "BadRelocation 1"), ([(R(6, "offset"), q(16))], "BadRelocation 7"),
    ]
    yield "tagged symbols that share bytes: the later record; with one that is not tagged they may", [
        ([(S(7, "size"), q(80))], "BadRelocation 11"), ([(S(7, "value"), q(32))], "BadRelocation 11"), ([(S(4, "value"), q(0))], "BadRelocation 11"),
        ([(S(4, "value"), q(48)), (S(4, "size"), q(48))], "BadRelocation 11"), ([(R(9, "symbol"), w(3)), (S(6, "value"), q(0))], "BadRelocation 10"),
    ]
    yield "a tagged function, and one in data that is only read", [
        ([(S(7, "info"), b(18))], "BadRelocation 11"), ([(S(6, "section"), h(2)), (S(6, "value"), q(0)), (S(6, "size"), q(16))], "BadRelocation 10"),
    ]
    yield "the first relocation counts", [
        ([(R(7, "kind"), w(0)), (R(3, "kind"), w(0))], "BadRelocation 3"), ([(R(9, "addend"), q(1)), (R(8, "addend"), q(1)), (R(8, "symbol"), w(0))], "BadRelocation 8"),
        ([(R(11, "offset"), q(1)), (R(6, "offset"), q(1))], "BadRelocation 6"),
    ]


def cuts():
    yield "files that end early, before their type is looked at and behind their identification", [
        (b"", "Truncated 0"), (BASE.bytes[:15], "Truncated 15"), (BASE.bytes[:63], "Truncated 63"), (BASE.bytes[:64], "Truncated 64"),
        (BASE.bytes[:SIZE - 1], f"Truncated {SIZE - 1}"), (BASE.bytes[:3] + b"G", "NotElf"), (BASE.bytes[:15] + b"\1", "NotElf"),
        (BASE.bytes[:16] + h(2) + BASE.bytes[18:40], "Truncated 40"),
    ]
    made = [SYMBOLS[:4] + [(b"", GLOBAL, FUNCTION, TEXT, 0, 16)] + SYMBOLS[5:], SYMBOLS[:6] + [(b"main", GLOBAL, OBJECT, BSS, 0, 64)] + SYMBOLS[7:],
            SYMBOLS[:7] + [(b"count", GLOBAL, NONE, UNDEF, 0, 0)] + SYMBOLS[8:]]
    yield "a global symbol without a name, and names that are there already", [
        (File(symbols=symbols).bytes, answer) for symbols, answer in zip(made, ["BadSymbol 5", "BadSymbol 7", "BadSymbol 8"])
    ]


def edited(edits):
    out = bytearray(BASE.bytes)
    for at, data in edits:
        out[at:at + len(data)] = data
    return bytes(out)


def row(edits, answer):
    (at, data), *more = edits
    if not more and at < SIZE:
        return f"put {at} {data.hex()} | {answer}"
    if not more:
        return f"add {data.hex()} | {answer}"
    return f"object {edited(edits).hex()} | {answer}"


def base_row():
    return f"object {BASE.bytes.hex()} | Ok 6 20 56 96 9 6 3 3"


def rows():
    out = []
    for group in (starts, sections, symbols, relocations):
        for title, table in group():
            out += [f"# {title}", base_row()]
            # a row of a whole file is the last one of its group, since later edits are of it
            table = sorted(table, key=lambda line: row(*line).startswith("object"))
            out += [row(edits, answer) for edits, answer in table]
    for title, table in cuts():
        out.append(f"# {title}")
        out += [f"object {file.hex()} | {answer}" for file, answer in table]
    return out


write_section(sys.argv[1], "Refused object files, one field or condition of each broken, and the first fault as worked out by hand.", rows())
