#!/usr/bin/env python3
"""Rows of object files for crates/file_rows: files built by `struct` from docs/FILES.md alone, edits of them, and the answer of each.

Usage: object_rows.py crates/file_rows. The answers are worked out here from the tables of
docs/FILES.md, by a reader of its own that shares nothing with the toolchain.
"""
import struct
import sys

from file_row_sections import write_section

IDENT = bytes([0x7F, 0x45, 0x4C, 0x46, 2, 1, 1] + [0] * 9)
NAMES = ["", ".text", ".rodata", ".data", ".bss", ".symtab", ".strtab", ".shstrtab", ".rela.text", ".rela.data",
         ".memtag.globals.static", ".rela.memtag.globals.static"]
SHSTRTAB = b"".join(name.encode() + b"\0" for name in NAMES)
KINDS = [0, 1, 1, 1, 8, 2, 3, 3, 4, 4, 0x70000007, 4]
FLAGS = [0, 6, 2, 3, 3, 0, 0, 0, 0, 0, 0, 0]
LINKS = [0, 0, 0, 0, 0, 6, 0, 0, 5, 5, 0, 5]
INFOS = [0, 0, 0, 0, 0, None, 0, 0, 1, 3, 0, 10]
ENTRIES = [0, 0, 0, 0, 0, 24, 0, 0, 24, 24, 0, 24]
NO_BYTES = (4, 10)
HELD = (1, 2, 3, 5, 6, 7, 8, 9, 11)
CODE_KINDS = (275, 277, 282, 283, 311, 312)


def up(n):
    return (n + 15) // 16 * 16


def name_place(index):
    return sum(len(name) + 1 for name in NAMES[:index])


def symbol(name, home, value, size, local, function):
    return {"name": name, "home": home, "value": value, "size": size, "local": local, "function": function}


def build(parts):
    """The file of parts, by the tables of docs/FILES.md; it does not ask whether they are valid."""
    place, symtab, strtab = 1, bytes(24), b"\0"
    for s in parts["symbols"]:
        kind = 0 if s["home"] == 0 else 2 if s["function"] else 1
        info = (0 if s["local"] else 16) + kind
        symtab += struct.pack("<IBBHQQ", place, info, 0, s["home"], s["value"], s["size"])
        strtab += s["name"] + b"\0"
        place += len(s["name"]) + 1
    firsts = [n for n, s in enumerate(parts["symbols"], 1) if not s["local"]]
    info5 = firsts[0] if firsts else len(parts["symbols"]) + 1
    rela = lambda rs: b"".join(struct.pack("<QQq", o, ((s + 1) << 32) + k, a) for o, k, s, a in rs)
    contents = [b"", b"".join(struct.pack("<I", w) for w in parts["words"]), parts["rodata"], parts["init"], b"", symtab, strtab, SHSTRTAB,
                rela(parts["text_relocs"]), rela(parts["init_relocs"]), b"",
                b"".join(struct.pack("<QQq", 0, (t + 1) << 32, 0) for t in parts["tagged"])]
    body, headers, at = b"", bytes(64), 64
    for k in range(1, 12):
        start = up(at)
        body += bytes(start - at) + contents[k]
        size = parts["zero"] if k == 4 else len(contents[k])
        info = info5 if k == 5 else INFOS[k]
        headers += struct.pack("<IIQQQQIIQQ", name_place(k), KINDS[k], FLAGS[k], 0, start, size, LINKS[k], info, 16, ENTRIES[k])
        at = start + len(contents[k])
    place = up(at)
    header = IDENT + struct.pack("<HHIQQQIHHHHHH", 1, 183, 1, 0, 0, place, 0, 64, 0, 0, 64, 12, 7)
    return header + body + bytes(place - at) + headers


def zero(file, start, end):
    return not any(file[start:end])


def section_fault(file, shoff, heads):
    """The first section that is not as it should be, or None."""
    header = IDENT + struct.pack("<HHIQQQIHHHHHH", 1, 183, 1, 0, 0, up(heads[11][4] + heads[11][5]) % 2**64, 0, 64, 0, 0, 64, 12, 7)
    if file[:64] != header or not zero(file, shoff, shoff + 64):
        return 0
    at = 64
    for k in range(1, 12):
        _, _, _, _, offset, size, _, info, _, _ = heads[k]
        wanted = (name_place(k), KINDS[k], FLAGS[k], 0, up(at))
        if heads[k][:5] != wanted or heads[k][6] != LINKS[k] or heads[k][8:] != (16, ENTRIES[k]):
            return k
        if k == 5:
            count = size // 24
            binds = [file[offset + 24 * n + 4] for n in range(1, count)]
            firsts = [n for n, b in enumerate(binds, 1) if b >= 16]
            if info != (firsts[0] if firsts else count):
                return k
        elif info != INFOS[k]:
            return k
        if k == 1 and size % 4 or k in (5, 8, 9, 11) and size % 24 or k == 5 and size < 24 or k == 10 and size:
            return k
        if not zero(file, at, up(at)):
            return k
        if k == 6:
            content = file[offset:offset + size]
            if size == 0 or content[0]:
                return k
            ends, place = 0, 1
            for _ in range(heads[5][5] // 24 - 1):
                end = content.find(b"\0", place)
                place = (len(content) if end < 0 else end) + 1
            if size > place:
                return k
        if k == 7 and file[offset:offset + size] != SHSTRTAB:
            return k
        at = up(at) + (0 if k in NO_BYTES else size)
    if not zero(file, at, shoff) or len(file) != shoff + 768:
        return 12
    return None


def symbol_fault(file, heads, symbols):
    """The first bad symbol, or None; the symbols that are read are put into the list."""
    table, strings = heads[5], heads[6]
    sizes = [0, heads[1][5], heads[2][5], heads[3][5], heads[4][5]]
    if not zero(file, table[4], table[4] + 24):
        return 0
    place, names, others = 1, set(), False
    content = file[strings[4]:strings[4] + strings[5]]
    for n in range(1, table[5] // 24):
        name, info, other, home, value, size = struct.unpack_from("<IBBHQQ", file, table[4] + 24 * n)
        end = content.find(b"\0", place)
        if name != place or end < 0 or other or home > 4:
            return n
        text = content[place:end]
        place = end + 1
        local = info < 16
        if info not in ((16,) if home == 0 else (1, 2, 17, 18)):
            return n
        if local and others or not local and (not text or text in names):
            return n
        if not local:
            others = True
            names.add(text)
        if home == 0 and (value or size):
            return n
        if home and value + size > sizes[home]:
            return n
        if home and info % 16 == 1 and (value % 16 or size % 16 or size == 0):
            return n
        symbols.append(symbol(text, home, value, size, local, info % 16 == 2))
    return None


def reloc_fault(file, heads, symbols):
    """The first bad relocation, or None."""
    first = 0
    for section, width, kinds, size in ((8, 4, CODE_KINDS, heads[1][5]), (9, 8, (257,), heads[3][5])):
        last = -1
        for n in range(heads[section][5] // 24):
            offset, info, addend = struct.unpack_from("<QQq", file, heads[section][4] + 24 * n)
            kind, number = info % 2**32, info >> 32
            if kind not in kinds or offset % width or offset + width > size or offset <= last or not 1 <= number <= len(symbols):
                return first + n
            if kind in (311, 312) and addend:
                return first + n
            last = offset
        first += heads[section][5] // 24
    last, tagged = 0, []
    for n in range(heads[11][5] // 24):
        offset, info, addend = struct.unpack_from("<QQq", file, heads[11][4] + 24 * n)
        kind, number = info % 2**32, info >> 32
        if offset or addend or kind or not last < number <= len(symbols):
            return first + n
        s = symbols[number - 1]
        if s["home"] not in (3, 4) or s["function"]:
            return first + n
        if any(t["home"] == s["home"] and t["value"] < s["value"] + s["size"] and s["value"] < t["value"] + t["size"] for t in tagged):
            return first + n
        last = number
        tagged.append(s)
    return None


def answer(file):
    """What is said of a file: the sizes of its parts, or its first fault with the place."""
    if file[:16] != IDENT[:len(file)]:
        return "NotElf"
    if len(file) < 64:
        return f"Truncated {len(file)}"
    if struct.unpack_from("<HH", file, 16) != (1, 183):
        return "NotThisMachine"
    shoff = struct.unpack_from("<Q", file, 40)[0]
    if shoff + 768 > len(file):
        return f"Truncated {len(file)}"
    heads = [struct.unpack_from("<IIQQQQIIQQ", file, shoff + 64 * k) for k in range(12)]
    if any(heads[k][4] + heads[k][5] > len(file) for k in HELD):
        return f"Truncated {len(file)}"
    index = section_fault(file, shoff, heads)
    if index is not None:
        return f"BadSection {index}"
    symbols = []
    index = symbol_fault(file, heads, symbols)
    if index is not None:
        return f"BadSymbol {index}"
    index = reloc_fault(file, heads, symbols)
    if index is not None:
        return f"BadRelocation {index}"
    counts = [heads[1][5] // 4, heads[2][5], heads[3][5], heads[4][5], len(symbols)] + [heads[k][5] // 24 for k in (8, 9, 11)]
    return "Ok " + " ".join(map(str, counts))


EMPTY = {"words": [], "rodata": b"", "init": b"", "zero": 0, "symbols": [], "text_relocs": [], "init_relocs": [], "tagged": []}
FULL = {
    "words": [0x90000000, 0xF9400000, 0x94000000, 0xD65F03C0],
    "rodata": b"hello\0" + bytes(10),
    "init": bytes(range(1, 41)) + bytes(8),
    "zero": 64,
    "symbols": [
        symbol(b"", 2, 0, 16, True, False),
        symbol(b"helper", 1, 8, 8, True, True),
        symbol(b"table", 3, 16, 32, True, False),
        symbol(b"main", 1, 0, 8, False, True),
        symbol(b"counter", 4, 0, 16, False, False),
        symbol(b"buffer", 4, 16, 48, False, False),
        symbol(b"first", 3, 0, 16, False, False),
        symbol(b"elsewhere", 0, 0, 0, False, False),
    ],
    "text_relocs": [(0, 311, 4, 0), (4, 312, 4, 0), (8, 283, 7, 0)],
    "init_relocs": [(0, 257, 5, 16), (24, 257, 0, 3)],
    "tagged": [2, 4, 5, 6],
}


def parts_with(**changes):
    made = {**FULL, **changes}
    return made


def with_symbol(index, **changes):
    symbols = [dict(s) for s in FULL["symbols"]]
    symbols[index].update(changes)
    return parts_with(symbols=symbols)


REFUSED = [
    ("a local symbol behind a global one", with_symbol(4, local=True)),
    ("a global symbol without a name", with_symbol(3, name=b"")),
    ("two global symbols of one name", with_symbol(5, name=b"main")),
    ("a reference with a size", with_symbol(7, size=16)),
    ("a reference with a value", with_symbol(7, value=16)),
    ("a symbol that ends behind its section", with_symbol(5, size=64)),
    ("a function that ends behind its section", with_symbol(3, size=17)),
    ("an object off a granule", with_symbol(4, value=8)),
    ("an object of half a granule", with_symbol(4, size=8)),
    ("an object of no bytes", with_symbol(4, size=0)),
    ("a tagged function", with_symbol(4, function=True)),
    ("a tagged object that is only read", parts_with(tagged=[0, 2])),
    ("tagged symbols in another order", parts_with(tagged=[4, 2])),
    ("a symbol tagged twice", parts_with(tagged=[2, 4, 4])),
    ("a tagged symbol that is not there", parts_with(tagged=[2, 8])),
    ("tagged symbols with a common byte", with_symbol(5, value=0)),
    ("relocations in another order", parts_with(text_relocs=[(4, 312, 4, 0), (0, 311, 4, 0)])),
    ("two relocations of one word", parts_with(text_relocs=[(4, 312, 4, 0), (4, 311, 4, 0)])),
    ("a relocation off a word", parts_with(text_relocs=[(0, 311, 4, 0), (6, 283, 4, 0)])),
    ("a relocation behind the code", parts_with(text_relocs=[(16, 283, 4, 0)])),
    ("an unknown kind", parts_with(text_relocs=[(0, 276, 4, 0)])),
    ("an addend of the GOT", parts_with(text_relocs=[(0, 311, 4, 8)])),
    ("a relocation of a symbol that is not there", parts_with(text_relocs=[(0, 283, 8, 0)])),
    ("a kind of the code in the data", parts_with(init_relocs=[(0, 283, 5, 0)])),
    ("a relocation off an address", parts_with(init_relocs=[(4, 257, 5, 0)])),
    ("an address half behind the data", parts_with(init_relocs=[(48, 257, 5, 0)])),
    ("addresses in another order", parts_with(init_relocs=[(24, 257, 5, 0), (0, 257, 5, 0)])),
]

ACCEPTED = [
    ("symbols of no bytes at the end of the code", with_symbol(3, value=16, size=0)),
    ("all symbols local", parts_with(symbols=[{**s, "local": True} for s in FULL["symbols"][:7]], text_relocs=[], tagged=[2, 4, 5, 6])),
    ("two local symbols of one name", with_symbol(2, name=b"helper")),
    ("an addend below zero", parts_with(init_relocs=[(0, 257, 5, -16)])),
    ("the most zero bytes", parts_with(zero=2**64 - 1)),
]


def rows():
    rows = []
    full = build(FULL)
    for title, parts in [("nothing", EMPTY), ("something in each part", FULL)] + ACCEPTED + REFUSED:
        rows.append(f"# {title}")
        rows.append(f"object {build(parts).hex()} | {answer(build(parts))}")
    rows.append("# the file with something in each part, for the edits below")
    rows.append(f"object {full.hex()} | {answer(full)}")
    rows.append("# cut at each length")
    for n in range(len(full)):
        rows.append(f"cut {n} | {answer(full[:n])}")
    rows.append("# each byte of the header and of the section headers as 0 and as 255")
    shoff = struct.unpack_from("<Q", full, 40)[0]
    for place in list(range(64)) + list(range(shoff, len(full))):
        for value in (0, 255):
            edited = full[:place] + bytes([value]) + full[place + 1:]
            rows.append(f"put {place} {value:02x} | {answer(edited)}")
    rows.append("# each other byte, turned over")
    for place in range(64, shoff):
        edited = full[:place] + bytes([full[place] ^ 0xFF]) + full[place + 1:]
        rows.append(f"put {place} {full[place] ^ 0xFF:02x} | {answer(edited)}")
    rows.append("# bytes behind the end")
    for more in (b"\0", bytes(16)):
        rows.append(f"add {more.hex()} | {answer(full + more)}")
    return rows


if __name__ == "__main__":
    write_section(sys.argv[1], "Object files and edits of them, and the sizes of their parts, or the first fault.", rows())
