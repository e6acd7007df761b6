#!/usr/bin/env python3
"""Prints the rows on image files that `crates/image_rows` reads: files, built here from the tables of docs/FILES.md with `struct`
alone, and what each of them has to be read as. `edit` rows change bytes of the last `base`.

The answers to the edits in HAND were worked out by hand. The answers to single bytes of the headers set to 0 and 255 come from
`judge`, which goes through the conditions of docs/FILES.md one by one; it has to agree with every row of HAND too."""
import struct

PAGE = 4096
LIMIT = 268435456
IDENT = bytes([0x7F, 0x45, 0x4C, 0x46, 2, 1, 1]) + bytes(9)


def up(n, step):
    return -(-n // step) * step


def header(entry=0x1000, kind=3, machine=183, version=1, phoff=64, shoff=0, flags=0, ehsize=64, phentsize=56, phnum=4):
    return IDENT + struct.pack("<HHIQQQIHHHHHH", kind, machine, version, entry, phoff, shoff, flags, ehsize, phentsize, phnum, 0, 0, 0)


def segment(kind, flags, offset, filesz, memsz, align):
    return struct.pack("<IIQQQQQQ", kind, flags, offset, offset, offset, filesz, memsz, align)


class Image:
    def __init__(self, entry=0x1000, relocs=(), descriptors=b"", rodata=b"", words=(), filled=b"", zero=0):
        self.entry, self.relocs, self.descriptors = entry, list(relocs), descriptors
        self.rodata, self.words, self.filled, self.zero = rodata, list(words), filled, zero
        self.d = 0x140 + 24 * len(self.relocs)
        self.r = up(self.d + len(descriptors), 16)
        self.rodata_end = self.r + len(rodata)
        self.c = up(self.rodata_end, PAGE)
        self.code_end = self.c + 4 * len(self.words)
        self.y = up(self.code_end, PAGE)
        self.entries = self.dynamic()
        self.f = self.y + 16 * len(self.entries)
        self.end = self.f + len(filled)

    def dynamic(self):
        tags = [(5, 0x138), (6, 0x120), (10, 1), (11, 24), (7, 0x140), (8, 24 * len(self.relocs)), (9, 24)]
        tags += [(0x70000009, 0), (0x7000000B, 0), (0x7000000C, 1)]
        if self.descriptors:
            tags += [(0x7000000D, self.d), (0x7000000F, len(self.descriptors))]
        return tags + [(0, 0)]

    def file(self):
        out = bytearray(self.end)

        def put(at, data):
            out[at:at + len(data)] = data

        put(0, header(self.entry))
        put(0x40, segment(1, 4, 0, self.rodata_end, self.rodata_end, PAGE))
        put(0x78, segment(1, 5, self.c, 4 * len(self.words), 4 * len(self.words), PAGE))
        put(0xB0, segment(1, 6, self.y, self.end - self.y, self.end - self.y + self.zero, PAGE))
        put(0xE8, segment(2, 6, self.y, 16 * len(self.entries), 16 * len(self.entries), 8))
        for i, (place, addend) in enumerate(self.relocs):
            put(0x140 + 24 * i, struct.pack("<QQq", place, 1027, addend))
        put(self.d, self.descriptors)
        put(self.r, self.rodata)
        for i, word in enumerate(self.words):
            put(self.c + 4 * i, struct.pack("<I", word))
        for i, (tag, value) in enumerate(self.entries):
            put(self.y + 16 * i, struct.pack("<qQ", tag, value))
        put(self.f, self.filled)
        return bytes(out)

    def parts(self):
        relocs = "".join(f" {place:#x}{addend:+}" for place, addend in self.relocs)
        return (f"entry {self.entry:#x}, relocs{relocs}, descriptors {hexed(self.descriptors)}, rodata {hexed(self.rodata)}, "
                f"words{''.join(f' {w:x}' for w in self.words)}, filled {hexed(self.filled)}, zeros {self.zero}")


def hexed(data):
    return "".join(f"{b:02x}" for b in data) or "-"


def judge(file):
    """The first condition of docs/FILES.md that fails, or None."""
    n = len(file)
    if file[:16] != IDENT[:n]:
        return "NotElf"
    if n < 64:
        return f"Truncated {n}"
    kind, machine, version, _, phoff, shoff, flags, *sizes = struct.unpack_from("<HHIQQQIHHHHHH", file, 16)
    if (kind, machine) != (3, 183):
        return "NotThisMachine"
    if phoff + 4 * 56 > n:
        return f"Truncated {n}"
    parts = [struct.unpack_from("<IIQQQQQQ", file, phoff + 56 * i) for i in range(4)]
    if any(p[2] + p[5] > n for p in parts):
        return f"Truncated {n}"

    def is_load(p, flags, place, filesz, memsz):
        return p == (1, flags, place, place, place, filesz, memsz, PAGE)

    def zeros(start, end):
        return not any(file[start:end])

    (first, code, data, dynamic) = parts
    rodata_end = first[5]
    if (version, phoff, shoff, flags, sizes) != (1, 64, 0, 0, [64, 56, 4, 0, 0, 0]):
        return "BadSegment 0"
    if not (is_load(first, 4, 0, rodata_end, rodata_end) and rodata_end >= 0x140 and zeros(0x120, 0x140)):
        return "BadSegment 0"
    c, size = up(rodata_end, PAGE), code[5]
    if not (is_load(code, 5, c, size, size) and size % 4 == 0 and zeros(rodata_end, c)):
        return "BadSegment 1"
    y, filesz, memsz = up(c + size, PAGE), data[5], data[6]
    if not (is_load(data, 6, y, filesz, memsz) and filesz >= 176 and filesz % 16 == 0 and memsz >= filesz and memsz % 16 == 0
            and y + memsz <= LIMIT and zeros(c + size, y)):
        return "BadSegment 2"
    table = dynamic[5]
    if not (dynamic == (2, 6, y, y, y, table, table, 8) and table in (176, 208) and table <= filesz):
        return "BadSegment 3"
    if n > y + filesz:
        return "BadSegment 4"
    entries = [struct.unpack_from("<qQ", file, y + 16 * i) for i in range(table // 16)]
    described = table == 208
    relocs = entries[5][1]
    descriptors = entries[11][1] if described else 0
    wanted = [(5, 0x138), (6, 0x120), (10, 1), (11, 24), (7, 0x140)]
    for i, pair in enumerate(wanted):
        if entries[i] != pair:
            return f"BadDynamic {i}"
    end = 0x140 + relocs
    if entries[5][0] != 8 or relocs % 24 or (end if described else up(end, 16)) > rodata_end:
        return "BadDynamic 5"
    if any(struct.unpack_from("<Q", file, 0x148 + 24 * i)[0] != 1027 for i in range(relocs // 24)):
        return "BadDynamic 4"
    for i, pair in enumerate([(9, 24), (0x70000009, 0), (0x7000000B, 0), (0x7000000C, 1)], 6):
        if entries[i] != pair:
            return f"BadDynamic {i}"
    if described:
        if entries[10] != (0x7000000D, end):
            return "BadDynamic 10"
        if entries[11][0] != 0x7000000F or descriptors == 0 or up(end + descriptors, 16) > rodata_end:
            return "BadDynamic 11"
    if entries[-1] != (0, 0):
        return f"BadDynamic {len(entries) - 1}"
    return None if zeros(end + descriptors, up(end + descriptors, 16)) else "BadSegment 0"


def base(image):
    """The row of a file: its length and the bytes that are not zero, and its parts."""
    file = image.file()
    assert judge(file) is None, judge(file)
    pieces, at = [], 0
    while at < len(file):
        if file[at] == 0:
            at += 1
            continue
        end = at
        while end < len(file) and any(file[end:end + 4]):
            end += 1
        pieces.append(f"{at:x}:{file[at:end].hex()}")
        at = end
    print(f"base {len(file)} {' '.join(pieces)} | {image.parts()}")
    return file


def edited(file, edits):
    out = bytearray(file)
    for at, data in edits:
        if at > len(out) - len(data):
            out.extend(bytes(at + len(data) - len(out)))
        out[at:at + len(data)] = data
    return bytes(out)


def edit(file, edits, by_hand=None):
    answer = judge(edited(file, edits))
    if by_hand is not None:
        assert answer == by_hand, (edits, answer, by_hand)
    if answer is not None:
        print(f"edit {' '.join(f'{at:x}:{data.hex()}' for at, data in edits)} | {answer}")


def q(n):
    return struct.pack("<Q", n)


def w(n):
    return struct.pack("<I", n)


def hand(image):
    """Edits of one field or gap each, with the answer worked out by hand, and some of two fields at once."""
    p0, p1, p2, p3 = 0x40, 0x78, 0xB0, 0xE8
    y, n = image.y, image.end
    rows = [
        ([(0, b"\x7e")], "NotElf"), ([(4, b"\1")], "NotElf"), ([(5, b"\2")], "NotElf"), ([(6, b"\0")], "NotElf"),
        ([(7, b"\3")], "NotElf"), ([(15, b"\1")], "NotElf"),
        ([(16, b"\2")], "NotThisMachine"), ([(18, b"\x3e")], "NotThisMachine"),
        ([(0, b"\0"), (16, b"\2")], "NotElf"), ([(16, b"\2"), (32, q(n))], "NotThisMachine"),
        ([(32, q(n - 223))], f"Truncated {n}"), ([(32, q(2**64 - 1))], f"Truncated {n}"), ([(32, q(2**64 - 224))], f"Truncated {n}"),
        ([(p0 + 8, q(n))], f"Truncated {n}"), ([(p0 + 32, q(2**64 - 1))], f"Truncated {n}"),
        ([(p1 + 8, q(2**64 - 4))], f"Truncated {n}"), ([(p1 + 32, q(2**63))], f"Truncated {n}"),
        ([(p2 + 32, q(n - y + 1))], f"Truncated {n}"), ([(p3 + 8, q(2**64 - 16))], f"Truncated {n}"),
        ([(20, w(2)), (p3 + 32, q(n))], f"Truncated {n}"),
        ([(20, w(2))], "BadSegment 0"), ([(32, q(63))], f"Truncated {n}"), ([(40, q(1))], "BadSegment 0"), ([(48, w(1))], "BadSegment 0"),
        ([(52, b"\x41")], "BadSegment 0"), ([(54, b"\x39")], "BadSegment 0"), ([(56, b"\5")], "BadSegment 0"),
        ([(58, b"\x40")], "BadSegment 0"), ([(60, b"\1")], "BadSegment 0"), ([(62, b"\1")], "BadSegment 0"),
        ([(p0, w(2))], "BadSegment 0"), ([(p0 + 4, w(5))], "BadSegment 0"), ([(p0 + 8, q(1))], "BadSegment 0"),
        ([(p0 + 16, q(16))], "BadSegment 0"), ([(p0 + 24, q(16))], "BadSegment 0"), ([(p0 + 40, q(image.rodata_end + 1))], "BadSegment 0"),
        ([(p0 + 48, q(8192))], "BadSegment 0"), ([(p0 + 32, q(0x13f)), (p0 + 40, q(0x13f))], "BadSegment 0"),
        ([(0x120, b"\1")], "BadSegment 0"), ([(0x138, b"\1")], "BadSegment 0"), ([(0x13f, b"\1")], "BadSegment 0"),
        ([(p1, w(2))], "BadSegment 1"), ([(p1 + 4, w(7))], "BadSegment 1"), ([(p1 + 16, q(0))], "BadSegment 1"),
        ([(p1 + 8, q(image.c - PAGE)), (p1 + 16, q(image.c - PAGE)), (p1 + 24, q(image.c - PAGE))], "BadSegment 1"),
        ([(p1 + 32, q(4 * len(image.words) + 2)), (p1 + 40, q(4 * len(image.words) + 2))], "BadSegment 1"),
        ([(p1 + 40, q(4 * len(image.words) + 4))], "BadSegment 1"), ([(p1 + 48, q(16))], "BadSegment 1"),
        ([(image.c - 1, b"\1")], "BadSegment 1"), ([(image.rodata_end, b"\1")], "BadSegment 1"),
        ([(image.c - 1, b"\1"), (p2 + 4, w(7))], "BadSegment 1"), ([(62, b"\1"), (image.c - 1, b"\1")], "BadSegment 0"),
        ([(p2, w(2))], "BadSegment 2"), ([(p2 + 4, w(4))], "BadSegment 2"), ([(p2 + 24, q(0))], "BadSegment 2"),
        ([(p2 + 32, q(n - y - 8))], "BadSegment 2"), ([(p2 + 40, q(n - y + image.zero + 8))], "BadSegment 2"),
        ([(p2 + 40, q(n - y - 16))], "BadSegment 2"), ([(p2 + 40, q(LIMIT - y + 16))], "BadSegment 2"),
        ([(p2 + 40, q(2**64 - 16))], "BadSegment 2"), ([(p2 + 48, q(8))], "BadSegment 2"),
        ([(p2 + 32, q(160)), (p2 + 40, q(160))], "BadSegment 2"),
        ([(p3, w(1))], "BadSegment 3"), ([(p3 + 4, w(4))], "BadSegment 3"), ([(p3 + 8, q(0))], "BadSegment 3"),
        ([(p3 + 16, q(0))], "BadSegment 3"), ([(p3 + 32, q(160)), (p3 + 40, q(160))], "BadSegment 3"),
        ([(p3 + 40, q(0))], "BadSegment 3"), ([(p3 + 48, q(16))], "BadSegment 3"), ([(p3 + 8, q(0)), (y, q(6))], "BadSegment 3"),
        ([(n, b"\0")], "BadSegment 4"), ([(n, b"\1")], "BadSegment 4"), ([(n + 99, b"\0")], "BadSegment 4"),
        ([(n, b"\0"), (y, q(6))], "BadSegment 4"), ([(n, b"\0"), (p3 + 48, q(16))], "BadSegment 3"),
    ]
    for i, (tag, value) in enumerate(image.entries):
        rows.append(([(y + 16 * i, q(tag + 1))], f"BadDynamic {i}"))
        rows.append(([(y + 16 * i, q(2**63))], f"BadDynamic {i}"))
        # one descriptor byte more is another image, since the byte behind the descriptors is zero
        if tag != 0x7000000F:
            rows.append(([(y + 16 * i + 8, q(value + 1))], f"BadDynamic {i}"))
        rows.append(([(y + 16 * i + 8, q(2**64 - 8))], f"BadDynamic {i}"))
    rows += [
        ([(y + 16 * 9 + 8, q(0)), (y + 16 * 7 + 8, q(1))], "BadDynamic 7"),
        ([(y + 88, q(24 * len(image.relocs) + 24 * 20))], "BadDynamic 5"),
        ([(y + 88, q(2**64 - 2**64 % 24))] if 2**64 % 24 else [(y + 88, q(24))], "BadDynamic 5"),
    ]
    if image.code_end < y:
        rows += [([(y - 1, b"\1")], "BadSegment 2"), ([(image.code_end, b"\1")], "BadSegment 2")]
    if image.relocs:
        last = 0x140 + 24 * (len(image.relocs) - 1)
        rows += [
            ([(0x148, q(257))], "BadDynamic 4"), ([(last + 8, q(1028))], "BadDynamic 4"), ([(0x14c, w(1))], "BadDynamic 4"),
            ([(last + 8, q(0)), (y + 16 * 6, q(0))], "BadDynamic 4"), ([(last + 8, q(0)), (y + 88, q(1))], "BadDynamic 5"),
            ([(last + 8, q(0)), (y + 16 * 3, q(0))], "BadDynamic 3"),
        ]
    if image.descriptors:
        gap = image.d + len(image.descriptors)
        rows += [
            ([(gap, b"\1")], "BadSegment 0"), ([(image.r - 1, b"\1")], "BadSegment 0"),
            ([(image.r - 1, b"\1"), (y + 16 * 12, q(1))], "BadDynamic 12"),
            ([(y + 16 * 11 + 8, q(0))], "BadDynamic 11"), ([(y + 16 * 11 + 8, q(image.rodata_end))], "BadDynamic 11"),
            ([(p3 + 32, q(176)), (p3 + 40, q(176))], "BadDynamic 10"),
        ]
    for edits, answer in rows:
        edit(image.file(), edits, answer)


def each_byte(file):
    for at in range(0x140):
        for value in (0, 255):
            if file[at] != value and not 24 <= at < 32:
                edit(file, [(at, bytes([value]))])


def each_entry_byte(image):
    for at in range(8):
        for value in (0, 255):
            entry = image.entry & ~(255 << 8 * at) | value << 8 * at
            if entry != image.entry:
                base(Image(entry, image.relocs, image.descriptors, image.rodata, image.words, image.filled, image.zero))


FULL = Image(0x1004, [(0x2100, 0x2110), (0x2108, -8)], bytes([0x81, 2, 0x23]), b"hi", [0xD503201F, 0x52800540, 0xD4000061],
             bytes(range(1, 33)), 48)
ONES = [
    Image(), Image(entry=2**64 - 1), Image(relocs=[(2**64 - 1, -2**63), (0, 2**63 - 1), (8, 0)]), Image(descriptors=b"\1"),
    Image(descriptors=bytes(range(1, 17))), Image(rodata=b"\xff"), Image(rodata=bytes(range(256)) * 15 + b"0123456789" * 6),
    Image(words=[1]), Image(words=[0xFFFFFFFF] * 1024), Image(filled=b"\5" * 16), Image(zero=16),
    Image(zero=LIMIT - 0x10B0), Image(relocs=[(8, 8)], zero=4096), Image(words=[0x52800540, 0xD4000061]),
    Image(words=[0x529FFFE0, 0x72AFFFE0, 0xD4000061]),
    Image(0x1004, [(0x2100, 0x2110), (0x2108, -8)], bytes([0x81, 2, 0x23]), b"hi", [0xD503201F, 0x52800540, 0xD4000061], b"Z" * 32, 48),
]


def main():
    print("# Image files, as a length and the bytes that are not zero, and their parts; then edits of the last one, and what is wrong.")
    for image in ONES:
        base(image)
        print("cuts | each Truncated")
    print("\n# an image with every part filled, its fields and gaps one by one")
    file = base(FULL)
    print("cuts | each Truncated")
    hand(FULL)
    print("\n# each byte of its headers set to 0 and to 255")
    each_byte(file)
    print("\n# an image with every part empty")
    file = base(Image())
    hand(Image())
    each_byte(file)
    print("\n# each byte of the entry set to 0 and to 255: another image")
    each_entry_byte(FULL)
    each_entry_byte(Image())


if __name__ == "__main__":
    main()
