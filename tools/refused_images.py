#!/usr/bin/env python3
"""Rows of refused image files for crates/image_rows: two files, built here by `struct` from the tables of docs/FILES.md, and in each
row one field or condition of the last one broken, or two. No judge is in here: the number and the place of each fault were worked out
by hand.

Usage: refused_images.py crates/image_rows. It writes the last section of stdin anew, and the count of stdout."""
import struct
import sys

TITLE = "# refused images, one or two faults each, worked out by hand"


def load(flags, place, filesz, memsz):
    return struct.pack("<IIQQQQQQ", 1, flags, place, place, place, filesz, memsz, 4096)


def image(relocs, descriptors, rodata, words, filled, zeros):
    """The bytes of an image, each part at the place that the caller worked out: (place, bytes)."""
    entries = [(5, 0x138), (6, 0x120), (10, 1), (11, 24), (7, 0x140), (8, 24 * len(relocs)), (9, 24)]
    entries += [(0x70000009, 0), (0x7000000B, 0), (0x7000000C, 1)]
    if descriptors[1]:
        entries += [(0x7000000D, descriptors[0]), (0x7000000F, len(descriptors[1]))]
    entries += [(0, 0)]
    end, code_end, dynamic = rodata[0] + len(rodata[1]), words[0] + 4 * len(words[1]), 0x2000
    total = filled[0] + len(filled[1])
    out = bytearray(total)

    def put(place, data):
        out[place:place + len(data)] = data

    ident = bytes([0x7F, 0x45, 0x4C, 0x46, 2, 1, 1]) + bytes(9)
    put(0, ident + struct.pack("<HHIQQQIHHHHHH", 3, 183, 1, words[0], 64, 0, 0, 64, 56, 4, 0, 0, 0))
    put(64, load(4, 0, end, end))
    put(120, load(5, words[0], code_end - words[0], code_end - words[0]))
    put(176, load(6, dynamic, total - dynamic, total - dynamic + zeros))
    put(232, struct.pack("<IIQQQQQQ", 2, 6, dynamic, dynamic, dynamic, 16 * len(entries), 16 * len(entries), 8))
    put(0x140, b"".join(struct.pack("<QQq", place, 1027, addend) for place, addend in relocs))
    put(*descriptors)
    put(*rodata)
    put(words[0], b"".join(struct.pack("<I", word) for word in words[1]))
    put(dynamic, b"".join(struct.pack("<QQ", *entry) for entry in entries))
    put(*filled)
    return bytes(out)


# Three relocations end at 0x188, 11 descriptor bytes at 0x193, the read-only data from 0x1a0 at 0x1c1, five words at 0x1014, 13 entries
# at 0x20d0, the file at 0x2110 (8,464 bytes), and the memory at 0x2140.
RELOCS = [(0x20D0, 0x20E0), (0x20D8, 0x1A0), (0x20F8, -24)]
WITH = image(RELOCS, (0x188, bytes(range(0x21, 0x2C))), (0x1A0, b"no byte of this one is the last\n\7"),
             (0x1000, [0xD503201F, 0x52800540, 0x72A00020, 0x8B020021, 0xD4000061]), (0x20D0, bytes(range(64, 128))), 48)
WITH_PARTS = ("entry 0x1000, relocs 0x20d0+8416 0x20d8+416 0x20f8-24, descriptors 2122232425262728292a2b, rodata "
              + b"no byte of this one is the last\n\7".hex() + ", words d503201f 52800540 72a00020 8b020021 d4000061, filled "
              + bytes(range(64, 128)).hex() + ", zeros 48")

# No descriptors: one relocation ends at 0x158, the read-only data from 0x160 at 0x170, four words at 0x1010, 11 entries at 0x20b0, and the
# file at 0x20c0 (8,384 bytes), as the memory does.
WITHOUT = image([(0x20B0, 0x160)], (0x158, b""), (0x160, b"sixteen bytes ok"), (0x1000, [1, 2, 3, 4]), (0x20B0, b"\1" * 16), 0)
WITHOUT_PARTS = ("entry 0x1000, relocs 0x20b0+352, descriptors -, rodata " + b"sixteen bytes ok".hex()
                 + ", words 1 2 3 4, filled " + "01" * 16 + ", zeros 0")


def q(value):
    """Eight bytes."""
    return struct.pack("<Q", value % 2 ** 64).hex()


def d(value):
    """Four bytes."""
    return struct.pack("<I", value).hex()


# the places of the program headers' fields, and of the dynamic entries
KIND, FLAGS, OFFSET, VADDR, PADDR, FILESZ, MEMSZ, ALIGN = 0, 4, 8, 16, 24, 32, 40, 48


def field(header, name):
    return 64 + 56 * header + name


def tag(entry):
    return 0x2000 + 16 * entry


def value(entry):
    return tag(entry) + 8


def edit(answer, *pieces):
    """Other bytes, each a place and the digits of some bytes."""
    return "edit " + " ".join(f"{place:x}:{digits}" for place, digits in pieces) + " | " + answer


HEADERS = [
    # the identification goes before all, in each of its 16 bytes
    edit("NotElf", (9, "01")),
    edit("NotElf", (3, "47"), (0x10, "0200"), (0x20, q(2 ** 63))),
    # an executable of another kind, an object, another machine; before program headers that are not there
    edit("NotThisMachine", (0x10, "0200")),
    edit("NotThisMachine", (0x10, "0100"), (0x20, q(8464))),
    edit("NotThisMachine", (0x12, "3e00"), (field(1, FILESZ), q(2 ** 64 - 1))),
    # program headers of which the last ends one byte behind the file, and just with it: there the second one, from 0x2068, names the 0 bytes
    # from 0x70000009 on, or what stands there as offset and size
    edit("Truncated 8464", (0x20, q(8464 - 223))),
    edit("Truncated 8464", (0x20, q(8464 - 224))),
    # the four elsewhere, from the second on; the last is made of the symbol and a relocation, which names 0x20d0 bytes from 0 on
    edit("BadSegment 0", (0x20, q(0x78))),
    # bytes that end behind the file, by one; by a sum that passes 2 to the 64; where a header before them is wrong too
    edit("Truncated 8464", (field(2, FILESZ), q(0x111))),
    edit("Truncated 8464", (field(1, OFFSET), q(2 ** 64 - 256)), (field(1, FILESZ), q(512))),
    edit("Truncated 8464", (0x14, d(2)), (field(3, FILESZ), q(0x111))),
    edit("Truncated 8464", (field(0, KIND), d(6)), (field(1, FILESZ), q(0x1111))),
    # the rest of the header
    edit("BadSegment 0", (0x14, d(2))),
    edit("BadSegment 0", (0x28, q(64))),
    edit("BadSegment 0", (0x30, d(1))),
    edit("BadSegment 0", (0x34, "3f00")),
    edit("BadSegment 0", (0x38, "0300")),
    edit("BadSegment 0", (0x3A, "4000")),
    edit("BadSegment 0", (0x3E, "0100"), (field(2, FLAGS), d(7))),
]

SEGMENTS = [
    # the first: its flags, its bytes in memory, the symbol, the string and the gap behind it
    edit("BadSegment 0", (field(0, FLAGS), d(6))),
    edit("BadSegment 0", (field(0, MEMSZ), q(0x1C2))),
    edit("BadSegment 0", (0x121, "80")),
    edit("BadSegment 0", (0x138, "2f")),
    edit("BadSegment 0", (0x139, "01"), (field(1, FLAGS), d(4))),
    # the code: the gap before it, its page, its words, its fields
    edit("BadSegment 1", (0x1C1, "01")),
    edit("BadSegment 1", (0xFFF, "ff"), (0x1014, "ff")),
    edit("BadSegment 1", (field(1, OFFSET), q(0x1004)), (field(1, VADDR), q(0x1004)), (field(1, PADDR), q(0x1004)),
         (field(1, FILESZ), q(16)), (field(1, MEMSZ), q(16))),
    edit("BadSegment 1", (field(1, FILESZ), q(0x13)), (field(1, MEMSZ), q(0x13))),
    edit("BadSegment 1", (field(1, PADDR), q(0))),
    # the last word left out of the code stands in the gap behind it
    edit("BadSegment 2", (field(1, FILESZ), q(16)), (field(1, MEMSZ), q(16))),
    # the writable part: the gap before it, its granules, its memory and its limit, by 16 bytes
    edit("BadSegment 2", (0x1FFF, "01")),
    edit("BadSegment 2", (field(2, FILESZ), q(0x10F))),
    edit("BadSegment 2", (field(2, MEMSZ), q(0x148))),
    edit("BadSegment 2", (field(2, MEMSZ), q(0x100))),
    edit("BadSegment 2", (field(2, MEMSZ), q(268435456 - 0x2000 + 16))),
    edit("BadSegment 2", (field(2, ALIGN), q(16)), (field(3, KIND), d(7)), (0x2110, "00")),
    # the dynamic entries: their rights, and 12 of them
    edit("BadSegment 3", (field(3, FLAGS), d(4))),
    edit("BadSegment 3", (field(3, FILESZ), q(192)), (field(3, MEMSZ), q(192))),
    edit("BadSegment 3", (field(3, VADDR), q(0x2010)), (value(0), q(0))),
    # a byte behind the end, and one granule of the file that no header names
    edit("BadSegment 4", (0x2110, "00")),
    edit("BadSegment 4", (field(2, FILESZ), q(0x100)), (tag(12), q(1))),
]

ENTRIES = [
    edit("BadDynamic 0", (value(0), q(0x120)), (value(1), q(0x138))),
    edit("BadDynamic 1", (tag(1), q(5))),
    edit("BadDynamic 2", (value(2), q(0))),
    edit("BadDynamic 3", (value(3), q(16)), (value(9), q(0))),
    edit("BadDynamic 4", (value(4), q(0x158))),
    # the bytes of the relocations: no whole record; the first two alone, behind which descriptors would begin; a fourth, which is none
    edit("BadDynamic 5", (value(5), q(71))),
    edit("BadDynamic 10", (value(5), q(48))),
    edit("BadDynamic 4", (value(5), q(96))),
    edit("BadDynamic 5", (value(5), q(2 ** 64 - 8))),
    # a relocation with a symbol, and one of another type; before an entry behind RELASZ
    edit("BadDynamic 4", (0x164, d(1))),
    edit("BadDynamic 4", (0x178, d(1025)), (value(6), q(16))),
    edit("BadDynamic 6", (value(6), q(16))),
    edit("BadDynamic 7", (value(7), q(1))),
    edit("BadDynamic 8", (value(8), q(1)), (value(10), q(0))),
    edit("BadDynamic 9", (tag(9), q(0x7000000D))),
    # the descriptors: their place, none of them, more than the first part holds
    edit("BadDynamic 10", (value(10), q(0x190))),
    edit("BadDynamic 11", (value(11), q(0))),
    edit("BadDynamic 11", (value(11), q(0x1C1 - 0x188 + 1))),
    edit("BadDynamic 11", (value(11), q(2 ** 64 - 0x188))),
    edit("BadDynamic 12", (tag(12), q(24))),
    edit("BadDynamic 12", (value(12), q(1))),
    # a header that names 11 entries: the last of them is to be NULL
    edit("BadDynamic 10", (field(3, FILESZ), q(176)), (field(3, MEMSZ), q(176))),
    # the gap behind the descriptors, which is judged last (docs/DECISIONS.md); ten descriptor bytes leave the last in it
    edit("BadSegment 0", (0x193, "01")),
    edit("BadSegment 1", (0x19F, "ff"), (0xFFF, "01")),
    edit("BadSegment 0", (value(11), q(10))),
]

NONE = [
    # 13 entries end behind the file; 12 of them do not
    edit("Truncated 8384", (field(3, FILESZ), q(208)), (field(3, MEMSZ), q(208))),
    edit("BadSegment 3", (field(3, FILESZ), q(192)), (field(3, MEMSZ), q(192))),
    edit("BadDynamic 10", (tag(10), q(0x7000000D)), (value(10), q(0x158))),
    # the read-only data would begin behind the first part: at 0x190, where that ends at 0x170; and just at its end, but the second
    # relocation is none
    edit("BadDynamic 5", (value(5), q(72))),
    edit("BadDynamic 4", (value(5), q(48))),
    edit("BadSegment 0", (0x15F, "10")),
]

ALONE = [
    "base 0 | Truncated 0",
    "base 15 0:7f454c46020101 | Truncated 15",
    "base 3 0:7f454d | NotElf",
    "base 63 0:7f454c46020101 10:0200b700 | Truncated 63",
    "base 64 0:7f454c46020101 10:0200b700 20:40 | NotThisMachine",
    "base 64 0:7f454c46020101 10:0300b70001 20:40 | Truncated 64",
]


def base(file, parts):
    """A file: its length, and its bytes that are not zero."""
    pieces, at = [], 0
    while at < len(file):
        if file[at] == 0:
            at += 1
            continue
        end = at
        while end < len(file) and file[end]:
            end += 1
        pieces.append(f"{at:x}:{file[at:end].hex()}")
        at = end
    return f"base {len(file)} {' '.join(pieces)} | {parts}"


def main():
    folder = sys.argv[1]
    with open(folder + "/stdin") as old:
        front = old.read().split(TITLE)[0].rstrip("\n")
    rows = [base(WITH, WITH_PARTS), *HEADERS, *SEGMENTS, *ENTRIES, base(WITHOUT, WITHOUT_PARTS), *NONE, *ALONE]
    text = front + "\n\n" + TITLE + "\n" + "\n".join(rows) + "\n"
    with open(folder + "/stdin", "w") as out:
        out.write(text)
    count = sum("|" in line for line in text.split("\n"))
    with open(folder + "/stdout", "w") as out:
        out.write(f"{count} rows, 0 differ\n")


if __name__ == "__main__":
    main()
