#!/usr/bin/env python3
"""Prints the rows `cuts` and `flips` of `crates/end_to_end/stdin`: images of constants that are cut, made longer or changed in some bits, and
how `run` ends with each. The files and the first condition that fails come from `tools/image_rows.py`, which is made from the tables of
docs/FILES.md alone. How changed code ends was worked out by hand from the table and the rules of docs/MACHINE.md; `CODE` has it."""
import struct

from image_rows import Image, judge

NUMBERS = {"NotElf": 30, "NotThisMachine": 31, "Truncated": 32, "BadSegment": 33, "BadDynamic": 34}
LOAD = 0x10000000
# `movz w0, #42` and `svc #3`, with `movk w0, #1, lsl 16` between them for 65578.
TEXTS = {42: [0x52800540, 0xD4000061], 65578: [0x52800540, 0x72A00020, 0xD4000061]}


def bad_code(at):
    return f"84 BadCode {{ at: {at} }}"


def code_of(constant):
    """How a run ends where these bits of a byte of the code are changed, by the byte's number in the code and the bits."""
    two = constant == 65578
    # W1 or W16 is moved to, and W0 is 0 or has its upper half alone; another number; a half that is moved to bit 16; no row; MOVK
    ends = {
        (0, 0x01): 0, (0, 0x10): 0, (0, 0x20): 43,
        (1, 0x01): 34, (1, 0x10): 170, (1, 0x20): 42,
        (2, 0x01): 42, (2, 0x10): 42, (2, 0x20): 0,
        (3, 0x01): bad_code(LOAD + 0x1000), (3, 0x10): bad_code(LOAD + 0x1000), (3, 0x20): 42,
    }
    if two:
        # the upper half of another register or another number; MOVK of the lower half; no row; MOVZ of the upper half
        ends |= {(4, bits): 42 for bits in (0x01, 0x10, 0x20)} | {(5, bits): 42 for bits in (0x01, 0x10, 0x20)}
        ends |= {(6, 0x01): 42, (6, 0x10): 42, (6, 0x20): 1}
        ends |= {(7, 0x01): bad_code(LOAD + 0x1004), (7, 0x10): bad_code(LOAD + 0x1004), (7, 0x20): 0}
    # no row, or a service that there is not; #2 takes a byte, and behind the code its part has zeros up to 16 bytes
    last = 8 if two else 4
    ends |= {(last + i, bits): bad_code(LOAD + 0x1000 + last) for i in range(4) for bits in (0x01, 0x10, 0x20)}
    ends[last, 0x20] = bad_code(LOAD + 0x1000 + last + 4)
    return ends


def ended(file, place, bits, constant):
    fault = judge(file)
    if fault:
        name, _, at = fault.partition(" ")
        return "cut" if fault == f"Truncated {len(file)}" else f"{NUMBERS[name]} {at or 0}"
    entry = struct.unpack_from("<Q", file, 24)[0]
    if entry != 0x1000:
        return bad_code((LOAD + entry) % 2 ** 64)
    # outside the code it is the number of zero bytes that was changed, and the image runs as before
    changed = place is not None and place - 0x1000 in range(4 * len(TEXTS[constant]))
    end = code_of(constant)[place - 0x1000, bits] if changed else constant % 256
    return end if isinstance(end, str) else f"{end} Exited"


def told(ends):
    """Equal ends of numbers that follow one another are told together."""
    groups = []
    for number, end in ends:
        if groups and groups[-1][2] == end:
            groups[-1][1] = number
        else:
            groups.append([number, number, end])
    return ", ".join(f"{first}-{last}: {end}" for first, last, end in groups)


def main():
    files = {constant: Image(words=words).file() for constant, words in TEXTS.items()}
    assert all(len(file) == 8368 for file in files.values())
    for constant, file in files.items():
        longer = file + bytes(11)
        ends = [(n, ended(longer[:n], None, 0, constant)) for n in range(len(longer))]
        print(f'cuts 0+{len(longer)} "int main(void){{return {constant};}}" => {told(ends)}')
    for constant, file in files.items():
        for bits in (0x01, 0x10, 0x20):
            ends = []
            for place in range(len(file)):
                changed = bytearray(file)
                changed[place] ^= bits
                ends.append((place, ended(bytes(changed), place, bits, constant)))
            print(f'flips {bits:02x} 0+{len(file)} "int main(void){{return {constant};}}" => {told(ends)}')


if __name__ == "__main__":
    main()
