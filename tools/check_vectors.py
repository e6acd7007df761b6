#!/usr/bin/env python3
"""Makes the rows of crates/code_rows with GNU as, or compares them with it.

    tools/check_vectors.py           fails where a row is not what the assembler gives
    tools/check_vectors.py --write   writes the rows

It needs Debian's binutils-aarch64-linux-gnu. There are rows of lines that were chosen by hand, and for each form of an
instruction rows of field values: zero, the greatest of each field alone, and drawn ones. The line of such values is
written here after the Arm ARM's syntax, and the assembler gives its word. A value that is one too large for its field has
no word. Each line stands in a section of its own at the start of a page, and the object is linked, so that a page's
distance is resolved too.
"""
import pathlib
import random
import struct
import subprocess
import sys
import tempfile

sys.dont_write_bytecode = True

from code_lines import LINES, OTHERS

FOLDER = pathlib.Path(__file__).parent.parent / "crates/code_rows"
TOOLS = "aarch64-linux-gnu-"
CONDITIONS = ["eq", "ne", "cs", "cc", "mi", "pl", "vs", "vc", "hi", "ls", "ge", "lt", "gt", "le", "al", "nv"]
DRAWN = 12


def assembled(lines):
    """The word of each line."""
    with tempfile.TemporaryDirectory() as folder:
        source = pathlib.Path(folder, "lines.s")
        source.write_text("".join(f".text\n.balign 4096\n{line}\n" for line in lines))
        subprocess.run([TOOLS + "as", "-march=armv8.5-a+memtag", "-W", "-o", f"{folder}/lines.o", source], check=True)
        subprocess.run([TOOLS + "ld", "-Ttext=0x10000000", "-e", "0", "-o", f"{folder}/lines", f"{folder}/lines.o"], check=True)
        subprocess.run([TOOLS + "objcopy", "-O", "binary", "-j", ".text", f"{folder}/lines", f"{folder}/text"], check=True)
        text = pathlib.Path(folder, "text").read_bytes()
        return [struct.unpack_from("<I", text, 4096 * place)[0] for place in range(len(lines))]


def signed(value, width):
    return value - (1 << width) if value >> (width - 1) else value


def reg(wide, number, stack=False):
    letter = "x" if wide else "w"
    if number != 31:
        return f"{letter}{number}"
    return ("sp" if wide else "wsp") if stack else letter + "zr"


def distance(value, width, scale):
    return f".{signed(value, width) * scale:+d}"


def place(rn, offset):
    return f"[{reg(True, rn, True)}, #{offset}]" if offset else f"[{reg(True, rn, True)}]"


def move(name, wide, hw, imm16, rd):
    return f"{name} {reg(wide, rd)}, #{imm16}" + (f", lsl #{16 * hw}" if hw else "")


def immediate(name, wide, sh, imm12, rn, rd):
    shift = ", lsl #12" if sh else ""
    return f"{name} {reg(wide, rd, name != 'subs')}, {reg(wide, rn, True)}, #{imm12}{shift}"


def three(name, wide, rm, rn, rd):
    return f"{name} {reg(wide, rd)}, {reg(wide, rn)}, {reg(wide, rm)}"


def four(name, wide, rm, ra, rn, rd):
    return f"{name} {reg(wide, rd)}, {reg(wide, rn)}, {reg(wide, rm)}, {reg(wide, ra)}"


def bit_field(name, wide, immr, imms, rn, rd):
    return f"{name} {reg(wide, rd)}, {reg(wide, rn)}, #{immr}, #{imms}"


def select(name, wide, rm, cond, rn, rd):
    return f"{name} {reg(wide, rd)}, {reg(wide, rn)}, {reg(wide, rm)}, {CONDITIONS[cond]}"


def branch_on(name, wide, imm19, rt):
    return f"{name} {reg(wide, rt)}, {distance(imm19, 19, 4)}"


def access(wide, size):
    return lambda name, imm12, rn, rt: f"{name} {reg(wide, rt)}, {place(rn, size * imm12)}"


def whole(name, wide, imm12, rn, rt):
    return access(wide, 8 if wide else 4)(name, imm12, rn, rt)


def pair(name, imm7, rt2, rn, rt):
    return f"{name} {reg(True, rt)}, {reg(True, rt2)}, {place(rn, 8 * signed(imm7, 7))}"


def tagged(name, uimm6, uimm4, rn, rd):
    return f"{name} {reg(True, rd, True)}, {reg(True, rn, True)}, #{16 * uimm6}, #{uimm4}"


def tag_access(name, simm9, rn, rt):
    return f"{name} {reg(True, rt, name != 'ldg')}, {place(rn, 16 * signed(simm9, 9))}"


def random_tag(name, rm, rn, rd):
    return f"{name} {reg(True, rd, True)}, {reg(True, rn, True)}, {reg(True, rm)}"


# What has a form on 64 and one on 32 bits: its names, its line, and the widths of its fields, in the order of the word. A
# width as a pair is that of the two forms.
BOTH = [
    ("movz movk movn", move, [(2, 1), 16, 5]),
    ("add sub subs", immediate, [1, 12, 5, 5]),
    ("add sub subs and orr eor lslv lsrv asrv udiv sdiv", three, [5, 5, 5]),
    ("sbfm ubfm", bit_field, [(6, 5), (6, 5), 5, 5]),
    ("cbz cbnz", branch_on, [19, 5]),
    ("ldr str", whole, [12, 5, 5]),
    ("madd msub", four, [5, 5, 5, 5]),
    ("csinc", select, [5, 4, 5, 5]),
]
ONE = [
    ("ldrb strb", access(False, 1), [12, 5, 5]),
    ("ldrh strh", access(False, 2), [12, 5, 5]),
    ("ldrsw", access(True, 4), [12, 5, 5]),
    ("ldrsb", access(True, 1), [12, 5, 5]),
    ("ldrsh", access(True, 2), [12, 5, 5]),
    ("stp ldp", pair, [7, 5, 5, 5]),
    ("b bl", lambda name, imm26: f"{name} {distance(imm26, 26, 4)}", [26]),
    ("b", lambda name, imm19, cond: f"b.{CONDITIONS[cond]} {distance(imm19, 19, 4)}", [19, 4]),
    ("adrp", lambda name, immlo, immhi, rd: f"adrp {reg(True, rd)}, {distance(immhi << 2 | immlo, 21, 4096)}", [2, 19, 5]),
    ("ret nop", lambda name: name, []),
    ("svc", lambda name, imm16: f"svc #{imm16}", [16]),
    ("addg subg", tagged, [6, 4, 5, 5]),
    ("irg", random_tag, [5, 5, 5]),
    ("stg stzg st2g stz2g ldg", tag_access, [9, 5, 5]),
]


def forms():
    """Each form: its name, its line by its values, the widths of these, and what stands before them."""
    for names, line, widths in BOTH:
        for name in names.split():
            for form, wide in ((0, True), (1, False)):
                yield name, line, [width if isinstance(width, int) else width[form] for width in widths], [wide]
    for names, line, widths in ONE:
        for name in names.split():
            yield name, line, widths, []


def chosen(name, widths, draw):
    """The lists of values of a form. The assembler refuses an LDP of two equal registers."""
    most = [(1 << width) - 1 for width in widths]
    lists = [[0] * len(widths), most]
    lists += [[most[at] if at == one else 0 for at in range(len(widths))] for one in range(len(widths))]
    lists += [[draw.randint(0, top) for top in most] for _ in range(DRAWN)]
    kept = []
    for values in lists:
        if values not in kept:
            kept.append(values)
    return [values for values in kept if not (name == "ldp" and values[1] == values[3])]


def written(wide, values):
    """The values of a row; 0 where the instruction has none."""
    return " ".join(f"{int(value):X}" for value in [*wide, *values]) or "0"


# A field of this width has a type that holds no larger number.
WHOLE_TYPE = 16


def rows():
    """The rows, in their order."""
    draw = random.Random(20261201)
    lines, made = list(LINES + OTHERS), []
    for name, line, widths, wide in forms():
        base = [1 if name == "ldp" and at == 1 else 0 for at in range(len(widths))]
        lists = chosen(name, widths, draw)
        made.append((widths, wide, lists, len(lines)))
        lines += [line(name, *wide, *values) for values in [base, *lists]]
    words = assembled(lines)
    yield "# Words and their lines, as GNU as makes them with -march=armv8.5-a+memtag. Made by `tools/check_vectors.py`."
    for line, word in zip(LINES, words):
        yield f"{word:08X} => {line}"
    yield "# Words of instructions that the table does not have, from the same assembler."
    for line, word in zip(OTHERS, words[len(LINES) :]):
        yield f"{word:08X} => none ; {line}"
    yield "00000000 => none ; udf #0"
    yield "# For each form, values of its fields and the word of their line, and a value that is too large for each field."
    for widths, wide, lists, first in made:
        base = words[first]
        for values, line, word in zip(lists, lines[first + 1 :], words[first + 1 :]):
            yield f"{base:08X} with {written(wide, values)} => {word:08X}"
            yield f"{word:08X} => {line}"
        for one, width in enumerate(widths):
            if width != WHOLE_TYPE:
                values = [1 << width if at == one else 0 for at in range(len(widths))]
                yield f"{base:08X} with {written(wide, values)} => none"


def main():
    text = "".join(row + "\n" for row in rows())
    count = sum(not row.startswith("#") for row in text.splitlines())
    files = {"stdin": text, "stdout": f"{count} rows, 0 differ\n"}
    if "--write" in sys.argv:
        for name, content in files.items():
            (FOLDER / name).write_text(content)
        return 0
    wrong = [name for name, content in files.items() if (FOLDER / name).read_text() != content]
    print(f"{count} rows, {'another ' + ' and '.join(wrong) if wrong else 'as they stand'}")
    return 1 if wrong else 0


if __name__ == "__main__":
    sys.exit(main())
