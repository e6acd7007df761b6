#!/usr/bin/env python3
"""Makes the rows of crates/machine_rows, most of them by running their code under qemu.

    tools/step-vectors/make.py           fails where the rows are others
    tools/step-vectors/make.py --write   writes the rows

It needs Debian's gcc-aarch64-linux-gnu and qemu-user. The lines stand in rows.py. Each becomes a small program, which
run.c runs under qemu-aarch64 -cpu max, and its row gets what it left. What model.py says of each is compared with it, and
where they differ no row is written. What no processor tells stands in own.py with its answers.
"""
import random
import struct
import subprocess
import sys
import tempfile
from pathlib import Path

sys.dont_write_bytecode = True

import own
import rows
from model import Machine

FOLDER = Path(__file__).parent
ROWS = FOLDER.parent.parent / "crates/machine_rows"
TOOLS = "aarch64-linux-gnu-"
VALUES = {name: value for name, (value, _) in rows.CONSTANTS.items()}
SEED = 20261201


def value_of(number):
    """The number that a row of rows.py means."""
    return (eval(number, {}, VALUES) if isinstance(number, str) else number) % (1 << 64)


CODE, DATA = VALUES["CODE"], VALUES["DATA"]
MEMORY = [value_of(name) for name in rows.MEMORY]


class Test:
    """A program of lines, the state before it, and once it ran the state after."""

    def __init__(self, lines, x0="0", x1="0", x2="0", tags=(0, 0, 0, 0), choice=None):
        self.lines, self.tags, self.choice = lines, list(tags), choice
        self.before = [value_of(text) for text in (x0, x1, x2)]

    def input(self):
        """The line of input for run.c."""
        numbers = [*self.before, self.before[1], *self.tags, len(self.words), *self.words]
        return " ".join(f"{number:x}" for number in numbers)

    def read(self, line):
        """Takes what the program left, from run.c's line of output."""
        self.end, rest = line.split("; ")
        numbers, put_out = rest.split("+")
        numbers = [int(number, 16) for number in numbers.split()]
        self.x0, self.x2, self.sp, self.nzcv = numbers[:4]
        self.tags_after, self.data = numbers[4:8], numbers[8:]
        self.out = list(bytes.fromhex(put_out))

    def after(self):
        return [self.end.split()[0], self.x0, self.x2, self.sp, self.nzcv, self.tags_after, self.data, self.out]

    def machine(self):
        data = struct.pack("<8Q", *MEMORY)
        return Machine(list(self.before), self.before[1], DATA, data, self.tags, self.choice).run(self.words, CODE)

    def fault(self):
        """The tag fault of the second reading, as a row has it."""
        at, pointer, memory = self.machine().fault
        return f"tag:{at:X}:{pointer:X}:{memory:X}"

    def by_the_model(self):
        """What the second reading gives for `after`."""
        end = self.machine()
        data = list(struct.unpack("<8Q", end.data))
        return [end.end.split()[0], end.x[0], end.x[2], end.sp, end.flags(), end.tags, data, end.out]


def assemble(tests):
    """Gives each test its words. Each begins at a page of its own, as at `CODE`."""
    with tempfile.TemporaryDirectory() as folder:
        source = Path(folder, "lines.s")
        source.write_text("".join(".balign 4096\n" + "".join(f"{line}\n" for line in test.lines) for test in tests))
        subprocess.run([TOOLS + "as", "-march=armv8.5-a+memtag", "-W", "-o", f"{folder}/lines.o", source], check=True)
        subprocess.run([TOOLS + "ld", "-Ttext=0x10000000", "-e", "0", "-o", f"{folder}/lines", f"{folder}/lines.o"], check=True)
        subprocess.run([TOOLS + "objcopy", "-O", "binary", "-j", ".text", f"{folder}/lines", f"{folder}/text"], check=True)
        text = Path(folder, "text").read_bytes()
    for place, test in enumerate(tests):
        test.words = list(struct.unpack_from(f"<{len(test.lines)}I", text, 4096 * place))


def run(tests):
    """Runs the tests under qemu."""
    with tempfile.TemporaryDirectory() as folder:
        program = f"{folder}/run"
        subprocess.run([TOOLS + "gcc", "-O1", "-static", "-march=armv8.5-a+memtag", "-o", program, FOLDER / "run.c"], check=True)
        lines = [" ".join(f"{number:x}" for number in MEMORY), *[test.input() for test in tests]]
        command = ["qemu-aarch64", "-cpu", "max", program]
        done = subprocess.run(command, input="\n".join(lines), capture_output=True, text=True, check=True, timeout=300)
    lines = done.stdout.splitlines()
    assert len(lines) == len(tests), done.stderr
    for test, line in zip(tests, lines):
        test.read(line)


# What a row compares: registers and flags, and in rows of accesses the data and its tags too.
REGISTERS = ("x0", "x2", "sp", "nzcv")
ALL = REGISTERS + tuple(f"m{DATA + 8 * place:X}" for place in range(8)) + tuple(f"t{DATA + 16 * place:X}" for place in range(4))


class Rows:
    """The rows in their order: comments, whole rows, and tests that become rows once they ran."""

    def __init__(self):
        self.rows, self.left_open = [], set()

    def note(self, text):
        self.rows += [f"# {line}" for line in text.splitlines()]

    def add(self, lines, x0="0", x1="0", x2="0", keys=REGISTERS, tags=(0, 0, 0, 0), choice=None):
        """A test of lines, behind which the code goes on. Its row compares these keys."""
        test = Test([*lines, "svc #3"], x0, x1, x2, tags, choice)
        test.keys, test.ends = keys, False
        self.rows.append(test)
        return test

    def program(self, name, lines):
        """A program that ends by itself."""
        test = Test(lines)
        test.keys, test.ends, test.name = (), True, name
        self.rows.append(test)

    def own(self, lines, before, answer):
        test = Test(lines)
        test.own = (before, answer)
        self.rows.append(test)

    def tests(self):
        return [row for row in self.rows if isinstance(row, Test)]

    def ran(self):
        return [test for test in self.tests() if not hasattr(test, "own")]

    def compare(self):
        """The number of tests of which the second reading says something else than what ran."""
        different = 0
        for test in self.ran():
            ran, read = test.after(), test.by_the_model()
            if ran != read:
                different += test not in self.left_open
                if test not in self.left_open:
                    print(f"{'; '.join(test.lines)} from {test.before}: DIFFERENT\n    ran  {ran}\n    read {read}")
        print(f"{len(self.ran())} programs ran, {different} differ from the second reading")
        return different

    def text(self):
        return "".join(f"{self.row_of(row) if isinstance(row, Test) else row}\n" for row in self.rows)

    def row_of(self, test):
        if hasattr(test, "own"):
            before, answer = test.own
            return f"{words_of(test.words)} | {before} => {answer} ; {'; '.join(test.lines)}"
        if test.ends:
            out = bytes(test.out).hex().upper()
            return f"{words_of(test.words)} => exit:{test.x0 & 0xFF} out={out} ; {test.name}: {'; '.join(test.lines)}"
        answer = answer_of(test, test.by_the_model() if test in self.left_open else test.after())
        return f"{words_of(test.words[:-1])} | {before_of(test)} => {answer} ; {'; '.join(test.lines[:-1])}"


def words_of(words):
    return " ".join(f"{word:08X}" for word in words)


def before_of(test):
    parts = [f"x{number}={value:X}" for number, value in enumerate(test.before) if value]
    if test.before[1]:
        parts.append(f"sp={test.before[1]:X}")
    if any(test.tags):
        parts.append("tags=" + "".join(f"{tag:X}" for tag in test.tags))
    if test.choice is not None:
        parts.append(f"choices={test.choice:X}")
    return " ".join(parts)


def answer_of(test, after):
    """What a test left, for the keys of its row."""
    end, x0, x2, sp, nzcv, tags, data, out = after
    if end == "tag":
        assert after[1:] == [test.before[0], test.before[2], test.before[1], 0, test.tags, MEMORY, []]
        return test.fault()
    assert end == "exit", end
    found = dict(zip(ALL, [x0, x2, sp, nzcv, *data, *tags]))
    shown = [f"{key}={found[key]:X}" for key in test.keys]
    return " ".join(["exit:0", *([f"out={bytes(out).hex().upper()}"] if out else []), *shown])


def judged(line):
    """A line that keeps its result in X2, and lines that put out for each condition whether it holds, by CSINC and by B.cond."""
    lines = [line, "orr x2, xzr, x0"]
    for name in rows.CONDITIONS:
        lines += [f"csinc x0, xzr, xzr, {name}", "svc #1", "movz x0, #0", f"b.{name} .+8", "movz x0, #1", "svc #1"]
    return lines


def add_calculations(table):
    table.note("Lines behind a comparison of X1 and X2.")
    for line, x0, x1, x2 in rows.calculations():
        table.add(["subs xzr, x1, x2", line], x0, x1, x2)
    table.note("Lines whose result is in SP.")
    for line, x1 in rows.STACK_POINTERS:
        table.add([line], "OLD", x1)
    table.note("Arithmetic.")
    for line, x0, x1, x2 in rows.arithmetic():
        table.add([line], x0, x1, x2)
    table.note("Drawn calculations, one and then eight at a time.")
    draw = random.Random(SEED)
    for lines, x0, x1, x2 in [*rows.drawn_calculations(draw, 1500, 1), *rows.drawn_calculations(draw, 500, 8)]:
        table.add(lines, x0, x1, x2)


def add_branches(table):
    table.note("The flags and the conditions behind a line: two bytes for each condition, 0 where it holds, by CSINC and by B.cond.")
    for line, x1, x2 in rows.differences():
        table.add(judged(line), "OLD", x1, x2)
    table.note("Branches over one word: X0 is 1 where it is left out.")
    for line, x1 in rows.TAKEN:
        table.add(["movz x0, #1", line, "movz x0, #0"], "0", x1)
    table.note("Programs. Under qemu a BRK with a handler stood for each SVC.")
    for name, lines in rows.PROGRAMS:
        table.program(name, lines)


def add_accesses(table):
    table.note("Loads and stores.")
    for line, x1 in rows.LOADS + rows.PAIRS:
        table.add([line], "OLD", x1, keys=ALL)
    for line, x1 in rows.STORES:
        table.add([line], "OLD", x1, "MIXED", keys=ALL)
    table.note("LDP of two equal registers: the manual leaves it open, and that the second load stays is this project's choice.")
    for line, x1 in rows.LDP_TWICE:
        table.left_open.add(table.add([line], "OLD", x1, keys=ALL))


def add_tags(table):
    table.note("Tags that are calculated.")
    for line, x1 in rows.TAG_SUMS:
        table.add([line], "OLD", x1)
    table.note("""Tags that are drawn. How a choice becomes a tag is this project's own: by hand it is `ChooseNonExcludedTag` of the choice and
offset 0. qemu agrees where at most one tag is left.""")
    for line, x1, x2, choice in rows.TAG_CHOICES:
        test = table.add([line], "OLD", x1, x2, choice=choice)
        excluded = test.before[2] & 0xFFFF | 1 if line.endswith("x2") else 1
        if excluded.bit_count() < 15:
            table.left_open.add(test)
    table.note("Tags that are loaded and stored.")
    for line, x0, x1 in rows.TAG_LOADS + rows.TAG_STORES:
        table.add([line], x0, x1, keys=ALL, tags=rows.TAGS)
    table.note("Accesses to memory with tags.")
    for line, x1 in rows.TAG_CHECKS:
        table.add([line], "OLD", x1, "MIXED", keys=ALL, tags=rows.TAGS)
    table.note("Drawn accesses to memory with drawn tags.")
    for line, x0, x1, x2, tags in rows.drawn_accesses(random.Random(SEED), 1000):
        table.add([line], x0, x1, x2, keys=ALL, tags=tags)


def add_own(table):
    for group in own.rows():
        table.note(group.__doc__)
        for row in group():
            table.own(*row)
    table.note(own.memory.__doc__)
    table.rows += own.memory()
    table.note("Which conditions hold at which flags, and complements: calls of the arithmetic, with what qemu told.")
    table.rows += own.calls()


def main():
    table = Rows()
    table.note("What A64 code does on the machine, run under qemu 7.2 (`-cpu max`) or, from \"Alignment comes\" on, by hand. Made by\n`tools/step-vectors/make.py`.")
    for part in (add_calculations, add_branches, add_accesses, add_tags, add_own):
        part(table)
    assemble(table.tests())
    run(table.ran())
    if table.compare() > 0:
        return 1
    text = table.text()
    count = sum(not row.startswith("#") for row in text.splitlines())
    wrong = False
    for name, content in (("stdin", text), ("stdout", f"{count} rows, 0 differ\n")):
        path = ROWS / name
        if "--write" in sys.argv:
            path.write_text(content)
        elif path.read_text() != content:
            print(f"{path} is another: tools/step-vectors/make.py --write")
            wrong = True
    print(f"{count} rows")
    return 1 if wrong else 0


if __name__ == "__main__":
    sys.exit(main())
