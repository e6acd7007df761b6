#!/usr/bin/env python3
"""Makes the rows of crates/plan_rows by running the lists of frames under qemu.

    tools/plan-vectors/make.py           fails where the rows are others
    tools/plan-vectors/make.py --write   writes the rows

It needs Debian's gcc-aarch64-linux-gnu and qemu-user. The frames are those of C functions: some at the edges, and others
drawn from a seed. The words of their lists come from `tag_plan`, by the program plan_rows as `rt ci` built it, or by `rt try`
where it did not; what they leave comes from run.c under qemu-aarch64 -cpu max, tags, registers and bytes. The tags are compared with those that the rules give.
"""
import random
import subprocess
import sys
import tempfile
from pathlib import Path

FOLDER = Path(__file__).parent
CRATE = FOLDER.parent.parent / "crates/plan_rows"
SEED = 20261202
FRAMES = 80
HEAD = """# What the code that tags a frame leaves after each of its calls, run under qemu (`-cpu max`). Made by
# `tools/plan-vectors/make.py`.
"""


class Frame:
    """A function with its locals, and the calls to make for it. Slot 0 is the parameter, which is safe."""

    def __init__(self):
        self.text, self.calls, self.scopes = "", ["entry"], []
        self.slots = [(0, False)]  # of each slot the bytes, 0 where it is safe, and whether it is of an inner scope

    def tagged(self, size):
        name = f"a{len(self.slots)}"
        self.text += f"char {name}[{size}];{name}[i]=1;"
        if self.scopes:
            self.scopes[-1].append(len(self.slots))
            self.calls.append(f"enter:{len(self.slots)}")
        self.slots.append((size, bool(self.scopes)))

    def safe(self, kind):
        self.text += f"{kind} s{len(self.slots)};"
        self.slots.append((0, False))

    def open(self):
        self.text += "{"
        self.scopes.append([])

    def close(self, leaves=True):
        """The scope ends. Where it does not leave its slots, the function is left from inside."""
        self.text += "}"
        inside = self.scopes.pop()
        if leaves and inside:
            self.calls.append(f"leave:{inside[0]}:{inside[-1]}")
        elif self.scopes:
            self.scopes[-1] += inside

    def at(self, slot, register):
        self.calls.append(f"at:{slot}:{register}")

    def question(self, tag):
        return f'"void f(int i){{{self.text}}}" {tag} {" ".join(self.calls)}'


def plain(*sizes):
    """Slots that live as long as the call, and pointers to the first and the last of them."""
    frame = Frame()
    for size in sizes:
        frame.tagged(size)
    frame.at(1, 0)
    frame.at(len(sizes), 27)
    frame.at(0, 3)
    frame.calls.append("exit")
    return frame


def between():
    """Inner slots between outer ones."""
    frame = Frame()
    frame.tagged(32)
    frame.open()
    frame.tagged(48)
    frame.open()
    frame.tagged(160)
    frame.close()
    frame.close()
    frame.tagged(16)
    frame.open()
    frame.tagged(80)
    frame.close(leaves=False)
    frame.tagged(64)
    frame.calls.append("exit")
    return frame


def edges():
    frames = [plain(16 * count) for count in (*range(1, 36), 47, 48, 49, 255, 256, 2048, 16000)]
    frames += [plain(*[16] * 15), plain(*[16] * 17), plain(*[48] * 31), plain(1), plain(17), plain(4095, 4096, 4097)]
    frames += [plain(262144 - 48), plain(16, 262144 - 64), plain(131072, 131072 - 48), between()]
    untagged = Frame()
    untagged.safe("int")
    untagged.at(0, 5)
    untagged.calls.append("exit")
    return [*frames, untagged]


def drawn(source):
    """A frame from a source of random numbers."""
    frame = Frame()
    left = 250000
    for _ in range(source.randint(1, 20)):
        what = source.random()
        if what < 0.2:
            frame.safe(source.choice(("char", "int", "long", "short")))
        elif what < 0.4 and len(frame.scopes) < 4:
            frame.open()
        elif what < 0.55 and frame.scopes:
            frame.close(source.random() < 0.8)
        else:
            size = min(left, source.choice((source.randint(1, 40), source.randint(1, 700), source.randint(1, 20000))))
            if size > 0:
                left -= size + 16
                frame.tagged(size)
    while frame.scopes:
        frame.close(source.random() < 0.8)
    for _ in range(2):
        frame.at(source.randrange(len(frame.slots)), source.randint(0, 15))
    frame.calls.append("exit")
    return frame


def words_of(frames):
    """For each frame its bytes and the words of its lists."""
    questions = "".join(f"{frame.question('1')} => words\n" for frame in frames)
    built = CRATE / "out/plan_rows"
    command = [built] if built.exists() else ["rt", "try", "plan_rows"]
    done = subprocess.run(command, input=questions, capture_output=True, text=True, cwd=CRATE)
    answers = [line for line in done.stdout.splitlines() if line.endswith(", not words")]
    assert len(answers) == len(frames), done.stdout[-2000:] + done.stderr[-2000:]
    found = []
    for frame, answer in zip(frames, answers):
        start = f"{frame.question('1')}: "
        assert answer.startswith(start), answer
        size, *lists = answer[len(start):-len(", not words")].split(" /")
        found.append((int(size), [[int(word, 16) for word in words.split()] for words in lists]))
    return found


def states_of(listed):
    """For each frame the states that its lists leave under qemu, and X28 after the first."""
    lines = []
    for size, lists in listed:
        numbers = [size, len(lists)]
        for words in lists:
            numbers += [len(words), *words]
        lines.append(" ".join(f"{number:x}" for number in numbers))
    with tempfile.TemporaryDirectory() as folder:
        program = f"{folder}/run"
        compiler = ["aarch64-linux-gnu-gcc", "-O1", "-static", "-march=armv8.5-a+memtag"]
        subprocess.run([*compiler, "-o", program, FOLDER / "run.c"], check=True)
        command = ["qemu-aarch64", "-cpu", "max", "-seed", str(SEED), program]
        done = subprocess.run(command, input="\n".join(lines), capture_output=True, text=True, timeout=300)
    found = done.stdout.splitlines()
    assert len(found) == len(listed), done.stdout[-2000:] + done.stderr[-2000:]
    states = []
    for line in found:
        parts = [part.split(": ") for part in line.split(" / ")]
        assert all(len(part) == 2 for part in parts), line
        states.append((int(parts[0][0], 16) >> 56 & 15, [state for _, state in parts]))
    return states


def runs(tags):
    """Tags of granules as rows have them."""
    told, last, count = [], None, 0
    for tag in [*tags, None]:
        if tag != last and count:
            told.append(f"{last:X}x{count:X}")
            count = 0
        last, count = tag, count + 1
    return ",".join(told)


def tags_by_the_rules(frame, size, base):
    """The tags after each call, by docs/TAGGING.md: the tagged slots end where the frame does, and 0 is left out."""
    granules = [-(-slot_bytes // 16) for slot_bytes, _ in frame.slots]
    numbers = [number for number, count in enumerate(granules) if count]
    place = size // 16 - sum(granules)
    where = {}
    for index, number in enumerate(numbers):
        where[number] = (place, granules[number], (base - 1 + index % 15) % 15 + 1)
        place += granules[number]
    live, found = set(), []
    for call in frame.calls:
        name, *rest = call.split(":")
        if name == "entry":
            live = {number for number in numbers if not frame.slots[number][1]}
        elif name == "enter":
            live.add(int(rest[0]))
        elif name == "leave":
            live -= set(range(int(rest[0]), int(rest[1]) + 1))
        elif name == "exit":
            live = set()
        tags = [0] * (size // 16)
        for number in live:
            start, count, tag = where[number]
            tags[start:start + count] = [tag] * count
        found.append(runs([3] * 16 + tags + [3] * 16))
    return found


def rows():
    source = random.Random(SEED)
    frames = edges() + [drawn(source) for _ in range(FRAMES)]
    text = HEAD
    listed = words_of(frames)
    for frame, (size, _), (tag, states) in zip(frames, listed, states_of(listed)):
        for call, state, tags in zip(frame.calls, states, tags_by_the_rules(frame, size, tag or 1)):
            assert f" tags={tags} " in f" {state}", (frame.question(f"{tag:X}"), call, state, tags)
        shown = [state for call, state in zip(frame.calls, states) if not call.startswith("at:")]
        text += f"{frame.question(f'{tag:X}')} => {' / '.join(shown)}\n"
    return text


def main():
    path, found = CRATE / "stdin", rows()
    if "--write" in sys.argv:
        path.write_text(found)
        count = sum(line[:1] == '"' for line in found.splitlines())
        (CRATE / "stdout").write_text(f"{count} rows, 0 differ\n")
    elif path.read_text() != found:
        sys.exit(f"{path} has other rows: {sys.argv[0]} --write")


if __name__ == "__main__":
    main()
