#!/usr/bin/env python3
"""Makes the table of where `decode` begins its search, from the rows of the instruction table.

    tools/first_rows.py           fails where the table in the source is another
    tools/first_rows.py --write   writes it

An error in that table costs time and nothing else, so no contract speaks of it.
"""
import pathlib
import re
import sys

SOURCE = pathlib.Path(__file__).parent.parent / "crates/a64_code/src"
LINE = re.compile(r"^ +[A-Z]\w* (0x[0-9A-F_]+)(?: (0x[0-9A-F_]+))? \{(.*)\}$", re.M)
PLACE = re.compile(r"^pub const (\w+): Place = (\w+)!\(([^)]*)\);$", re.M)
UPPER = 0xFF80_0000


def places():
    """The lowest bit of each place, and its numbers of bits in the form on 64 bits and in that on 32."""
    found = {}
    for name, kind, words in PLACE.findall((SOURCE / "place.rt").read_text()):
        numbers = [int(word) for word in words.split(", ") if word.isdigit()]
        widths = [5] if kind == "register" else numbers[1:]
        found[name] = (numbers[0], widths[0], widths[-1])
    return found


def rows():
    """The base word of each row, and the bits where no field stands: the forms on 64 bits, and then those on 32."""
    lines = LINE.findall((SOURCE / "table.rt").read_text())
    of = places()
    mask = lambda fields, form: sum(((1 << of[name][form]) - 1) << of[name][0] for name in re.findall(r"= (\w+)", fields))
    row = lambda base, fields, form: (int(base, 16), 0xFFFF_FFFF ^ mask(fields, form))
    return [row(x, fields, 1) for x, _, fields in lines] + [row(w, fields, 2) for _, w, fields in lines if w]


def first_rows():
    """For each value of a word's upper nine bits, the first row that such a word may fit, or the number of rows."""
    all_rows = rows()
    fits = lambda upper, row: (upper << 23) & row[1] & UPPER == row[0] & UPPER
    return [next((place for place, row in enumerate(all_rows) if fits(upper, row)), len(all_rows)) for upper in range(512)]


def main():
    path = SOURCE / "first_rows.rt"
    text = path.read_text()
    head, rest = text.split("= [", 1)
    found = [int(number) for number in re.findall(r"\d+", rest)]
    right = first_rows()
    if "--write" in sys.argv:
        lines = [", ".join(map(str, right[place : place + 24])) for place in range(0, 512, 24)]
        path.write_text(head + "= [\n" + "".join(f"    {line},\n" for line in lines) + "];\n")
        found = right
    print("the table is right" if found == right else "the table is another: tools/first_rows.py --write")
    return 0 if found == right else 1


if __name__ == "__main__":
    sys.exit(main())
