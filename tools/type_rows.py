#!/usr/bin/env python3
"""Compares what gcc says of the C texts in crates/type_rows/stdin with the column that says so.

    tools/type_rows.py            prints each row that differs, and ends with 1 then
    tools/type_rows.py --write    writes the column

A row is a text, what the profile says of it, what gcc says, and where one of the two refuses it and the other does not, why:

    "TEXT" => typed ; gcc ok
    "TEXT" => NUMBER START-END PART ; gcc LINE:COLUMN MESSAGE ; REASON

START-END are the bytes of the construct that breaks the rule of the number, and PART is that part of the text. Of gcc the row has the
first error. Plain char is unsigned in the profile, as on AArch64, so gcc is told that. The answers of the profile were worked out by
hand from docs/LANGUAGE.md, and those for pairs of integer types from C11 6.3.1.
"""
import os
import pathlib
import re
import subprocess
import sys

ROWS = pathlib.Path(__file__).resolve().parent.parent / 'crates/type_rows/stdin'
GCC = ['gcc', '-std=c11', '-pedantic-errors', '-fsyntax-only', '-funsigned-char', '-x', 'c', '-']
ROW = re.compile(r'"(?P<text>.*)" => (?P<answer>.*?) ; gcc (?P<gcc>.*?)(?: ; (?P<reason>.*))?')
ESCAPES = {'n': '\n', 't': '\t', 'r': '\r', '\\': '\\'}


def unquoted(text):
    """The text that a row writes, as crates/test_rows reads it."""
    text = re.sub(r'\\\{(\d+) (.*?)\\\}', lambda part: part[2] * int(part[1]), text)
    escape = lambda part: ESCAPES.get(part[1]) or chr(int(part[1][1:], 16))
    return re.sub(r'\\([ntr\\]|x[0-9a-f]{2})', escape, text)


def said(text):
    """The place and the words of gcc's first error, or `ok`."""
    run = subprocess.run(GCC, input=text.encode('latin-1'), capture_output=True, env=dict(os.environ, LC_ALL='C'))
    first = re.search(r'^<stdin>:(\d+(?::\d+)?): error: (.*)$', run.stderr.decode('latin-1'), re.M)
    if first:
        return f'{first[1]} {first[2]}'
    return 'ok' if run.returncode == 0 else 'no place'


def part_is_there(row):
    """Whether the bytes of an answer's construct are the part that it names."""
    if row['answer'] == 'typed':
        return True
    number, place, part = row['answer'].split(' ', 2)
    start, end = map(int, place.split('-'))
    return 9 <= int(number) <= 19 and unquoted(row['text'])[start:end] == unquoted(part)


def main():
    lines, differ = ROWS.read_text().splitlines(), 0
    for number, line in enumerate(lines, 1):
        if not line or line.startswith('#'):
            continue
        row = ROW.fullmatch(line)
        if row is None or not part_is_there(row):
            print(f'{number}: no row: {line}')
            differ += 1
            continue
        now = said(unquoted(row['text']))
        reason = f' ; {row["reason"]}' if row['reason'] else ''
        lines[number - 1] = f'"{row["text"]}" => {row["answer"]} ; gcc {now}{reason}'
        agree = (row['answer'] == 'typed') == (now == 'ok')
        if now != row['gcc'] and '--write' not in sys.argv[1:]:
            print(f'{number}: gcc says {now}: {line}')
            differ += 1
        elif agree == bool(row['reason']):
            print(f'{number}: {"a needless reason" if agree else "no reason"}: {line}')
            differ += 1
    if '--write' in sys.argv[1:]:
        ROWS.write_text('\n'.join(lines) + '\n')
    return 1 if differ else 0


if __name__ == '__main__':
    sys.exit(main())
