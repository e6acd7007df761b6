#!/usr/bin/env python3
"""Makes rows of `meaning_rows` from the sample programs: for each `examples/NAME.mean` the program `examples/NAME.c`, with the input
`examples/NAME.in` where there is one.

    tools/example_rows.py           fails where the rows in crates/meaning_rows/stdin are others
    tools/example_rows.py --write   writes them, and their number

`NAME.mean` is what a terminal shows of `mtcc mean examples/NAME.c; echo $?` (tools/check-examples runs that): what the program puts,
mtcc's own line where there is one, and the status. What the program puts is empty or ends with a newline. Where the line names a step
without a meaning, the comment on top of the program says the step, as in "the step is `to[i]`".
"""
import pathlib
import re
import sys

TOP = pathlib.Path(__file__).resolve().parent.parent
ROWS = TOP / 'crates' / 'meaning_rows'
HEAD = '# ---- the sample programs, made by tools/example_rows.py\n'
ENDS = {'85': 'divide', '83': 'deep', '86': 'more', '74': 'input fault', '73': 'output fault'}


def quoted(text):
    return '"' + ''.join(c if ' ' <= c <= '~' and c not in '"\\' else f'\\x{ord(c):02x}' for c in text) + '"'


def end_of(name, source, line, status):
    """The end of a run as rows say it."""
    found = re.fullmatch(r'mtcc: (\S+):(\d+): undefined (\w+)', line)
    if not found:
        return ENDS[status] if line else f'done {status}'
    step = re.search(r'the\s+step\s+is\s+`([^`]+)`', source)
    if not step or not source[int(found[2]):].startswith(step[1]) or found[1] != f'examples/{name}.c' or status != '87':
        sys.exit(f'examples/{name}.mean does not agree with examples/{name}.c')
    return f'undefined {found[3]} {found[1]} {found[2]} {step[1]}'


def row(path):
    name, source = path.stem, path.with_suffix('.c').read_text()
    beside = path.with_suffix('.in')
    *shown, status = path.read_text().splitlines()
    line = shown.pop() if shown and shown[-1].startswith('mtcc: ') else ''
    return '\n'.join([f'program example_{name}', f'file examples/{name}.c', *(f'| {text}'.rstrip(' ') for text in source.splitlines()),
                      f'input {quoted(beside.read_text() if beside.exists() else "")}', 'work 100000000',
                      f'output {quoted("".join(text + chr(10) for text in shown))}', f'end {end_of(name, source, line, status)}', '', ''])


def main():
    text = (ROWS / 'stdin').read_text()
    by_hand = text.split(HEAD)[0]
    right = by_hand + HEAD + '\n' + ''.join(map(row, sorted((TOP / 'examples').glob('*.mean'))))
    count = f'{len(re.findall("^program ", right, re.M))} rows, 0 differ\n'
    if '--write' in sys.argv:
        (ROWS / 'stdin').write_text(right)
        (ROWS / 'stdout').write_text(count)
        text = right
    agrees = text == right and (ROWS / 'stdout').read_text() == count
    print('the rows of the sample programs are right' if agrees else 'rows of the sample programs are others: tools/example_rows.py --write')
    return 0 if agrees else 1


if __name__ == '__main__':
    sys.exit(main())
