#!/usr/bin/env python3
"""Writes the rows of crates/file_rows/stdin of single ELF64 records: those of a program of the host and of the shared object that
clang made, taken apart by `struct` with the widths of elf.h, and each kind cut off. What `readelf` says of the headers has to agree.
Usage: record_rows.py crates/file_rows [ELF FILE]"""
import re
import struct
import subprocess
import sys

from file_row_sections import write_section

# the widths of elf.h: the fields of a header after the 16 bytes of identification, and those of each other record
WIDTHS = {'ehdr': '<16xHHIQQQIHHHHHH', 'phdr': '<IIQQQQQQ', 'shdr': '<IIQQQQIIQQ', 'sym': '<IBBHQQ', 'rela': '<QQq', 'dyn': '<qQ'}
MOST = 12
lines = []


def row(kind, data, at=0):
    size = struct.calcsize(WIDTHS[kind])
    one = data[at:at + size]
    fields = struct.unpack(WIDTHS[kind], one) if len(one) == size else None
    said = ' '.join(map(str, fields)) if fields else f'Short {len(one)}'
    lines.append(f'record {kind} {one.hex()} | {said}')
    return fields


def records_of(path):
    """Rows of a file: its header, its program headers, its section headers, and the first records of each table in it."""
    with open(path, 'rb') as file:
        data = file.read()
    header = row('ehdr', data)
    said = subprocess.run(['readelf', '-hW', path], capture_output=True, text=True, check=True).stdout
    for name, field in (('Number of program headers', 9), ('Number of section headers', 11), ('Start of section headers', 5)):
        assert int(re.search(name + r':\s+(\d+)', said)[1]) == header[field], name
    for k in range(header[9]):
        row('phdr', data, header[4] + 56 * k)
    for k in range(header[11]):
        section = row('shdr', data, header[5] + 64 * k)
        kind = {2: 'sym', 11: 'sym', 4: 'rela', 6: 'dyn'}.get(section[1])
        for j in range(min(MOST, section[5] // section[9]) if kind else 0):
            row(kind, data, section[4] + struct.calcsize(WIDTHS[kind]) * j)


folder = sys.argv[1]
for path in sys.argv[2:] or ['/bin/true', folder + '/data/globals.so']:
    lines.append(f'\n# {path.rsplit("/")[-1]}')
    records_of(path)
lines.append('\n# every bit set, and each kind without its last byte, with one byte and with none')
for kind, widths in WIDTHS.items():
    whole = b'\xff' * struct.calcsize(widths)
    for length in len(whole), len(whole) - 1, 1, 0:
        row(kind, whole[:length])
lines.append('\n# entries of flags, of a tag below 0')
for tag, value in (0x6FFFFFFB, 0x08000000), (-2, 7):
    row('dyn', struct.pack(WIDTHS['dyn'], tag, value))
write_section(folder, 'Single records of ELF64 files, and their fields in order, or how many bytes there are.', lines)
