#!/usr/bin/env python3
"""A machine that was written from docs/MACHINE.md alone, and that page's own table of instructions, which it reads. It runs the programs of
crates/machine_rows/stdin and prints each for which it comes to something else. So the page says all that the machine does there."""
import pathlib
import re
import sys

TOP = pathlib.Path(__file__).resolve().parent.parent
ONES = 2 ** 64 - 1
# What rows have in memory (crates/machine_rows/src/layout.rt): start, bytes, whether it may be written, whether it may be executed.
CODE, DATA = 0x10000000, 0x20000000
REGIONS = [(CODE - 1024, 4096, True, True), (DATA, 64, True, False), (0x30000000, 16, False, True)]
GUARD = (DATA + 64, 32)
NUMBERS = [0x77665544B3A29180, 0x8F1E2D3C4B5A6978, 0x60E1D2C3B4A596F7, 0xF1E2D3C435A67788] * 2
OTHER = 0x1F


def table():
    """The rows of the page's table: the name, whether it works on 64 bits, the base word, the bits outside of fields, the fields, and those
    in which 31 is SP."""
    found, page = [], (TOP / 'docs/MACHINE.md').read_text()
    for line in page[page.index('### The table'):].split('\n'):
        cells = [cell.strip() for cell in line.strip().strip('|').split('|')]
        if len(cells) != 6 or not cells[1].startswith('`'):
            continue
        for wide, base in ((True, cells[2]), (False, cells[3])):
            if base:
                fields = fields_of(cells[4], wide)
                fixed = 0xFFFFFFFF
                for high, low in fields.values():
                    fixed &= ~(2 ** (high + 1) - 2 ** low)
                # LDRB, STRB, LDRH and STRH have a W register
                found.append((cells[0].split()[0], wide and '<wt>' not in cells[1], int(base, 16), fixed, fields, cells[5].split(', ')))
    return found


def fields_of(text, wide):
    fields = {}
    for field in text.split(', ') if text != 'none' else []:
        name, high, low, high_w, low_w = re.fullmatch(r'(\w+) (\d+)(?::(\d+))?(?: \(W: (\d+)(?::(\d+))?\))?', field).groups()
        if not wide and high_w:
            high, low = high_w, low_w
        fields[name] = int(high), int(low or high)
    return fields


TABLE = table()
FOUND = {}


def decode(word):
    if word not in FOUND:
        row = next((row for row in TABLE if word & row[3] == row[2]), None)
        FOUND[word] = row and (*row, {name: word >> low & 2 ** (high + 1 - low) - 1 for name, (high, low) in row[4].items()})
    return FOUND[word]


def signed(number, bits):
    return number - 2 ** bits if number >> bits - 1 & 1 else number


def next_tag(tag, offset, excluded):
    if len(excluded) == 16:
        return 0
    while not offset and tag in excluded:
        tag = (tag + 1) % 16
    while offset:
        tag = (tag + 1) % 16
        offset -= tag not in excluded
    return tag


def holds(condition, flags):
    n, z, c, v = flags
    first = (z, c, n, v, c and not z, n == v, n == v and not z, True)[condition // 2]
    return bool(first) != (condition % 2 == 1 and condition != 15)


class End(Exception):
    """How a run ends, as rows say it."""


class Machine:
    def __init__(self, words, before):
        self.x, self.sp, self.flags, self.pc = [0] * 31, int(before.get('sp', '0'), 16), (False,) * 4, CODE
        for name, value in before.items():
            if re.fullmatch(r'x\d+', name):
                self.x[int(name[1:])] = int(value, 16)
        if 'pc' in before:
            self.pc = self.x[30] = int(before['pc'], 16)
        self.memory, self.out, self.puts, self.takes = {}, b'', 0, 0
        self.store(DATA, 64, sum(number << 64 * place for place, number in enumerate(NUMBERS)))
        self.store(CODE, 4 * len(words), sum(word << 32 * place for place, word in enumerate(words)))
        self.tags = {DATA // 16 + place: int(tag, 16) for place, tag in enumerate(before.get('tags', ''))}
        self.choices = [int(tag, 16) for tag in before.get('choices', '')] or [0]
        self.drawn = int(before.get('drawn', '0'), 16)
        self.input = list(bytes.fromhex(before.get('in', '')))
        self.failing = int(before.get('read', '-1'), 16), int(before.get('write', '-1'), 16)
        self.room = int(before.get('room', 'FFFF'), 16)

    def rights(self, at):
        return next(((write, run) for start, count, write, run in REGIONS if start <= at < start + count), None)

    def load(self, at, count):
        return int.from_bytes(bytes(self.memory.get(at + place, OTHER) for place in range(count)), 'little')

    def store(self, at, count, number):
        for place, byte in enumerate((number % 2 ** (8 * count)).to_bytes(count, 'little')):
            self.memory[at + place] = byte

    def register(self, number, is_sp=False, wide=True):
        value = self.x[number] if number < 31 else self.sp if is_sp else 0
        return value if wide else value & 0xFFFFFFFF

    def put(self, number, value, is_sp=False, wide=True):
        value &= ONES if wide else 0xFFFFFFFF
        if number < 31:
            self.x[number] = value
        elif is_sp:
            self.sp = value

    def judge(self, pointer, count, stores, multiple, checked):
        """The address of an access, where nothing is wrong with it. That of LDG has no multiple, and the bytes of its granule."""
        at = pointer % 2 ** 56
        first = at if multiple else at // 16 * 16
        if multiple and at % multiple:
            raise End(f'align:{at:X}')
        if first < GUARD[0] + GUARD[1] and GUARD[0] < first + count:
            raise End('stack')
        for byte in range(first, first + count):
            rights = self.rights(byte)
            if rights is None or stores and not rights[0]:
                raise End(f'memory:{at:X}')
        for granule in range(first // 16, (first + count - 1) // 16 + 1) if checked else ():
            tag = self.tags.get(granule, 0)
            if tag != pointer >> 56 & 15:
                raise End(f'tag:{at:X}:{pointer >> 56 & 15:X}:{tag:X}')
        return at

    def step(self):
        pc, bad = self.pc, End(f'code:{self.pc:X}')
        if pc % 4 or not all((self.rights(pc + place) or (0, 0))[1] for place in range(4)) or not decode(self.load(pc, 4)):
            raise bad
        name, wide, _, _, _, sp, field = decode(self.load(pc, 4))
        self.pc = pc + 4 & ONES

        def get(key):
            return self.register(field[key], key in sp, wide)

        def put(key, value):
            self.put(field[key], value, key in sp, wide)

        try:
            for effect in (self.computes, self.branches, self.accesses, self.tagging):
                if effect(name, wide, field, get, put):
                    return
            self.service(field['imm16'], bad)
        except End:
            self.pc = pc
            raise

    def computes(self, name, wide, field, get, put):
        width = 64 if wide else 32
        if name in ('MOVZ', 'MOVN'):
            number = field['imm16'] << 16 * field['hw']
            put('Rd', number if name == 'MOVZ' else ~number)
        elif name == 'MOVK':
            put('Rd', get('Rd') & ~(0xFFFF << 16 * field['hw']) | field['imm16'] << 16 * field['hw'])
        elif name in ('ADD', 'SUB', 'SUBS'):
            left, right = get('Rn'), field['imm12'] << 12 * field['sh'] if 'sh' in field else get('Rm')
            result = (left + right if name == 'ADD' else left - right) % 2 ** width
            if name == 'SUBS':
                over = signed(left, width) - signed(right, width) != signed(result, width)
                self.flags = result >> width - 1 == 1, result == 0, left >= right, over
            put('Rd', result)
        elif name in ('AND', 'ORR', 'EOR'):
            left, right = get('Rn'), get('Rm')
            put('Rd', left & right if name == 'AND' else left | right if name == 'ORR' else left ^ right)
        elif name in ('LSLV', 'LSRV', 'ASRV'):
            number, count = get('Rn'), get('Rm') % width
            put('Rd', number << count if name == 'LSLV' else (signed(number, width) if name == 'ASRV' else number) >> count)
        elif name in ('UDIV', 'SDIV'):
            left, right = (signed(get(key), width) if name == 'SDIV' else get(key) for key in ('Rn', 'Rm'))
            put('Rd', 0 if right == 0 else abs(left) // abs(right) * (1 if (left < 0) == (right < 0) else -1))
        elif name in ('MADD', 'MSUB'):
            put('Rd', get('Ra') + (1 if name == 'MADD' else -1) * get('Rn') * get('Rm'))
        elif name in ('SBFM', 'UBFM'):
            immr, imms = field['immr'], field['imms']
            count, by = (imms - immr + 1, 0) if imms >= immr else (imms + 1, width - immr)
            taken = (get('Rn') >> immr if imms >= immr else get('Rn')) % 2 ** count
            put('Rd', (signed(taken, count) if name == 'SBFM' else taken) << by)
        elif name == 'CSINC':
            put('Rd', get('Rn') if holds(field['cond'], self.flags) else get('Rm') + 1)
        elif name == 'ADRP':
            put('Rd', (self.pc - 4 & ~4095) + 4096 * signed(field['immhi'] << 2 | field['immlo'], 21))
        else:
            return name == 'NOP'
        return True

    def branches(self, name, wide, field, get, put):
        here = self.pc - 4
        if name in ('B', 'BL'):
            if name == 'BL':
                self.x[30] = self.pc
            self.pc = here + 4 * signed(field['imm26'], 26) & ONES
        elif name in ('CBZ', 'CBNZ', 'B.cond'):
            if holds(field['cond'], self.flags) if name == 'B.cond' else (get('Rt') == 0) == (name == 'CBZ'):
                self.pc = here + 4 * signed(field['imm19'], 19) & ONES
        elif name == 'RET':
            self.pc = self.x[30]
        else:
            return False
        return True

    def accesses(self, name, wide, field, get, put):
        if not re.fullmatch(r'(LDR|STR)\w*|LDP|STP', name):
            return False
        stores, checked, base = name.startswith('ST'), field['Rn'] < 31, self.register(field['Rn'], True)
        if name in ('LDP', 'STP'):
            at = self.judge(base + 8 * signed(field['imm7'], 7) & ONES, 16, stores, 8, checked)
            for place, key in enumerate(('Rt', 'Rt2')):
                if stores:
                    self.store(at + 8 * place, 8, self.register(field[key]))
                else:
                    self.put(field[key], self.load(at + 8 * place, 8))
            return True
        size = {'': 8 if wide else 4, 'B': 1, 'H': 2, 'W': 4}[name[3:].replace('S', '')]
        at = self.judge(base + size * field['imm12'] & ONES, size, stores, size, checked)
        if stores:
            self.store(at, size, self.register(field['Rt']))
        else:
            number = self.load(at, size)
            self.put(field['Rt'], signed(number, 8 * size) if 'S' in name else number)
        return True

    def tagging(self, name, wide, field, get, put):
        if name in ('ADDG', 'SUBG'):
            base = get('Rn')
            tag = next_tag(base >> 56 & 15, field['uimm4'], {0})
            put('Rd', base + (16 if name == 'ADDG' else -16) * field['uimm6'] & ~(15 << 56) | tag << 56)
        elif name == 'IRG':
            choice, mask = self.choices[self.drawn % len(self.choices)], self.register(field['Rm'])
            self.drawn += 1
            tag = next_tag(choice, 0, {0} | {tag for tag in range(16) if mask >> tag & 1})
            put('Rd', get('Rn') & ~(15 << 56) | tag << 56)
        elif name in ('STG', 'STZG', 'ST2G', 'STZ2G', 'LDG'):
            pointer = self.register(field['Rn'], True) + 16 * signed(field['simm9'], 9) & ONES
            if name == 'LDG':
                at = self.judge(pointer, 16, False, 0, False)
                self.put(field['Rt'], self.register(field['Rt']) & ~(15 << 56) | self.tags.get(at // 16, 0) << 56)
                return True
            count = 32 if '2' in name else 16
            at = self.judge(pointer, count, True, 16, False)
            for granule in range(at // 16, (at + count) // 16):
                self.tags[granule] = get('Rt') >> 56 & 15
            if 'Z' in name:
                self.store(at, count, 0)
        else:
            return False
        return True

    def service(self, number, bad):
        if number == 1:
            self.puts += 1
            if self.puts - 1 == self.failing[1] or len(self.out) == self.room:
                raise End('output')
            self.x[0] &= 255
            self.out += bytes([self.x[0]])
        elif number == 2:
            self.takes += 1
            if self.takes - 1 == self.failing[0]:
                raise End('input')
            self.x[0] = self.input.pop(0) if self.input else ONES
        elif number == 3:
            raise End(f'exit:{self.x[0] & 255}')
        else:
            raise End('divide') if number == 4 else bad

    def told(self, name):
        """What a row's answer says of this name."""
        if name == 'out':
            return self.out.hex().upper()
        if name == 'nzcv':
            return f'{sum(flag << 3 - place for place, flag in enumerate(self.flags)):X}'
        if name[0] in 'mt':
            at = int(name[1:], 16)
            return f'{self.load(at, 8) if name[0] == "m" else self.tags.get(at // 16, 0):X}'
        return f'{self.sp if name == "sp" else self.x[int(name[1:])]:X}'


def differs(row):
    question, answer = row.split(' =>', 1)
    words, _, before = question.partition(' |')
    words, before = [int(word, 16) for word in words.split()], dict(item.split('=') for item in before.split())
    machine, end = Machine(words, before), 'steps'
    try:
        for _ in range(int(before.get('steps', 'FFFF'), 16)):
            # code follows the words that puts out what the answer asks for, and exits with 0
            if machine.pc == CODE + 4 * len(words):
                raise End('exit:0')
            machine.step()
    except End as ended:
        end = str(ended)
    wanted, *after = answer.split(' ; ')[0].split()
    return end != wanted or any(machine.told(name) != value.upper() for name, value in (item.split('=') for item in after))


def main():
    rows = [row for row in (TOP / 'crates/machine_rows/stdin').read_text().splitlines() if re.match(r'[0-9A-F]{8}[ |]', row)]
    wrong = [row for row in rows if differs(row)]
    print(*wrong, f'{len(rows)} programs, {len(wrong)} differ', sep='\n')
    return 1 if wrong else 0


if __name__ == '__main__':
    sys.exit(main())
