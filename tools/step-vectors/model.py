"""A second reading of what the instructions do, by hand from the operations of the Arm ARM, C6.2.

make.py compares it with what ran. No table takes a number from here but where make.py says so.
"""

MASK64 = (1 << 64) - 1


def signed(value, bits):
    value &= (1 << bits) - 1
    return value - (1 << bits) if value >> (bits - 1) else value


def next_tag(tag, offset, exclude):
    """AArch64.ChooseNonExcludedTag."""
    if exclude & 0xFFFF == 0xFFFF:
        return 0
    while offset == 0 and exclude >> tag & 1:
        tag = (tag + 1) % 16
    for _ in range(offset):
        tag = (tag + 1) % 16
        while exclude >> tag & 1:
            tag = (tag + 1) % 16
    return tag


def with_tag(address, tag):
    return address & ~(15 << 56) & MASK64 | tag << 56


def quotient(one, other, bits, is_signed):
    if is_signed:
        one, other = signed(one, bits), signed(other, bits)
    if other == 0:
        return 0
    size = abs(one) // abs(other)
    return size if (one < 0) == (other < 0) else -size


def bitfield(value, immr, imms, bits, is_signed):
    count = (imms - immr if imms >= immr else imms) + 1
    field = value >> immr if imms >= immr else value
    field &= (1 << count) - 1
    if is_signed:
        field = signed(field, count)
    return field if imms >= immr else field << (bits - immr)


class Machine:
    def __init__(self, registers, sp, data_at, data, tags, choice=None):
        self.x = registers + [0] * (31 - len(registers))
        self.sp, self.n, self.z, self.c, self.v = sp, 0, 0, 0, 0
        self.data_at, self.data, self.tags, self.choice = data_at, bytearray(data), list(tags), choice
        self.out, self.end = [], None

    def flags(self):
        return self.n << 3 | self.z << 2 | self.c << 1 | self.v

    def get(self, number, sp=False):
        return self.x[number] if number < 31 else self.sp if sp else 0

    def put(self, number, value, sp=False):
        if number < 31:
            self.x[number] = value & MASK64
        elif sp:
            self.sp = value & MASK64

    def holds(self, cond):
        base = [self.z, self.c, self.n, self.v, self.c and not self.z, self.n == self.v, self.n == self.v and not self.z, True]
        return bool(base[cond >> 1]) != (cond & 1 == 1 and cond != 15)

    def granule(self, address):
        return (address % (1 << 56) - self.data_at) // 16

    def place(self, base, offset, size, checked):
        """The place of an access in the data, or None where it ends by a tag."""
        pointer = (base + offset) & MASK64
        place = pointer % (1 << 56) - self.data_at
        assert 0 <= place and place + size <= len(self.data)
        for granule in range(place // 16, (place + size - 1) // 16 + 1):
            if checked and self.tags[granule] != pointer >> 56 & 15 and self.end is None:
                self.end = f"tag {granule}"
                self.fault = (pointer % (1 << 56), pointer >> 56 & 15, self.tags[granule])
        return None if self.end else place

    def load(self, base, offset, size, checked=True):
        place = self.place(base, offset, size, checked)
        return None if place is None else int.from_bytes(self.data[place : place + size], "little")

    def store(self, base, offset, size, value, checked=True):
        place = self.place(base, offset, size, checked)
        if place is not None:
            self.data[place : place + size] = (value % (1 << 8 * size)).to_bytes(size, "little")

    def run(self, words, at):
        pc, steps = at, 0
        while self.end is None and steps < 1000:
            steps += 1
            pc = self.step(words[(pc - at) // 4], pc) & MASK64
        return self

    def step(self, w, pc):
        wide = w >> 31
        bits = 64 if wide else 32
        mask = (1 << bits) - 1
        rd, rn, ra, rm = w & 31, w >> 5 & 31, w >> 10 & 31, w >> 16 & 31
        nxt = pc + 4

        def result(value, sp=False):
            self.put(rd, value & mask, sp)

        def subtract(one, other):
            difference = (one - other) & mask
            self.n, self.z, self.c = difference >> (bits - 1), int(difference == 0), int(one >= other)
            self.v = int(signed(one, bits) - signed(other, bits) != signed(difference, bits))
            return difference

        n, m, a = self.get(rn) & mask, self.get(rm) & mask, self.get(ra) & mask
        base = self.get(rn, sp=True)
        checked = rn != 31
        if w & 0x1F800000 == 0x12800000:  # MOVN, MOVZ, MOVK
            kind, shift, imm = w >> 29 & 3, (w >> 21 & 3) * 16, w >> 5 & 0xFFFF
            if kind == 3:
                result(self.get(rd) & ~(0xFFFF << shift) | imm << shift)
            else:
                result(imm << shift if kind == 2 else ~(imm << shift))
        elif w & 0x1F800000 == 0x11000000:  # ADD, SUB, SUBS immediate
            imm = (w >> 10 & 0xFFF) << 12 * (w >> 22 & 1)
            if w >> 29 & 1:
                result(subtract(base & mask, imm))
            else:
                result(base - imm if w >> 30 & 1 else base + imm, sp=True)
        elif w & 0x1F200000 == 0x0B000000:  # ADD, SUB, SUBS register
            if w >> 29 & 1:
                result(subtract(n, m))
            else:
                result(n - m if w >> 30 & 1 else n + m)
        elif w & 0x1F000000 == 0x0A000000:  # AND, ORR, EOR
            result([n & m, n | m, n ^ m][w >> 29 & 3])
        elif w & 0xFFE0FC00 == 0x9AC01000:  # IRG
            self.put(rd, with_tag(base, next_tag(self.choice, 0, self.get(rm) & 0xFFFF | 1)), sp=True)
        elif w & 0x7FE0F000 == 0x1AC02000:  # LSLV, LSRV, ASRV
            count = m % bits
            result([n << count, n >> count, signed(n, bits) >> count][w >> 10 & 3])
        elif w & 0x7FE0F800 == 0x1AC00800:  # UDIV, SDIV
            result(quotient(n, m, bits, w >> 10 & 1))
        elif w & 0x7FE00000 == 0x1B000000:  # MADD, MSUB
            result(a - n * m if w >> 15 & 1 else a + n * m)
        elif w & 0x1F800000 == 0x13000000:  # SBFM, UBFM
            result(bitfield(n, w >> 16 & 63, w >> 10 & 63, bits, not w >> 30 & 1))
        elif w & 0x7FE00C00 == 0x1A800400:  # CSINC
            result(n if self.holds(w >> 12 & 15) else m + 1)
        elif w & 0x1F000000 == 0x10000000:  # ADRP
            self.put(rd, (pc & ~0xFFF) + (signed(w >> 3 & 0x1FFFFC | w >> 29 & 3, 21) << 12))
        elif w & 0x7E000000 == 0x34000000:  # CBZ, CBNZ
            if (self.get(rd) & mask == 0) != bool(w >> 24 & 1):
                nxt = pc + 4 * signed(w >> 5, 19)
        elif w & 0xFF000010 == 0x54000000:  # B.cond
            if self.holds(w & 15):
                nxt = pc + 4 * signed(w >> 5, 19)
        elif w & 0x7C000000 == 0x14000000:  # B, BL
            if wide:
                self.x[30] = pc + 4
            nxt = pc + 4 * signed(w, 26)
        elif w == 0xD65F03C0:  # RET
            nxt = self.x[30]
        elif w & 0xFFE0001F == 0xD4000001:  # SVC, this project's services
            if w >> 5 & 0xFFFF == 1:
                self.x[0] &= 0xFF
                self.out.append(self.x[0])
            else:
                self.end = "exit" if w >> 5 & 0xFFFF == 3 else "service"
        elif w & 0x3F000000 == 0x39000000:  # loads and stores with an unsigned offset
            size, kind = 1 << (w >> 30), w >> 22 & 3
            offset = (w >> 10 & 0xFFF) * size
            if kind == 0:
                self.store(base, offset, size, self.get(rd), checked)
            else:
                value = self.load(base, offset, size, checked)
                if value is not None:
                    self.put(rd, signed(value, 8 * size) if kind == 2 else value)
        elif w & 0xFF800000 == 0xA9000000:  # STP, LDP
            offset = 8 * signed(w >> 15, 7)
            if w >> 22 & 1:
                pair = self.load(base, offset, 16, checked)
                if pair is not None:
                    self.put(rd, pair & MASK64)
                    self.put(ra, pair >> 64)
            else:
                self.store(base, offset, 16, self.get(rd) | self.get(ra) << 64, checked)
        elif w & 0xBFC0C000 == 0x91800000:  # ADDG, SUBG
            offset, tag = 16 * (w >> 16 & 63), next_tag(base >> 56 & 15, w >> 10 & 15, 1)
            self.put(rd, with_tag((base - offset if w >> 30 & 1 else base + offset) & MASK64, tag), sp=True)
        elif w & 0xFF200000 == 0xD9200000:  # STG, STZG, ST2G, STZ2G, LDG
            address, kind = base + 16 * signed(w >> 12, 9), w >> 22 & 3
            granule = self.granule(address)
            if w >> 10 & 3 == 0:
                self.put(rd, with_tag(self.get(rd), self.tags[granule]))
            else:
                for place in range(granule, granule + 1 + (kind >> 1)):
                    self.tags[place] = self.get(rd, sp=True) >> 56 & 15
                    if kind & 1:
                        self.data[16 * place : 16 * place + 16] = bytes(16)
        else:
            assert w == 0xD503201F, f"{w:08x}"  # NOP
        return nxt
