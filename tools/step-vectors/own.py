"""Rows of what no processor tells: the guard, the order of faults, the services, and runs. They were written by hand from
docs/MACHINE.md. Each is its lines of assembly, what stands before them, and the answer, as crates/machine_rows reads them."""

CODE, DATA, UPPER, GUARD, BEHIND, FIXED, EMPTY = 0x1000_0000, 0x2000_0000, 0x2000_0020, 0x2000_0040, 0x2000_0060, 0x3000_0000, 0x4000_0000
# The tags of the data in the rows that say so.
TAGS = "3500"
SIZES = {1: "b", 2: "h", 4: "", 8: ""}


def tagged(at, tag):
    """An address with a tag, and ones above it."""
    return 0xF << 60 | tag << 56 | at


def access(name, size, base):
    register = "x0" if size == 8 else "w0"
    return f"{name}{SIZES[size]} {register}, [{base}]"


def single(pointer, size, loading, storing, base="x1"):
    """A load and a store of a size at a pointer, and how they end."""
    before = f"x1={pointer:X} sp={pointer:X} tags={TAGS}"
    return [([access(name, size, base)], before, end) for name, end in (("ldr", loading), ("str", storing))]


def double(pointer, end, base="x1"):
    before = f"x1={pointer:X} sp={pointer:X} tags={TAGS}"
    return [([f"{name} x0, x2, [{base}]"], before, end) for name in ("ldp", "stp")]


def tags(pointer, one, two):
    """Stores of one and of two tags at a pointer, and how they end."""
    before = f"x0={9 << 56:X} x1={pointer:X} tags={TAGS}"
    ends = (("stg", one), ("stzg", one), ("st2g", two), ("stz2g", two))
    return [([f"{name} x0, [x1]"], before, end) for name, end in ends]


DONE = "exit:0"


def judged():
    """Alignment comes before the guard, that before no region, that before rights, and these before tags."""
    rows = single(tagged(DATA, 3), 8, DONE, DONE) + single(tagged(DATA + 15, 3), 1, DONE, DONE)
    rows += single(tagged(DATA, 4), 8, f"tag:{DATA:X}:4:3", f"tag:{DATA:X}:4:3")
    rows += single(tagged(DATA, 4), 8, DONE, DONE, "sp")
    rows += single(tagged(DATA + 17, 5), 2, f"align:{DATA + 17:X}", f"align:{DATA + 17:X}")
    rows += single(tagged(DATA + 17, 4), 8, f"align:{DATA + 17:X}", f"align:{DATA + 17:X}")
    rows += single(GUARD + 4, 8, f"align:{GUARD + 4:X}", f"align:{GUARD + 4:X}")
    rows += single(BEHIND + 4, 8, f"align:{BEHIND + 4:X}", f"align:{BEHIND + 4:X}")
    rows += single(GUARD + 8, 8, "stack", "stack") + single(tagged(GUARD, 7), 1, "stack", "stack")
    rows += single(GUARD + 31, 1, "stack", "stack") + single(GUARD + 24, 8, "stack", "stack", "sp")
    rows += single(BEHIND, 4, f"memory:{BEHIND:X}", f"memory:{BEHIND:X}")
    rows += single(tagged(BEHIND, 9), 1, f"memory:{BEHIND:X}", f"memory:{BEHIND:X}")
    rows += single(DATA - 1, 1, f"memory:{DATA - 1:X}", f"memory:{DATA - 1:X}")
    rows += single(EMPTY, 1, f"memory:{EMPTY:X}", f"memory:{EMPTY:X}")
    rows += single(0, 8, "memory:0", "memory:0") + single((1 << 56) - 8, 8, f"memory:{(1 << 56) - 8:X}", f"memory:{(1 << 56) - 8:X}")
    rows += single(tagged(FIXED, 0), 4, DONE, f"memory:{FIXED:X}")
    rows += single(tagged(FIXED, 7), 4, f"tag:{FIXED:X}:7:0", f"memory:{FIXED:X}")
    rows += single(FIXED + 8, 8, DONE, f"memory:{FIXED + 8:X}", "sp")
    rows += single(CODE, 4, DONE, DONE)
    return rows


def judged_pairs():
    """Of a pair that touches two granules the first that differs counts; bytes are judged before tags."""
    rows = double(tagged(DATA, 3), DONE) + double(tagged(DATA + 8, 3), f"tag:{DATA + 8:X}:3:5")
    rows += double(tagged(DATA + 8, 5), f"tag:{DATA + 8:X}:5:3") + double(tagged(DATA + 8, 9), f"tag:{DATA + 8:X}:9:3")
    rows += double(tagged(DATA + 8, 9), DONE, "sp") + double(tagged(DATA + 24, 5), f"tag:{DATA + 24:X}:5:0")
    rows += double(UPPER - 8, f"tag:{UPPER - 8:X}:0:5") + double(UPPER - 8, DONE, "sp")
    rows += double(DATA + 12, f"align:{DATA + 12:X}") + double(GUARD + 4, f"align:{GUARD + 4:X}")
    rows += double(GUARD - 8, "stack") + double(GUARD, "stack") + double(GUARD + 24, "stack") + double(tagged(GUARD - 8, 6), "stack")
    rows += double(DATA - 8, f"memory:{DATA - 8:X}") + double(FIXED + 8, f"memory:{FIXED + 8:X}") + double(BEHIND, f"memory:{BEHIND:X}")
    rows.append((["ldp x0, x2, [x1]"], f"x1={tagged(FIXED, 0):X}", DONE + " x0=1F1F1F1F1F1F1F1F x2=1F1F1F1F1F1F1F1F"))
    rows.append((["stp x0, x2, [x1]"], f"x1={tagged(FIXED, 0):X}", f"memory:{FIXED:X}"))
    rows.append((["ldp x0, x2, [x1]"], f"x1={tagged(FIXED, 8):X}", f"tag:{FIXED:X}:8:0"))
    rows.append((["stp x0, x2, [x1]"], f"x1={tagged(FIXED, 8):X}", f"memory:{FIXED:X}"))
    rows.append((["stp x0, x2, [sp]"], f"x0=1 x2=2 sp={DATA + 8:X} tags={TAGS}", f"{DONE} m{DATA + 8:X}=1 m{DATA + 16:X}=2 m{DATA + 24:X}=F1E2D3C435A67788"))
    return rows


def stored_tags():
    """Of two granules that are tagged either both are or none is; a tag needs a granule that may be written."""
    align, memory = lambda at: f"align:{at:X}", lambda at: f"memory:{at:X}"
    rows = tags(GUARD - 16, DONE + f" t{GUARD - 16:X}=9", "stack") + tags(GUARD - 24, align(GUARD - 24), align(GUARD - 24))
    rows += tags(GUARD, "stack", "stack") + tags(GUARD + 16, "stack", "stack") + tags(GUARD + 8, align(GUARD + 8), align(GUARD + 8))
    rows += tags(FIXED, memory(FIXED), memory(FIXED)) + tags(DATA - 16, memory(DATA - 16), memory(DATA - 16))
    rows += tags(BEHIND, memory(BEHIND), memory(BEHIND)) + tags(tagged(DATA, 12), DONE + f" t{DATA:X}=9", DONE + f" t{DATA:X}=9 t{DATA + 16:X}=9")
    rows += tags(UPPER - 16, DONE + f" t{UPPER - 16:X}=9 t{UPPER:X}=0", DONE + f" t{UPPER - 16:X}=9 t{UPPER:X}=9")
    loads = [(DATA + 5, "x0=300000000000000"), (DATA + 16, "x0=500000000000000"), (DATA + 47, "x0=0"), (FIXED + 9, "x0=0")]
    rows += [(["ldg x0, [x1]"], f"x1={at:X} tags={TAGS}", f"{DONE} {found}") for at, found in loads]
    ends = [(GUARD + 3, "stack"), (GUARD - 16, DONE), (DATA - 1, memory(DATA - 1)), (BEHIND + 5, memory(BEHIND + 5)), (EMPTY, memory(EMPTY))]
    rows += [(["ldg x0, [x1]"], f"x1={at:X} tags={TAGS}", end) for at, end in ends]
    cleared = f"{DONE} m{DATA:X}=0 m{DATA + 8:X}=0 t{DATA:X}=9 t{DATA + 16:X}=5 m{DATA + 16:X}=60E1D2C3B4A596F7"
    rows.append((["stzg x0, [x1]"], f"x0={9 << 56:X} x1={DATA:X} tags={TAGS}", cleared))
    both = f"{DONE} m{DATA + 16:X}=0 m{DATA + 24:X}=0 m{UPPER:X}=0 m{UPPER + 8:X}=0 t{DATA + 16:X}=9 t{UPPER:X}=9 t{DATA:X}=3"
    rows.append((["stz2g x0, [x1]"], f"x0={9 << 56:X} x1={DATA + 16:X} tags={TAGS}", both))
    rows.append((["ldp x0, x2, [x1]"], f"x1={tagged(DATA + 8, 0):X} tags=0000", f"{DONE} x0=8F1E2D3C4B5A6978 x2=60E1D2C3B4A596F7"))
    return rows


# Puts each byte of the input until its end, and exits with 7.
ECHO = ["svc #2", "add x1, x0, #1", "cbz x1, .+12", "svc #1", "b .-16", "movz x0, #7", "svc #3"]
# Puts the tags of addresses with random tags, for ever.
DRAW = ["irg x2, x2, xzr", "ubfm x0, x2, #56, #63", "svc #1", "b .-12"]


def services():
    """Bytes are taken and put, and each call may fail."""
    rows = [(ECHO, before, end) for before, end in (
        ("in=", "exit:7 out="),
        ("in=6162FF", "exit:7 out=6162FF"),
        ("in=7069656365730A", "exit:7 out=7069656365730A"),
        ("in=6162 read=1", "input out=61"),
        ("in=6162 read=2", "input out=6162"),
        ("in=6162 read=0", "input out="),
        ("in=616263 write=1", "output out=61"),
        ("in=616263 write=0", "output out="),
        ("in=616263 room=2", "output out=6162"),
        ("in=616263 room=0", "output out="),
    )]
    rows += [([line], before, end) for line, before, end in (
        ("svc #2", "in=41 x0=FEDCBA9876543210", "exit:0 x0=41"),
        ("svc #2", "in= x0=0", "exit:0 x0=FFFFFFFFFFFFFFFF"),
        ("svc #2", "in=FF00 x0=0", "exit:0 x0=FF"),
        ("svc #1", "x0=FEDCBA9876543210", "exit:0 out=10 x0=10"),
        ("svc #3", "", "exit:0"),
        ("svc #3", "x0=FEDCBA98765432FF", "exit:255"),
        ("svc #3", "x0=100", "exit:0"),
        ("svc #4", "x0=1", "divide"),
        ("svc #0", "", f"code:{CODE:X}"),
        ("svc #5", "", f"code:{CODE:X}"),
        ("svc #65535", "", f"code:{CODE:X}"),
    )]
    return rows


# Exits with the low byte of 65,580.
EXIT_44 = ["movz w0, #44", "movk w0, #1, lsl #16", "svc #3"]


def exits():
    """Programs that only exit."""
    ends = ((0, "steps"), (1, "steps"), (2, "steps"), (3, "exit:44"), (9, "exit:44"), (100_000_000, "exit:44"))
    rows = [(EXIT_44, f"steps={steps:X}", end) for steps, end in ends]
    rows += [(["movz xzr, #7", "svc #3"], "", "exit:0"), (["movz w0, #44", "movk w0, #7", "svc #3"], "", "exit:7")]
    rows += [(["svc #3", "svc #3"], f"pc={CODE + 2:X}", f"code:{CODE + 2:X}"), (["svc #4", "svc #3"], f"pc={CODE + 4:X}", "exit:0")]
    rows += [(["movz w0, #44", ".inst 0"], "", f"code:{CODE + 4:X}")]
    return rows


def runs():
    """A run of n steps goes so far; the choices go round, and tag 0 is never chosen."""
    rows = [(ECHO, f"in=6162 steps={steps:X}", end) for steps, end in (
        (0, "steps out="), (1, "steps out="), (3, "steps out="), (4, "steps out=61"), (5, "steps out=61"), (8, "steps out=61"),
        (9, "steps out=6162"), (10, "steps out=6162"), (14, "steps out=6162"), (15, "exit:7 out=6162"), (16, "exit:7 out=6162"))]
    rows += [(DRAW, f"choices={choices} drawn={drawn:X} steps=14", f"steps out={out}") for choices, drawn, out in (
        ("30", 0, "0301030103"), ("30", 1, "0103010301"), ("30", (1 << 64) - 1, "0103010301"), ("5", 7, "0505050505"),
        ("12345", 0, "0102030405"), ("12345", 8, "0405010203"), ("F", 0, "0F0F0F0F0F"), ("0", 0, "0101010101"), ("", 0, "0101010101"))]
    return rows


def no_code():
    """Where nothing can be fetched, or there is no row of the table."""
    rows = [(["nop"], f"pc={at:X}", f"code:{at:X}") for at in (
        0, 0x5000_0000, DATA, CODE + 1, CODE + 2, CODE + 3, FIXED, FIXED + 16, GUARD, EMPTY, (1 << 64) - 4, tagged(CODE, 0), 3 << 56 | CODE,
        0x1000_0C00, 0x0FFF_FBFC, FIXED + 13)]
    rows += [([f".inst 0x{word:08X}"], "", f"code:{CODE:X}") for word in (0, 0xFFFF_FFFF, 0xD65F_0000, 0xD420_0020, 0xD503_203F, 0x1F1F_1F1F)]
    rows += [(["nop", ".inst 0"], "", f"code:{CODE + 4:X}"), (["movz x30, #0", "ret"], "", "code:0"), (["movz x30, #2", "ret"], "", "code:2")]
    rows += [(["bl .+8", "svc #4", ".inst 0"], "", f"code:{CODE + 8:X}"), (["b .+134217724"], "", "code:17FFFFFC"), (["b .-134217728"], "", "code:8000000")]
    return rows


def memory():
    """Accesses to memory without the machine: the guard comes before no region, and that before rights."""
    wanted = (
        (DATA, 16, "=8091A2B344556677 78695A4B3C2D1E8F", "done"),
        (UPPER - 8, 16, "=8877A635C4D3E2F1 8091A2B344556677", "done"),
        (UPPER - 1, 2, "=F180", "done"),
        (GUARD - 8, 16, "guard", "guard"),
        (GUARD + 28, 8, "guard", "guard"),
        (GUARD, 1, "guard", "guard"),
        (GUARD - 1, 1, "=F1", "done"),
        (DATA - 4, 8, "unmapped", "unmapped"),
        (FIXED + 12, 8, "unmapped", "unmapped"),
        (FIXED, 4, "=1F1F1F1F", "protected"),
        (FIXED + 15, 1, "=1F", "protected"),
        (BEHIND, 1, "unmapped", "unmapped"),
        ((1 << 64) - 1, 2, "unmapped", "unmapped"),
        ((1 << 64) - 1, 1, "unmapped", "unmapped"),
        (0, 1, "unmapped", "unmapped"),
        (EMPTY, 0, "=", "done"),
        (EMPTY, 1, "unmapped", "unmapped"),
        (GUARD, 0, "=", "done"),
    )
    rows = []
    for at, count, reading, writing in wanted:
        rows.append(f"memory r {at:X} {count:X} => {reading.replace(' ', '')}")
        rows.append(f"memory w {at:X} {'5A' * count} => {writing}")
        if writing == "done" and count:
            rows.append(f"memory w {at:X} {'5A' * count}, r {at:X} {count:X}, t {at:X} => done ={'5A' * count} 0")
    rows += [
        f"memory w {UPPER - 2:X} 01020304, s {UPPER + 5:X} 9, s {FIXED:X} 9, s {GUARD:X} 9, s {DATA - 16:X} 9, r {UPPER - 3:X} 6 => done done protected guard unmapped =D301020304A2",
        f"memory w {UPPER - 2:X} 01020304, s {UPPER + 5:X} 9, t {UPPER:X}, t {UPPER + 15:X}, t {UPPER - 1:X}, t {UPPER + 16:X} => done done 9 9 0 0",
        f"memory s {UPPER:X} 9, t {FIXED:X}, t {GUARD:X}, t {BEHIND:X}, t {EMPTY:X} => done 0 none none none",
        f"memory s {UPPER:X} 9, w {UPPER:X} 00, t {UPPER:X}, s {UPPER:X} 4, t {UPPER + 1:X}, r {UPPER:X} 2 => done done 9 done 4 =0091",
        f"memory s {DATA:X} F, s {DATA + 16:X} 1, s {DATA + 15:X} 2, t {DATA:X}, t {DATA + 16:X} => done done done 2 1",
    ]
    rows += [f"memory f {at:X} => {found}" for at, found in (
        (FIXED, "1F1F1F1F"), (FIXED + 12, "1F1F1F1F"), (FIXED + 2, "none"), (FIXED + 16, "none"), (DATA, "none"), (GUARD, "none"), (FIXED - 4, "none"),
        (0x1000_0BFC, "1F1F1F1F"), (0x1000_0C00, "none"), (EMPTY, "none"), (0, "none"), ((1 << 64) - 4, "none"))]
    rows.append(f"memory w {CODE:X} 78563412, f {CODE:X} => done 12345678")
    return rows


# Which conditions hold at which flags: `ConditionHolds` of the Arm ARM, as qemu told them, which can set all flags.
HOLDING = [0xD6AA, 0xEA6A, 0xD5A6, 0xE966, 0xE6A9, 0xEA69, 0xE6A5, 0xEA65, 0xEA9A, 0xD65A, 0xE996, 0xD556, 0xEA99, 0xE659, 0xEA95, 0xE655]
# A width, a number, and what MVN gives.
TURNED = [
    (64, 0x0, 0xFFFFFFFFFFFFFFFF),
    (64, 0xFF, 0xFFFFFFFFFFFFFF00),
    (64, 0x123456789ABCDEF, 0xFEDCBA9876543210),
    (64, 0xFFFFFFFFFFFFFFFF, 0x0),
    (32, 0x0, 0xFFFFFFFF),
    (32, 0xFF, 0xFFFFFF00),
    (32, 0x123456789ABCDEF, 0x76543210),
    (32, 0xFFFFFFFFFFFFFFFF, 0x0),
]


def rows():
    """All rows of code, in groups with what they show."""
    return [judged, judged_pairs, stored_tags, services, exits, runs, no_code]


def calls():
    """Rows of calls without the machine."""
    holding = [f"holds {nzcv:X} => {mask:X}" for nzcv, mask in enumerate(HOLDING)]
    return holding + [f"not{width} {value:X} => {turned:X}" for width, value, turned in TURNED]
