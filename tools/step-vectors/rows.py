"""The rows that make.py runs: lines of assembly with the numbers before them, written as the tables write them.

A number is an expression over CONSTANTS. The rows hold no result: make.py runs each line and gets it from there.
"""

# What the tables and the rows call by a name, with what it is.
CONSTANTS = {
    "CODE": (0x1000_0000, "Where a program's first word stands."),
    "DATA": (0x2000_0000, "Where the data stands, eight doublewords in four granules."),
    "OLD": (0xFEDC_BA98_7654_3210, "What a register holds that is to be overwritten."),
    "MIXED": (0x0123_4567_89AB_CDEF, "A number without symmetry, whose lower half is negative."),
    "HIGH": (0x5A5A_5A5A_0000_0000, "An upper half that an instruction on 32 bits must not see."),
    "LEAST": (0x8000_0000_0000_0000, "The least signed number of 64 bits."),
    "MOST": (0x7FFF_FFFF_FFFF_FFFF, "The greatest signed number of 64 bits."),
    "ONES": (0xFFFF_FFFF_FFFF_FFFF, "All ones."),
    "FIRST": (0x7766_5544_B3A2_9180, "The first doubleword of the data, and the fifth."),
    "SECOND": (0x8F1E_2D3C_4B5A_6978, "The second doubleword of the data, and the sixth."),
    "THIRD": (0x60E1_D2C3_B4A5_96F7, "The third doubleword of the data, and the seventh."),
    "FOURTH": (0xF1E2_D3C4_35A6_7788, "The fourth doubleword of the data, and the eighth."),
}
# The data, and the tags of its granules in the tables that say so.
MEMORY = ["FIRST", "SECOND", "THIRD", "FOURTH"] * 2
TAGS = [3, 0, 15, 8]


def binary(operation, width, *operands):
    """Rows of an operation on X1 and X2 or their lower halves."""
    return [(f"{operation} {width}0, {width}1, {width}2", "OLD", first, second) for first, second in operands]


def moves():
    rows = []
    for name, before in (("movz", "OLD"), ("movk", "MIXED"), ("movn", "OLD")):
        for shift in ("", ", lsl #16", ", lsl #32", ", lsl #48"):
            rows.append((f"{name} x0, #43981{shift}", before, "0", "0"))
        for shift in ("", ", lsl #16"):
            rows.append((f"{name} w0, #43981{shift}", "MIXED", "0", "0"))
        rows.append((f"{name} x0, #0, lsl #48", "ONES", "0", "0"))
        rows.append((f"{name} w0, #65535", "HIGH + 0x7FFF_0000", "0", "0"))
        rows.append((f"{name} xzr, #1", "OLD", "0", "0"))
    return rows


def sums():
    lines = [
        ("add x0, x1, #4095", "ONES"),
        ("add x0, x1, #4095, lsl #12", "ONES"),
        ("add x0, x1, #1", "MOST"),
        ("add x0, x1, #0", "MIXED"),
        ("add w0, w1, #4095", "HIGH + 0xFFFF_FFFF"),
        ("add w0, w1, #4095, lsl #12", "HIGH + 0x7FFF_FFFF"),
        ("add w0, w1, #0", "MIXED"),
        ("add x0, sp, #16", "DATA"),
        ("add w0, wsp, #1", "ONES"),
        ("sub x0, x1, #4095", "0"),
        ("sub x0, x1, #4095, lsl #12", "LEAST"),
        ("sub x0, x1, #0", "MIXED"),
        ("sub w0, w1, #4095", "HIGH"),
        ("sub w0, w1, #1, lsl #12", "HIGH + 0x8000_0000"),
        ("sub x0, sp, #32", "DATA"),
        ("sub w0, wsp, #4095", "HIGH + 4094"),
    ]
    rows = [(line, "OLD", first, "0") for line, first in lines]
    rows += binary("add", "x", ("ONES", "1"), ("MOST", "1"), ("MIXED", "MIXED"), ("LEAST", "LEAST"))
    rows += binary("add", "w", ("HIGH + 0xFFFF_FFFF", "HIGH + 1"), ("HIGH + 0x7FFF_FFFF", "HIGH + 1"), ("MIXED", "ONES"))
    rows += binary("sub", "x", ("0", "1"), ("LEAST", "1"), ("MIXED", "ONES"), ("OLD", "OLD"))
    rows += binary("sub", "w", ("HIGH", "HIGH + 1"), ("HIGH + 0x8000_0000", "1"), ("MIXED", "ONES"))
    return rows + with_zero("add", "sub")


def with_zero(*operations):
    """Rows where register 31 is the zero register in each place."""
    lines = ("{} x0, x1, xzr", "{} x0, xzr, x2", "{} w0, w1, wzr", "{} w0, wzr, w2", "{} xzr, x1, x2")
    return [(line.format(name), "OLD", "MIXED", "ONES - 1") for name in operations for line in lines]


def logic():
    rows = []
    for name in ("and", "orr", "eor"):
        rows += binary(name, "x", ("MIXED", "0xFF00_FF00_FF00_FF0F"), ("LEAST + 1", "ONES"))
        rows += binary(name, "w", ("MIXED", "HIGH + 0xFF00_FF0F"), ("HIGH + 0x8000_0000", "ONES"))
    return rows + with_zero("and", "orr", "eor")


def shifts():
    rows = []
    for name in ("lslv", "lsrv", "asrv"):
        counts = ("0", "31", "32", "63", "64", "ONES - 62")
        rows += binary(name, "x", *[("LEAST + 0x8000_0001", count) for count in counts])
        counts = ("0", "31", "32", "63", "64", "HIGH + 0xFFFF_FFE4")
        rows += binary(name, "w", *[("HIGH + 0x8000_0001", count) for count in counts])
    rows.append(("lslv x0, x1, xzr", "OLD", "MIXED", "1"))
    rows.append(("asrv x0, xzr, x2", "OLD", "MIXED", "1"))
    return rows


def quotients():
    rows = binary("udiv", "x", ("7", "0"), ("ONES", "2"), ("LEAST", "ONES"), ("ONES", "ONES"), ("7", "8"), ("MIXED", "1000"))
    rows += binary("udiv", "w", ("HIGH + 7", "HIGH"), ("HIGH + 0xFFFF_FFFF", "HIGH + 2"), ("HIGH + 0x8000_0000", "ONES"))
    rows += binary("sdiv", "x", ("7", "0"), ("LEAST", "0"), ("LEAST", "ONES"), ("ONES - 6", "2"), ("7", "ONES - 1"))
    rows += binary("sdiv", "x", ("ONES - 6", "ONES - 1"), ("LEAST", "2"), ("LEAST", "LEAST"), ("MOST", "LEAST"))
    rows += binary("sdiv", "w", ("HIGH + 7", "HIGH"), ("HIGH + 0x8000_0000", "HIGH + 0xFFFF_FFFF"))
    rows += binary("sdiv", "w", ("HIGH + 0xFFFF_FFF9", "HIGH + 2"), ("HIGH + 7", "HIGH + 0xFFFF_FFFE"))
    rows += binary("sdiv", "w", ("HIGH + 0xFFFF_FFF9", "HIGH + 0xFFFF_FFFE"), ("HIGH + 0x8000_0000", "HIGH + 1"))
    for name in ("udiv", "sdiv"):
        rows += [(f"{name} x0, x1, xzr", "OLD", "MIXED", "1"), (f"{name} x0, xzr, x2", "OLD", "MIXED", "3")]
    return rows


def products():
    rows = []
    for name in ("madd", "msub"):
        rows.append((f"{name} x0, x1, x2, x0", "1", "ONES", "ONES"))
        rows.append((f"{name} x0, x1, x2, x0", "OLD", "MIXED", "MIXED"))
        rows.append((f"{name} x0, x1, x2, x0", "LEAST", "LEAST", "3"))
        rows.append((f"{name} x0, x1, x2, xzr", "OLD", "ONES", "7"))
        rows.append((f"{name} x0, xzr, x2, x0", "5", "ONES", "7"))
        rows.append((f"{name} w0, w1, w2, w0", "HIGH + 1", "HIGH + 0xFFFF_FFFF", "HIGH + 0xFFFF_FFFF"))
        rows.append((f"{name} w0, w1, w2, wzr", "OLD", "MIXED", "OLD"))
    return rows


def bitfields():
    wide = ["0, #63", "63, #63", "4, #63", "0, #0", "0, #7", "0, #15", "0, #31", "4, #11", "31, #31", "31, #32", "63, #62"]
    wide += ["36, #47", "60, #3", "60, #4", "1, #0", "63, #0", "32, #31", "48, #47"]
    narrow = ["0, #31", "31, #31", "4, #31", "0, #0", "0, #7", "0, #15", "4, #10", "16, #20", "31, #30", "28, #3", "28, #4"]
    narrow += ["1, #0", "31, #0", "16, #15"]
    rows = []
    for name in ("sbfm", "ubfm"):
        rows += [(f"{name} x0, x1, #{fields}", "OLD", "LEAST + MIXED", "0") for fields in wide]
        rows += [(f"{name} w0, w1, #{fields}", "OLD", "HIGH + 0x89AB_CDEF", "0") for fields in narrow]
        rows.append((f"{name} x0, xzr, #60, #3", "OLD", "ONES", "0"))
    return rows


def selections():
    rows = [
        ("csinc x0, x1, x2, eq", "OLD", "MIXED", "MIXED"),
        ("csinc x0, x1, x2, eq", "OLD", "5", "6"),
        ("csinc x0, x1, x2, eq", "OLD", "5", "ONES"),
        ("csinc x0, x1, x2, lt", "OLD", "ONES", "5"),
        ("csinc x0, x1, x2, lt", "OLD", "5", "MIXED"),
        ("csinc w0, w1, w2, ne", "OLD", "MIXED", "ONES"),
        ("csinc w0, w1, w2, eq", "OLD", "MIXED", "ONES"),
        ("csinc w0, w1, w2, eq", "OLD", "MIXED", "HIGH + 0x7FFF_FFFF"),
        ("csinc x0, x1, xzr, eq", "OLD", "5", "6"),
        ("csinc x0, xzr, x2, ne", "OLD", "5", "6"),
        ("csinc x0, x1, x2, al", "OLD", "5", "6"),
        ("csinc x0, x1, x2, nv", "OLD", "5", "6"),
        ("csinc xzr, x1, x2, eq", "OLD", "5", "6"),
    ]
    return rows


def pages():
    distances = ("+0", "+4096", "-4096", "-4294967296", "+4294963200")
    return [(f"adrp x0, .{distance}", "OLD", "0", "0") for distance in distances] + [("nop", "OLD", "0", "0")]


def calculations():
    """Lines that leave their result in X0, with X0, X1 and X2 before."""
    parts = (moves, sums, logic, shifts, quotients, products, bitfields, selections, pages)
    return [row for part in parts for row in part()]


def differences():
    """Lines of SUBS, with X1 and X2 before. Together they reach every setting of the flags on both widths."""
    wide = [("0", "0"), ("1", "0"), ("0", "1"), ("3", "ONES"), ("MOST", "ONES"), ("LEAST", "1"), ("LEAST", "MOST")]
    wide += [("0", "LEAST"), ("ONES", "ONES"), ("ONES", "1"), ("MIXED", "OLD"), ("LEAST", "LEAST"), ("MOST", "LEAST")]
    narrow = [("HIGH", "0"), ("HIGH + 1", "HIGH"), ("0", "HIGH + 1"), ("HIGH + 3", "ONES"), ("HIGH + 0x7FFF_FFFF", "ONES")]
    narrow += [("HIGH + 0x8000_0000", "1"), ("0x8000_0000", "HIGH + 0x7FFF_FFFF"), ("HIGH", "0x8000_0000"), ("MIXED", "OLD")]
    narrow += [("ONES", "HIGH + 1")]
    rows = [("subs x0, x1, x2", first, second) for first, second in wide]
    rows += [("subs w0, w1, w2", first, second) for first, second in narrow]
    rows += [
        ("subs xzr, x1, x2", "5", "7"),
        ("subs x0, xzr, x2", "5", "LEAST"),
        ("subs x0, x1, xzr", "LEAST", "5"),
        ("subs w0, wzr, w2", "5", "HIGH"),
        ("subs x0, x1, #0", "0", "0"),
        ("subs x0, x1, #4095", "4095", "0"),
        ("subs x0, x1, #4095", "LEAST + 4094", "0"),
        ("subs x0, x1, #1, lsl #12", "4095", "0"),
        ("subs x0, x1, #4095, lsl #12", "ONES", "0"),
        ("subs x0, sp, #16", "DATA", "0"),
        ("subs xzr, sp, #4095", "4094", "0"),
        ("subs w0, w1, #1", "HIGH", "0"),
        ("subs w0, w1, #4095, lsl #12", "HIGH + 0x80FF_EFFF", "0"),
        ("subs w0, wsp, #0", "HIGH + 0x8000_0000", "0"),
    ]
    return rows


# Lines that leave their result in SP, with X1 before, which is SP too.
STACK_POINTERS = [
    ("add sp, x1, #0", "MIXED"),
    ("add sp, x1, #4095, lsl #12", "ONES"),
    ("add sp, sp, #16", "DATA"),
    ("add wsp, w1, #1", "HIGH + 0xFFFF_FFFE"),
    ("sub sp, sp, #4095, lsl #12", "0"),
    ("sub sp, x1, #32", "DATA"),
    ("sub wsp, wsp, #16", "HIGH + 8"),
    ("subs xzr, x1, #16", "DATA"),
    ("add xzr, x1, x1", "DATA"),
    ("addg sp, sp, #16, #1", "0x0F00_0000_2000_0000"),
    ("addg sp, x1, #1008, #15", "0x0100_0000_2000_0000"),
    ("subg sp, sp, #32, #0", "DATA"),
    ("subg sp, x1, #0, #14", "0x0300_0000_2000_0000"),
]

# Branches over one word, with X1 before.
TAKEN = [
    *[(f"{name} {register}1, .+8", value) for name in ("cbz", "cbnz") for register in ("x", "w")
      for value in ("0", "HIGH", "HIGH + 0x8000_0000", "LEAST", "1", "0x8000_0000")],
    ("cbz xzr, .+8", "1"),
    ("cbz wzr, .+8", "1"),
    ("cbnz xzr, .+8", "1"),
    ("cbnz wzr, .+8", "1"),
    ("b .+8", "0"),
    ("bl .+8", "0"),
]

# Puts out the eight bytes of X1, lowest first.
PUT_X1 = ["movz x2, #8", "orr x0, xzr, x1", "svc #1", "ubfm x1, x1, #8, #63", "sub x2, x2, #1", "cbnz x2, .-16"]

# Whole programs: each begins at CODE and ends by service 3.
PROGRAMS = [
    ("cbnz goes back until a counter is zero",
     ["movz x1, #3", "add x0, x1, #64", "svc #1", "sub x1, x1, #1", "cbnz x1, .-12", "svc #3"]),
    ("cbnz on 32 bits goes back until the lower half is zero",
     ["movz x1, #1, lsl #32", "movk x1, #2", "add x0, x1, #64", "svc #1", "sub x3, x1, #1", "sub x1, x1, #1", "cbnz w1, .-16", "svc #3"]),
    ("cbz goes back while a register is zero",
     ["b .+16", "movz x0, #66", "svc #1", "movz x1, #1", "cbz x1, .-12", "movz x0, #7", "svc #3"]),
    ("a condition goes back while it holds",
     ["movz x1, #68", "sub x1, x1, #1", "orr x0, xzr, x1", "svc #1", "subs xzr, x1, #65", "b.ne .-16", "svc #3"]),
    ("what is no subs leaves the flags",
     ["movz x1, #1", "subs xzr, x1, #2", "sub x1, x1, #1", "add x2, x1, x1", "sub x2, x1, x1", "and x2, x1, x1", "eor x2, x1, x1",
      "lslv x2, x1, x1", "udiv x2, x1, x1", "madd x2, x1, x1, x1", "ubfm x2, x1, #1, #63", "movz x2, #0", "csinc x0, xzr, xzr, mi",
      "svc #1", "csinc x0, xzr, xzr, eq", "svc #1", "csinc x0, xzr, xzr, cs", "svc #1", "svc #3"]),
    ("b goes forward and back",
     ["b .+16", "movz x0, #66", "svc #1", "b .+16", "movz x0, #65", "svc #1", "b .-20", "movz x0, #67", "svc #1", "svc #3"]),
    ("bl puts the address of the next word into x30",
     ["nop", "bl .+8", "svc #4", "orr x1, xzr, x30", *PUT_X1, "svc #3"]),
    ("ret goes back behind bl",
     ["bl .+16", "movz x0, #66", "svc #1", "svc #3", "movz x0, #65", "svc #1", "ret"]),
    ("bl goes back to a function before it, which leaves x30",
     ["b .+16", "movz x0, #65", "svc #1", "ret", "bl .-12", "bl .-16", "orr x1, xzr, x30", *PUT_X1, "svc #3"]),
    ("a function that calls keeps x30 elsewhere",
     ["bl .+12", "movz x0, #67", "svc #3", "orr x3, xzr, x30", "bl .+16", "orr x30, xzr, x3", "movz x0, #66", "b .+12",
      "movz x0, #65", "b .+4", "svc #1", "ret"]),
    ("ret goes to any address in x30",
     ["movz x30, #4096, lsl #16", "movk x30, #20", "ret", "movz x0, #1", "svc #3", "movz x0, #2", "svc #3"]),
    ("svc 1 leaves the byte in x0",
     ["movz x0, #321", "svc #1", "orr x1, xzr, x0", *PUT_X1, "svc #3"]),
]

# Loads into X0, with X1 before.
LOADS = [
    ("ldr x0, [x1]", "DATA"),
    ("ldr x0, [x1, #8]", "DATA + 8"),
    ("ldr x0, [x1, #32760]", "DATA + 16 - 32760"),
    ("ldr x0, [sp, #16]", "DATA + 8"),
    ("ldr x0, [x1]", "0xA000_0000_2000_0008"),
    ("ldr xzr, [x1]", "DATA"),
    ("ldr w0, [x1]", "DATA"),
    ("ldr w0, [x1, #4]", "DATA + 8"),
    ("ldr w0, [x1, #16380]", "DATA + 28 - 16380"),
    ("ldr w0, [sp, #8]", "DATA + 4"),
    ("ldrb w0, [x1]", "DATA"),
    ("ldrb w0, [x1, #1]", "DATA + 6"),
    ("ldrb w0, [sp, #4095]", "DATA + 13 - 4095"),
    ("ldrh w0, [x1]", "DATA"),
    ("ldrh w0, [x1, #2]", "DATA + 12"),
    ("ldrh w0, [sp, #8190]", "DATA + 22 - 8190"),
    ("ldrsw x0, [x1]", "DATA"),
    ("ldrsw x0, [x1, #4]", "DATA"),
    ("ldrsw x0, [sp, #16380]", "DATA + 28 - 16380"),
    ("ldrsb x0, [x1]", "DATA"),
    ("ldrsb x0, [x1, #3]", "DATA + 4"),
    ("ldrsb x0, [sp, #4095]", "DATA + 16 - 4095"),
    ("ldrsh x0, [x1]", "DATA + 8"),
    ("ldrsh x0, [x1, #2]", "DATA"),
    ("ldrsh x0, [sp, #8190]", "DATA + 30 - 8190"),
    ("ldrsh xzr, [x1]", "DATA"),
    ("ldp x0, xzr, [x1]", "DATA"),
    ("ldp xzr, x0, [x1]", "DATA"),
    ("ldp x1, x0, [x1, #8]", "DATA"),
    ("ldp x0, x1, [x1, #8]", "DATA"),
]
# The manual leaves this open; the second load stays, by this project's own choice.
LDP_TWICE = [("ldp x0, x0, [x1]", "DATA"), ("ldp x0, x0, [sp, #-8]", "DATA + 24")]

# Loads into X0 and X2, with X1 before.
PAIRS = [
    ("ldp x0, x2, [x1]", "DATA"),
    ("ldp x2, x0, [x1, #8]", "DATA"),
    ("ldp x0, x2, [x1, #-8]", "DATA + 16"),
    ("ldp x0, x2, [x1, #-512]", "DATA + 512 + 8"),
    ("ldp x0, x2, [x1, #504]", "DATA - 504 + 16"),
    ("ldp x0, x2, [sp, #-16]", "DATA + 16"),
]

# Stores of X0, which is OLD, and X2, which is MIXED, with X1 before.
STORES = [
    ("str x0, [x1]", "DATA"),
    ("str x0, [x1, #8]", "DATA + 8"),
    ("str x2, [x1, #32760]", "DATA + 24 - 32760"),
    ("str x0, [sp, #16]", "DATA - 8"),
    ("str x0, [x1]", "0xA000_0000_2000_0008"),
    ("str xzr, [x1]", "DATA + 16"),
    ("str w0, [x1]", "DATA"),
    ("str w0, [x1, #4]", "DATA"),
    ("str wzr, [x1, #16380]", "DATA + 12 - 16380"),
    ("str w2, [sp, #12]", "DATA + 8"),
    ("strb w0, [x1]", "DATA"),
    ("strb w0, [x1, #7]", "DATA"),
    ("strb wzr, [x1]", "DATA + 9"),
    ("strb w2, [sp, #4095]", "DATA + 31 - 4095"),
    ("strh w0, [x1]", "DATA"),
    ("strh w2, [x1, #6]", "DATA + 8"),
    ("strh wzr, [x1]", "DATA + 2"),
    ("strh w2, [sp, #8190]", "DATA + 20 - 8190"),
    ("stp x0, x2, [x1]", "DATA"),
    ("stp x0, x2, [x1, #8]", "DATA"),
    ("stp x2, x0, [x1, #-16]", "DATA + 24"),
    ("stp x0, x2, [x1, #-512]", "DATA + 512 + 16"),
    ("stp x0, x2, [x1, #504]", "DATA - 504 + 8"),
    ("stp x0, x0, [x1]", "DATA"),
    ("stp xzr, x2, [sp, #-8]", "DATA + 24"),
    ("stp x0, xzr, [sp]", "DATA + 8"),
]

# Lines that calculate tags, with X1 before. The result is in X0.
TAG_SUMS = [
    ("addg x0, x1, #0, #0", "DATA"),
    ("addg x0, x1, #0, #0", "0x0500_0000_2000_0000"),
    ("addg x0, x1, #16, #1", "0x0F00_0000_2000_0000"),
    ("addg x0, x1, #16, #1", "0xA300_0000_2000_0007"),
    ("addg x0, x1, #1008, #15", "0x0100_0000_2000_0000"),
    ("addg x0, x1, #1008, #2", "DATA"),
    ("addg x0, x1, #16, #3", "0x0EFF_FFFF_FFFF_FFF8"),
    ("addg x0, x1, #16, #3", "0xFFFF_FFFF_FFFF_FFF8"),
    ("addg x0, sp, #32, #14", "0x0700_0000_2000_0000"),
    ("subg x0, x1, #0, #0", "DATA"),
    ("subg x0, x1, #16, #1", "0x0F00_0000_2000_0010"),
    ("subg x0, x1, #1008, #15", "0x0200_0000_2000_0000"),
    ("subg x0, x1, #16, #1", "0"),
    ("subg x0, x1, #16, #4", "0x3B00_0000_0000_0008"),
    ("subg x0, sp, #32, #0", "0x0700_0000_2000_0000"),
]

# Lines that choose a tag, with X1, X2 and the next choice before. The result is in X0.
TAG_CHOICES = [
    ("irg x0, x1, xzr", "DATA", "0", 0),
    ("irg x0, x1, xzr", "DATA", "ONES", 7),
    ("irg x0, x1, xzr", "0xA3BC_DEF0_2000_0007", "ONES", 15),
    ("irg x0, x1, xzr", "DATA + 0xFFFE", "0", 6),
    ("irg x0, sp, xzr", "0x0200_0000_2000_0000", "0", 2),
    ("irg x0, x1, x2", "DATA", "0", 9),
    ("irg x0, x1, x2", "DATA", "0x8000", 15),
    ("irg x0, x1, x2", "DATA", "0x0080", 7),
    ("irg x0, x1, x2", "DATA", "0x00FE", 0),
    ("irg x0, x1, x2", "DATA", "0xFFFF_FFFF_FFFF_0000", 12),
    ("irg x0, x1, x2", "DATA", "0xBFFF", 3),
    ("irg x0, x1, x2", "0xA300_0000_2000_0000", "0x7FFF", 15),
    ("irg x0, x1, x2", "0x0500_0000_2000_0000", "0xFFFD", 4),
    ("irg x0, sp, x2", "0x0500_0000_2000_0000", "0xFFF7", 4),
    ("irg x0, x1, x2", "0x0500_0000_2000_0000", "0xFFFE", 4),
    ("irg x0, x1, x2", "0x0500_0000_2000_0000", "0xFFFF", 5),
]

# Loads of tags, with X0 and X1 before.
TAG_LOADS = [
    ("ldg x0, [x1]", "0", "DATA"),
    ("ldg x0, [x1]", "OLD", "DATA + 16"),
    ("ldg x0, [x1]", "ONES", "DATA + 31"),
    ("ldg x0, [x1]", "0", "DATA + 33"),
    ("ldg x0, [x1, #16]", "OLD", "DATA + 47"),
    ("ldg x0, [x1, #-16]", "0", "DATA + 49"),
    ("ldg x0, [x1, #-4096]", "0", "DATA + 4096"),
    ("ldg x0, [x1, #4080]", "0", "DATA + 48 - 4080"),
    ("ldg x0, [x1]", "OLD", "0xA700_0000_2000_0020"),
    ("ldg x0, [sp, #48]", "0", "DATA"),
    ("ldg xzr, [x1]", "OLD", "DATA"),
]

# Stores of tags, with X0 and X1 before.
TAG_STORES = [
    ("stg x0, [x1]", "0x0900_0000_0000_0000", "DATA"),
    ("stg x0, [x1, #16]", "0xF900_0000_0000_0001", "DATA"),
    ("stg x0, [x1, #-16]", "0x0400_0000_0000_0000", "DATA + 64"),
    ("stg x1, [x1]", "0", "0x0600_0000_2000_0010"),
    ("stg x0, [x1, #-4096]", "OLD", "DATA + 4096 + 32"),
    ("stg x0, [x1, #4080]", "OLD", "DATA - 4080 + 48"),
    ("stg sp, [sp, #32]", "0", "0x0C00_0000_2000_0000"),
    ("st2g x0, [x1]", "0x0900_0000_0000_0000", "DATA"),
    ("st2g x0, [x1, #-16]", "0", "DATA + 48"),
    ("st2g sp, [sp, #16]", "0", "0x0200_0000_2000_0000"),
    ("stzg x0, [x1]", "0x0900_0000_0000_0000", "DATA"),
    ("stzg x0, [x1, #-16]", "OLD", "0x0100_0000_2000_0040"),
    ("stzg sp, [sp, #16]", "0", "0x0500_0000_2000_0010"),
    ("stz2g x0, [x1]", "0x0900_0000_0000_0000", "DATA"),
    ("stz2g x0, [x1, #-32]", "OLD", "DATA + 64"),
    ("stz2g sp, [sp, #16]", "0", "0xA500_0000_2000_0000"),
]

# Accesses to memory with tags, with X1 before.
TAG_CHECKS = [
    ("ldr x0, [x1]", "0x0300_0000_2000_0000"),
    ("ldr x0, [x1]", "DATA"),
    ("ldr x0, [x1]", "0x0400_0000_2000_0008"),
    ("ldr x0, [x1, #16]", "DATA"),
    ("ldr x0, [x1, #16]", "0xA300_0000_2000_0000"),
    ("ldr w0, [x1, #28]", "0xA000_0000_2000_0000"),
    ("ldrb w0, [x1]", "0x0F00_0000_2000_002F"),
    ("ldrb w0, [x1, #1]", "0x0F00_0000_2000_002F"),
    ("ldrsh x0, [x1]", "0x0700_0000_2000_003E"),
    ("ldr x0, [sp]", "0x0400_0000_2000_0008"),
    ("str x0, [sp, #40]", "DATA"),
    ("str x0, [x1]", "0x0F00_0000_2000_0020"),
    ("str x0, [x1]", "0x0E00_0000_2000_0020"),
    ("strb w0, [x1]", "0x0100_0000_2000_001F"),
    ("ldp x0, x2, [x1]", "0x0300_0000_2000_0000"),
    ("ldp x0, x2, [x1, #8]", "0x0300_0000_2000_0000"),
    ("ldp x0, x2, [x1, #8]", "DATA"),
    ("stp x0, x2, [x1]", "0x0F00_0000_2000_0020"),
    ("stp x0, x2, [x1, #-8]", "0x0F00_0000_2000_0030"),
    ("stp x0, x2, [x1, #-8]", "0x0800_0000_2000_0030"),
    ("stp x0, x2, [sp, #-8]", "0x0100_0000_2000_0030"),
    ("ldp x0, x2, [sp, #8]", "0x0100_0000_2000_0000"),
]

# Numbers for the arithmetic: the width, and the numbers that an operation takes.
QUOTIENTS = [
    (64, 7, 2), (64, 0xFFFFFFFFFFFFFFF9, 2), (64, 7, 0xFFFFFFFFFFFFFFFE), (64, 0xFFFFFFFFFFFFFFF9, 0xFFFFFFFFFFFFFFFE),
    (64, 0x8000000000000000, 0xFFFFFFFFFFFFFFFF), (64, 0x80000000, 0xFFFFFFFF), (64, 0x8000000000000000, 1), (64, 9, 0),
    (64, 0x80000000, 0x100000000), (64, 0xFFFFFFFF80000000, 0xFFFFFFFFFFFFFFFF), (64, 0xFFFFFFFFFFFFFFFF, 0x8000000000000000),
    (64, 0xFEDCBA9876543210, 0x12345677), (32, 7, 2), (32, 0xFFFFFFFFFFFFFFF9, 2), (32, 7, 0xFFFFFFFFFFFFFFFE),
    (32, 0xFFFFFFFFFFFFFFF9, 0xFFFFFFFFFFFFFFFE), (32, 0x8000000000000000, 0xFFFFFFFFFFFFFFFF), (32, 0x80000000, 0xFFFFFFFF),
    (32, 0x8000000000000000, 1), (32, 9, 0), (32, 0x80000000, 0x100000000), (32, 0xFFFFFFFF80000000, 0xFFFFFFFFFFFFFFFF),
    (32, 0xFFFFFFFFFFFFFFFF, 0x8000000000000000), (32, 0xFEDCBA9876543210, 0x12345677),
]
PRODUCTS = [
    (64, 3, 4, 5), (64, 0xFFFFFFFFFFFFFFFF, 0xFFFFFFFFFFFFFFFF, 0), (64, 0x100000001, 0x100000001, 7), (64, 0xFFFFFFFF, 2, 5),
    (64, 0x123456789ABCDEF, 0xFEDCBA9876543210, 0xFFFFFFFFFFFFFFFF), (64, 0, 9, 0), (32, 3, 4, 5),
    (32, 0xFFFFFFFFFFFFFFFF, 0xFFFFFFFFFFFFFFFF, 0), (32, 0x100000001, 0x100000001, 7), (32, 0xFFFFFFFF, 2, 5),
    (32, 0x123456789ABCDEF, 0xFEDCBA9876543210, 0xFFFFFFFFFFFFFFFF), (32, 0, 9, 0),
]
SHIFTS = [
    (64, 1, 0), (64, 0x8000000080000001, 1), (64, 0x8000000080000001, 31), (64, 0x8000000080000001, 32),
    (64, 0x8000000080000001, 33), (64, 0x8000000080000001, 63), (64, 0x8000000080000001, 64),
    (64, 0xFEDCBA98F6543210, 0x100000004), (64, 0xFFFFFFFF70000000, 0xFFFFFFFFFFFFFFFF), (32, 1, 0), (32, 0x8000000080000001, 1),
    (32, 0x8000000080000001, 31), (32, 0x8000000080000001, 32), (32, 0x8000000080000001, 33), (32, 0x8000000080000001, 63),
    (32, 0x8000000080000001, 64), (32, 0xFEDCBA98F6543210, 0x100000004), (32, 0xFFFFFFFF70000000, 0xFFFFFFFFFFFFFFFF),
]
SUMS = [
    (64, 0xFFFFFFFFFFFFFFFF, 1), (64, 0xFFFFFFFF, 1), (64, 0x8000000000000000, 0x8000000000000000),
    (64, 0x123456789ABCDEF, 0xFEDCBA9876543210), (32, 0xFFFFFFFFFFFFFFFF, 1), (32, 0xFFFFFFFF, 1),
    (32, 0x8000000000000000, 0x8000000000000000), (32, 0x123456789ABCDEF, 0xFEDCBA9876543210),
]
TAKEN_AWAY = [
    (64, 1, 0xFFFFFFFFFFFFFFFF), (64, 1, 0xFFFFFFFF), (64, 0x8000000000000000, 0x8000000000000000),
    (64, 0xFEDCBA9876543210, 0x123456789ABCDEF), (32, 1, 0xFFFFFFFFFFFFFFFF), (32, 1, 0xFFFFFFFF),
    (32, 0x8000000000000000, 0x8000000000000000), (32, 0xFEDCBA9876543210, 0x123456789ABCDEF),
]
TURNED = [
    (64, 0), (64, 255), (64, 0x123456789ABCDEF), (64, 0xFFFFFFFFFFFFFFFF), (32, 0), (32, 255), (32, 0x123456789ABCDEF),
    (32, 0xFFFFFFFFFFFFFFFF),
]
MOVED = [
    (64, 0, 0, 0x123456789ABCDEF), (64, 0, 0, 0xFEDCBA98F6543281), (64, 0, 7, 0xFEDCBA98F6543281), (64, 0, 15, 0x123456789ABCDEF),
    (64, 0, 15, 0xFEDCBA98F6543281), (64, 0, 31, 0xFEDCBA98F6543281), (64, 0, 63, 0x123456789ABCDEF),
    (64, 0, 63, 0xFEDCBA98F6543281), (64, 4, 63, 0xFEDCBA98F6543281), (64, 63, 63, 0x123456789ABCDEF),
    (64, 63, 63, 0xFEDCBA98F6543281), (64, 1, 0, 0xFEDCBA98F6543281), (64, 56, 55, 0x123456789ABCDEF),
    (64, 56, 55, 0xFEDCBA98F6543281), (64, 56, 3, 0xFEDCBA98F6543281), (64, 63, 62, 0x123456789ABCDEF),
    (64, 63, 62, 0xFEDCBA98F6543281), (64, 8, 15, 0xFEDCBA98F6543281), (64, 8, 8, 0x123456789ABCDEF),
    (64, 8, 8, 0xFEDCBA98F6543281), (64, 5, 12, 0xFEDCBA98F6543281), (64, 63, 0, 0x123456789ABCDEF),
    (64, 63, 0, 0xFEDCBA98F6543281), (64, 9, 3, 0xFEDCBA98F6543281), (32, 0, 0, 0x123456789ABCDEF),
    (32, 0, 0, 0xFEDCBA98F6543281), (32, 0, 7, 0xFEDCBA98F6543281), (32, 0, 15, 0x123456789ABCDEF),
    (32, 0, 15, 0xFEDCBA98F6543281), (32, 0, 15, 0xFEDCBA98F6543281), (32, 0, 31, 0x123456789ABCDEF),
    (32, 0, 31, 0xFEDCBA98F6543281), (32, 4, 31, 0xFEDCBA98F6543281), (32, 31, 31, 0x123456789ABCDEF),
    (32, 31, 31, 0xFEDCBA98F6543281), (32, 1, 0, 0xFEDCBA98F6543281), (32, 24, 23, 0x123456789ABCDEF),
    (32, 24, 23, 0xFEDCBA98F6543281), (32, 24, 3, 0xFEDCBA98F6543281), (32, 31, 30, 0x123456789ABCDEF),
    (32, 31, 30, 0xFEDCBA98F6543281), (32, 8, 15, 0xFEDCBA98F6543281), (32, 8, 8, 0x123456789ABCDEF),
    (32, 8, 8, 0xFEDCBA98F6543281), (32, 5, 12, 0xFEDCBA98F6543281), (32, 31, 0, 0x123456789ABCDEF),
    (32, 31, 0, 0xFEDCBA98F6543281), (32, 9, 3, 0xFEDCBA98F6543281),
]
COMPARED = [
    (64, 5, 7), (64, 7, 5), (64, 7, 7), (64, 0, 0), (64, 0, 1), (64, 0x8000000000000000, 1),
    (64, 0x7FFFFFFFFFFFFFFF, 0xFFFFFFFFFFFFFFFF), (64, 0x80000000, 1), (64, 0x7FFFFFFF, 0xFFFFFFFF), (64, 0xFFFFFFFF00000001, 2),
    (64, 0x100000000, 0), (64, 0x8000000000000000, 0x8000000000000000), (64, 0xFFFFFFFFFFFFFFFF, 0x7FFFFFFFFFFFFFFF),
    (64, 0x123456789ABCDEF, 0xFEDCBA9876543210), (64, 0x80000000, 0x7FFFFFFF), (64, 0xFFFFFFFF80000000, 0x80000000), (32, 5, 7),
    (32, 7, 5), (32, 7, 7), (32, 0, 0), (32, 0, 1), (32, 0x8000000000000000, 1), (32, 0x7FFFFFFFFFFFFFFF, 0xFFFFFFFFFFFFFFFF),
    (32, 0x80000000, 1), (32, 0x7FFFFFFF, 0xFFFFFFFF), (32, 0xFFFFFFFF00000001, 2), (32, 0x100000000, 0),
    (32, 0x8000000000000000, 0x8000000000000000), (32, 0xFFFFFFFFFFFFFFFF, 0x7FFFFFFFFFFFFFFF),
    (32, 0x123456789ABCDEF, 0xFEDCBA9876543210), (32, 0x80000000, 0x7FFFFFFF), (32, 0xFFFFFFFF80000000, 0x80000000),
]


def arithmetic():
    """Lines on X0 to X2 or their lower halves that leave their result in X0, each with X0, X1 and X2 before."""
    table = [("udiv sdiv", QUOTIENTS), ("lslv lsrv asrv", SHIFTS), ("add", SUMS), ("sub", TAKEN_AWAY), ("subs", COMPARED)]
    for names, operands in table:
        for name in names.split():
            yield from ((three(name, width), OLD, one, other) for width, one, other in operands)
    for name in ("madd", "msub"):
        yield from ((three(name, width) + f", {letter(width)}0", third, one, other) for width, one, other, third in PRODUCTS)
    for name in ("ubfm", "sbfm"):
        yield from ((f"{name} {letter(width)}0, {letter(width)}1, #{immr}, #{imms}", OLD, value, 0) for width, immr, imms, value in MOVED)
    yield from ((three("sub", width), OLD, value_of("ONES"), value) for width, value in TURNED)


def letter(width):
    return "x" if width == 64 else "w"


def three(name, width):
    return "{0} {1}0, {1}1, {1}2".format(name, letter(width))


def value_of(text):
    """The number that a row means."""
    return eval(text, {}, {name: value for name, (value, _) in CONSTANTS.items()}) % (1 << 64)


OLD = value_of("OLD")
EDGES = [0, 1, 2, 31, 32, 63, 0x7FFF_FFFF, 0x8000_0000, 0xFFFF_FFFF, 0x1_0000_0000, *map(value_of, ("LEAST", "MOST", "ONES"))]


def number(draw):
    """A number for a register: an edge, one near it, or any."""
    kind = draw.randrange(4)
    if kind == 0:
        return draw.choice(EDGES)
    if kind == 1:
        return (draw.choice(EDGES) + draw.randint(-3, 3)) % (1 << 64)
    return draw.getrandbits(64) >> draw.choice((0, 0, 0, 32, 48, 56))


def calculation(draw):
    """A line on X0 to X2."""
    width = draw.choice((64, 32))
    r = letter(width)
    one, two, three, four = (f"{r}{draw.randrange(3)}" for _ in range(4))
    shift = draw.randrange(0, width, 16)
    first, last = draw.randrange(width), draw.randrange(width)
    imm12 = draw.choice((0, 1, 4095, draw.randrange(4096)))
    return draw.choice((
        f"{draw.choice(('movz', 'movk', 'movn'))} {one}, #{draw.randrange(65536)}" + (f", lsl #{shift}" if shift else ""),
        f"{draw.choice(('add', 'sub', 'subs'))} {one}, {two}, #{imm12}" + draw.choice(("", ", lsl #12")),
        f"{draw.choice(('add', 'sub', 'subs', 'and', 'orr', 'eor'))} {one}, {two}, {three}",
        f"{draw.choice(('lslv', 'lsrv', 'asrv', 'udiv', 'sdiv'))} {one}, {two}, {three}",
        f"{draw.choice(('madd', 'msub'))} {one}, {two}, {three}, {four}",
        f"{draw.choice(('sbfm', 'ubfm'))} {one}, {two}, #{first}, #{last}",
        f"csinc {one}, {two}, {three}, {draw.choice(CONDITIONS)}",
    ))


CONDITIONS = ["eq", "ne", "cs", "cc", "mi", "pl", "vs", "vc", "hi", "ls", "ge", "lt", "gt", "le", "al", "nv"]


def drawn_calculations(draw, count, length):
    """Lists of lines behind a comparison, with X0, X1 and X2 before."""
    for _ in range(count):
        yield ["subs xzr, x1, x2", *(calculation(draw) for _ in range(length))], number(draw), number(draw), number(draw)


# A load or a store, the bytes that it touches, and the unit of its offset with the range of that.
ACCESSES = [
    *((f"{name} {register}", size, size, 0, 4095) for name, register, size in (
        ("ldr", "x0", 8), ("ldr", "w0", 4), ("ldrb", "w0", 1), ("ldrh", "w0", 2), ("ldrsw", "x0", 4), ("ldrsb", "x0", 1), ("ldrsh", "x0", 2),
        ("str", "x0", 8), ("str", "w0", 4), ("strb", "w0", 1), ("strh", "w0", 2))),
    ("ldp x0, x2", 16, 8, -64, 63), ("stp x0, x2", 16, 8, -64, 63), ("stg x0", 16, 16, -256, 255), ("stzg x0", 16, 16, -256, 255),
    ("st2g x0", 32, 16, -256, 255), ("stz2g x0", 32, 16, -256, 255), ("ldg x0", 1, 16, -256, 255),
]


def drawn_accesses(draw, count):
    """Accesses to the data with drawn tags: the line, X0, X1, X2 and the tags. The pointer's tag often is that of the data."""
    for _ in range(count):
        line, size, unit, least, most = draw.choice(ACCESSES)
        aligned = 1 if line.startswith("ldg") else min(size, unit)
        place = draw.randrange(0, 64 - size + 1, aligned)
        tags = [draw.choice((0, 0, 5, draw.randrange(16))) for _ in range(4)]
        tag = draw.choice((tags[place // 16], tags[place // 16], tags[place // 16], draw.randrange(16)))
        offset = unit * draw.choice((0, 0, 1, draw.randint(least, most)))
        base = draw.choice(("x1", "x1", "x1", "sp"))
        pointer = (value_of("DATA") + place - offset) % (1 << 56) | tag << 56 | draw.choice((0, 0xA)) << 60
        yield f"{line}, [{base}, #{offset}]", number(draw), pointer, number(draw), tags

