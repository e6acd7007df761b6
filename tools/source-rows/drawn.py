"""Texts that are drawn: programs by the productions of docs/LANGUAGE.md, texts close to one, and bytes."""
import reader

TYPES = ["int", "char", "unsigned", "signed char", "short int", "unsigned long int", "long", "struct s", "void", "signed short"]
OPERATORS = [mark for tier in reader.BINARY for mark in tier]
UNARY = ["-", "+", "~", "!", "*", "&", "++", "--", "sizeof "]
LEAVES = ["a", "b", "c9", "_x", "0", "1", "0x1Fu", "017l", "2UL", "2147483648", "'a'", "'\\n'", "\"t\"", "\"a\\0\" \"b\""]


def many(draw, most, part):
    return [part() for _ in range(draw.randint(0, most))]


def expression(draw, size):
    """An expression, which may be no unary expression where it is assigned to."""
    if size <= 0:
        return draw.choice(LEAVES)
    part = lambda: expression(draw, size - draw.randint(1, 3))
    primary = lambda: draw.choice((draw.choice("abc"), f"({part()})"))
    return draw.choice((
        lambda: f"{part()}{draw.choice(OPERATORS)} {part()}",
        lambda: f"{draw.choice(UNARY)} {part()}",
        lambda: f"({part()})",
        lambda: f"{primary()}{draw.choice(('++', '--', '.m', '->m', f'[{part()}]'))}",
        lambda: f"{primary()}({','.join(many(draw, 3, part))})",
        lambda: f"{draw.choice('abc')}{draw.choice(reader.ASSIGN)}{part()}",
        lambda: f"{part()}?{part()}:{part()}",
        lambda: f"({draw.choice(TYPES)}{'*' * draw.randint(0, 2)}){part()}",
        lambda: f"sizeof({draw.choice(TYPES)}{'*' * draw.randint(0, 2)})",
        lambda: draw.choice(LEAVES),
    ))()


def declarator(draw):
    lengths = "".join(many(draw, 2, lambda: f"[{draw.choice(('', '1', 'a+2', 'a?1:2'))}]"))
    return f"{'*' * draw.randint(0, 2)}{draw.choice('abcxyz')}{lengths}"


def initial(draw, size):
    if size > 1 and draw.random() < 0.4:
        return "{" + ",".join([initial(draw, size - 2)] + many(draw, 3, lambda: initial(draw, size - 2))) + draw.choice(("", ",")) + "}"
    return expression(draw, size)


def objects(draw, size):
    one = lambda: declarator(draw) + (f"={initial(draw, size)}" if draw.random() < 0.5 else "")
    return f"{draw.choice(TYPES)} " + ",".join([one(), *many(draw, 2, one)]) + ";"


def statement(draw, size, loop):
    value = lambda: expression(draw, draw.randint(0, 3))
    inner = lambda in_loop=loop: statement(draw, size - 1, in_loop)
    if size <= 0:
        return draw.choice([";", f"{value()};", "return;", f"return {value()};"] + (["break;", "continue;"] if loop else []))
    return draw.choice((
        lambda: "{" + " ".join(many(draw, 4, lambda: item(draw, size - 1, loop))) + "}",
        lambda: f"if({value()}){inner()}",
        lambda: f"if({value()}){inner()}else {inner()}",
        lambda: f"while({value()}){inner(True)}",
        lambda: f"do {inner(True)}while({value()});",
        lambda: f"for({draw.choice((';', f'{value()};', objects(draw, 1)))}{draw.choice(('', value()))};{draw.choice(('', value()))}){inner(True)}",
        lambda: f"{value()};",
    ))()


def item(draw, size, loop):
    return objects(draw, 2) if draw.random() < 0.3 else statement(draw, size, loop)


def external(draw):
    storage = draw.choice(("", "", "static ", "extern "))
    named = draw.random() < 0.7
    param = lambda: f"{draw.choice(TYPES)} {declarator(draw) if named else draw.choice(('', '*', '[]', '*[2]'))}"
    members = lambda: "{" + " ".join([member(draw)] + many(draw, 2, lambda: member(draw))) + "}"
    params = lambda: draw.choice(("", "void", ",".join([param(), *many(draw, 2, param)])))
    body = lambda: "{" + " ".join(many(draw, 5, lambda: item(draw, 3, False))) + "}"
    return draw.choice((
        lambda: "\n#include <stdio.h>\n",
        lambda: storage + objects(draw, 3),
        lambda: f"struct t{draw.choice(('', members()))};",
        lambda: f"{storage}struct t{members()} {declarator(draw)};",
        lambda: f"{storage}{draw.choice(TYPES)} {'*' * draw.randint(0, 2)}f({params()});",
        lambda: f"{storage}{draw.choice(TYPES)} {'*' * draw.randint(0, 2)}f({params()}){body()}",
    ))()


def member(draw):
    return f"{draw.choice(TYPES)} " + ",".join([declarator(draw), *many(draw, 1, lambda: declarator(draw))]) + ";"


def program(draw):
    """A text that is a program most of the time."""
    return " ".join(external(draw) for _ in range(draw.randint(1, 3))).encode()


def near(draw, data):
    """A text with a token less, more or changed."""
    try:
        tokens = reader.lex(data)
    except reader.Fault:
        return data
    if not tokens:
        return data
    token = draw.choice(tokens)
    other = draw.choice(reader.PUNCTUATORS + reader.KEYWORDS + LEAVES).encode()
    new = draw.choice((b"", other, data[token.start : token.end] + b" " + other))
    return data[: token.start] + b" " + new + b" " + data[token.end :]


PIECES = ["\\", "\\x", "\\n", "\\0", "\\377", "\\400", "\\x41", "\\xfff", "'", '"', "'a'", '"b"', "//", "/*", "*/", "/", "*", "\n", "\r", " ", "\t", "#include <stdio.h>",
          "#", "\n#include <stdio.h>\n", "0", "08", "0x", "0xg", "1u", "1ul", "1lul", "9223372036854775808", "18446744073709551615u", "18446744073709551616", "a", "if",
          "_", ".", "...", "->", "+++", "<<=", "@", "\x80", "\xff", "\x00", "\x0b", "\x7f", "~", "?", ":"]


def some_bytes(draw):
    return "".join(draw.choice(PIECES) for _ in range(draw.randint(1, 7))).encode("latin-1")
