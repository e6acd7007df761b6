"""A second reading of docs/LANGUAGE.md, by hand: the tokens of a text, its program as a tree, or its first fault.

It works from the page alone. A text is refused at the first token with which no program begins, or with which each program
has more than 200 levels, whichever is first: `need` is called with the least depth that a program can have which begins
so.
"""
import re

LEVELS, LONGEST = 200, 65536
KEYWORDS = """auto break case char const continue default do double else enum extern float for goto if inline int long register
restrict return short signed sizeof static struct switch typedef union unsigned void volatile while _Alignas _Alignof _Atomic _Bool
_Complex _Generic _Imaginary _Noreturn _Static_assert _Thread_local""".split()
PUNCTUATORS = """{ } ( ) [ ] ; , . -> ++ -- & * + - ~ ! / % << >> < > <= >= == != ^ | && || ? : = += -= *= /= %= <<= >>= &= ^=
|=""".split()
BY_LENGTH = sorted(PUNCTUATORS, key=len, reverse=True)
NUMBERS = {"BadByte": 1, "UnclosedText": 2, "UnclosedComment": 3, "NumberTooLarge": 4, "BadDirective": 5, "TextTooLong": 6}
ESCAPES = {"a": 7, "b": 8, "f": 12, "n": 10, "r": 13, "t": 9, "v": 11, "\\": 92, "'": 39, '"': 34, "?": 63}
DIRECTIVE = re.compile(r"#[ \t]*include[ \t]*<stdio\.h>(?=[ \t]*\r?(\n|\Z))")


class Fault(Exception):
    """A refusal, as rows write it."""


def fault(name, at=None):
    raise Fault(f"{NUMBERS[name]} {name}" + ("" if at is None else f" {at}"))


class Token:
    def __init__(self, kind, value, start, end):
        self.kind, self.value, self.start, self.end = kind, value, start, end


def number(text, start):
    """The number at a place: its value, its type and its end."""
    end = re.compile(r"[0-9A-Za-z_.]*").match(text, start).end()
    if text[start : start + 2] in ("0x", "0X"):
        first, base = start + 2, 16
        digits = re.compile("[0-9a-fA-F]*").match(text, first).end()
        if digits == first:
            fault("BadByte", first)
    else:
        first, base = start, 8 if text[start] == "0" else 10
        digits = re.compile("[0-7]*" if base == 8 else "[0-9]*").match(text, first).end()
    suffix = re.compile("([uU][lL]?|[lL][uU]?)?").match(text, digits)
    if suffix.end() != end:
        fault("BadByte", suffix.end())
    value, letters = int(text[first:digits], base), suffix.group().lower()
    types = [name for name in ("int", "uint", "long", "ulong") if fits_list(name, base, letters)]
    for name in types:
        if value < 1 << {"int": 31, "uint": 32, "long": 63, "ulong": 64}[name]:
            return value, name, end
    fault("NumberTooLarge", start)


def fits_list(name, base, letters):
    """Whether a type is in the list of a constant (C11 6.4.4.1)."""
    is_unsigned, is_long = name.startswith("u"), name.endswith("long")
    if "u" in letters and not is_unsigned or "l" in letters and not is_long:
        return False
    return not (base == 10 and "u" not in letters and is_unsigned)


def unit(text, place, opening):
    """The byte that a character or an escape stands for, and its end."""
    byte = text[place]
    if byte != "\\":
        low = " " <= byte <= "~" or (text[opening] == '"' and byte >= "\x80")
        if not low or byte == text[opening]:
            fault("BadByte", place)
        return ord(byte), place + 1
    following = text[place + 1 : place + 2]
    if following in ("", "\n"):
        fault("UnclosedText", opening)
    if following in ESCAPES:
        return ESCAPES[following], place + 2
    if following == "x":
        digits = re.compile("[0-9a-fA-F]*").match(text, place + 2)
        if not digits.group():
            if text[place + 2 : place + 3] in ("", "\n"):
                fault("UnclosedText", opening)
            fault("BadByte", place)
        value = int(digits.group(), 16)
    else:
        digits = re.compile("[0-7]{0,3}").match(text, place + 1)
        if not digits.group():
            fault("BadByte", place)
        value = int(digits.group(), 8)
    if value > 255:
        fault("NumberTooLarge", place)
    return value, digits.end()


def quoted(text, start):
    """The character or text at a place."""
    quote, values, place = text[start], [], start + 1
    while True:
        if text[place : place + 1] in ("", "\n"):
            fault("UnclosedText", start)
        if quote == '"' and text[place] == '"':
            return Token("text", bytes(values), start, place + 1)
        if quote == "'" and len(values) == 1:
            if text[place] != "'":
                fault("BadByte", place)
            return Token("char", values[0], start, place + 1)
        value, place = unit(text, place, start)
        values.append(value)


def lex(data):
    """The tokens of a text."""
    if len(data) > LONGEST:
        fault("TextTooLong")
    text, tokens, place = data.decode("latin-1"), [], 0
    line, used = 0, False  # where the line began, and whether it has a token
    while place < len(text):
        byte = text[place]
        if byte in " \t\n\v\f\r":
            place += 1
            if byte == "\n":
                line, used = place, False
        elif text.startswith("//", place):
            place = text.find("\n", place) % (len(text) + 1)
        elif text.startswith("/*", place):
            end = text.find("*/", place + 2)
            if end < 0:
                fault("UnclosedComment", place)
            place = end + 2
        else:
            tokens.append(token(text, place, line, used))
            place, used = tokens[-1].end, True
    return tokens


def token(text, place, line, used):
    byte = text[place]
    if byte == "#":
        if used:
            fault("BadByte", place)
        found = DIRECTIVE.match(text, place)
        if not found or text[line:place].strip(" \t"):
            fault("BadDirective", place)
        return Token("include", None, place, found.end())
    if byte.isascii() and (byte.isalpha() or byte == "_"):
        end = re.compile(r"[A-Za-z0-9_]*").match(text, place).end()
        word = text[place:end]
        return Token("key" if word in KEYWORDS else "name", word, place, end)
    if byte in "0123456789":
        value, kind, end = number(text, place)
        return Token("number", (value, kind), place, end)
    if byte in "'\"":
        return quoted(text, place)
    for mark in BY_LENGTH:
        if text.startswith(mark, place):
            return Token("punct", mark, place, place + len(mark))
    fault("BadByte", place)


def kind(t):
    """What a token is, as rows write it."""
    if t.kind == "key":
        return f"k{KEYWORDS.index(t.value)}"
    if t.kind == "punct":
        return f"p{PUNCTUATORS.index(t.value)}"
    if t.kind == "number":
        return f"{t.value[0]}{t.value[1]}"
    if t.kind == "text":
        return f"t{list(t.value)}"
    return {"include": "#", "name": "n", "char": f"c{t.value}"}[t.kind]


def shown(tokens):
    """Tokens, as rows write them."""
    return " ".join(f"{t.start}+{t.end - t.start}:{kind(t)}" for t in tokens)


# ---- trees

class Node:
    """A node of an expression: how it is written, the levels below it, and the bytes that it stands in."""

    def __init__(self, word, parts, below, start, end):
        self.word, self.parts, self.below, self.start, self.end = word, parts, below, start, end

    def text(self, spans):
        place = f"@{self.start}-{self.end}" if spans else ""
        if not self.parts:
            return self.word + place
        return f"({self.word}{place} {' '.join(part if isinstance(part, str) else part.text(spans) for part in self.parts)})"


class Type:
    """A type: its base, the number of its stars, and its lengths."""

    def __init__(self, base, stars=0):
        self.base, self.stars, self.lengths = base, stars, []

    def text(self, spans):
        lengths = "".join(f"[{length.text(spans) if length else ''}]" for length in self.lengths)
        return lengths + "*" * self.stars + self.base


BINARY = [["||"], ["&&"], ["|"], ["^"], ["&"], ["==", "!="], ["<", ">", "<=", ">="], ["<<", ">>"], ["+", "-"], ["*", "/", "%"]]
ASSIGN = ["=", "+=", "-=", "*=", "/=", "%=", "<<=", ">>=", "&=", "^=", "|="]
TYPE_WORDS = ["char", "int", "long", "short", "signed", "struct", "unsigned", "void"]


def plain(data):
    return "".join(chr(byte) if 32 <= byte < 127 else f"\\x{byte:02x}" for byte in data)


class Parser:
    def __init__(self, tokens, end, spans=False):
        self.tokens, self.end, self.spans, self.at = tokens, end, spans, 0

    # the next token, and taking it

    def here(self):
        return self.tokens[self.at].start if self.at < len(self.tokens) else self.end

    def wrong(self):
        raise Fault(f"Unexpected {self.here()}")

    def sees(self, *words):
        if self.at == len(self.tokens):
            return False
        t = self.tokens[self.at]
        return t.kind in ("key", "punct") and t.value in words

    def kind(self):
        return self.tokens[self.at].kind if self.at < len(self.tokens) else None

    def take(self):
        self.at += 1
        return self.tokens[self.at - 1]

    def want(self, *words):
        if not self.sees(*words):
            self.wrong()
        return self.take()

    def name(self):
        if self.kind() != "name":
            self.wrong()
        return self.take()

    def need(self, level):
        """Each program that begins with the tokens up to the next one has this level at least."""
        if level > LEVELS:
            raise Fault(f"TooDeep {self.here()}")

    def last(self):
        return self.tokens[self.at - 1].end

    # types

    def begins_type(self):
        return self.sees(*TYPE_WORDS)

    def base(self):
        if not self.begins_type():
            self.wrong()
        first = self.take().value
        if first == "struct":
            return f"struct {self.name().value}"
        prefix, word = "", first
        if first in ("signed", "unsigned"):
            prefix, word = first, self.take().value if self.sees("char", "short", "long", "int") else "int"
        if word in ("short", "long") and self.sees("int"):
            self.take()
        if word == "char":
            return {"": "char", "signed": "schar", "unsigned": "uchar"}[prefix]
        return ("u" if prefix == "unsigned" else "") + word

    def stars(self, level):
        """Stars, the first of them at this level."""
        count = 0
        while self.sees("*"):
            self.need(level + count)
            self.take()
            count += 1
        return count

    def lengths(self, kind, level):
        while self.sees("["):
            self.need(level)
            self.take()
            kind.lengths.append(None if self.sees("]") else self.conditional(level + 1))
            self.want("]")
            level += 1

    # expressions: each at its level

    def begins_expression(self):
        return self.kind() in ("name", "number", "char", "text") or self.sees("(", "++", "--", "&", "*", "+", "-", "~", "!", "sizeof")

    def begin(self, level):
        """An expression at a level begins with the next token."""
        if not self.begins_expression():
            self.wrong()
        self.need(level)

    def assign(self, level):
        self.begin(level)
        left, is_unary = self.cast(level)
        if is_unary and self.sees(*ASSIGN):
            self.need(level + left.below + 1)
            word = self.take().value
            return self.joined(word, left, self.assign(level + 1))
        return self.choice(left, level)

    def conditional(self, level):
        self.begin(level)
        return self.choice(self.cast(level)[0], level)

    def choice(self, left, level):
        test = self.binary(left, level, 0)
        if not self.sees("?"):
            return test
        self.need(level + test.below + 1)
        self.take()
        chosen = self.assign(level + 1)
        self.want(":")
        return self.joined("?", test, chosen, self.conditional(level + 1))

    def joined(self, word, *parts):
        return Node(word, list(parts), 1 + max(part.below for part in parts), parts[0].start, parts[-1].end)

    def binary(self, left, level, tier):
        """An operation of this tier or a tighter one, the first operand of which is read."""
        if tier == len(BINARY):
            return left
        left = self.binary(left, level, tier + 1)
        while self.sees(*BINARY[tier]):
            self.need(level + left.below + 1)
            word = self.take().value
            self.begin(level + 1)
            right = self.binary(self.cast(level + 1)[0], level + 1, tier + 1)
            left = self.joined(word, left, right)
        return left

    def cast(self, level):
        """A cast or a unary expression, and whether it is unary."""
        self.begin(level)
        if self.sees("("):
            self.need(level + 1)
            start = self.take().start
            if self.begins_type():
                kind = self.type_name(level)
                self.want(")")
                operand, _ = self.cast(level + 1)
                below = max(1 + operand.below, kind.stars)
                return Node("cast", [kind, operand], below, start, operand.end), False
            return self.postfix(self.paren(start, level), level), True
        return self.unary(level), True

    def type_name(self, level):
        base = self.base()
        return Type(base, self.stars(level + 1))

    def paren(self, start, level):
        """The pair of parentheses at a level, the first of which is taken."""
        inner = self.assign(level + 1)
        self.want(")")
        return Node("paren", [inner], 1 + inner.below, start, self.last())

    def unary(self, level):
        self.begin(level)
        if self.sees("++", "--"):
            self.need(level + 1)
            t = self.take()
            operand = self.unary(level + 1)
            return Node(t.value + "_", [operand], 1 + operand.below, t.start, operand.end)
        if self.sees("&", "*", "+", "-", "~", "!"):
            self.need(level + 1)
            t = self.take()
            operand, _ = self.cast(level + 1)
            return Node(t.value, [operand], 1 + operand.below, t.start, operand.end)
        if self.sees("sizeof"):
            return self.sizeof(level)
        if self.sees("("):
            self.need(level + 1)
            return self.postfix(self.paren(self.take().start, level), level)
        return self.postfix(self.primary(), level)

    def sizeof(self, level):
        start = self.take().start
        if self.sees("("):
            opening = self.take().start
            if self.begins_type():
                kind = self.type_name(level)
                self.want(")")
                return Node("sizeof", [kind], kind.stars, start, self.last())
            self.begin(level + 2)
            operand = self.postfix(self.paren(opening, level + 1), level + 1)
        else:
            operand = self.unary(level + 1)
        return Node("sizeof", [operand], 1 + operand.below, start, operand.end)

    def primary(self):
        t = self.take()
        if t.kind == "name":
            return Node(t.value, [], 0, t.start, t.end)
        if t.kind == "number":
            kind = "" if t.value[1] == "int" else ":" + t.value[1]
            return Node(f"{t.value[0]}{kind}", [], 0, t.start, t.end)
        if t.kind == "char":
            return Node(str(t.value), [], 0, t.start, t.end)
        data = t.value
        while self.kind() == "text":
            data += self.take().value
        return Node(f'"{plain(data)}"', [], 0, t.start, self.last())

    def postfix(self, left, level):
        while self.sees("[", "(", ".", "->", "++", "--"):
            self.need(level + left.below + 1)
            mark = self.take().value
            below, parts = left.below, [left]
            if mark == "[":
                parts.append(self.assign(level + 1))
                self.want("]")
            elif mark == "(":
                while not self.sees(")"):
                    if len(parts) > 1:
                        self.want(",")
                    parts.append(self.assign(level + 1))
                self.take()
            elif mark in (".", "->"):
                parts.append(self.name().value)
            below = max(part.below for part in parts if isinstance(part, Node))
            word = {"[": "index", "(": "call", "++": "_++", "--": "_--"}.get(mark, mark)
            left = Node(word, parts, 1 + below, left.start, self.last())
        return left

    # declarations

    def place(self, start):
        return f"@{start}-{self.last()}" if self.spans else ""

    def declr(self, base, level):
        """A declarator of a declaration at a level: its name, its type and its first byte."""
        start = self.here()
        kind = Type(base, self.stars(level + 1))
        name = self.name().value
        self.lengths(kind, level + 1 + kind.stars)
        return name, kind, start

    def inits(self, base, level):
        """Objects with commas between them."""
        found = [self.init(*self.declr(base, level), level)]
        while self.sees(","):
            self.take()
            found.append(self.init(*self.declr(base, level), level))
        return found

    def init(self, name, kind, start, level):
        value = ""
        if self.sees("="):
            self.need(level + 2)
            self.take()
            value = " = " + self.initial(level + 1)
        return f"({name}{self.place(start)} {kind.text(self.spans)}{value})"

    def initial(self, level):
        if not self.sees("{"):
            return self.assign(level + 1).text(self.spans)
        self.need(level + 2)
        start = self.take().start
        parts = [self.initial(level + 1)]
        while self.sees(","):
            self.take()
            if not self.sees("}"):
                parts.append(self.initial(level + 1))
            else:
                break
        self.want("}")
        place = self.place(start)
        return "{" + place + (" " if place else "") + " ".join(parts) + "}"

    def body(self):
        """The members of a struct."""
        self.want("{")
        members = []
        while not members or not self.sees("}"):
            base = self.base()
            while True:
                name, kind, start = self.declr(base, 2)
                members.append(f"({name}{self.place(start)} {kind.text(self.spans)})")
                if not self.sees(","):
                    break
                self.take()
            self.want(";")
        self.take()
        return f"[{' '.join(members)}]"

    def params(self):
        """A list of parameters, and whether all have names."""
        self.want("(")
        if self.sees(")"):
            self.take()
            return [], True
        found, named = [], True
        while True:
            start = self.here()
            base = self.base()
            if base == "void" and not found and self.sees(")"):
                self.take()
                return [], True
            kind = Type(base, self.stars(3))
            name = self.take().value if self.kind() == "name" else ""
            named = named and name != ""
            self.lengths(kind, 3 + kind.stars)
            found.append(f"({name}{self.place(start)} {kind.text(self.spans)})")
            if not self.sees(","):
                break
            self.take()
        self.want(")")
        return found, named

    def external(self):
        if self.kind() == "include":
            self.take()
            return ["(include)"]
        start = self.here()
        storage = self.take().value if self.sees("static", "extern") else ""
        before = []
        if self.sees("struct"):
            begun = self.take().start
            tag = self.name().value
            base = f"struct {tag}"
            if self.sees("{"):
                members = self.body()
                before = [f"(struct {tag}{self.place(begun)} {members})"]
            if not storage and self.sees(";"):
                declared = before or [f"(struct {tag}{self.place(begun)})"]
                self.take()
                return declared
        else:
            base = self.base()
        return before + [self.declared(storage + " " if storage else "", base, start)]

    def declared(self, storage, base, start):
        first = self.here()
        kind = Type(base, self.stars(2))
        name = self.name().value
        if self.sees("("):
            return self.function(storage, kind, name, start)
        self.lengths(kind, 2 + kind.stars)
        found = [self.init(name, kind, first, 1)]
        if self.sees(","):
            self.take()
            found += self.inits(base, 1)
        self.want(";")
        return f"({storage}objects [{' '.join(found)}])"

    def function(self, storage, kind, name, start):
        params, named = self.params()
        if named and self.sees("{"):
            body = " " + self.block(1, False)
        else:
            self.want(";")
            body = ""
        return f"({storage}fn {name}{self.place(start)} [{' '.join(params)}] {kind.text(self.spans)}{body})"

    # statements: each at its level, and in a loop or not

    def block(self, level, loop):
        self.want("{")
        items = []
        while not self.sees("}"):
            items.append(self.item(level + 1, loop))
        self.take()
        return "{" + " ".join(items) + "}"

    def item(self, level, loop):
        if self.begins_type():
            self.need(level)
            return self.local(level)
        return self.statement(level, loop)

    def local(self, level):
        base = self.base()
        found = self.inits(base, level)
        self.want(";")
        return f"[{' '.join(found)}]"

    def expression(self, level):
        return self.assign(level).text(self.spans)

    def optional(self, level, closing):
        found = "-" if self.sees(closing) else self.expression(level)
        self.want(closing)
        return found

    def inner(self, level, loop):
        return self.statement(level + 1, loop)

    def statement(self, level, loop):
        if self.begins_expression():
            self.need(level + 1)
            value = self.expression(level + 1)
            self.want(";")
            return f"(expr {value})"
        words = ["{", ";", "if", "while", "do", "for", "return"] + (["break", "continue"] if loop else [])
        if not self.sees(*words):
            self.wrong()
        self.need(level + (1 if self.sees("if", "while", "do", "for") else 0))
        if self.sees("{"):
            return self.block(level, loop)
        t = self.take()
        return {";": self.empty, "if": self.branch, "while": self.loop_while, "do": self.loop_do, "for": self.loop_for, "return": self.leave,
                "break": self.jump, "continue": self.jump}[t.value](t, level, loop)

    def empty(self, t, level, loop):
        return "(empty)"

    def condition(self, level):
        self.want("(")
        value = self.expression(level + 1)
        self.want(")")
        return value

    def branch(self, t, level, loop):
        test = self.condition(level)
        text = f"(if {test} {self.inner(level, loop)}"
        if self.sees("else"):
            self.take()
            text += f" else {self.inner(level, loop)}"
        return text + ")"

    def loop_while(self, t, level, loop):
        test = self.condition(level)
        return f"(while {test} {self.inner(level, True)})"

    def loop_do(self, t, level, loop):
        inner = self.inner(level, True)
        self.want("while")
        test = self.condition(level)
        self.want(";")
        return f"(do {inner} while {test})"

    def loop_for(self, t, level, loop):
        self.want("(")
        if self.begins_type():
            first = self.local(level + 1)
        else:
            first = self.optional(level + 1, ";")
        test = self.optional(level + 1, ";")
        each = self.optional(level + 1, ")")
        return f"(for {first}; {test}; {each}; {self.inner(level, True)})"

    def leave(self, t, level, loop):
        value = "" if self.sees(";") else " " + self.expression(level + 1)
        self.want(";")
        return f"(return{self.place(t.start)}{value})"

    def jump(self, t, level, loop):
        self.want(";")
        return f"({t.value}{self.place(t.start)})"

    def unit(self):
        found = []
        while self.at < len(self.tokens):
            found += self.external()
        return " ".join(found)


def answer(reading):
    try:
        return reading()
    except Fault as found:
        return str(found)


def tokens_of(data):
    return answer(lambda: shown(lex(data)))


def tree_of(data, spans=False):
    return answer(lambda: Parser(lex(data), len(data), spans).unit())


def outcome(data):
    """`ok` where a text is a program, or its refusal."""
    found = tree_of(data)
    return found if re.match(r"(\d+|Unexpected|TooDeep)\b", found) else "ok"
