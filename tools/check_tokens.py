#!/usr/bin/env python3
"""Compares the rows of words, tokens and faults of tools/source-rows/by_hand.txt with clang.

    tools/check_tokens.py         fails where a row is not what clang says
    tools/check_tokens.py TEXT    prints the tokens that clang finds in TEXT, as the rows write them

The boundaries and kinds of a row are those of clang's token dump, and the values and types those of a program that
clang compiles. A text with a fault has to be refused by clang too, at the same byte, unless OTHERWISE says why not.
It needs Debian's clang (14 was used), on a machine where int has 4 bytes and long has 8, as on AArch64.
"""
import pathlib
import re
import subprocess
import sys
import tempfile

sys.dont_write_bytecode = True
sys.path.insert(0, str(pathlib.Path(__file__).parent / "source-rows"))

from make import unquoted

ROWS = pathlib.Path(__file__).parent / "source-rows/by_hand.txt"

# As C11 6.4.1 prints them, in three columns. A keyword's number counts down the columns.
KEYWORD_LINES = """
    auto          if            unsigned
    break         inline        void
    case          int           volatile
    char          long          while
    const         register      _Alignas
    continue      restrict      _Alignof
    default       return        _Atomic
    do            short         _Bool
    double        signed        _Complex
    else          sizeof        _Generic
    enum          static        _Imaginary
    extern        struct        _Noreturn
    float         switch        _Static_assert
    for           typedef       _Thread_local
    goto          union
"""
LINES = [line.split() for line in KEYWORD_LINES.split("\n") if line.strip()]
KEYWORDS = [line[column] for column in range(3) for line in LINES if column < len(line)]

# The punctuators of the profile, in the order of their numbers, and what clang and the profile call them.
PUNCTUATORS = {
    "{": ("l_brace", "LeftBrace"), "}": ("r_brace", "RightBrace"), "(": ("l_paren", "LeftParen"), ")": ("r_paren", "RightParen"),
    "[": ("l_square", "LeftBracket"), "]": ("r_square", "RightBracket"), ";": ("semi", "Semicolon"), ",": ("comma", "Comma"),
    ".": ("period", "Dot"), "->": ("arrow", "Arrow"), "++": ("plusplus", "PlusPlus"), "--": ("minusminus", "MinusMinus"),
    "&": ("amp", "Ampersand"), "*": ("star", "Star"), "+": ("plus", "Plus"), "-": ("minus", "Minus"), "~": ("tilde", "Tilde"),
    "!": ("exclaim", "Exclamation"), "/": ("slash", "Slash"), "%": ("percent", "Percent"), "<<": ("lessless", "ShiftLeft"),
    ">>": ("greatergreater", "ShiftRight"), "<": ("less", "Less"), ">": ("greater", "Greater"), "<=": ("lessequal", "LessEqual"),
    ">=": ("greaterequal", "GreaterEqual"), "==": ("equalequal", "EqualEqual"), "!=": ("exclaimequal", "ExclamationEqual"),
    "^": ("caret", "Caret"), "|": ("pipe", "Bar"), "&&": ("ampamp", "AmpersandAmpersand"), "||": ("pipepipe", "BarBar"),
    "?": ("question", "Question"), ":": ("colon", "Colon"), "=": ("equal", "Equal"), "+=": ("plusequal", "PlusEqual"),
    "-=": ("minusequal", "MinusEqual"), "*=": ("starequal", "StarEqual"), "/=": ("slashequal", "SlashEqual"),
    "%=": ("percentequal", "PercentEqual"), "<<=": ("lesslessequal", "ShiftLeftEqual"), ">>=": ("greatergreaterequal", "ShiftRightEqual"),
    "&=": ("ampequal", "AmpersandEqual"), "^=": ("caretequal", "CaretEqual"), "|=": ("pipeequal", "BarEqual"),
}
NUMBER_OF = {clang: place for place, (clang, _) in enumerate(PUNCTUATORS.values())}

FLOATING = "C has floating constants"
SUFFIX = "clang names the whole suffix, and the profile the first byte of it that does not fit"
PREFIX = "clang names the x, and the profile the place behind it"
SPLICED = "C joins lines at a backslash before a newline"
COMMENT = "C takes a comment for a space in a directive's line, and a form feed or a carriage return for white space"
OTHERS = "C has other directives, headers and names of headers"
WIDER = "C takes this byte between quotes, or leaves it to the compiler"
OPENING = "clang names the opening quote"
# Where the profile leaves out what C has, or names another byte than clang.
OTHERWISE = {
    b"...": "C has the punctuator ...", b"1-.5": FLOATING, b"0xe+1": "C's numbers go on over a sign behind an e", b"//\\\nx": SPLICED,
    b"x\x00": "clang passes over a zero byte, which is none of C's characters", b"a\\\nb": SPLICED,
    b"09.5": FLOATING, b"1.5": FLOATING, b"1.": FLOATING, b"1e3": FLOATING, b"0x1.8": FLOATING, b"0b1": "clang names the first byte",
    b"0x": PREFIX, b"0x;": PREFIX, b"0xg": PREFIX, b"0xu": PREFIX, b"1ll": "C has the suffix ll", b"1lL": SUFFIX, b"12uu": SUFFIX, b"1ulu": SUFFIX, b"1lul": SUFFIX,
    b"''": OPENING, b"'ab'": "C has characters of several bytes", b"'\x80'": OPENING, b"\"\t\"": WIDER, b"\"\x7f\"": WIDER, b"\"a\x00\"": WIDER,
    b"\"a\\\n\"": SPLICED,
    b"#": OTHERS, b"#\ninclude <stdio.h>": OTHERS, b"#include \"stdio.h\"": OTHERS, b"\n #define X": OTHERS, b"#define X": OTHERS, b"#include <stdio.h> // c": COMMENT, b"#include/**/<stdio.h>": COMMENT,
    b"/**/#include <stdio.h>": COMMENT, b"/*\n*/ #include <stdio.h>": COMMENT, b"\x0c#include <stdio.h>": COMMENT, b"x\n\r#include <stdio.h>": COMMENT,
    b"#include <stdio.h>\x0b": COMMENT, b"#include <stdio.h>\r x": "clang takes a carriage return for the end of a line",
}

OPTIONS = ["-std=c11", "-fno-trigraphs", "-fno-digraphs", "-fno-dollars-in-identifiers", "-funsigned-char", "-pedantic-errors", "-Wno-newline-eof"]
DUMPED = re.compile(rb"(\w+) '(.*?)'\t[^\n]*?Loc=<(.*?):(\d+):(\d+)>\n", re.DOTALL)
SHOW = r"""
#include <stdio.h>
#define TYPE(x) _Generic((x), int: "int", unsigned: "uint", long: "long", unsigned long: "ulong", default: "other")
static void text(const unsigned char *bytes, int count) {
    printf("t[");
    for (int i = 0; i < count; i++) printf(i ? ", %d" : "%d", bytes[i]);
    printf("]\n");
}
"""


class Clang:
    def __init__(self, folder):
        self.folder = pathlib.Path(folder)
        (self.folder / "headers").mkdir()
        (self.folder / "headers/stdio.h").write_text("")

    def run(self, text, *options):
        """What clang writes for a text, and its errors as pairs of place and message."""
        source = self.folder / "text.c"
        source.write_bytes(text)
        done = subprocess.run(["clang", *OPTIONS, *options, source], capture_output=True)
        errors = re.findall(rb"text\.c:(\d+):(\d+): (?:fatal )?error: ([^\n]*)", done.stderr)
        return done.stderr, [(place_of(text, int(line), int(column)), message.decode()) for line, column, message in errors]

    def dump(self, text):
        """The tokens of a text by place, count of bytes and kind, with one for each directive."""
        written, errors = self.run(text, "-nostdinc", "-isystem", self.folder / "headers", "-H", "-fsyntax-only", "-Xclang", "-dump-tokens")
        tokens = [(place_of(text, int(line), int(column)), kind.decode(), spelled) for kind, spelled, _, line, column in DUMPED.findall(written + b"\n") if kind != b"eof"]
        includes = re.findall(rb"^\. ", written, re.MULTILINE)
        lines = [found for found in re.finditer(rb"#[ \t]*include[ \t]*<stdio\.h>", text) if all(place != found.start() for place, _, _ in tokens)]
        if len(includes) == len(lines):
            tokens += [(found.start(), "include", found.group()) for found in lines]
        return sorted(tokens), errors

    def values(self, tokens):
        """What the rows say of the constants among these tokens."""
        lines = []
        for _, kind, spelled in tokens:
            if kind == "numeric_constant":
                lines.append(b'printf("%%lu%%s\\n", (unsigned long)(%s), TYPE(%s));' % (spelled, spelled))
            elif kind == "char_constant":
                lines.append(b'_Static_assert(_Generic((%s), int: 1, default: 0), ""); printf("c%%d\\n", (%s));' % (spelled, spelled))
            elif kind == "string_literal":
                lines.append(b'{ static const unsigned char bytes[] = %s; text(bytes, sizeof bytes - 1); }' % spelled)
        if not lines:
            return []
        (self.folder / "values.c").write_bytes(SHOW.encode() + b"int main(void) {\n" + b"\n".join(lines) + b"\nreturn 0; }\n")
        program = self.folder / "values"
        if subprocess.run(["clang", *OPTIONS[:-2], "-w", "-o", program, self.folder / "values.c"], stderr=subprocess.DEVNULL).returncode != 0:
            return ["refused"] * len(lines)
        return subprocess.run([program], capture_output=True, check=True, text=True).stdout.splitlines()

    def shown(self, text):
        """The tokens of a text, as the rows write them."""
        tokens, _ = self.dump(text)
        values = iter(self.values(tokens))
        return "".join(f" {place}+{len(spelled)}:{kind_shown(kind, spelled, values)}" for place, kind, spelled in tokens)

    def refuses(self, text):
        """The places and reasons of clang's refusal of a text, by its tokens or by the errors of its constants."""
        tokens, errors = self.dump(text)
        found = list(errors)
        for place, kind, spelled in tokens:
            if kind in ("unknown", "hash", "hashhash"):
                found.append((place, f"{kind} {spelled}"))
            elif kind in ("numeric_constant", "char_constant", "string_literal"):
                head = b"enum { value = sizeof("
                _, wrong = self.run(head + spelled + b") };\n", "-Werror=invalid-source-encoding", "-Werror=implicitly-unsigned-literal", "-fsyntax-only")
                found += [(place + at - len(head), message) for at, message in wrong]
        return sorted(found)


def place_of(text, line, column):
    """The place of a byte that clang names by line and column."""
    return sum(len(one) + 1 for one in text.split(b"\n")[: line - 1]) + column - 1


def kind_shown(kind, spelled, values):
    if kind in ("numeric_constant", "char_constant", "string_literal"):
        return next(values)
    if kind == "identifier":
        return "n"
    if kind == "include":
        return "#"
    if kind in NUMBER_OF:
        return f"p{NUMBER_OF[kind]}"
    return f"k{KEYWORDS.index(spelled.decode())}" if spelled.decode() in KEYWORDS and kind == spelled.decode() else kind


def rows(kind):
    """The rows of a kind by hand: texts, and their answers. Texts of more than 65,536 bytes are not for clang."""
    for row in ROWS.read_text().splitlines():
        if row.startswith(kind + " "):
            question, answer = row.rsplit(" =>", 1)
            text = unquoted(question.split(" ", 1)[1])
            if len(text) <= 65536:
                yield text, answer.strip()


def words_wrong(clang):
    """What is wrong in the rows of words, each of which has a number and the name in this repository."""
    found = {text.decode(): answer.split() for text, answer in rows("word") if answer != "none"}
    wrong = []
    for number, (spelled, (kind, name)) in enumerate(PUNCTUATORS.items()):
        if found.get(spelled) != ["punctuator", str(number), name, str(number)]:
            wrong.append(f"punctuator {spelled}: {found.get(spelled)}")
        if clang.dump(spelled.encode())[0] != [(0, kind, spelled.encode())]:
            wrong.append(f"punctuator {spelled}")
    for number, spelled in enumerate(KEYWORDS):
        name = found.get(spelled, ["", "", "", ""])
        if name[2].lower() != spelled.replace("_", "").lower() or name != ["keyword", str(number), name[2], str(number)]:
            wrong.append(f"keyword {spelled}: {name}")
        if clang.dump(spelled.encode())[0] != [(0, spelled, spelled.encode())]:
            wrong.append(f"keyword {spelled}")
    if len(found) != len(KEYWORDS) + len(PUNCTUATORS):
        wrong.append(f"{len(found)} words")
    return wrong


def row_wrong(clang, text, expected):
    """What is wrong in a row of tokens, and none where clang agrees."""
    if not re.match(r"\d [A-Z]", expected):
        shown = clang.shown(text).strip()
        return None if shown == expected else f"{expected}, and clang says {shown}"
    _, name, at = expected.split()
    found = clang.refuses(text)
    # Of a directive's line the profile names the `#`, and clang what is wrong in the line.
    end = text.find(b"\n", int(at)) % (len(text) + 1) if name == "BadDirective" else int(at)
    return None if any(int(at) <= place <= end for place, _ in found) else f"{expected}, and clang says {found}"


def main():
    with tempfile.TemporaryDirectory() as folder:
        clang = Clang(folder)
        if len(sys.argv) > 1:
            print(clang.shown(sys.argv[1].encode()))
            return 0
        wrong = words_wrong(clang)
        table = list(rows("tokens"))
        others = 0
        for text, expected in table:
            what = row_wrong(clang, text, expected)
            if (what is None) == (text in OTHERWISE):
                wrong.append(f"{text}: {what or 'clang agrees, and OTHERWISE says that it does not'}")
            others += text in OTHERWISE
    for line in wrong:
        print(line)
    print(f"{len(table)} rows, {others} of them otherwise by the profile, {len(wrong)} wrong")
    return 1 if wrong else 0


if __name__ == "__main__":
    sys.exit(main())
