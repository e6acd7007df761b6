#!/usr/bin/env python3
"""Makes the rows of crates/source_rows.

    tools/source-rows/make.py           fails where the rows are others, or where reader.py says something else
    tools/source-rows/make.py --write   writes the rows

by_hand.txt has rows whose answers were written by hand after C11 and docs/LANGUAGE.md; reader.py, a second reading of that
page, has to agree with each of them, and tools/check_tokens.py compares those of tokens with clang. The other rows have
their answers from reader.py alone: texts that are cut at each byte, texts with a token in the place of another, and drawn
texts.
"""
import pathlib
import random
import re
import sys

sys.dont_write_bytecode = True

import drawn
import reader

HERE = pathlib.Path(__file__).parent
ROWS = HERE.parent.parent / "crates/source_rows"
SEED = 20261201
ESCAPED = {"\\": "\\\\", "\n": "\\n", "\t": "\\t", "\r": "\\r"}


def quoted(data):
    """A text as a row writes it."""
    text = "".join(ESCAPED.get(chr(b), chr(b) if 32 <= b < 127 else f"\\x{b:02x}") for b in data)
    # a row ends its question by ` =>` and its answer by ` ; `
    return '"' + text.replace(" ; ", " \\x3b ").replace(" =>", " \\x3d>") + '"'


def unquoted(text):
    """The text of a row's quotes."""
    text = re.sub(r"\\\{(\d+) (.*?)\\\}", lambda found: found[2] * int(found[1]), text.strip()[1:-1])
    names = {"n": "\n", "t": "\t", "r": "\r", "\\": "\\"}
    plain = re.sub(r"\\(x..|.)", lambda found: names.get(found[1]) or chr(int(found[1][1:], 16)), text)
    return plain.encode("latin-1")


def size(data):
    return str(len(reader.lex(data))) if reader.outcome(data) == "ok" else reader.outcome(data)


def printed(data):
    """The lexemes of a program that is written as it is printed."""
    return " ".join(reader.kind(token) for token in reader.lex(data))


def word(data):
    """The number of a keyword or of a punctuator, and a name, which is not known here."""
    spelled = data.decode("latin-1")
    for name, words in (("keyword", reader.KEYWORDS), ("punctuator", reader.PUNCTUATORS)):
        if spelled in words:
            return f"{name} {words.index(spelled)}"
    return "none"


ANSWERS = {"printed": printed, "word": word, "tokens": reader.tokens_of, "tree": reader.tree_of, "spans": lambda data: reader.tree_of(data, True), "size": size}


def by_hand():
    """The rows by hand, and those with which the second reading does not agree."""
    rows = (HERE / "by_hand.txt").read_text().splitlines()
    wrong = []
    for row in rows:
        if not row.startswith("#"):
            question, answer = row.rsplit(" =>", 1)
            kind, text = question.split(" ", 1)
            if kind == "named":
                continue
            found = ANSWERS[kind](unquoted(text))
            wanted = re.sub(r" \w+ \d+$", "", answer.strip()) if kind == "word" else answer.strip()
            if found != wanted:
                wrong.append(f"{question}: {answer} by hand, and {found} by the second reading")
    return rows, wrong


def texts(rows, *kinds):
    """The texts of rows of these kinds that are short."""
    questions = [row.rsplit(" =>", 1)[0].split(" ", 1) for row in rows if not row.startswith("#")]
    found = [unquoted(text) for kind, text in questions if kind in kinds]
    return [data for data in found if len(data) < 200]


def text(data):
    return f"text {quoted(data)} => {len(data)}"


def cuts(data):
    """A text, and what its first N bytes are, for each N."""
    return [text(data)] + [f"cut {count} => {reader.outcome(data[:count])}" for count in range(len(data) + 1)]


def changes(data, others):
    """A text, and what it is with another text in the place of each token."""
    rows = [text(data)]
    for token in reader.lex(data):
        for other in others:
            changed = data[: token.start] + other + data[token.end :]
            rows.append(f"change {token.start}+{token.end - token.start} {quoted(other)} => {reader.outcome(changed)}")
    return rows


# Texts at the limit of 200 levels.
DEEP = [
    b"int main(void){return " + b"(" * 197 + b"1" + b")" * 197 + b";}",
    b"void f(void){" + b"{" * 197 + b"if(a)b;else c=1;int x[2]={1};" + b"}" * 197 + b"}",
    b"void f(void){" + b"{" * 198 + b"x;for(;;){}" + b"}" * 198 + b"}",
    b"int x=" + b"-" + b" -" * 195 + b"sizeof(int*);",
    b"struct s{int " + b"*" * 197 + b"x[1][];};",
    b"int x=" + b"{" * 196 + b"{1,},2" + b"}" * 196 + b";",
]


def rows():
    hand, wrong = by_hand()
    made = ["# Rows of C texts, made by `tools/source-rows/make.py`. First those that were written by hand.", *hand]
    lists = (HERE / "list.c").read_bytes()
    made.append("# A program that keeps a list in order, cut at each byte, and with another token in the place of each token.")
    made += cuts(lists) + changes(lists, (b"]", b"int", b"(", b"1"))
    made.append("# Texts of the rows above, cut at each byte.")
    for data in texts(hand, "tokens", "tree"):
        made += cuts(data)
    made.append("# Texts at the limit of levels, cut at each byte.")
    for data in DEEP:
        made += cuts(data)
    made.append("# Drawn programs, and drawn texts that are close to some.")
    draw = random.Random(SEED)
    programs = [drawn.program(draw) for _ in range(400)]
    made += [f"tree {quoted(data)} => {reader.tree_of(data)}" for data in programs]
    made += [f"spans {quoted(data)} => {reader.tree_of(data, True)}" for data in programs[:100]]
    near = [drawn.near(draw, draw.choice(programs)) for _ in range(1500)]
    made += [f"tree {quoted(data)} => {reader.tree_of(data)}" for data in near]
    made.append("# Drawn bytes, and drawn tokens.")
    made += [f"tokens {quoted(data)} => {reader.tokens_of(data)}" for data in (drawn.some_bytes(draw) for _ in range(1500))]
    return [row.rstrip() for row in made], wrong


def main():
    made, wrong = rows()
    count = sum(not row.startswith("#") for row in made)
    files = {"stdin": "".join(row + "\n" for row in made), "stdout": f"{count} rows, 0 differ\n"}
    for line in wrong:
        print(line)
    for name, content in files.items():
        if "--write" in sys.argv and not wrong:
            (ROWS / name).write_text(content)
        elif (ROWS / name).read_text() != content:
            wrong.append(name)
            print(f"crates/source_rows/{name} is another: tools/source-rows/make.py --write")
    print(f"{count} rows, {len(wrong)} wrong")
    return 1 if wrong else 0


if __name__ == "__main__":
    sys.exit(main())
