#!/usr/bin/env python3
"""Writes the cases of the program `texts` and the answers that the rulebook gives them.

The answers come from this file's own reading of docs/rulebook/texts.md, never from the engine: `python3 tests/texts.py`
writes crates/texts/stdin and crates/texts/stdout, and stops if a worked case of the rulebook disagrees.
"""
import pathlib
import random
import re

ROOT = pathlib.Path(__file__).resolve().parent.parent
END = None  # stands behind the last byte


class Fault(Exception):
    def __init__(self, number, line=0):
        self.number, self.line = number, line


def is_letter(b):
    return b is not END and 97 <= b <= 122


class Reader:
    """One pass over the bytes of a line or a recipe, on the symbols of a card."""

    def __init__(self, text, symbols):
        self.text, self.symbols, self.at = text, symbols, 0

    def byte(self):
        return self.text[self.at] if self.at < len(self.text) else END

    def name(self):
        start = self.at
        while is_letter(self.byte()):
            if self.at - start == 12:
                raise Fault(5)
            self.at += 1
        return bytes(self.text[start:self.at])

    def place(self, most):
        if most is not None and self.places == most:
            raise Fault(11)
        self.places += 1

    def whole(self, most_places=None, most_open=None, variables=None):
        """One term from here; `variables` says which letters may stand, None that none may."""
        self.places, self.seen = 0, set()
        self.term(0, most_places, most_open, variables)

    def term(self, opened, most_places, most_open, variables):
        b = self.byte()
        if variables is not None and b is not END and 65 <= b <= 72:
            self.place(most_places)
            if b not in variables:
                raise Fault(14)
            self.seen.add(b)
            self.at += 1
            return
        if not is_letter(b):
            raise Fault(5)
        self.place(most_places)
        name = self.name()
        bracket = self.byte() == ord("(")
        if name not in self.symbols:
            raise Fault(6)
        arity = self.symbols[name]
        if (arity == 0) == bracket:
            raise Fault(7)
        if arity == 0:
            return
        if most_open is not None and opened == most_open:
            raise Fault(8)
        self.at += 1
        for child in range(1, arity + 1):
            self.term(opened + 1, most_places, most_open, variables)
            b = self.byte()
            if b not in (ord(","), ord(")")):
                raise Fault(5)
            if (b == ord(")")) != (child == arity):
                raise Fault(7)
            self.at += 1

    def end(self):
        if self.byte() is not END:
            raise Fault(5)


def recipe(text, symbols):
    if len(text) > 4096:
        raise Fault(4)
    reader = Reader(text, symbols)
    reader.whole(most_open=64)
    reader.end()
    return reader.places


def symbol_line(line, symbols):
    if len(symbols) == 64:
        raise Fault(11)
    reader = Reader(line, symbols)
    name = reader.name()
    if not name or reader.byte() != ord("/"):
        raise Fault(5)
    if name in symbols:
        raise Fault(12)
    reader.at += 1
    digit = reader.byte()
    if digit is END or not 48 <= digit <= 57:
        raise Fault(5)
    if digit > 52:
        raise Fault(11)
    reader.at += 1
    reader.end()
    symbols[name] = digit - 48


def rule_line(line, symbols, rules):
    if rules == 64:
        raise Fault(11)
    reader = Reader(line, symbols)
    reader.whole(most_places=32, variables=set(range(65, 73)))
    if reader.byte() != ord("="):
        raise Fault(5)
    if reader.at == 1 and 65 <= line[0] <= 72:
        raise Fault(13)
    reader.at += 1
    reader.whole(most_places=32, variables=reader.seen)
    reader.end()


def clean(text):
    return b"\n".join(re.sub(rb"[ \t]|#.*", b"", line, flags=re.S) for line in text.split(b"\n"))


def card(text):
    if len(text) > 16384:
        raise Fault(4)
    symbols, rules, ended = {}, 0, False
    for number, line in enumerate(clean(text).split(b"\n"), 1):
        try:
            if b"=" in line:
                ended = True
                rule_line(line, symbols, rules)
                rules += 1
            elif line:
                if ended:
                    raise Fault(11 if len(symbols) == 64 else 5)
                symbol_line(line, symbols)
        except Fault as fault:
            raise Fault(fault.number, number) from None
    return symbols, rules


CASES = []


def say(kind, text, wanted=None):
    """A case; `wanted` is the answer of a worked case."""
    assert 0 not in text
    CASES.append((kind, bytes(text), wanted))


TEA = b"assam/0\nceylon/0\nmix/2\nscent/1\n"


def worked_cases():
    for text, number in RECIPES:
        say("r", text, number)
    for line, number in SYMBOL_LINES:
        say("c", TEA + line, (number, 5))
    for line, number in RULE_LINES:
        say("c", TEA + line, (number, 5))
    for text, number, line in CARDS:
        say("c", text, (number, line))


def answers():
    symbols = {}
    for kind, text, wanted in CASES:
        try:
            if kind == "c":
                symbols_read, rules = card(text)
                symbols, got = symbols_read, (0, 0)
                answer = f"card {len(symbols)} {rules}"
            else:
                answer, got = f"recipe {recipe(text, symbols)}", (0, 0)
        except Fault as fault:
            if kind == "c":
                symbols = {}
            answer, got = f"refused {fault.number} line {fault.line}", (fault.number, fault.line)
        if wanted is not None:
            wanted = wanted if isinstance(wanted, tuple) else (wanted, 0)
            if wanted[0] == 0:
                wanted = (0, 0)
            assert got == wanted, (text, got, wanted)
        yield answer


def tower(n, inside=b"assam", closed=None):
    return b"scent(" * n + inside + b")" * (n if closed is None else closed)


# 0 stands for an accepted text
RECIPES = [
    (b"assam", 0), (b"mix(assam,ceylon)", 0), (b"", 5), (b"oolong", 6), (b"oolong(", 6), (b"oolong)", 6), (b"mix", 7),
    (b"mix)", 7), (b"mix(", 5), (b"mix()", 5), (b"mix(,", 5), (b"mix(assam", 5), (b"mix(mix", 7), (b"mix(oolong", 6),
    (b"mix(assam)", 7), (b"mix(assam,)", 5), (b"mix(oolong)", 6), (b"mix(assam,ceylon", 5), (b"mix(assam,ceylon,", 7),
    (b"mix(assam,ceylon))", 5), (b"mix(assam,ceylon),", 5), (b"scent(assam,ceylon)", 7), (b"scent(oolong,assam)", 6),
    (b"scent(mix,assam)", 7), (b"assam(", 7), (b"assam()", 7), (b"mix(assam(", 7), (b"assam,ceylon", 5), (b"assam)", 5),
    (b"(assam)", 5), (b"mix((assam", 5), (b"A", 5), (b"mix(A,A)", 5), (b"Assam", 5), (b"aSsam", 6), (b"assamA", 5),
    (b"mixA", 7), (b"oolongA", 6), (b"assam1", 5), (b"assam/0", 5), (b"assam#", 5), (b"assam ", 5), (b" assam", 5),
    (b"oolong ", 6), (b"mix (assam,ceylon)", 7), (b"assam\r", 5), (b"assam\n", 5), (b"mix(\xc8", 5), (b"abcdefghijkl", 6),
    (b"abcdefghijklm", 5), (tower(64), 0), (tower(65), 8), (tower(64, b"mix(", 0), 8), (tower(64, b"mix)", 0), 7),
    (tower(64, b"oolong(", 0), 6), (tower(64, b"assam(", 0), 7), (tower(64, b"(", 0), 5), (b"a" * 4097, 4), (b"a" * 4096, 5),
    (b"(" * 4097, 4),
]

SYMBOL_LINES = [
    (b"green/2", 0), (b"green/0", 0), (b"green/4", 0), (b"mixx/2", 0), (b"mi/2", 0), (b"abcdefghijkl/1", 0),
    (b"abcdefghijklm/1", 5), (b"mix/2", 12), (b"mix/3", 12), (b"mix/9", 12), (b"mix", 5), (b"green", 5), (b"green/", 5),
    (b"green/5", 11), (b"green/9x", 11), (b"green/52", 11), (b"green/22", 5), (b"green/x", 5), (b"green/-1", 5),
    (b"green//2", 5), (b"green/2/", 5), (b"green2", 5), (b"green(A)", 5), (b"Green/2", 5), (b"gReen/2", 5), (b"/2", 5),
    (b"2/green", 5),
]

RULE_LINES = [
    (b"mix(A,A)=A", 0), (b"mix(A,A)=ceylon", 0), (b"A=assam", 13), (b"A=", 13), (b"assam=A", 14), (b"mix(A,B)=C", 14),
    (b"mix(A,A)=B,", 14), (b"mix(A,B)=", 5), (b"mix(A,B)=mix(A,", 5), (b"mix(A,A)=mix(A", 5), (b"mix(A,A)=mix", 7),
    (b"mix(A,A)=oolong", 6), (b"mix(A,A)=mix(oolong", 6), (b"=assam", 5), (b"=", 5), (b"mix(A=A", 5), (b"mix(A,=A", 5),
    (b"mix(A)=A", 7), (b"scent(A,B)=A", 7), (b"mix=A", 7), (b"oolong=A", 6), (b"assam=assam(", 7), (b"assam=ceylon=assam", 5),
    (b"assam=oolong=assam", 6), (b"assam=mix=assam", 7), (b"assam==A", 5), (b"mix(A,A)=A=A", 5), (b"mix(A,A)=A)", 5),
    (b"assam)=ceylon", 5), (b"mix(A,B),A=A", 5), (b"A,B=assam", 5), (b"AB=assam", 5), (b"A(B)=B", 5), (b"I=assam", 5),
    (b"mix(A,I)=A", 5), (b"assam=I", 5), (b"assam=ceylonA", 5), (b"assam=oolongA", 6), (b"assam=mixA", 7), (b"mix/2=A", 7),
    (b"assam/0=assam", 5), (b"green/0=assam", 6), (tower(31, b"A") + b"=A", 0), (tower(32, b"A") + b"=A", 11),
    (tower(32, b"oolong=A", 0), 11), (tower(32, b"I=A", 0), 5), (tower(32, b")=A", 0), 5),
    (b"scent(A)=" + tower(31, b"B", 0), 14), (b"scent(A)=" + tower(32, b"B", 0), 11), (b"scent(A)=" + tower(31, b"A"), 0),
]


def symbol_names(n):
    return b"".join(b"s%c%c/0\n" % (97 + i // 26, 97 + i % 26) for i in range(n))


RULES = b"assam=assam\n"

CARDS = [
    (b"", 0, 0), (b"\n\n# nothing here", 0, 0), (b"assam/0", 0, 0), (b"assam/0 # a = b\n", 0, 0), (b"mix/2\nmix/2\n", 12, 2),
    (b"mix/2\n\nmix", 5, 3), (b"assam/0\n# note\n\nassam=A", 14, 4), (b"assam/0\nassam=assam\nceylon/0\n", 5, 3),
    (b"assam=assam\nassam/0\n", 6, 1), (b"assam/0\nA\n", 5, 2), (b"assam/0\nceylon/7\nscent/1\n", 11, 2), (b"assam/0\r\n", 5, 1),
    (b"\r\n", 5, 1), (symbol_names(64) + b"x\n", 11, 65), (symbol_names(64), 0, 0),
    (symbol_names(64) + b"saa=saa\n+\n", 11, 66), (symbol_names(63) + b"saa=saa\nzz/0\n", 5, 65),
    (b"assam/0\n" + RULES * 64 + b"=\n", 11, 66), (b"assam/0\n" + RULES * 64, 0, 0), (b" " * 16384, 0, 0), (b" " * 16385, 4, 0),
    (b"m i x / 2 # two parts", 0, 0), (b"\tassam\t/\t0\t\n", 0, 0), (b"assam/# 0\n", 5, 1), (b"\xff\n", 5, 1),
    (b"assam/0\n=#=\n", 5, 2), (b"#" + b"=" * 16383, 0, 0), (b"assam/0\nassam # = assam\n", 5, 2), (b"\n" * 16384, 0, 0),
]


def mutations(seed, many):
    """Good texts with a byte changed, left out or put in; the same ones at every run."""
    dice = random.Random(seed)
    seeds = [("r", b"mix(scent(assam),mix(ceylon,assam))"), ("r", b"scent(scent(mix(assam,ceylon)))"),
             ("c", TEA + b"mix(A,A)=A\nscent(scent(A))=scent(A)\n"),
             ("c", TEA + b"\n# a note\nmix(A, mix(B,C)) = mix(mix(A,B),C)\n mix(assam,A)=scent(A)")]
    signs = b"abmsxABHI(),=/#0459 \t\n\r\x80\xff"
    for _ in range(many):
        kind, text = dice.choice(seeds)
        at = dice.randrange(len(text) + 1)
        text = dice.choice([text[:at] + text[at + 1:], text[:at] + bytes([dice.choice(signs)]) + text[at:], text[:at],
                            text[:at] + bytes([dice.choice(signs)]) + text[at + 1:]])
        if kind == "r":
            say("c", TEA)
        say(kind, text)


def main():
    say("c", TEA, 0)
    worked_cases()
    mutations(1, 200)
    folder = ROOT / "crates" / "texts"
    lines = list(answers())
    (folder / "stdin").write_bytes(b"".join(kind.encode() + text + b"\0" for kind, text, _ in CASES))
    (folder / "stdout").write_text("".join(line + "\n" for line in lines))
    print(len(lines), "texts")


if __name__ == "__main__":
    main()
