#!/usr/bin/env python3
"""Brings the repository's own definitions, lemmas and fields from names with dashes to the spelling of today's Rattle: words in
snake case, statements and types in camel case, an apostrophe for a prime. To be run once, at the top, right after the kit's port.py.

A name counts as the repository's own if it stands in a file of specs/ or in a lemma file of proofs/ (outside comments) and no file
imports it from a library of the kit. In the proofs of functions (folders below proofs/) names that Rattle makes keep their dashes:
goals and steps, that is what follows `c.`, `w.` or `l.` directly, and what a file takes from its Goals or Given module.
Code, comments and strings are left alone: of a .rt file only ghost lines, clauses and ghost fields are read. There the local names
of ghost imports are respelled as well. Where port.py brought a word of the kit under the name of another one, as
`AllByRecursion as All`, which the gate refuses, the word itself is written.
It prints names that would fall together with one that is there already, and then changes nothing.
"""
import glob
import re
import sys

TOKEN = re.compile(r"(?<![\w'′-])[^\W\d][\w'′]*(?:-[\w'′]+)*")
KIT = re.compile(r"(?:^|\s)use\s+(?:Rattle\.(?:std|core)|lib|mathlib|native|Prim|denote)\.[^;\n{]*\{([^}]*)\}", re.S)
KIT_MEMBER = re.compile(r"Memᴰ\.([\w'-]+)")
MADE = re.compile(r"^(?:returns|in|if|then|else|loop|invariant|decreases|bounds|overflow|index|offset|ensures|from_residual|ghost)-|-(?:requires|index|preserved|init|test)(?:-\d+)?$|^field-\d+$")


def own(token):
    return "-" in token or "′" in token


def respelled(token):
    parts = token.replace("′", "'").split("-")
    if token[0].isupper():
        return "".join(p[:1].upper() + p[1:] for p in parts)
    return "_".join(parts)


def pieces(text, comment):
    """Text and comment pieces in turn, and strings with the comments."""
    pattern = r"(?m)(?:(?<=\s)|^)--[^\n]*" if comment == "--" else r'//[^\n]*|b?"(?:\\.|[^"\\])*"'
    at = 0
    for m in re.finditer(pattern, text):
        yield True, text[at : m.start()]
        yield False, m[0]
        at = m.end()
    yield True, text[at:]


def lemma_files():
    return sorted(glob.glob("crates/*/specs/**/*.antt", recursive=True) + glob.glob("crates/*/proofs/*.antt"))


def answer_files():
    return sorted(set(glob.glob("crates/*/proofs/**/*.antt", recursive=True)) - set(glob.glob("crates/*/proofs/*.antt")))


def source_files():
    return sorted(glob.glob("crates/*/src/**/*.rt", recursive=True))


def spelled_out(text, comment):
    if "AllByRecursion as All" not in text:
        return text
    text = text.replace("AllByRecursion as All", "AllByRecursion")
    lines = text.split("\n")
    for i, line in enumerate(lines):
        if not line.strip().startswith(comment):
            lines[i] = re.sub(r"(?<![\w'.-])All(?![\w'-])", "AllByRecursion", line)
    return "\n".join(lines)


def code_of(text, comment="--"):
    return "".join(t if live else " " for live, t in pieces(text, comment))


def names():
    found, kit = set(), set()
    for path in lemma_files() + answer_files():
        code = code_of(open(path).read())
        for group in KIT.findall(code):
            kit.update(TOKEN.findall(re.sub(r"\bas\s+\S+", "", group)))
        kit.update(KIT_MEMBER.findall(code))
    for path in lemma_files():
        found.update(t for t in TOKEN.findall(code_of(open(path).read())) if own(t))
    for path in source_files():
        for use in re.findall(r"\bghost use [^;]*;", open(path).read()):
            found.update(t for t in re.findall(r"\bas\s+([\w'-]+)", use) if own(t))
    return {t for t in found if t not in kit}


def ghost_spans(code):
    """Where a .rt file speaks antt: ghost use lines, clauses and ghost items."""
    for m in re.finditer(r"\bghost use [^;]*;", code):
        yield m.span()
    for m in re.finditer(r"\b(?:requires|ensures|ghost)\b\*?(?:\s+\w+)?\s*[:=]?\s*\{", code):
        depth, i = 1, m.end()
        while depth and i < len(code):
            depth += {"{": 1, "}": -1}.get(code[i], 0)
            i += 1
        yield m.end(), i


def turn(text, table):
    return TOKEN.sub(lambda m: table.get(m[0], m[0]), text)


def turn_answers(text, table):
    made = set(re.findall(r"(?m)^(?:abbrev )?(?:pub )?([^\s:]+) : (?:goal|need|given)\.", text))
    for group in re.findall(r"use Rattle\.\S*\.(?:Goals|Given)\.\{([^}]*)\}", text):
        made.update(TOKEN.findall(group))

    brought = set()
    for group in re.findall(r"use Rattle\.(?!std\.|core\.)\S*\.(?:specs|proofs)\.\S*?\.?(?!Goals|Given)\w+\.\{([^}]*)\}", text):
        brought.update(TOKEN.findall(group))
    brought -= made

    def one(m):
        before = text[: m.start()]
        if m[0] in brought and not re.search(r"(?<![\w.])(?:c|w|l)\s?\.$", before):
            return table.get(m[0], m[0])
        if m[0] in made or MADE.search(m[0]) or re.search(r"(?<![\w.])(?:c|w|l|goal|need|given)\s?\.$", before):
            return m[0]
        return table.get(m[0], m[0])

    return TOKEN.sub(one, text)


def main():
    table = {t: respelled(t) for t in names()}
    there = set()
    for path in lemma_files():
        there.update(t for t in TOKEN.findall(code_of(open(path).read())) if not own(t))
    back = {}
    for old, new in table.items():
        back.setdefault(new, []).append(old)
    clash = [(new, olds) for new, olds in sorted(back.items()) if len(olds) > 1 or new in there]
    allowed = set(sys.argv[1:])
    bad = [c for c in clash if c[0] not in allowed]
    for new, olds in bad:
        print("falls together:", ", ".join(olds), "and", new)
    if bad:
        return 1
    for path in lemma_files() + answer_files():
        text = open(path).read()
        parts = []
        if path in set(answer_files()):
            parts = [turn_answers(text, table)]
        else:
            parts = [turn(t, table) if live else t for live, t in pieces(text, "--")]
        new = spelled_out("".join(parts), "--")
        if new != text:
            open(path, "w").write(new)
    for path in source_files():
        text = open(path).read()
        blanked = "".join(t if live else " " * len(t) for live, t in pieces(text, "//"))
        new, at = [], 0
        for start, end in sorted(ghost_spans(blanked)):
            if start < at:
                continue
            new += [text[at:start], turn(text[start:end], table)]
            at = end
        new = spelled_out("".join(new + [text[at:]]), "//")
        if new != text:
            open(path, "w").write(new)
    print(len(table), "names respelled")
    return 0


if __name__ == "__main__":
    sys.exit(main())
