#!/usr/bin/env python3
"""Gives the definitions and lemmas of this repository the spelling of today's Rattle: words in snake case.

usage: tools/respell.py [ROOT]      once, after port.py, at the top of the checkout

tools/respell.tsv has a row for each name: old, a tab, new, and a tab and `landed` where only the pages, the comments and the
must-fail edits still have the old spelling, since port.py turned the code. A lemma that would have had a definition's name
ends in `_lem`. Functions of src/, exported names, strings, inputs and outputs keep their names. In comments and pages it
turns what stands in code spans and fenced blocks, and a name with a capital inside.
"""
import os
import re
import sys

ROOT = sys.argv[1] if len(sys.argv) > 1 else os.path.join(os.path.dirname(os.path.abspath(__file__)), "..")
CODE, ALL = {}, {}
with open(os.path.join(os.path.dirname(os.path.abspath(__file__)), "respell.tsv"), encoding="utf-8") as rows:
    for row in rows:
        parts = row.rstrip("\n").split("\t")
        ALL[parts[0]] = parts[1]
        if len(parts) == 2:
            CODE[parts[0]] = parts[1]
WORD = re.compile(r"[^\s(){}.;,@\"«»`\[\]]+")
PROSE = re.compile(r"[^\s(){}.;,@\"«»`\[\]:/|*]+")
SPAN = re.compile(r"`[^`\n]+`")
CAMEL = re.compile(r"(?<![.\w])[a-z][a-z0-9]*[A-Z]\w*")
FENCE = re.compile(r"^```.*?^```", re.S | re.M)
STRING = re.compile(r'b?"(?:\\.|[^"\\])*"')


def turn(text, table, word=WORD):
    return word.sub(lambda m: table.get(m[0], m[0]), text)


def prose(text):
    text = SPAN.sub(lambda m: turn(m[0], ALL, PROSE), text)
    return CAMEL.sub(lambda m: ALL.get(m[0], m[0]), text)


def code(text, mark, table):
    lines = []
    for line in text.split("\n"):
        at = re.search(rf"(?:^|\s){mark}(?:\s|$)", line)
        cut = at.start() if at else len(line)
        body, parts, end = line[:cut], [], 0
        for string in STRING.finditer(body):
            parts += [turn(body[end:string.start()], table), string[0]]
            end = string.end()
        lines.append("".join(parts) + turn(body[end:], table) + prose(line[cut:]))
    return "\n".join(lines)


def edit(text):
    lines = []
    for line in text.split("\n"):
        kind = re.match(r"(old|new): ?", line)
        lines.append(line[:kind.end()] + turn(line[kind.end():], ALL) if kind else line if line.startswith("file:") else prose(line))
    return "\n".join(lines)


def page(text):
    parts, end = [], 0
    for fence in FENCE.finditer(text):
        parts += [SPAN.sub(lambda m: turn(m[0], ALL, PROSE), text[end:fence.start()]), turn(fence[0], ALL, PROSE)]
        end = fence.end()
    return "".join(parts) + SPAN.sub(lambda m: turn(m[0], ALL, PROSE), text[end:])


def main():
    for folder, dirs, names in os.walk(ROOT):
        dirs[:] = sorted(d for d in dirs if d not in (".git", "out", "target", "asked", "tools"))
        for name in sorted(names):
            path = os.path.join(folder, name)
            ending = os.path.splitext(name)[1]
            if ending not in (".antt", ".rt", ".edit", ".md"):
                continue
            with open(path, encoding="utf-8") as f:
                old = f.read()
            new = {".antt": lambda: code(old, "--", CODE), ".rt": lambda: code(old, "//", CODE), ".edit": lambda: edit(old), ".md": lambda: page(old)}[ending]()
            if new != old:
                with open(path, "w", encoding="utf-8") as f:
                    f.write(new)


main()
