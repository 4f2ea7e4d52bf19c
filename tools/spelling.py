#!/usr/bin/env python3
"""Spells the repository's own definitions and lemmas as the language's library does: types in camel case, other words in snake case.

usage: tools/spelling.py        at the top of the repository, once, after the language's own script

spelling.tsv beside this file has a row for each name: old, a tab, new. A name turns as a whole word
- in specs/ and proofs/, but for quoted text, for comments unless the old name has a capital inside, and for the first name behind c., w., l. or goal.
  in the proof files of a function, which the checker makes from the code;
- in src/ inside clauses, ghost items and `ghost use` lines.
Edits in must-fail/ and pages are turned by hand.
"""
import os
import re

TABLE = dict(line.rstrip("\n").split("\t") for line in open(os.path.join(os.path.dirname(__file__), "spelling.tsv"), encoding="utf-8"))
WORD = re.compile(r'[^\s(){}.;,@"«»]+')
MADE = re.compile(r"(?<![^\s(){};,@\"«»])(?:c|w|l|goal|c\.args|c\.ranges|l\.initial|l\.fn)\.$")
OF_A_FUNCTION = re.compile(r"/proofs/.*(Answers|Invariants|Choices|Proof)\.antt$")
GHOST = re.compile(r"(ghost use [^;]*;)|((?:requires|ensures)\*?(?: \w+)? \{|ghost(?: \w+)?(?:: | = )?\{|ghost \w+ = \{|ghost \w+: \{)")


def turned(text, made):
    def one(m):
        new = TABLE.get(m.group(0))
        if new is None or made and MADE.search(text, max(0, m.start() - 20), m.start()):
            return m.group(0)
        return new
    return WORD.sub(one, text)


def of_proofs(text, made):
    lines = []
    for line in text.split("\n"):
        cut = re.search(r"(?<!\S)--", line)
        code, comment = (line[:cut.start()], line[cut.start():]) if cut else (line, "")
        comment = WORD.sub(lambda m: TABLE.get(m.group(0), m.group(0)) if re.search(r"[a-z0-9][A-Z]", m.group(0)) else m.group(0), comment)
        lines.append(turned(code, made) + comment)
    return "\n".join(lines)


def of_source(text):
    out, at = [], 0
    for m in GHOST.finditer(text):
        if m.start() < at:
            continue
        out.append(text[at:m.start()])
        if m.group(1):
            end = m.end()
        else:
            end, deep = m.end(), 1
            while deep:
                deep += {"{": 1, "}": -1}.get(text[end], 0)
                end += 1
        out.append(turned(text[m.start():end], False))
        at = end
    return "".join(out) + text[at:]


for folder, _, names in os.walk("crates"):
    if "out" in folder.split(os.sep):
        continue
    for name in sorted(names):
        path = os.path.join(folder, name)
        if not name.endswith((".antt", ".rt")):
            continue
        old = open(path, encoding="utf-8").read()
        new = of_source(old) if name.endswith(".rt") else of_proofs(old, bool(OF_A_FUNCTION.search(path)))
        if new != old:
            open(path, "w", encoding="utf-8").write(new)
