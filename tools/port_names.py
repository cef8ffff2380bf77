#!/usr/bin/env python3
"""Respells this repository's own names as today's Rattle spells names: python3 tools/port_names.py

Run it once, at the top of the repository, right behind the toolchain's port.py. tools/port_names.tsv has the names, old and new.
In the Rattle files of src/, specs/ and proofs/ each name becomes the new one, but not in comments and strings, where a file imports the name
from outside the repository, or where it is one that Rattle makes (a goal, or a step of the code behind c., w. or l. in an answer).
It also drops the imports 'AllByRecursion as All' and 'ContainsAt as Has': the library's own names stand instead, with the same meaning.
Before it writes anything, it stops at two names that would fall together in one file.
"""

import collections
import os
import re
import sys

HERE = os.path.dirname(os.path.realpath(__file__))
WORD = r"[^\s(){}.;,@\"«»\[\]|=:`]+"
HYPHENED = re.compile(r"[^\W\d_][\w']*(?:-[\w']+)+")
COMMENT_ANTT = re.compile(r'"(?:[^"\\\n]|\\.)*"|(?<![^\s(){}.;,@"«»])--[^\n]*|\{-.*?-\}', re.S)
COMMENT_RUST = re.compile(r'//[^\n]*|/\*.*?\*/|b?"(?:\\.|[^"\\])*"|b?\'(?:\\.|[^\'\\\n])\'', re.S)
USE = re.compile(r"(?m)^\s*(?:ghost )?(?:pub )?use\s+([\w.+'◌-]+?)(?:\.\{([^}]*)\})?(?: as [^\s;]+)?;?\s*$")
ANSWER = re.compile(rf"(?m)^\s*(?:abbrev )?(?:pub )?({WORD}) : goal\.")
ALIASES = {"All": "AllByRecursion", "Has": "ContainsAt"}
# What stands before a dot in front of a name that Rattle makes.
STEPS = {"c", "w", "l", "goal", "given"}
LABELS = {"args", "new", "fn", "initial", "auto", "ranges", "in_ok"}


def sources():
    for crate in sorted(os.listdir("crates")):
        for part in ("src", "specs", "proofs"):
            for folder, _, files in os.walk(os.path.join("crates", crate, part)):
                yield from (os.path.join(folder, f) for f in sorted(files) if f.endswith((".rt", ".antt")))


def split(path, text):
    """The text in pieces: (is it code?, piece)."""
    at = 0
    for m in (COMMENT_ANTT if path.endswith(".antt") else COMMENT_RUST).finditer(text):
        yield True, text[at : m.start()]
        yield False, m[0]
        at = m.end()
    yield True, text[at:]


def code_of(path, text):
    return "".join(piece if code else re.sub(r"[^\n]", " ", piece) for code, piece in split(path, text))


def not_ours(path, code):
    """The names that this file takes from outside the repository, or that answer a goal."""
    ours = set(os.listdir("crates"))
    names = set()
    for m in USE.finditer(code):
        crate = re.match(r"Rattle\.(\w+)", m[1])
        made = re.search(r"\.(Goals|Given)$|\.proofs\..*\.(Goals|Given|Lts)", m[1])
        if made or not (crate and crate[1] in ours):
            names.update(item.split(" as ")[0].strip() for item in (m[2] or "").split(","))
    return names | set(ANSWER.findall(code))


def is_step(path, code, start):
    """Whether the name at this place is a step or a label that Rattle makes, in an answer."""
    if not re.match(r"crates/\w+/proofs/.+/", path) or not code[:start].endswith("."):
        return False
    heads = re.search(r"([^\s(){},;\"«»\[\]]*)\.$", code[:start])[1].split(".")
    return heads[0] in ("goal", "given") or heads[0] in STEPS and (len(heads) == 1 or heads[-1] in LABELS)


def respelled(path, text, table):
    left = not_ours(path, code_of(path, text))

    def turn(code):
        def one(m):
            name = m[0]
            return name if name in left or is_step(path, code, m.start()) else table.get(name, name)

        return HYPHENED.sub(one, code)

    pieces = [(code, turn(piece) if code else piece) for code, piece in split(path, text)]
    for short, long in ALIASES.items():
        alias = f"{long} as {short}"
        if any(code and alias in piece for code, piece in pieces):
            word = re.compile(rf"(?<![\w'.-]){short}(?![\w'-])")
            pieces = [(code, word.sub(long, piece.replace(alias, long)) if code else piece) for code, piece in pieces]
    return "".join(piece for _, piece in pieces)


def fall_together(path, text, table):
    code = re.sub(r"(?m)^(\s*(?:ghost )?(?:pub )?use )[\w.+'◌-]+", r"\1", code_of(path, text))
    left = not_ours(path, code_of(path, text))
    words = set(re.findall(WORD, code))
    olds = collections.defaultdict(set)
    for word in words & table.keys() - left:
        olds[table[word]].add(word)
    for new, old in olds.items():
        if len(old) > 1 or new in words and old != {new}:
            yield f"{path}: {', '.join(sorted(old))} would be {new}" + (", which stands there" if new in words else "")


def main():
    with open(os.path.join(HERE, "port_names.tsv"), encoding="utf-8") as f:
        table = dict(line.rstrip("\n").split("\t")[:2] for line in f if line.strip() and not line.startswith("#"))
    texts = {}
    for path in sources():
        with open(path, encoding="utf-8") as f:
            texts[path] = f.read()
    clashes = [row for path, text in texts.items() for row in fall_together(path, text, table)]
    if clashes:
        sys.exit("\n".join(clashes))
    turned = 0
    for path, text in texts.items():
        new = respelled(path, text, table)
        if new != text:
            turned += 1
            with open(path, "w", encoding="utf-8") as f:
                f.write(new)
    print(f"{len(table)} names, {turned} files turned")


main()
