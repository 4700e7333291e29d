#!/usr/bin/env python3
"""Respells the repository's own names in contracts, definitions and proofs.

usage: python3 tools/respell.py [--edits] [FOLDER]

FOLDER has crates/; without it, the folder above tools/. Each line of tools/respell.tsv is an old name, its new name and, where a name means
two things, the files in which the line holds. Names are replaced as whole words of antt: in .antt files, in the code of .rt files, in comments
between backticks, and with --edits in must-fail/*.edit. No name of Rust code is in the table. Run it once: a few new names are old names of others.
"""

import os
import re
import sys

HERE = os.path.dirname(os.path.realpath(__file__))
# a comment to the line's end, a string, a name in guillemets, or a word
TOKEN = re.compile(r'--[^\n]*|//[^\n]*|b?"(?:[^"\\]|\\.)*"|«[^»]*»|[^\s(){}.;,@"«»\[\]\\]+')
# a word of antt in Rust code: the signs that Rust sets tight against a name are no part of it
RUST = re.compile(r"//[^\n]*|b?\"(?:[^\"\\]|\\.)*\"|[^\s(){}.;,@\"«»\[\]\\:&!?<>]+")
WORD = re.compile(r"[^\s(){}.;,@\"«»\[\]\\]+")
QUOTED = re.compile(r"`[^`\n]+`")


def table():
    everywhere, scoped = {}, {}
    with open(os.path.join(HERE, "respell.tsv"), encoding="utf-8") as f:
        for line in f:
            old, new, *files = line.rstrip("\n").split("\t")
            if files:
                for path in files[0].split():
                    scoped.setdefault(path, {})[old] = new
            else:
                everywhere[old] = new
    return everywhere, scoped


def respelled(text, names, pattern):
    def word(m):
        return names.get(m.group(), m.group())

    def token(m):
        it = m.group()
        if it.startswith(("--", "//")):
            return QUOTED.sub(lambda q: "`" + WORD.sub(word, q.group()[1:-1]) + "`", it)
        return it if it[0] in '"«' or it.startswith('b"') else word(m)

    return pattern.sub(token, text)


def main(argv):
    edits = "--edits" in argv
    folders = [a for a in argv if a != "--edits"]
    top = folders[0] if folders else os.path.dirname(HERE)
    everywhere, scoped = table()
    for folder, dirs, files in os.walk(os.path.join(top, "crates")):
        dirs[:] = sorted(d for d in dirs if d != "out" or os.path.basename(folder) == "proofs")
        for name in sorted(files):
            path = os.path.join(folder, name)
            if not name.endswith((".antt", ".rt") + ((".edit",) if edits else ())):
                continue
            with open(path, encoding="utf-8") as f:
                old = f.read()
            names = {**everywhere, **scoped.get(os.path.relpath(path, top), {})}
            new = respelled(old, names, TOKEN if name.endswith(".antt") else RUST)
            if new != old:
                with open(path, "w", encoding="utf-8") as f:
                    f.write(new)


if __name__ == "__main__":
    main(sys.argv[1:])
