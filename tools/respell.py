#!/usr/bin/env python3
"""Brings this repository's own names in proofs and contracts to one spelling: definitions, lemmas, fields and
constructors in snake case, types and facts in upper camel case. The table respell.tsv beside this script has a row for
each name: old, a tab, new.

usage: python3 tools/respell.py [TOP]

It goes over crates/ below TOP (the folder that it is run in), over each .antt file and, in .rt files, over names between
guillemets and bare names of the table. Functions of src/, strings and comments keep their words. It was run once, after
the kit's port.py, and changes nothing where it has been run.
"""

import os
import re
import sys

HERE = os.path.dirname(os.path.realpath(__file__))
# A word of antt: what stands between blanks, brackets and marks. A dash and an apostrophe are parts of it.
WORD = re.compile(r"[^\s(){};,.@«»\"\[\]`]+")
GUILLEMETS = re.compile(r"«([^»\s]*)»")
KEYWORDS = set("as break const continue crate else enum fn for if impl in let loop match mod move mut pub ref return self static struct trait true type unsafe use where while record ruleset data open".split())


def snake(word):
    return re.sub(r"(?<=[a-z0-9])([A-Z])", lambda m: "_" + m.group(1), word.replace("-", "_")).lower()


def camel(word):
    return "".join(x[:1].upper() + x[1:] for x in word.split("-"))


def code_and_comment(line):
    i = line.find("--")
    return (line, "") if i < 0 else (line[:i], line[i:])


def turn_antt(text, table):
    def word(code):
        def turn(m):
            w = m.group(0)
            if w not in table:
                return w
            before = code[: m.start()]
            # A goal's name, and a name that the check makes, stand as they are.
            if before.endswith("goal."):
                return w
            return table[w]

        return turn

    out = []
    for line in text.split("\n"):
        code, comment = code_and_comment(line)
        out.append(WORD.sub(word(code), code) + comment)
    return "\n".join(out)


def turn_rt(text, table):
    def quoted(m):
        w = m.group(1)
        new = table.get(w) or (camel(w) if w[:1].isupper() else snake(w)) if "-" in w else table.get(w, w)
        return "«" + new + "»" if new in KEYWORDS or not re.fullmatch(r"\w+", new) else new

    # Bare names: those without a dash, and those of types and facts, which begin with a capital letter.
    bare = {a: b for a, b in table.items() if re.fullmatch(r"\w+", a) or a[0].isupper()}
    return re.sub(r"\b\w+(?:-\w+)*", lambda m: bare.get(m.group(0), m.group(0)), GUILLEMETS.sub(quoted, text))


def main(top):
    with open(os.path.join(HERE, "respell.tsv"), encoding="utf-8") as f:
        table = dict(line.rstrip("\n").split("\t") for line in f)
    count = 0
    for folder, dirs, files in os.walk(os.path.join(top, "crates")):
        dirs[:] = sorted(d for d in dirs if d not in ("out", "target"))
        for name in sorted(files):
            if not name.endswith((".antt", ".rt")):
                continue
            path = os.path.join(folder, name)
            with open(path, encoding="utf-8") as f:
                old = f.read()
            new = turn_antt(old, table) if name.endswith(".antt") else turn_rt(old, table)
            if new != old:
                count += 1
                with open(path, "w", encoding="utf-8") as f:
                    f.write(new)
    print(f"respell: {count} files")


main(sys.argv[1] if len(sys.argv) > 1 else ".")
