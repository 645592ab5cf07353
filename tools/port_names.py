#!/usr/bin/env python3
"""Spells the repository's own definitions and lemmas as today's Rattle does: words in snake case, facts in camel case.

usage: tools/port_names.py [DIR]     (default: this file's repository; run once, after the kit's own port.py)

tools/port_names.txt has a pair of names on each line, the old one and the new one. A name is a whole token of a file of
specs/ or proofs/, of a clause in src/, or of the text of a must-fail edit. The names of src/, strings, inputs and outputs stay.
In README.md and docs/ a name is respelled between backticks.
"""
import os
import re
import sys

TOKEN = re.compile(r"[A-Za-z_\u0370-\u03ff\u2080-\u209f\u25cc][A-Za-z0-9_'\u2032\-\u2080-\u209f]*")
CAMEL = re.compile(r"[a-z][A-Za-z0-9_']*[A-Z]")
BYTE = re.compile(r"b'.'")


def table(path):
    with open(path, encoding="utf-8") as f:
        pairs = [line.split() for line in f if line.strip()]
    return dict(pairs)


def respell(text, names, only_camel):
    """The text with each name respelled. A token behind a dot is a field or a path of Rattle's own, unless it is in camel case."""

    def new(m):
        word = m.group(0)
        if word not in names or (only_camel and not CAMEL.match(word)):
            return word
        if not CAMEL.match(word) and m.start() > 0 and text[m.start() - 1] == ".":
            return word
        return names[word]

    return TOKEN.sub(new, text)


def proof_text(text, names):
    lines = []
    for line in text.split("\n"):
        code, dashes, comment = line.partition("-- ")
        if line.startswith("--"):
            lines.append(respell(line, names, True))
        else:
            lines.append(respell(code, names, False) + dashes + respell(comment, names, True))
    return "\n".join(lines)


def source_text(text, names):
    """Clauses and imports of ghost names have words with dashes too; code has none."""
    ghost = ("ghost ", "ensures", "requires")
    return "\n".join(respell(line, names, not line.strip().startswith(ghost)) for line in text.split("\n"))


def quoted(text, names):
    return re.sub(r"`[^`\n]*`", lambda m: respell(m.group(0), names, False), text)


def turn(path, change):
    with open(path, encoding="utf-8") as f:
        old = f.read()
    new = change(old)
    if new != old:
        with open(path, "w", encoding="utf-8") as f:
            f.write(new)
        return 1
    return 0


def main(argv):
    here = os.path.dirname(os.path.abspath(__file__))
    root = os.path.abspath(argv[0]) if argv else os.path.dirname(here)
    names = table(os.path.join(here, "port_names.txt"))
    count = 0
    for folder, dirs, files in os.walk(os.path.join(root, "crates")):
        dirs[:] = sorted(d for d in dirs if d != "out")
        for name in sorted(files):
            path = os.path.join(folder, name)
            if name.endswith(".antt"):
                count += turn(path, lambda t: proof_text(t, names))
            elif name.endswith(".rt"):
                count += turn(path, lambda t: source_text(t, names))
            elif name.endswith(".edit"):
                count += turn(path, lambda t: respell(t, names, True))
    docs = [os.path.join(root, "README.md")]
    docs += [os.path.join(root, "docs", d) for d in sorted(os.listdir(os.path.join(root, "docs"))) if d.endswith(".md") and not d.startswith("PORT")]
    for path in docs:
        count += turn(path, lambda t: quoted(t, names))
    print(f"{count} files respelled")


main(sys.argv[1:])
