#!/usr/bin/env python3
"""Brings the repository's own definitions and lemmas to today's spelling, after the kit's port.py has run.

    python3 tools/respell.py       once, at the top of a checkout on which port.py has just run

tools/respelled.tsv has a line for each name: the old one, the new one and, where the name means something else elsewhere, the path below
which it is renamed. Words go to snake case; a lemma that would then have its definition's name gets `_lem`. Renamed are whole words of
.antt files, of .rt files (no code there has such a word), of must-fail edits, and words between backticks of README.md and docs/.
It says where two words of a file would become one.
"""
import glob
import os
import re
import sys

top = os.path.dirname(os.path.dirname(os.path.abspath(__file__)))
WORD = re.compile(r"(?<![A-Za-z0-9_'₀-₉◌-])[A-Za-z_][A-Za-z0-9_'₀-₉◌-]*")
QUOTED = re.compile(r"`[^`\n]+`")
STRING = re.compile(r'"[^"\n]*"')


def table():
    rows = []
    with open(os.path.join(top, "tools", "respelled.tsv"), encoding="utf-8") as f:
        for line in f:
            old, new, *scope = line.rstrip("\n").split("\t")
            rows.append((old, new, scope[0] if scope else ""))
    return rows


def turned(text, names, scoped):
    """The text with its words renamed, strings left alone. A scoped name is not renamed behind a dot, where it is a field."""
    met = {}

    def word(m):
        w = m[0]
        if w in scoped and (m.start() == 0 or m.string[m.start() - 1] != "."):
            new = scoped[w]
        else:
            new = names.get(w, w)
        met.setdefault(new, set()).add(w)
        return new

    out, end = [], 0
    for m in STRING.finditer(text):
        out += [WORD.sub(word, text[end:m.start()]), m[0]]
        end = m.end()
    out.append(WORD.sub(word, text[end:]))
    return "".join(out), met


def main():
    rows = table()
    names = {old: new for old, new, scope in rows if not scope}
    below = [(old, new, scope) for old, new, scope in rows if scope]
    paths = [p for e in ("antt", "rt", "edit") for p in glob.glob(os.path.join(top, "crates", "**", "*." + e), recursive=True)]
    paths += [os.path.join(top, "README.md")] + glob.glob(os.path.join(top, "docs", "*.md"))
    for path in sorted(paths):
        shown = os.path.relpath(path, top)
        if "/out/" in path:
            continue
        with open(path, encoding="utf-8") as f:
            text = f.read()
        scoped = {old: new for old, new, scope in below if shown.startswith(scope)}
        if path.endswith(".md"):
            new, met = QUOTED.sub(lambda m: turned(m[0], names, {})[0], text), {}
        else:
            new, met = turned(text, names, scoped)
        for name, olds in sorted(met.items()):
            if len(olds) > 1:
                print(f"{shown}: {' and '.join(sorted(olds))} become {name}")
        if new != text:
            with open(path, "w", encoding="utf-8") as f:
                f.write(new)


sys.exit(main())
