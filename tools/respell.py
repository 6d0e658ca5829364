#!/usr/bin/env python3
"""Brings the names that this repository declares in specs/ and proofs/ to snake case: definitions, lemmas,
constructors and fields, wherever they stand. Run it once, at the top, behind the kit's own script of the port.

usage: python3 tools/respell.py

It goes by spelling. A name of capitals or of a library stays, and so does a label that Rattle makes. Where a lemma
would get the name of a definition, it gets that name with _lem. Text in quotes stays, and so does prose: of a comment
or a page only code spans turn, and bare words with a capital inside. It prints what it turned, and where two names of
one file would fall together.
"""

import collections
import glob
import re

NAME = r'[^\s(){}.;,@"«»]+'
WORD = re.compile(NAME)
PART = re.compile(r'[^\s(){}\[\].;:,@"«»`/*]+')
SPAN = re.compile(r"`[^`\n]+`")
QUIET = re.compile(r'"(?:[^"\\\n]|\\.)*"|(?<![^\s(){}.;,@"«»])--[^\n]*|//[^\n]*')
DECLARED = re.compile(rf"(?m)^[ ]*(?:(?:pub|abbrev|unfoldable|pattern) )*({NAME})(?: \{{[^{{}}\n]*\}})* :(?= )[^\n]*")
MADE = re.compile(r": (?:\{[^{}]*\} → )?(?:tie|goal)\.[A-Za-z0-9_'-]+(?:\n|$)")
OURS = "crates/*/specs/*.antt", "crates/*/proofs/**/*.antt"


def read(path):
    with open(path, encoding="utf-8") as f:
        return f.read()


def found(patterns):
    return sorted(it for p in patterns for it in glob.glob(p, recursive=True))


def snake(name):
    words = re.sub(r"(?<=[a-z0-9])[A-Z]|(?<=[A-Z])[A-Z](?=[a-z])", lambda m: "_" + m[0].lower(), name)
    return re.sub(r"_([A-Z])(?=_|$)", lambda m: "_" + m[1].lower(), words).replace("-", "_")


def is_old(name):
    return not name.startswith("◌") and ("-" in name.strip("-") or bool(re.match(r"[a-z][a-z0-9_]*[A-Z]", name)))


def bare(text):
    return QUIET.sub(" ", text)


def declared():
    """Each name that a text declares, with whether it is nowhere the answer to a goal."""
    names = collections.defaultdict(lambda: True)
    for path in found(OURS):
        for m in DECLARED.finditer(bare(read(path))):
            names[m[1]] &= not MADE.search(m[0])
    return names


def beside():
    """The names that stand behind no dot in a file, for each name of that file."""
    names = collections.defaultdict(set)
    for path in found(OURS):
        free = {m[1] for m in re.finditer(rf'(?<![^\s(){{}};,@"«»])({NAME})', bare(read(path)))}
        for it in free:
            if is_old(it):
                names[it] |= free
    return names


def table():
    names = declared()
    old = sorted(it for it, own in names.items() if own and is_old(it))
    near = beside()
    taken = {it for it in names if not is_old(it)} | {snake(it) for it in old if "-" not in it}
    return {it: snake(it) + ("_lem" if "-" in it and snake(it) in taken | near[it] else "") for it in old}


def turned(text, rows, word=WORD):
    return word.sub(lambda m: rows.get(m[0], m[0]), text)


def prose(text, rows):
    capital = {old: new for old, new in rows.items() if "-" not in old}
    out, at = [], 0
    for m in SPAN.finditer(text):
        out += [turned(text[at : m.start()], capital, PART), turned(m[0], rows, PART)]
        at = m.end()
    return "".join([*out, turned(text[at:], capital, PART)])


def code(text, rows):
    out, at = [], 0
    for m in QUIET.finditer(text):
        out += [turned(text[at : m.start()], rows), m[0] if m[0][0] == '"' else prose(m[0], rows)]
        at = m.end()
    return "".join([*out, turned(text[at:], rows)])


def edit(text, rows):
    """A must-fail edit: what it puts into a file is that file's code."""
    return "".join(code(it, rows) if it.startswith(("old:", "new:")) else prose(it, rows) for it in text.splitlines(True))


def together(path, text, rows):
    words = set(WORD.findall(bare(text)))
    came = collections.defaultdict(set)
    for it in words:
        came[rows.get(it, it)].add(it)
    for new, olds in sorted(came.items()):
        if len(olds) > 1:
            print(f"look: {path}: {', '.join(sorted(olds))} are {new} now")


def main():
    rows = table()
    count = 0
    for path in found([*OURS, "crates/*/src/*.rt", "crates/*/must-fail/*.edit"]):
        old = read(path)
        if path.endswith(".antt"):
            together(path, old, rows)
        new = (edit if path.endswith(".edit") else code)(old, rows)
        if new != old:
            count += 1
            with open(path, "w", encoding="utf-8") as f:
                f.write(new)
    print(f"{len(rows)} names, {count} files")


if __name__ == "__main__":
    main()
