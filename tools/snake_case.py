#!/usr/bin/env python3
"""Respells this repository's own names of specs/ and proofs/ from kebab case to snake case.

usage: tools/snake_case.py        at the top of the repository, once, right after port.py

What is renamed: each name with a dash that stands in a file of specs/ or in a lemma file of proofs/
and is not imported from a library, wherever it stands, in clauses of src/ too. What stays: functions
and other names of src/, texts between quotes, names of libraries, and the names that Rattle makes
(goals, steps and their fields), which keep their dashes. Comments stay. The names are printed.
"""
import os
import re

WORD = r"[^\s(){}\[\],;.:λ→«»\"|⌜⌝`]+"
# Types, and a name with a word of the older library in it.
SPECIAL = {
    "Declared-once": "DeclaredOnce",
    "Drawn-all": "DrawnAll",
    "Earlier-parts": "EarlierParts",
    "Term-of": "TermOf",
    "below-getD": "below_get_or",
}


def files():
    for folder, dirs, names in os.walk("crates"):
        dirs[:] = sorted(d for d in dirs if d != "out")
        for name in sorted(names):
            if name.endswith((".antt", ".rt")):
                yield os.path.join(folder, name)


def answers(path):
    """The proof of one function, which cites the names that Rattle makes."""
    return re.search(r"/proofs/.+/", path) is not None


def bare(text, path):
    """The text without what is written between quotes, and without comments."""
    text = re.sub(r'"(\\.|[^"\\\n])*"', '""', text)
    return re.sub(r"//[^\n]*" if path.endswith(".rt") else r"--[^\n]*", "", text)


def imports(text):
    """Pairs of the crate that a line imports from, or None for the library, and the names."""
    for m in re.finditer(r"use ([\w◌.]+?)\.\{([^}]*)\}", text):
        own = re.match(r"Rattle\.(\w+)\.", m.group(1))
        crate = own.group(1) if own and os.path.isdir("crates/" + own.group(1)) else None
        yield crate, [n.strip().split(" as ")[0].strip() for n in m.group(2).split(",")]


def own_names():
    found, library = set(), set()
    for path in files():
        with open(path, encoding="utf-8") as f:
            text = bare(f.read(), path)
        for crate, names in imports(text):
            if crate is None:
                library |= set(names)
        if path.endswith(".antt") and not answers(path):
            found |= {w for w in re.findall(WORD, text) if re.fullmatch(r"[A-Za-z_][\w']*(-[\w']+)+", w)}
    return found - library


def snake(name):
    return SPECIAL.get(name, name.replace("-", "_"))


def respell(path, new):
    with open(path, encoding="utf-8") as f:
        text = f.read()
    made = answers(path)
    # what a goal or a step of this proof is called stays
    kept = set(re.findall(r"goal\.(" + WORD + ")", text)) if made else set()

    def word(m):
        if m.group("text"):
            return m.group(0)
        name = m.group("word")
        if name in kept or name not in new or (made and m.start() and text[m.start() - 1] == "." and name.endswith("-is")):
            return name
        return new[name]

    comment = r"//[^\n]*" if path.endswith(".rt") else r"--\s[^\n]*"
    out = re.sub(r'(?P<text>"(\\.|[^"\\\n])*"|' + comment + ")|(?P<word>" + WORD + ")", word, text)
    if out != text:
        with open(path, "w", encoding="utf-8") as f:
            f.write(out)
    return out != text


def main():
    new = {name: snake(name) for name in own_names()}
    new = {old: name for old, name in new.items() if old != name}
    taken = {}
    for old, name in sorted(new.items()):
        if name in taken:
            raise SystemExit(f"{taken[name]} and {old} would be one name, {name}")
        taken[name] = old
    changed = sum(respell(path, new) for path in files())
    for old, name in sorted(new.items()):
        print(f"{old} -> {name}")
    print(f"{len(new)} names, {changed} files")


main()
