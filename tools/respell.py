#!/usr/bin/env python3
"""Respells the repository's own names of definitions and lemmas, once, after the toolchain's port.py: words in snake case, ℤ and ℚ a word of
their own, as the library spells them. Types, modules, source names and strings keep theirs: none of those begins small and has a capital inside.

usage: tools/respell.py            in the repository: rewrites crates/ and prints names that fall together
       tools/respell.py --look     prints what would be written, and nothing is
"""

import os
import re
import sys

# a word that begins small and has capitals, or one that ends in a set of numbers
CAMEL = re.compile(r"(?<![A-Za-z0-9_'])[a-z][a-z0-9]*(?:[A-Z][A-Za-z0-9]*)+")
SET = re.compile(r"(?<![A-Za-z0-9_'])([a-z][a-z0-9_]*[a-z0-9])(?=[ℤℚ])")
NAME = re.compile(r"[^\s(){}\[\],;:.\"`]+")

# the library's own new words, where a name of a lemma still has the old one; and names that would fall together with another
OWN = {"getD": "get_or", "natAbs": "nat_abs"}
APART = {"turned_down": "turned_down-loads", "counts_of": "counts_of-section"}


def snake(word):
    if word in OWN:
        return OWN[word]
    out = ""
    for i, ch in enumerate(word):
        if ch.isupper():
            if i and (not word[i - 1].isupper() or (i + 1 < len(word) and word[i + 1].islower())):
                out += "_"
            out += ch.lower()
        else:
            out += ch
    return out


def respelled(text):
    for old, new in APART.items():
        text = re.sub(r"(?<![\w'-])" + old + r"(?![\w'-])", new, text)
    text = CAMEL.sub(lambda m: snake(m.group(0)), text)
    return SET.sub(r"\1_", text)


def files(root):
    for folder, dirs, names in os.walk(os.path.join(root, "crates")):
        dirs[:] = sorted(d for d in dirs if d != "out")
        for name in sorted(names):
            if name.endswith((".rt", ".antt", ".edit")):
                yield os.path.join(folder, name)


def together(path, text):
    """Two names of one file that become one."""
    seen = {}
    for name in set(NAME.findall(text)):
        seen.setdefault(respelled(name), []).append(name)
    for new, old in sorted(seen.items()):
        if len(old) > 1:
            print(f"together: {path}: {' and '.join(sorted(old))} become {new}")


def main(words):
    look = words == ["--look"]
    if words and not look:
        print(__doc__)
        return 2
    changed = 0
    for path in files("."):
        with open(path, encoding="utf-8") as f:
            text = f.read()
        new = respelled(text)
        if new != text:
            together(path, text)
            changed += 1
            if not look:
                with open(path, "w", encoding="utf-8") as f:
                    f.write(new)
    print(f"respell: {changed} files {'would change' if look else 'changed'}")
    return 0


if __name__ == "__main__":
    sys.exit(main(sys.argv[1:]))
