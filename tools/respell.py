#!/usr/bin/env python3
"""Spells the definitions and lemmas of this repository as Rattle spells them: words in snake case, types and modules in camel case.

usage: respell.py [--check] [FOLDER]

It follows port.py, over the crates, docs/ and README.md of FOLDER (default: this repository). A name in lower camel case that an .antt file declares is turned, as
setupRules to setup_rules, and so is one that ends in -is, as low-is to low_is. Names of types, of Rust items and of the kit are left. --check writes nothing.
"""

import os
import re
import sys

NAME = re.compile(r'[^\s(){}.;,@"«»:`]+')
DECLARED = re.compile(r'(?m)^\s*(?:(?:pub|abbrev|unfoldable)\s+)*([^\s(){}.;,@"«»:]+)(?: \{[^{}\n]*\})* :(?= )')
CAMEL = re.compile(r"(?<=[a-z0-9])[A-Z]")
# hypotheses that are named after a symbol
SYMBOLS = {"hD", "hDD", "hG'", "hG", "hH", "hK"}
# names that no signature declares: aliases of imports and names of arguments
UNDECLARED = {"rootOf", "lentSamples", "leZ-false"}
# a lemma that would have a definition's name
APART = {"next_last": "next_state-last", "pair_left": "Pair-left"}


def respelled(name):
    turned = CAMEL.sub(lambda m: "_" + m[0].lower(), name)
    return turned[:-3] + "_is" if turned.endswith("-is") else turned


def files(root):
    for top in ("crates", "docs", "README.md"):
        path = os.path.join(root, top)
        if os.path.isfile(path):
            yield path
        for folder, folders, names in os.walk(path):
            folders[:] = sorted(f for f in folders if f != "out")
            for name in sorted(names):
                if name.endswith((".antt", ".rt", ".md")):
                    yield os.path.join(folder, name)


def read(path):
    with open(path, encoding="utf-8") as f:
        return f.read()


def table(texts):
    declared = set(UNDECLARED)
    for path, text in texts.items():
        if path.endswith(".antt"):
            declared |= set(DECLARED.findall(re.sub(r"(?m)--.*$", "", text)))
    turned = {n: respelled(n) for n in declared if n[0].islower() and n not in SYMBOLS}
    return APART | {old: new for old, new in turned.items() if old != new}


def main():
    words = [w for w in sys.argv[1:] if w != "--check"]
    root = words[0] if words else os.path.join(os.path.dirname(os.path.realpath(__file__)), "..")
    texts = {path: read(path) for path in files(root)}
    names = table(texts)
    changed = 0
    for path, text in texts.items():
        unqualified = set(m[0] for m in NAME.finditer(text) if text[m.start() - 1 : m.start()] != ".")
        for old in sorted(unqualified & set(names)):
            if names[old] in unqualified and path.endswith(".antt"):
                print(f"look: {os.path.relpath(path, root)}: {old} becomes {names[old]}, which stands there already")
        new = NAME.sub(lambda m: names.get(m[0], m[0]), text)
        if new != text:
            changed += 1
            if "--check" not in sys.argv:
                with open(path, "w", encoding="utf-8") as f:
                    f.write(new)
    print(f"respell: {len(names)} names, {changed} files")


main()
