#!/usr/bin/env python3
"""Brings the repository's own definitions and lemmas to today's spelling: words in snake case, as `byTable` to `by_table`.

usage: python3 tools/port_names.py        at the top of the repository, once, right after port.py

It turns lower camel case alone: names of types, of facts and of modules keep their capitals, and so do functions, constants, strings and C names of
the sources, which have none in lower camel case. A dash in a lemma's name joins two names and stays. In must-fail edits and in pages it turns the same
names. It prints each name that it turned, and those that fall together with a name that stood in the same file before.
"""

import collections
import glob
import re

# A word of a name: nothing of a name's letters beside it.
WORD = re.compile(r"(?<![\w'/:.])[a-z][a-z0-9]*(?:[A-Z][a-z0-9]*)+(?![\w':/])|(?<=[\w)]\.)[a-z][a-z0-9]*(?:[A-Z][a-z0-9]*)+(?![\w':/])")
# Words of the library, which have another name there.
OTHER = {"getD": "get_or", "bitXor": "bit_xor"}


def snake(name):
    return OTHER.get(name) or re.sub(r"(?<=[a-z0-9])(?=[A-Z])|(?<=[A-Z])(?=[A-Z])", "_", name).lower()


def below(folder, *ends):
    return sorted(f for f in glob.glob(folder + "/**/*", recursive=True) if f.endswith(ends) and "/out/" not in f)


def read(path):
    with open(path, encoding="utf-8", newline="") as it:
        return it.read()


def main():
    files = below("crates", ".antt", ".rt", ".edit")
    texts = {f: read(f) for f in files}
    names = collections.Counter(w for f, t in texts.items() if f.endswith(".antt") for w in WORD.findall(t))
    names = {w: snake(w) for w in names} | OTHER
    texts |= {f: read(f) for f in below("docs", ".md") + ["README.md"]}
    for f, old in texts.items():
        new = WORD.sub(lambda m: names.get(m.group(0), m.group(0)), old)
        for w in sorted(set(WORD.findall(old))):
            if w in names and re.search(rf"(?<![\w']){names[w]}(?![\w'])", old):
                print(f"falls together: {f}: {w} with {names[w]}")
        if new != old:
            with open(f, "w", encoding="utf-8", newline="") as it:
                it.write(new)
    for w in sorted(names):
        print(f"{w} {names[w]}")


if __name__ == "__main__":
    main()
