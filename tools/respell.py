#!/usr/bin/env python3
"""Brings this repository's own definitions and lemmas to the spelling of today's Rattle: words in snake case.

usage: tools/respell.py        at the top of the repository, once, right after port.py

A word, or a part of a word between dashes, that begins with a small letter and has a capital is turned: `halfOf` becomes `half_of`. Words
that begin with a capital are facts and types, and stay; so do the dashes that join the names of a lemma. Before anything is written it
looks for two words that would become one, and stops there. It takes a byte as b'N' for a word: those were put back by hand.
"""
import collections
import os
import re
import sys

WORD = re.compile(r"[A-Za-z_ℕ][A-Za-z0-9_'≢ℕ→≤⊎×∷+*-]*")
KINDS = (".rt", ".antt", ".edit", ".md")


def part(word):
    if re.match(r"[a-z_]", word) and re.search("[A-Z]", word):
        word = re.sub(r"([a-z0-9'])([A-Z])", r"\1_\2", word)
        word = re.sub(r"([A-Z])([A-Z][a-z])", r"\1_\2", word)
        return word.lower()
    return word


def turned(word):
    return "-".join(part(p) for p in word.split("-"))


def files():
    for top in ("crates", "docs", "README.md"):
        if os.path.isfile(top):
            yield top
        for folder, dirs, names in os.walk(top):
            dirs[:] = sorted(d for d in dirs if d != "out")
            for name in sorted(names):
                if name.endswith(KINDS):
                    yield os.path.join(folder, name)


def main():
    texts = {}
    for path in files():
        with open(path, encoding="utf-8") as f:
            texts[path] = f.read()
    ours = set()
    for path, text in texts.items():
        if path.endswith((".rt", ".antt")):
            code = re.sub(r"(--|//).*", "", text)
            ours.update(w for w in WORD.findall(re.sub(r'"[^"\n]*"', '""', code)) if turned(w) != w)
    become = collections.defaultdict(set)
    for word in ours:
        become[turned(word)].add(word)
    clash = {n: ws for n, ws in become.items() if len(ws) > 1}
    for path, text in texts.items():
        if path.endswith(".antt"):
            words = set(WORD.findall(re.sub(r"--.*", "", text)))
            for word in words & ours:
                if re.search(r"(?<![\w'.«-])" + re.escape(turned(word)) + r"(?![\w'»-])", re.sub(r"--.*", "", text)):
                    clash[turned(word)] = {word, path}
    if clash:
        print("these fall together:", clash, file=sys.stderr)
        return 1
    changed = 0
    for path, text in texts.items():
        new = WORD.sub(lambda m: turned(m.group()) if m.group() in ours else m.group(), text)
        if new != text:
            changed += 1
            with open(path, "w", encoding="utf-8") as f:
                f.write(new)
    print(f"respelled {len(ours)} words in {changed} files")
    return 0


if __name__ == "__main__":
    sys.exit(main())
