#!/usr/bin/env python3
"""Respells this repository's own definitions and lemmas for today's Rattle: words in snake case, types in camel case.

usage: python3 tools/respell.py   at the top, once, after port.py

It renames what a file of specs/ or proofs/ declares with a dash in its name. A dash before an operator stays (`replay-++`),
and so do the names of goals and steps, which Rattle makes, every name of src/, and comments.
"""

import collections
import glob
import re
import sys

WORD = r"[^\s(){}\[\].,;:@\"`«»⌜⌝|]"
DECLARED = re.compile(r"^[ ]*(?:(?:pub|abbrev|unfoldable|record|data)\s+)*(" + WORD + r"+)(?:\s+[({].*?)?\s*:(?:\s|$)(.*)$", re.M)
TOKEN = re.compile(r"(?<![^\s(){}\[\].,;:@\"`«»⌜⌝|])(" + WORD + r"+)")


def files():
    for p in ("crates/*/specs/**/*.antt", "crates/*/proofs/**/*.antt", "crates/*/src/**/*.rt"):
        yield from sorted(glob.glob(p, recursive=True))


def respelled(name, is_type):
    if re.search(r"-[^\w]", name):
        return name
    if is_type:
        return "".join(w[:1].upper() + w[1:] for w in name.split("-"))
    return name.replace("-", "_")


def main():
    texts = {}
    for f in files():
        with open(f, encoding="utf-8") as it:
            texts[f] = it.read()
    new, words = {}, set()
    for f, t in texts.items():
        words |= set(TOKEN.findall(t))
        if not f.endswith(".antt"):
            continue
        for m in DECLARED.finditer(t):
            name, rest = m[1], m[2]
            if "-" in name and "goal." not in rest and not name.startswith("-"):
                new[name] = respelled(name, name[:1].isupper())
    new = {a: b for a, b in new.items() if a != b}
    back = collections.defaultdict(list)
    for a, b in new.items():
        back[b].append(a)
    clash = [(b, a) for b, a in back.items() if len(a) > 1]
    for b in sorted(back):
        if b in words:
            print("look:", b, "stood already, and now stands for", back[b][0], "too")
    for b, a in clash:
        print("two names fall together:", b, a)
    if clash:
        return 1
    for f, t in texts.items():
        said = "//" if f.endswith(".rt") else "--"
        lines = t.split("\n")
        r = "\n".join(l if l.lstrip().startswith(said) else TOKEN.sub(lambda m: new.get(m[1], m[1]), l) for l in lines)
        if r != t:
            with open(f, "w", encoding="utf-8") as it:
                it.write(r)
    print(len(new), "names respelled")
    return 0


if __name__ == "__main__":
    sys.exit(main())
