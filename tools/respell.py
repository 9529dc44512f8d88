#!/usr/bin/env python3
"""Spells the repository's own definitions and lemmas as today's Rattle does: words in snake case.

usage: python3 tools/respell.py [ROOT]     once, at the top, after port.py

A word in lower camel case that stands in a file of specs/ or proofs/, or in a clause of src/, becomes snake case,
everywhere below crates/ but in strings and data. Functions of src/ have such names already. Types, modules and facts
stay in camel case, and so does what the kit itself spells so.
"""
import glob
import os
import re
import sys

ROOT = sys.argv[1] if len(sys.argv) > 1 else "."

# Of the kit, or made by it from a type's name.
KEPT = {"getD", "printInt", "printInt's", "gE", "hE", "hL", "sE", "wE"}

# These would fall together with a lemma beside them.
OTHERS = {"inLeft": "left_rest", "inRight": "right_rest"}

WORD = re.compile(r"(?<![A-Za-z0-9_'])[a-z][A-Za-z0-9_']*[A-Z][A-Za-z0-9_']*")
STRING = re.compile(r'b?"(?:[^"\\]|\\.)*"')


def snake(word):
    if word in KEPT or re.search(r"_[A-Z]", word):
        return word
    if word in OTHERS:
        return OTHERS[word]
    word = re.sub(r"([a-z0-9'])([A-Z])", r"\1_\2", word)
    word = re.sub(r"([A-Z])([A-Z][a-z])", r"\1_\2", word)
    return word.lower()


def respelt(text):
    return WORD.sub(lambda m: snake(m.group()), text)


def outside_strings(text):
    parts, at = [], 0
    for m in STRING.finditer(text):
        parts += [respelt(text[at : m.start()]), m.group()]
        at = m.end()
    return "".join(parts + [respelt(text[at:])])


def main():
    forms = [("specs/**/*.antt", respelt), ("proofs/**/*.antt", respelt), ("src/*.rt", outside_strings), ("must-fail/*.edit", outside_strings)]
    for form, turn in forms:
        for path in sorted(glob.glob(os.path.join(ROOT, "crates/*", form), recursive=True)):
            with open(path, encoding="utf-8") as f:
                old = f.read()
            new = turn(old)
            if new != old:
                with open(path, "w", encoding="utf-8") as f:
                    f.write(new)


if __name__ == "__main__":
    main()
