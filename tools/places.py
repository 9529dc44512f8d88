#!/usr/bin/env python3
"""places.py [-v] [COMMIT]: counts the places in src/ that docs/DESIGN-PASS.md speaks of, in the checkout or at a commit.

1 own      enums of the shape of Option or Result: a variant without a value beside one with a value
  codes    numbers that stand for kinds or refusals: constants of one or two digits, outside the crate sizes
  flags    a bool field in a struct
2 twins    functions whose bodies differ in names and numbers alone, of four lines or more
3 loops    `while` loops that count a variable of their test up or down by one
4 hand     matches all of whose arms are true or false; ifs in ifs that give a bool; 1 or 0 by an if
5 groups   functions that take two or more of one group of parameters that travel together
6 ranges   a slice with a start or a count beside it in the parameters
7 ladders  functions with three or more ifs in a row that compare one value with numbers and return
8 imports  import lines of proofs/ that name the libraries under std
-v lists the places."""
import re
import subprocess
import sys

GROUPS = [
    {"board", "book", "report"},
    {"l", "r", "w", "v"},
    {"words", "lines"},
    {"out", "at"},
    {"line", "at"},
    {"ceiling", "limit", "strict"},
]


def files(commit, pattern):
    if commit:
        names = subprocess.run(["git", "ls-tree", "-r", "--name-only", commit], capture_output=True, text=True, check=True).stdout
    else:
        names = subprocess.run(["git", "ls-files"], capture_output=True, text=True, check=True).stdout
    for name in names.split("\n"):
        if re.fullmatch(pattern, name):
            if commit:
                yield name, subprocess.run(["git", "show", f"{commit}:{name}"], capture_output=True, text=True, check=True).stdout
            else:
                try:
                    yield name, open(name, encoding="utf-8").read()
                except FileNotFoundError:
                    pass


def block(text, at):
    depth = 0
    for i in range(at, len(text)):
        depth += {"{": 1, "}": -1}.get(text[i], 0)
        if depth == 0:
            return text[at : i + 1]
    return text[at:]


def functions(text):
    bare = re.sub(r"//[^\n]*", "", text)
    for m in re.finditer(r"\bfn (\w+)(?:<[^(]*>)?\(([^)]*)\)", bare):
        rest = bare[m.end() :]
        body = re.search(r"\{\n", rest)
        if body:
            at = m.end() + body.end() - 2
            yield m.group(1), m.group(2), block(bare, at)


def shape(body):
    seen = {}
    words = re.findall(r"\w+|[^\w\s]", body)
    keep = {"if", "else", "while", "for", "in", "return", "match", "let", "mut", "loop"}
    return " ".join(w if w in keep or not re.match(r"\w", w) else seen.setdefault(w, str(len(seen))) for w in words)


def main():
    args = [a for a in sys.argv[1:] if a != "-v"]
    commit = args[0] if args else None
    found = {k: [] for k in ("own", "codes", "flags", "twins", "loops", "hand", "groups", "ranges", "ladders")}
    shapes = {}
    for name, text in files(commit, r"crates/\w+/src/.*\.rt"):
        crate = name.split("/")[1]
        bare = re.sub(r"//[^\n]*", "", text)
        for m in re.finditer(r"\benum (\w+)[^{]*\{", bare):
            body = block(bare, m.end() - 1)[1:-1]
            variants = re.findall(r"^    (\w+) ?([({]?)", re.sub(r"^    \w+ \{.*?^    \},", lambda x: x.group(0).split("\n")[0], body, flags=re.M | re.S), re.M)
            if any(not v[1] for v in variants) and any(v[1] for v in variants):
                found["own"].append(f"{crate}::{m.group(1)}")
        if crate != "sizes":
            for m in re.finditer(r"^(?:pub )?const (\w+): u(?:8|16|32|64) = (\d{1,2}|100000);", bare, re.M):
                found["codes"].append(f"{crate}::{m.group(1)}")
        for m in re.finditer(r"\bstruct (\w+)[^{;(]*\{", bare):
            for field in re.findall(r"^    (?:pub )?(\w+): bool,", block(bare, m.end() - 1), re.M):
                found["flags"].append(f"{crate}::{m.group(1)}.{field}")
        for f, params, body in functions(text):
            place = f"{crate}::{f}"
            if body.count("\n") >= 5:
                shapes.setdefault(shape(body), []).append(place)
            for m in re.finditer(r"\bwhile ([^{]*)\{", body):
                names = set(re.findall(r"\b[a-z_]\w*\b", m.group(1)))
                turns = re.findall(r"\b(\w+) [+-]= 1;", block(body, m.end() - 1))
                if names & set(turns):
                    found["loops"].append(place)
            for m in re.finditer(r"\bmatch [^{]*\{", body):
                arms = re.findall(r"=> (\w+),?\n", block(body, m.end() - 1))
                if len(arms) > 1 and set(arms) <= {"true", "false"}:
                    found["hand"].append(place)
            if re.search(r"if [^{]*\{\s*(?:true|[^{};]*)\s*\} else \{\s*(?:true|false)\s*\}\s*\}$", body) or re.search(
                r"if [^{]*\{\s*return (?:true|false);\s*\}\s*(?:[^;{}]*)\}$", body
            ):
                found["hand"].append(place)
            if re.search(r"if \w+ \{ 1 \} else \{ 0 \}", body):
                found["hand"].append(place)
            names = set(re.findall(r"\b(\w+):", params))
            for group in GROUPS:
                if len(names & group) >= 2 and (len(group) == 2 or len(names & group) >= min(3, len(group))):
                    found["groups"].append(place)
                    break
            if re.search(r"&(?:mut )?\[\w+\],\s*\w+: usize", params):
                found["ranges"].append(place)
            runs = re.findall(r"(?:if (\w+(?:\.\w+)?) == \d+ \{\s*return [^}]*\}\s*){3,}", body)
            if runs:
                found["ladders"].append(place)
    for places in shapes.values():
        if len(places) > 1:
            found["twins"].append(" = ".join(places))
    imports = sum(
        len(re.findall(r"^use (?:mathlib\.|Prim\.|borrow\.|lib\.|native\.)", text, re.M)) for _, text in files(commit, r"crates/\w+/proofs/.*\.antt")
    )
    for key, places in found.items():
        print(f"{key} {len(places)}")
        if "-v" in sys.argv:
            for place in places:
                print(f"    {place}")
    print(f"imports {imports}")


main()
