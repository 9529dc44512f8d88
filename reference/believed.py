#!/usr/bin/env python3
"""believed.py [CRATE MODULE]: the modules of definitions that a contract rests on, each after those that it uses, with their lines
(blank ones, comments and imports not counted).

Without words it starts at checker's Answered, which is what the entry call's contract says. It follows every `use` of a module of
specs/ of this repository's crates; a record or an enum that src/ declares is listed with that file as `declared`, and its lines are not
counted. Exit status 1 where a module of definitions uses one of a crate's proofs/, or where none uses another. The kit's libraries (Rattle.std..) are not followed.
"""
import os, re, subprocess, sys

TOP = subprocess.run(["git", "rev-parse", "--show-toplevel"], capture_output=True, text=True, check=True).stdout.strip()
USE = re.compile(r"^(?:pub )?use Rattle\.(\w+)\.(specs|proofs)\.(declared\.)?(\w+)", re.M)
SKIPPED = re.compile(r"\s*$|\s*--|(pub )?use ")


def uses(text):
    found = [(crate, folder, bool(declared), name) for crate, folder, declared, name in USE.findall(text)]
    return [f for f in found if os.path.isdir(os.path.join(TOP, "crates", f[0]))]


def main():
    start = tuple(sys.argv[1:3]) or ("checker", "Answered")
    order, declared, seen, wrong = [], {}, set(), []

    def visit(crate, name):
        if (crate, name) in seen:
            return
        seen.add((crate, name))
        path = f"crates/{crate}/specs/{name}.antt"
        text = open(os.path.join(TOP, path), encoding="utf-8").read()
        for c, folder, is_declared, n in uses(text):
            if folder == "proofs":
                wrong.append(f"{path} uses {c}/proofs/{n}")
            elif is_declared:
                declared.setdefault(c, set()).add(n)
            else:
                visit(c, n)
        order.append((path, sum(1 for line in text.splitlines() if not SKIPPED.match(line))))

    visit(*start)
    for path, lines in order:
        print(f"{lines:6} {path}")
    print(f"{sum(lines for _, lines in order):6} lines in {len(order)} modules")
    for crate in sorted(declared):
        print(f"       crates/{crate}/src declares {', '.join(sorted(declared[crate]))}")
    for line in wrong:
        print(line)
    sys.exit(1 if wrong or len(order) < 2 else 0)


if __name__ == "__main__":
    main()
