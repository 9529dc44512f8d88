#!/usr/bin/env python3
"""marks.py RECORDS: writes judgment/proofs/Marks.antt, the table of plans over a catalogue, to standard output.

RECORDS is what `reference generate --kind catalogue --answers` writes: plans by title, with the answers of the Rust and the plain mark of
src/mark.rs.
"""
import sys
from definition import OPENED, listed, parse

HEAD = """-- Plans over a catalogue with the seven numbers of their answers, the plain mark last, by computation. reference/marks.py makes this file
-- from the answers of the Rust and the mark of reference/src/mark.rs. Assumes nothing.
use mathlib.Core.Path.{◌≡◌, refl}
use mathlib.Core.List.{List, [], ◌∷◌, map}
use Prim.Native.Nat.{ℕ}
use Rattle.sizes.specs.Sizes.{highest_ceiling}
use Rattle.spelling.specs.declared.Triple.{Triple}
"""


def uses():
    for module, words in OPENED.items():
        more = ["numbers", "limits"] if module.endswith(".Result") else []
        yield f"use Rattle.{module}.{{{', '.join([w.replace('=', ' as ') for w in words.split()] + more)}}}\n"
    yield "use Rattle.judgment.proofs.Wall.{l}\n"


def row(title, record):
    plan = parse(record)
    assert (plan.call, plan.ceiling) == (1, 10000), "the first call and one ceiling for all"
    assert plan.seven[0] == 0 or plan.seven[0] > 10, f"no run: {title}"
    asked = listed(f"l {k} {v} {c}" for k, v, c in plan.lines)
    return f"    ({asked}, {listed(plan.seven)}) ∷  -- {title}\n"


def main():
    said = open(sys.argv[1], encoding="utf-8").read().splitlines()
    rows = [row(title[2:], record) for title, record in zip(said[::2], said[1::2])]
    opened = " ".join(w.split("=")[-1] for words in OPENED.values() for w in words.split())
    print(HEAD + "".join(uses()), end="")
    print(f"\nabbrev pub plans : List (List Triple × List ℕ)\nplans =\n{''.join(rows)}    []\n")
    print("pub marked : map (λ q. numbers (judge limits highest_ceiling q.0).answer) plans ≡ map (λ q. q.1) plans")
    print(f"unfolding {opened}\nmarked = refl")


if __name__ == "__main__":
    main()
