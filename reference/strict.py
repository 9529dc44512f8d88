#!/usr/bin/env python3
"""strict.py REFERENCE: writes judgment/proofs/StrictRows.antt, plans under the first and the strict call with the levels that they
leave, to standard output. REFERENCE is the built program, whose answers these are.
"""
import subprocess, sys
from definition import LEVELS, OPENED, listed, nodes, parse

MOST_LINES = 40
# beside those of `generate --kind scoped`: lines by threes, as the records have them
MORE = {
    "a universal of a Chk that is not the first number": "3 0 0 14 11 0 14 12 0 12 1 0 4 0 0 22 7 0",
    "a constructor's quantifier opened by a pattern": "1 20 0 14 11 0 12 30 0 3 0 0 12 1 0 4 0 0 27 0 1 22 7 0 43 20 0 22 5 0",
    "a Lambda for a quantified type, applied": "3 0 0 12 1 0 4 0 0 24 0 0 23 63 0 14 11 0 11 11 0 22 5 0 22 5 0",
    "an unknown that stands in a solution of an older one": "1 35 0 15 0 0 12 30 0 11 13 0 3 0 0 12 32 0 4 0 0 25 13 0 26 35 0",
    "in a Product": "2 28 0 16 0 2 11 11 0 11 11 0 3 0 0 14 11 0 16 0 2 11 11 0 11 11 0 4 0 0 25 11 0 21 28 0",
    "an unknown applied": "3 0 0 12 1 0 4 0 0 24 0 0 27 0 0 22 7 0 22 7 0",
}
# those that are refused in the midst of a rule: title, fresh numbers, nodes of solutions
MIDST = ["a Case with no arm as Int → ∀n11. n11", "a part of a part, of an Arrow", "of a type App", "for a part of the unknown", "an unknown applied", "a result of what was applied"]
HEAD = """-- Plans under the first and the strict call (document 02, W12) with the levels that they leave, by computation. reference/strict.py makes this file from
-- the answers of reference/limited. Assumes nothing.
use mathlib.Core.Path.{◌≡◌, refl}
use mathlib.Core.Bool.{true, false}
use mathlib.Core.List.{List, [], ◌∷◌, ◌++◌, map}
use Prim.Native.Nat.{ℕ, zero, suc, ◌+◌}
use lib.ListN.{take, drop}
use Rattle.nodes.specs.Nodes.{node, words}
use Rattle.spelling.specs.declared.Triple.{Triple}
"""
NAMES = {
    "judgment.specs.Solutions": "◌≔◌",
    "judgment.specs.Board": "up_to Limits",
    "judgment.specs.Levels": "Levels Mode first_call strict_call scope_of",
    "judgment.specs.Result": "numbers Judged limits_for padded place_from threes_from node_words book_words",
}
FORMS = """use Rattle.judgment.proofs.Wall.{l, Row}

-- a row, and the levels of the numbers made
abbrev LevelRow : Type 0
LevelRow = Row × List ℕ

abbrev levels_from : Levels → ℕ → ℕ → List ℕ
levels_from v k zero = []
levels_from v k (suc n) = v k ∷ levels_from v (k + 1) n

abbrev row_of_result : Judged → LevelRow
row_of_result r = ((numbers r.answer, r.report, r.solutions), levels_from r.levels 0 r.answer.fresh)

unfoldable pub level_row : Mode → ℕ → List Triple → LevelRow
level_row m c ls = row_of_result (judge (limits_for m 1024) c ls)

-- so many fresh numbers and nodes of solutions
abbrev limited : ℕ → ℕ → Mode → Levels → Limits
limited n s m v = record { entries = up_to 512; nodes = up_to 4096; written = up_to 1024; numbers = up_to n; solved = up_to s; scope = scope_of m v }

unfoldable pub limited_row : Mode → ℕ → ℕ → List Triple → LevelRow
limited_row m n s ls = row_of_result (judge (limited n s m) 10000 ls)
"""
LAST = """
-- a universal that is numbered as the level is not above it, and one behind another node is
pub above : map (λ m. none_above m (node 16 2 ∷ node 17 9 ∷ node 18 5 ∷ [])) (4 ∷ 5 ∷ 6 ∷ []) ≡ false ∷ true ∷ true ∷ []
unfolding none_above
above = refl
"""


def run(reference, *options, stdin=""):
    return subprocess.run([reference, *options], input=stdin, capture_output=True, text=True, check=True).stdout


def sheet(lines):
    return "".join(f"{k:3}{v:20}{c:5}\n" for k, v, c in lines)


def answer(reference, lines, *options):
    """Seven numbers, report, solutions and levels."""
    seven, report, *rest = run(reference, "answer", *options, stdin=sheet(lines)).splitlines()
    pairs = lambda ns: list(zip(ns[::2], ns[1::2]))
    numbers = lambda text: [int(n) for n in text.split()]
    solutions = [(int(l.split()[0][1:]), pairs(numbers(l.split(":=")[1]))) for l in rest if l.startswith("^")]
    levels = [numbers(l[len("levels"):]) for l in rest if l.startswith("levels")][0]
    return numbers(seven), pairs(numbers(report[len("report"):])), solutions, levels


def row(answered):
    seven, report, solutions, levels = answered
    solved = listed(f"◌≔◌ {k} {nodes(s)}" for k, s in solutions)
    return f"    (({listed(seven)}, {nodes(report)}, ({solved})), {listed(levels)}) ∷\n"


def plans(reference):
    """Title, ceiling and lines."""
    said = run(reference, "generate", "--kind", "scoped", "--answers").splitlines()
    made = [(title[2:], parse(record)) for title, record in zip(said[::2], said[1::2])]
    yield from ((title, p.ceiling, [tuple(l) for l in p.lines]) for title, p in made if len(p.lines) <= MOST_LINES)
    for title, text in MORE.items():
        n = [int(x) for x in text.split()]
        yield title, 10000, list(zip(n[::3], n[1::3], n[2::3]))


def midst(reference, rows):
    """Where a rule is refused and the newest number has not its own level, by both calls: each pair of answers once."""
    seen = set()
    limits = [(n, 4096) for n in range(1, 14)] + [(1000, s) for s in range(1, 14)]
    for title, _, lines in rows:
        for n, s in limits if title in MIDST else []:
            options = "--limits", f"512,4096,1024,{n},{s}"
            both = answer(reference, lines, *options), answer(reference, lines, *options, "--strict")
            refused = any(got[0][0] in (24, 25) and got[3] and got[3][-1] < len(got[3]) - 1 for got in both)
            if refused and str(both) not in seen:
                seen.add(str(both))
                yield from ((call, n, s, lines, title, got) for call, got in zip(("first_call", "strict_call"), both))


def asked(lines):
    return listed(f"l {k} {v} {c}" for k, v, c in lines)


def main():
    reference = sys.argv[1]
    modules = OPENED | LEVELS
    uses = "".join(f"use Rattle.{m}.{{{', '.join(w.replace('=', ' as ') for w in NAMES.get(m, '').split() + words.split())}}}\n" for m, words in modules.items())
    opened = " ".join(w.split("=")[-1] for words in modules.values() for w in words.split())
    rows = list(plans(reference))
    print(HEAD + uses + FORMS)
    print("abbrev plans : List (ℕ × List Triple)\nplans =")
    print("".join(f"    ({c}, ({asked(ls)})) ∷  -- {title}\n" for title, c, ls in rows) + "    []")
    for name, call, option in (("by_first", "first_call", []), ("by-strict", "strict_call", ["--strict"])):
        print(f"\npub {name} : map (λ q. level_row {call} q.0 q.1) plans ≡")
        print("".join(row(answer(reference, ls, "--ceiling", str(c), *option)) for _, c, ls in rows) + "    []")
        print(f"unfolding level_row {opened}\n{name} = refl")
    amid = list(midst(reference, rows))
    print("\n-- refused in the midst of a rule: call, fresh numbers, nodes of solutions\nabbrev cut : List (Mode × ℕ × ℕ × List Triple)\ncut =")
    print("".join(f"    ({call}, {n}, {s}, ({asked(ls)})) ∷  -- {title}\n" for call, n, s, ls, title, _ in amid) + "    []")
    print("\npub in-the-midst : map (λ q. limited_row q.0 q.1 q.2 q.3) cut ≡")
    print("".join(row(got) for *_, got in amid) + "    []")
    print(f"unfolding limited_row {opened}\nin-the-midst = refl")
    seven, _, solutions, levels = answer(reference, rows[0][2], "--strict")
    book, start = [0] * (3 * len(levels) + 3), 3000
    for k, level in enumerate(levels):
        book[3 * k + 2] = level
    for k, s in solutions:
        book[3 * k], book[3 * k + 1], start = start, len(s), start + 2 * len(s)
    laid = [n for _, s in solutions for pair in s for n in pair] + [0, 0]
    print(f"\n-- the book of the first plan after the strict call: three words for each number made and the next, and the nodes\nunfoldable pub first_scoped : List ℕ\nfirst_scoped =")
    print(f"    let r = judge (limits_for strict_call 1024) 10000 ({asked(rows[0][2])}) in")
    print(f"    let b = book_words r.solutions r.levels r.answer.fresh in\n    take {len(book)} b ++ take {len(laid)} (drop 3000 b)\n")
    print(f"pub first-scoped : first_scoped ≡ ({listed(book)}) ++ ({listed(laid)})")
    print(f"unfolding first_scoped book_words padded threes_from place_from node_words words {opened}\nfirst-scoped = refl")
    print(LAST, end="")


if __name__ == "__main__":
    main()
