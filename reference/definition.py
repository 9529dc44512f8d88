#!/usr/bin/env python3
"""definition.py RECORDS [--chunk N] [--limits E,N,W,F,S|none]: the definition of the judgment rules beside the Rust's recorded answers.

RECORDS is a file in the format of src/record.rs, as `reference generate --answers` and `reference record` write it. The
definitions are copied to a temporary folder, and there a crate is added whose one theorem says, by computation in the prover,
that `judge` gives for every plan of a chunk, by the rule of its call, the recorded seven numbers, report types, solutions in
order and levels. Plans refused before a run (1 to 5) are left out, and so are raw records, which are calls with any bytes. Run
it anywhere inside the repository; it needs `rt`. Exit status 1 at a difference.
"""
import argparse, itertools, os, shutil, subprocess, sys, tempfile
from collections import namedtuple
from lies import TOP, checking, types_of, write

DEPS = "sizes nodes spelling kinds grammar sheet judgment"
OPENED = {
    "kinds.specs.Kinds": "parts_of row_of find=find_row table",
    "sheet.specs.Plan": "plan_of declarations bindings_in end_from entries_end places_of part_line is_plain names plain_entries plain_plan lookup",
    "judgment.specs.Types": "view occurs is_monotype substitute rename front_names after_front can_unify",
    "judgment.specs.Terms": "term_view lambda_of",
    "judgment.specs.Solutions": "find links any_solved write_out_by write_out solution_nodes",
    "judgment.specs.Board": "board_nodes find_var before perform operations",
    "judgment.specs.Rules": "instantiate_from subtype open_names signature_from insert push_vars check_patterns check_arms infer_app",
    "judgment.specs.Run": "run_from check_type",
    "judgment.specs.Result": "result_of run_of judge",
}
LEVELS = {"judgment.specs.Levels": "put lower level_made level_after levels_after none_above"}
CALLS = {1: "first_call", 2: "strict_call"}
HEAD = """use mathlib.Core.Path.{◌≡◌, refl}
use mathlib.Core.Bool.{Bool, true, false}
use mathlib.Core.List.{List, [], ◌∷◌, map}
use Prim.Native.Nat.{ℕ, zero, suc, ◌+◌}
use Rattle.nodes.specs.Nodes.{Node, node, Ty}
use Rattle.spelling.specs.declared.Triple.{Triple}
use Rattle.judgment.specs.Solutions.{Solution, ◌≔◌, Solutions}
use Rattle.judgment.specs.Board.{up_to, unlimited}
use Rattle.judgment.specs.Levels.{Levels, Mode, first_call, strict_call, scope_of}
use Rattle.judgment.specs.Result.{Judged, numbers, limits_for}
"""
ROW = """
abbrev t : ℕ → Bool → ℕ → ℕ → Triple
t k n v c = record { kind = k; negative = n; value = v; count = c }

abbrev levels_from : Levels → ℕ → ℕ → List ℕ
levels_from v k zero = []
levels_from v k (suc n) = v k ∷ levels_from v (k + 1) n

abbrev Row : Type 0
Row = (List ℕ × Ty × Solutions) × List ℕ

unfoldable pub row : Mode → ℕ → List Triple → Row
row m c ls = let r = judge (LIMITS) c ls in ((numbers r.answer, r.report, r.solutions), levels_from r.levels 0 r.answer.fresh)
"""

RAW = ("3 ", "4 ")
Plan = namedtuple("Plan", "call ceiling lines seven report solutions levels")


def pairs(numbers, at, count):
    return [(numbers[at + 2 * j], numbers[at + 2 * j + 1]) for j in range(count)]


def parse(text):
    n = [int(x) for x in text.split()]
    call, ceiling, count, at = n[0], n[1], n[2], 3
    lines = [n[at + 3 * j: at + 3 * j + 3] for j in range(count)]
    at += 3 * count
    seven, at = n[at: at + 7], at + 7
    report = pairs(n, at + 1, n[at])
    at += 1 + 2 * n[at]
    solved, at, solutions = n[at], at + 1, []
    for _ in range(solved):
        solutions.append((n[at], pairs(n, at + 2, n[at + 1])))
        at += 2 + 2 * n[at + 1]
    levels = n[at:]
    assert len(levels) == seven[3], "a record ends with the levels of the numbers made"
    return Plan(call, ceiling, lines, seven, report, solutions, levels)


def nodes(ns):
    return "(" + "".join(f"node {k} {v} ∷ " for k, v in ns) + "[])"


def triple(line):
    kind, value, count = line
    return f"t {kind} {'true' if value < 0 else 'false'} {abs(value)} {count} ∷ "


def groups(plans):
    """Plans of one call in runs of at most 50, a long run alone: the prover bounds what one theorem may compute."""
    by_call = lambda plan: plan.call
    for _, same in itertools.groupby(sorted(plans, key=by_call), key=by_call):
        group = []
        for plan in same:
            long = plan.seven[2] > 1000
            if group and (len(group) == 50 or long):
                yield group
                group = []
            group.append(plan)
            if long:
                yield group
                group = []
        if group:
            yield group


def limits_of(limits):
    """Under levels v, by the rule of the call m."""
    names = "entries nodes written numbers solved".split()
    given = ["unlimited"] * 5 if limits == "none" else [f"up_to {int(n)}" for n in limits.split(",")]
    fields = [f"{name} = {limit}" for name, limit in zip(names, given)] + ["scope = scope_of m v"]
    return "λ v. record { " + "; ".join(fields) + " }"


def module(plans, limits):
    all_opened = OPENED | LEVELS
    uses = [f"use Rattle.{m}.{{{', '.join(w.replace('=', ' as ') for w in names.split())}}}" for m, names in all_opened.items()]
    opened = " ".join(w.split("=")[-1] for names in all_opened.values() for w in names.split())
    row = ROW.replace("LIMITS", limits_of(limits) if limits else "limits_for m 1024")
    return HEAD + "\n".join(uses) + "\n" + row + "".join(theorem(i, g, opened) for i, g in enumerate(groups(plans)))


def listed(items):
    return "".join(f"{item} ∷ " for item in items) + "[]"


def answered_row(plan):
    solutions = listed(f"◌≔◌ {k} {nodes(s)}" for k, s in plan.solutions)
    return f"    (({listed(plan.seven)}, {nodes(plan.report)}, {solutions}), {listed(plan.levels)}) ∷\n"


def theorem(name, plans, opened):
    call = CALLS[plans[0].call]
    asked = "".join(f"    ({plan.ceiling}, {''.join(map(triple, plan.lines))}[]) ∷\n" for plan in plans)
    answered = "".join(map(answered_row, plans))
    return (f"\nabbrev asked{name} : List (ℕ × List Triple)\nasked{name} =\n{asked}    []\n"
            f"\nabbrev answered{name} : List Row\nanswered{name} =\n{answered}    []\n"
            f"\npub same{name} : map (λ q. row {call} q.0 q.1) asked{name} ≡ answered{name}\nunfolding row {opened}\nsame{name} = refl\n")


def workplace(folder):
    """A copy of the definitions in `folder`, with no code and no proof, and a crate `compare` above judgment."""
    for crate in DEPS.split():
        own = os.path.join(TOP, "crates", crate)
        write(os.path.join(folder, "crates", crate, "src/lib.rt"), types_of(open(os.path.join(own, "src/lib.rt"), encoding="utf-8").read()))
        if os.path.isdir(os.path.join(own, "specs")):
            shutil.copytree(os.path.join(own, "specs"), os.path.join(folder, "crates", crate, "specs"))
    write(os.path.join(folder, "crates/compare/src/lib.rt"), "// No code.\n")
    write(os.path.join(folder, "crates/compare/specs/Lib.antt"), "pub mod Same\n")
    os.makedirs(os.path.join(folder, "kept"))


def proved(folder, text, what):
    """Has the prover compute the theorems of `text`; ends the program where one does not hold."""
    write(os.path.join(folder, "crates/compare/specs/Same.antt"), text)
    words = checking(DEPS.split()) + ["--incremental", "kept", "--crate-name", "compare", "crates/compare/src/lib.rt"]
    p = subprocess.run(words, cwd=folder, capture_output=True, text=True)
    said = p.stdout + p.stderr
    if p.returncode != 0 or "logic=proved" not in said:
        print(f"{what}: DIFFERENT\n{said[-3000:]}")
        sys.exit(1)


def main():
    a = argparse.ArgumentParser(description=__doc__, formatter_class=argparse.RawDescriptionHelpFormatter)
    a.add_argument("records")
    a.add_argument("--chunk", type=int, default=1000)
    a.add_argument("--limits", help="the limits that the records were made with, where they are not document 01's; none for no limit")
    o = a.parse_args()
    records = [l for l in open(o.records, encoding="utf-8") if not l.startswith("#")]
    plans = [parse(l) for l in records if not l.startswith(RAW)]
    if len(plans) < len(records):
        print(f"{len(records) - len(plans)} raw records left out")
    plans = [p for p in plans if p.seven[0] not in (1, 2, 3, 4, 5)]
    same = 0
    with tempfile.TemporaryDirectory() as folder:
        workplace(folder)
        for at in range(0, len(plans), o.chunk):
            chunk = plans[at: at + o.chunk]
            proved(folder, module(chunk, o.limits), f"plans {at} to {at + len(chunk)}")
            same += len(chunk)
            print(f"{same} of {len(plans)} plans alike", flush=True)


if __name__ == "__main__":
    main()
