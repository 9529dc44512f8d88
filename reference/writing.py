#!/usr/bin/env python3
"""writing.py REFERENCE: writes writing/proofs/Rows.antt, calls of the writer at the boundary of every number, length and order.

REFERENCE is the built program, whose own writer judges the words (`reference write-call`). Run it anywhere inside the repository.
"""
import os, subprocess, sys

TOP = 2 ** 63
SEVEN = [3, 0, 0, 12, 1, 0, 4, 0, 0, 22, 7, 0]
TERM = SEVEN[:9]
HEAD = """-- What the writer answers, in digits, by computation: each number, place and byte. The answers are those of
-- `reference write-call`, and this file is `reference/writing.py`'s. Assumes nothing.
use mathlib.Core.Path.{◌≡◌, refl}
use mathlib.Core.Bool.{true, false}
use mathlib.Core.List.{List, [], ◌∷◌, ◌++◌, map}
use Prim.Native.Nat.{ℕ}
use lib.ListN.{replicate}
use Rattle.spelling.specs.Text.{field_text, line_text}
use Rattle.kinds.specs.Kinds.{find, table, row_of, begins, head_of}
use Rattle.grammar.specs.Grammar.{declared_by, arms, following, read}
use Rattle.judgment.specs.Result.{numbers}
use Rattle.writing.specs.Writing.{triples_from, triples_of, read_triples, sheet_text, words_ok, Wrote, write_call}

-- words, the length of the output, the seven numbers, and the output's first bytes; the others are dots, as all were before
pub record Row : Type 0 where
  pub words : List ℕ
  pub room : ℕ
  pub seven : List ℕ
  pub first : List ℕ
  pub dots : ℕ

abbrev given : Row → (List ℕ) × (List ℕ)
given r = (r.seven, r.first ++ replicate r.dots 46)

abbrev told : Wrote → (List ℕ) × (List ℕ)
told w = (numbers w.answer, w.out)

abbrev row : List ℕ → ℕ → List ℕ → List ℕ → ℕ → Row
row ws n seven first dots = record { words = ws; room = n; seven = seven; first = first; dots = dots }
"""
UNFOLDED = "line_text field_text find table row_of begins head_of declared_by arms following read triples_from triples_of read_triples sheet_text write_call"


def term(kind, value, count, *more):
    return TERM + [kind, value, count, *more]


def rooms():
    for room in (116, 117, 130, 115, 29, 1, 0):
        yield f"an output of {room} bytes", SEVEN, room


def lengths():
    for count in (0, 1, 2, 10, 11, 13, 14):
        yield f"{count} words", (SEVEN + SEVEN)[:count], 145


def values():
    for value in (0, 1, -1, 9, 10, -10, TOP - 1, -TOP, 1 - TOP):
        yield f"the literal {value}", term(22, value, 0), 118
    for kind, value in ((21, 10), (21, -10), (21, 0), (21, 9999), (21, 10000), (21, -9999), (21, TOP - 1), (21, -TOP), (23, -10), (26, -10)):
        yield f"kind {kind} with {value}", term(kind, value, 0), 118
    yield "a negative Con", [3, 0, 0, 12, -1, 0, 4, 0, 0, 22, 7, 0], 118
    yield "a negative value in the first triple", [3, -1, 0] + SEVEN[3:], 118
    yield "a negative operator", term(28, -1, 0, 22, 7, 0, 22, 7, 0), 180
    yield "an operator", term(28, 6, 0, 22, 7, 0, 22, 7, 0), 180


def fields():
    for kind in (0, 17, 31, 44, 99, 100, 122, 222, 999, 1000, 1022, 10022, 2 ** 32 + 22, TOP - 1, -1, -22, -TOP):
        yield f"the kind {kind}", term(kind, 7, 0), 118
    for count in (1, 99, 100, 99999, 100000, 2 ** 32, TOP - 1, -1, -TOP):
        yield f"the count {count}", term(22, 7, count), 118
    for count in (0, 1, -1, 2 ** 32):
        yield f"a Constructor's count {count}", term(26, 20, count), 118


def orders():
    yield "one triple lacking", TERM, 118
    yield "a term lacking, and no room", TERM, 0
    yield "one triple more", SEVEN + [22, 7, 0], 145
    yield "one more that no line can say", SEVEN + [21, -1, 0], 145
    yield "two bad triples, the first by its place", [3, 0, 0, 22, 7, 0, 4, 0, 0, 21, -1, 0], 145
    yield "two bad triples, the first by its sign", [3, 0, 0, 12, -1, 0, 4, 0, 0, 99, 0, 0], 145
    yield "a bad triple, and no room", term(21, -10, 0), 115
    yield "a part of a triple, and no room", SEVEN[:11], 0
    yield "names that fall", [2, 6, 0, 12, 1, 0, 2, 5, 0, 12, 1, 0] + SEVEN, 232
    yield "names that rise", [2, 5, 0, 12, 1, 0, 2, 6, 0, 12, 1, 0] + SEVEN, 232


def judged(reference, words, room):
    text = " ".join(map(str, words)).encode()
    seven, out = subprocess.run([reference, "write-call", "--out", str(room)], input=text, capture_output=True, check=True).stdout.split(b"\n", 1)
    assert len(out) == room
    first = out.rstrip(b".")
    return list(map(int, seven.split())), list(first), room - len(first)


def listed(numbers):
    return " ∷ ".join([str(n % 2 ** 64) for n in numbers] + ["[]"])


def rows(reference, name, cases):
    lines = [f"\nabbrev {name}-rows : List Row\n{name}-rows ="]
    for title, words, room in cases:
        seven, first, dots = judged(reference, words, room)
        lines.append(f"    row ({listed(words)}) {room} ({listed(seven)})  -- {title}")
        lines.append(f"    ({listed(first)}) {dots} ∷")
    lines.append("    []\n")
    lines.append(f"pub {name} : map (λ r. told (write_call r.words (replicate r.room 46))) {name}-rows ≡ map given {name}-rows")
    lines.append(f"unfolding {UNFOLDED}\n{name} = refl\n")
    return "\n".join(lines)


def taken(reference, count):
    """Whether so many words are not refused for their number: products of products, cut or lengthened."""
    words = ([3, 0, 0] + [16, 0, 1] * 2010)[:count]
    return judged(reference, words, 0)[0][0] != 3


def counts(reference):
    cases = [0, 1, 2, 3, 4, 5, 6, 5997, 5998, 5999, 6000, 6001, 6002, 6003, 6006]
    answers = " ∷ ".join([str(taken(reference, n)).lower() for n in cases] + ["[]"])
    return f"\n-- so many words may be a plan's\npub counts : map words_ok ({listed(cases)}) ≡ ({answers})\ncounts = refl\n"


def main():
    reference = os.path.abspath(sys.argv[1])
    top = subprocess.run(["git", "rev-parse", "--show-toplevel"], capture_output=True, text=True, check=True).stdout.strip()
    groups = {"rooms": rooms(), "lengths": lengths(), "values": values(), "fields": fields(), "orders": orders()}
    text = HEAD + counts(reference) + "".join(rows(reference, name, cases) for name, cases in groups.items())
    with open(os.path.join(top, "crates/writing/proofs/Rows.antt"), "w") as file:
        file.write(text)


if __name__ == "__main__":
    main()
