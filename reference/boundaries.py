#!/usr/bin/env python3
"""boundaries.py REFERENCE: writes grammar/proofs/Boundaries.antt, sheets at the boundary of every field, length and place.

REFERENCE is the built program, whose own reader judges the bytes. Run it anywhere inside the repository.
"""
import os, subprocess, sys
from definition import listed
from telling import INT, SEVEN, WILD, app, apply, arrow, binop, case, constructor, folded, forall, intrinsic, lam, lit, pcon, plan, product, pvar, tlam, tvar, var, when

TOP = 2 ** 63
SAMPLES = {
    1: [(1, 10, 0)] + INT, 2: [(2, 10, 0)] + INT, 3: [(3, 0, 0)], 4: [(4, 0, 0)],
    11: tvar(10), 12: INT, 13: arrow(INT, INT), 14: forall(10, INT), 15: app(INT, INT), 16: product(INT),
    21: var(10), 22: SEVEN, 23: lam(10, INT, SEVEN), 24: apply(SEVEN, SEVEN), 25: tlam(10, SEVEN), 26: constructor(10, SEVEN),
    27: case(SEVEN, (WILD, SEVEN)), 28: binop(1, SEVEN, SEVEN), 29: when(SEVEN, SEVEN, SEVEN), 30: intrinsic(10, SEVEN),
    41: WILD, 42: pvar(10), 43: pcon(10, WILD),
}
COUNTED = 16, 26, 27, 30, 43
WHOLE = plan(INT, SEVEN)
TERM = WHOLE[:3]
PLACES = {
    "first": ([], WHOLE), "after a constructor": ([(1, 5, 0)] + INT, WHOLE), "after a variable": ([(2, 5, 0)] + INT, WHOLE),
    "as an entry's type": ([(1, 5, 0)], WHOLE), "as the expected type": ([(3, 0, 0)], WHOLE[2:]), "after the expected type": (WHOLE[:2], SEVEN),
    "as the term": (TERM, []), "as a Lambda's type": (TERM + [(23, 10, 0)], SEVEN), "as a pattern": (TERM + [(27, 0, 1)] + SEVEN, SEVEN),
    "after the term": (WHOLE, []),
}
OTHERS = 0, 5, 6, 7, 8, 9, 10, 17, 18, 19, 20, 31, 32, 35, 39, 40, 44, 45, 51, 99, 100, 101, 104, 111, 112, 122, 143, 999


def home(kind):
    """Lines before and after a line of this kind where it may stand."""
    for below, place in ((3, "first"), (4, "first"), (5, "after the expected type"), (20, "as the expected type"), (31, "as the term"), (50, "as a pattern")):
        if kind < below:
            return ([], WHOLE[1:]) if kind == 3 else PLACES[place]


def with_first(kind, line):
    """A plan with a line in the place of a sample's first."""
    before, after = home(kind)
    return before + [line] + SAMPLES[kind][1:] + after


def counts():
    each = {16: INT, 26: SEVEN, 27: WILD + SEVEN, 30: SEVEN, 43: WILD}
    for kind in COUNTED:
        before, after = home(kind)
        head = lambda count: [(kind, 10 if kind in (26, 30, 43) else 0, count)] + (SEVEN if kind == 27 else [])
        for count in (0, 1, 2, 99, 100, 101):
            yield f"kind {kind}, count {count} and as many parts", before + head(count) + each[kind] * count + after
        for count in (1, 2):
            yield f"kind {kind}, count {count} and one part less", before + head(count) + each[kind] * (count - 1) + after
        yield f"kind {kind}, count 1 and one part more", before + head(1) + each[kind] * 2 + after


def uncounted():
    for kind in SAMPLES:
        if kind not in COUNTED:
            k, v, _ = SAMPLES[kind][0]
            for count in (0, 1, 99):
                yield f"kind {kind}, count {count}", with_first(kind, (k, v, count))


def values():
    for op in (0, 1, 2, 3, 4, 5, 6, 7, 8, 10000):
        yield f"operator {op}", with_first(28, (28, op, 0))
    for kind in (3, 4, 13, 15, 16, 24, 27, 29, 41):
        k, _, count = SAMPLES[kind][0]
        for value in (1, TOP - 1):
            yield f"kind {kind}, value {value}", with_first(kind, (k, value, count))


def entries():
    entry = lambda kind, *names: [line for name in names for line in [(kind, name, 0)] + INT]
    for kind in (1, 2):
        for names in ((5, 6), (5, 5), (6, 5), (1, 2, 3), (1, 3, 2), (9998, 9999)):
            yield f"names {names} of kind {kind}", entry(kind, *names) + WHOLE
    for title, lines in {"a variable of a lower name than the constructor before it": entry(1, 6) + entry(2, 5), "of the same name": entry(1, 5) + entry(2, 5),
                         "a constructor after a variable": entry(2, 5) + entry(1, 6), "after both": entry(1, 5) + entry(2, 5) + entry(1, 6)}.items():
        yield title, lines + WHOLE


def cuts():
    lines = plan(arrow(INT, INT), lam(10, INT, case(var(10), (pcon(20, WILD), when(SEVEN, SEVEN, SEVEN)))), {20: product(INT)}, {30: forall(11, tvar(11))})
    for count in range(1, len(lines) + 1):
        yield f"{count} of {len(lines)} lines", lines[:count]
    yield "and one more", lines + SEVEN


def places():
    for title, (before, after) in PLACES.items():
        for kind, lines in (SAMPLES | {k: [(k, 1, 0)] for k in OTHERS}).items():
            yield f"kind {kind} {title}", before + lines + after


# ---------------------------------------------------------------- lines that are no triples: kind, value, count, last byte
FIELDS = {
    "blank": "", "a plus sign": "+1", "a leading zero": "01", "zero twice": "00", "-0": "-0", "a minus sign alone": "-", "two of them": "--1", "a space inside": "1 1",
    "a space after": "1 ", "a tab": "\t1", "a letter": "x", "a digit and a letter": "1x", "a point": "1.", "the byte before 0": "/", "the byte after 9": ":", "a byte 0": "\0", "a byte 255": "\xff",
}
LITERALS = [0, 1, -1, 9, 10, -10, 1001, -1001, 2 ** 31, 2 ** 32, 2 ** 53 + 1, TOP - 1, TOP, TOP + 1, -TOP + 1, -TOP, -TOP - 1, 2 ** 64 - 1, 2 ** 64, 10 ** 19, 10 ** 20 - 1]
RAW_LITERALS = ["-01", "+0", "- 1", "1-", "00000000000000000001", "-9223372036854775808", "-0000000000000000001", "1_000", "1,000"]


def raw(kind="22", value="7", count="0", last="\n"):
    return kind, value, count, last


def spellings():
    for title, text in FIELDS.items():
        yield f"the kind: {title}", raw(kind=text)
        yield f"the value: {title}", raw(value=text)
        yield f"the count: {title}", raw(count=text)
    for field, texts in (("kind", ("122", "x22", "1 2", "222")), ("value", ("1" + " " * 18 + "7", "x" + " " * 18 + "7", "1" + "0" * 18 + "7")), ("count", ("1   0", "x   0", "10000", "00000"))):
        for text in texts:
            yield f"the whole width of the {field}: {text}", raw(**{field: text})
    yield "a kind that is negative", raw(kind="-22")
    yield "a count that is negative", raw(count="-1")
    for kind, title in ((22, "a count of five digits"), (26, "of a Constructor")):
        yield title, raw(kind=str(kind), count="99999")
    for last in ("\r", " ", "0", "\0", "\v"):
        yield f"byte {ord(last)} in the place of LF", raw(last=last)


# a first line that is misspelt, before lines that are not
FIRST = {"as it is": None, "a blank count": raw("3", "0", ""), "a blank kind": raw("", "0", "0"), "a blank value": raw("3", "", "0"), "no LF": raw("3", "0", "0", "\r"), "-0": raw("3", "-0", "0"),
         "a minus sign": raw("3", "-1", "0"), "kind 003": raw("003", "0", "0")}


def literals():
    for text in [str(n) for n in LITERALS] + RAW_LITERALS:
        yield text, raw(value=text)


def negatives():
    """A minus sign on a line of each kind, in its place, and of the least negative value."""
    for kind in SAMPLES:
        k, _, count = SAMPLES[kind][0]
        yield f"-1 on kind {kind}", kind, raw(str(k), "-1", str(count))
        yield f"-{TOP} on kind {kind}", kind, raw(str(k), str(-TOP), str(count))
    for kind in (0, 17, 18, 19, 20, 31, 40, 44, 999):
        yield f"-1 on kind {kind}", None, raw(str(kind), "-1", "0")
    for kind in (1, 2, 11, 12, 21, 23, 26, 42):
        k, _, count = SAMPLES[kind][0]
        yield f"{TOP} on kind {kind}", kind, raw(str(k), str(TOP), str(count))


# ---------------------------------------------------------------- bytes, and the same in the proof language
def bytes_of(line):
    kind, value, count, last = (str(field) for field in (*line, "\n")[:4])
    return (kind.rjust(3) + value.rjust(20) + count.rjust(5) + last).encode("latin-1")


def said(line, letter):
    if len(line) == 3:
        return f"{letter} {line[0]} {line[1]} {line[2]}"
    kind, value, count, last = line
    field = lambda text: f"({listed(text.encode('latin-1'))})"
    return f"r {field(kind)} {field(value)} {field(count)} {ord(last)}"


def judged(reference, text):
    shown = subprocess.run([reference, "answer"], input=text, capture_output=True, check=True).stdout.decode()
    number, line = (int(n) for n in shown.split()[:2])
    return {3: "Err Length", 4: f"Err (Misspelt {line})", 5: f"Err (Unfit {line})"}.get(number, "Ok tt")


def rows_of(reference, rows, letter):
    return [(f"(({folded([said(line, letter) for line in lines])}), {judged(reference, b''.join(map(bytes_of, lines)))})", title) for title, lines in rows]


HEAD = """-- Sheets at the boundary of every field, length and place, by computation: reference/boundaries.py makes this file from
-- the answers of the reader in reference/src. Assumes nothing.
use Rattle.grammar.specs.declared.SheetError.TheVariants.{Length, Misspelt, Unfit}
use Rattle.grammar.specs.declared.SheetError.{SheetError}
use Rattle.std.proofs.Common.{Result, Ok, Err, Some, ◌≡◌, refl, false, List, [], ◌∷◌, ◌++◌, map, ℕ, zero, suc, ◌-◌, length, replicate}
use Rattle.spelling.specs.declared.Triple.{Triple}
use Rattle.spelling.specs.Spelling.{field_from, line_of, line_at, lines_from, lines_of, first_misspelt}
use Rattle.spelling.specs.Text.{field_text, line_text}
use Rattle.kinds.specs.Kinds.{find, table, row_of, begins, head_of}
use Rattle.grammar.specs.Grammar.{entries, declared_by, arms, following, read, read_at}
use Rattle.grammar.specs.Check.{end_of, fitting, read_sheet, check}

abbrev t : ℕ → ℕ → ℕ → Triple
t k v c = record { kind = k; negative = false; value = v; count = c }

-- a sheet by its lines, all well spelt: `check` without the bytes, which would be most of the work
unfoldable pub check_lines : List Triple → Result Unit SheetError
check_lines ts = fitting (end_of (length ts) (read (map Some ts) (entries 1 0 ∷ []) 0))

-- the text of a line, by its triple, or by what stands in its fields and its last byte
unfoldable pub l : ℕ → ℕ → ℕ → List ℕ
l k v c = line_text (t k v c)

abbrev right : ℕ → List ℕ → List ℕ
right w bs = replicate (w - length bs) 32 ++ bs

unfoldable pub r : List ℕ → List ℕ → List ℕ → ℕ → List ℕ
r k v c e = right 3 k ++ (right 20 v ++ (right 5 c ++ (e ∷ [])))

abbrev text : List (List ℕ) → List ℕ
text [] = []
text (t ∷ ts) = t ++ text ts

abbrev Row : Type 0
Row = List (List ℕ) × Result Unit SheetError

abbrev times : ℕ → List Triple → List Triple
times zero ts = []
times (suc n) ts = ts ++ times n ts

abbrev LinesRow : Type 0
LinesRow = List Triple × Result Unit SheetError
"""
OPENED = "line_text field_text field_from line_of line_at lines_from lines_of first_misspelt find table row_of begins head_of declared_by arms following read read_at read_sheet check"


READ = "find table row_of begins head_of declared_by arms following read"
# of rows by bytes, and by lines
FORMS = {"l": ("Row", "check (text q.0)", f"l r {OPENED}"), "t": ("LinesRow", "check_lines q.0", f"check_lines {READ}")}


def theorem(name, rows, letter):
    row, asked, opened = FORMS[letter]
    word = name.replace("-", "_")
    table = "".join(f"    {row} ∷  -- {title}\n" for row, title in rows)
    return (f"\nabbrev rows_{word} : List {row}\nrows_{word} =\n{table}    []\n"
            f"\npub {name} : map (λ q. {asked}) rows_{word} ≡ map (λ q. q.1) rows_{word}\nunfolding {opened}\n{name} = refl\n")


def lengths(reference):
    """Spaces: refused for their length, or else for their first line."""
    counts = [0, 1, 28, 29, 30, 57, 58, 59] + [29 * lines + more for lines in (1000, 1999, 2000, 2001) for more in (-1, 0, 1)] + [58028, 116000]
    answers = listed(judged(reference, b" " * count) for count in counts)
    return (f"\n-- so many spaces: 3 for their length, or 4 for their first line\npub lengths : map (λ n. check (replicate n 32)) ({listed(counts)}) ≡\n    {answers}\n"
            f"unfolding {OPENED}\nlengths = refl\n")


def main():
    reference = os.path.abspath(sys.argv[1])
    top = subprocess.run(["git", "rev-parse", "--show-toplevel"], capture_output=True, text=True, check=True).stdout.strip()
    amid = lambda line: TERM + [line]
    at_home = lambda kind, line: amid(line) if kind is None else with_first(kind, line)
    first = [("first line: " + title, [("3", "0", "0", "\n") if line is None else line] + WHOLE[1:]) for title, line in FIRST.items()]
    spelt = {
        "first-lines": first + [("the third line: byte 32 in the place of LF", WHOLE[:2] + [raw("4", "0", "0", " ")] + SEVEN)],
        "spellings": [(title, amid(line)) for title, line in spellings()], "literals": [(title, amid(line)) for title, line in literals()],
        "minus-signs": [(title, at_home(kind, line)) for title, kind, line in negatives()],
    }
    lines = {"values": values(), "no-counts": uncounted(), "counts": counts(), "entry-names": entries(), "lacking": cuts(), "places": places()}
    body = "".join(theorem(name, rows_of(reference, rows, letter), letter) for letter, tables in (("l", spelt), ("t", lines)) for name, rows in tables.items())
    open(os.path.join(top, "crates/grammar/proofs/Boundaries.antt"), "w", encoding="utf-8").write(HEAD + lengths(reference) + body)


if __name__ == "__main__":
    main()
