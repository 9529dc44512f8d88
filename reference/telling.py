#!/usr/bin/env python3
"""telling.py REFERENCE: writes three files of judgment/proofs, plans and calls that tell the definition from a wrong one.

TellingMore.antt has plans, LimitRows.antt plans under small limits, CallRows.antt whole calls with the words of their buffers.
REFERENCE is the built program, whose answers these are. Run it anywhere inside the repository.
"""
import itertools, os, subprocess, sys
from definition import LEVELS, OPENED, listed, nodes
from strict import answer, asked, run, sheet

# ---------------------------------------------------------------- plans, as lines
concat = lambda parts: [line for part in parts for line in part]
con = lambda name: [(12, name, 0)]
tvar = lambda name: [(11, name, 0)]
arrow = lambda a, b: [(13, 0, 0)] + a + b
forall = lambda name, t: [(14, name, 0)] + t
app = lambda a, b: [(15, 0, 0)] + a + b
product = lambda *parts: [(16, 0, len(parts))] + concat(parts)
var = lambda name: [(21, name, 0)]
lit = lambda value: [(22, value, 0)]
lam = lambda name, t, e: [(23, name, 0)] + t + e
apply = lambda f, e: [(24, 0, 0)] + f + e
tlam = lambda name, e: [(25, name, 0)] + e
constructor = lambda name, *parts: [(26, name, len(parts))] + concat(parts)
case = lambda e, *arms: [(27, 0, len(arms))] + e + concat(p + b for p, b in arms)
binop = lambda op, a, b: [(28, op, 0)] + a + b
when = lambda c, a, b: [(29, 0, 0)] + c + a + b
intrinsic = lambda name, *parts: [(30, name, len(parts))] + concat(parts)
WILD = [(41, 0, 0)]
pvar = lambda name: [(42, name, 0)]
pcon = lambda name, *parts: [(43, name, len(parts))] + concat(parts)
INT, BOOL, UNIT, SEVEN = con(1), con(2), con(3), lit(7)
NO_ARM = case(SEVEN)


def plan(expected, term, constructors=None, context=None):
    entries = [[(k, name, 0)] + t for k, es in ((1, constructors or {}), (2, context or {})) for name, t in sorted(es.items())]
    return concat(entries) + [(3, 0, 0)] + expected + [(4, 0, 0)] + term


# ---------------------------------------------------------------- TellingMore
def lookups():
    """n10 in the context as Int, on the board as Bool, as a constructor of type Unit: each subset of them."""
    for where in itertools.product((0, 1), repeat=3):
        context, board, declared = where
        said = ", ".join(w for w, here in zip(("context", "board", "constructor"), where) if here) or "nowhere"
        for t, title in ((INT, "Int"), (BOOL, "Bool"), (UNIT, "Unit")):
            term = lam(10 if board else 11, BOOL, var(10))
            yield f"n10 bound by {said}, as {title}", plan(arrow(BOOL, t), term, {10: UNIT} if declared else {}, {10: INT} if context else {})
    for declared, said in (({10: UNIT}, "and a constructor"), ({}, "alone")):
        yield f"n10 bound by a pattern {said}", plan(INT, case(SEVEN, (pvar(10), var(10))), declared)
    for x in (10, 11):
        yield f"the newest of three variables, one of another name between, n{x}", plan(arrow(INT, arrow(BOOL, arrow(UNIT, UNIT))), lam(10, INT, lam(11, BOOL, lam(10, UNIT, var(x)))))
    yield "a constructor is not looked for in the context", plan(INT, constructor(10), {}, {10: INT})
    yield "nor on the board", plan(arrow(INT, INT), lam(10, INT, constructor(10)))


def operators():
    less = binop(5, lit(1), lit(2))
    for op in range(1, 7):
        for t, title in ((INT, "Int"), (BOOL, "Bool")):
            yield f"operator {op} as {title}", plan(t, binop(op, lit(1), lit(2)))
        right = INT if op <= 4 else BOOL
        yield f"operator {op}, a Bool on the left", plan(right, binop(op, less, lit(1)))
        yield f"operator {op}, a Bool on the right", plan(right, binop(op, lit(1), less))
    yield "a Bool on both sides", plan(INT, binop(1, binop(6, lit(1), lit(2)), less))
    for cond, yes, no, title in ((less, less, SEVEN, "a Bool for the second part"), (less, SEVEN, less, "for the third"), (SEVEN, SEVEN, SEVEN, "an Int for the first")):
        yield f"an If with {title}", plan(INT, when(cond, yes, no))
    for args, title in (((), "none"), ((SEVEN,), "one"), ((less,), "a Bool"), ((SEVEN, SEVEN), "two")):
        yield f"printInt with {title}, as Int", plan(INT, intrinsic(4, *args))
        yield f"printInt with {title}, as Unit", plan(UNIT, intrinsic(4, *args))
    for name in (1, 2, 3, 5):
        yield f"no intrinsic n{name}", plan(UNIT, intrinsic(name, SEVEN))
    for value in (0, 1000, 1001, 2 ** 32 - 1, 2 ** 32, 2 ** 63 - 1):
        yield f"the literal {value}", plan(INT, lit(value))


FAILING = {
    "15": (BOOL, SEVEN), "11": (INT, var(99)), "12": (INT, constructor(99)), "13": (INT, apply(SEVEN, SEVEN)), "17": (INT, var(41)),
    "18": (UNIT, intrinsic(4)), "19": (UNIT, intrinsic(9)),
}
PRODUCT_OF_FORALL = {41: product(forall(11, tvar(11)))}


def under():
    """A body that fails below each binder, checked and inferred."""
    for number, (t, e) in FAILING.items():
        say = lambda title, expected, term: (f"{number} {title}", plan(expected, term, {}, PRODUCT_OF_FORALL))
        yield say("under a Lambda, checked", arrow(INT, t), lam(10, INT, e))
        yield say("under a Lambda, inferred", t, apply(lam(10, INT, e), SEVEN))
        yield say("under a TypeLambda", t, tlam(11, e))
        yield say("under a TypeLambda, as a quantified type", forall(11, t), tlam(11, e))
        yield say("under a Lambda under a TypeLambda", arrow(INT, t), tlam(11, lam(10, INT, e)))
        yield say("under a TypeLambda under a Lambda", arrow(INT, t), lam(10, INT, tlam(11, e)))
        yield say("in an arm", t, case(SEVEN, (pvar(10), e)))
        yield say("in the first of two arms", t, case(SEVEN, (pvar(10), e), (WILD, NO_ARM)))


def type_lambda_names(reference):
    """A TypeLambda of the name that its scrutinee's unknown has for a number: its TVar is not that unknown's, so the newer unknown is solved by it."""
    for x in range(1, 10):
        term = case(SEVEN, (pvar(10), tlam(x, var(10))))
        for _ in range(x - 1):
            term = binop(1, SEVEN, term)
        ls = plan(INT, term)
        assert (x + 2, [(17, x)]) in answer(reference, ls)[2], f"another number than {x}"
        yield f"a TypeLambda of the name n{x} beside the unknown {x}", ls


def constructors():
    int_then = lambda t: {20: arrow(INT, t)}
    after = int_then(forall(11, arrow(tvar(11), con(30))))
    own = {20: forall(10, arrow(tvar(10), forall(10, arrow(tvar(10), tvar(10)))))}
    both = {20: forall(10, forall(11, arrow(tvar(10), arrow(tvar(11), con(30)))))}
    for declared, title in ((after, "a quantifier after an Arrow"), (own, "one of a name again after an Arrow"), (both, "two quantifiers")):
        yield f"{title}: a constructor as Int", plan(INT, constructor(20), declared)
        yield f"{title}: as its own type", plan(declared[20], constructor(20), declared)
        yield f"{title}: as Int → Int → n30", plan(arrow(INT, arrow(INT, con(30))), constructor(20), declared)
        yield f"{title}: a variable", plan(arrow(INT, arrow(INT, con(30))), var(20), declared)
        for parts in range(4):
            arm = (pcon(20, *[pvar(12 - i) for i in range(parts)]), SEVEN)
            yield f"{title}: a pattern with {parts} parts", plan(INT, case(var(40), arm), declared, {40: con(30)})
    yield "an App is no signature", plan(INT, case(var(40), (pcon(20), SEVEN)), {20: app(con(31), INT)}, {40: app(con(31), INT)})
    yield "nor a Product", plan(INT, case(var(40), (pcon(20), SEVEN)), {20: product(INT)}, {40: product(INT)})
    yield "parts of a pattern are of the arguments' types in order", plan(INT, case(var(40), (pcon(20, pvar(11), pvar(12)), var(12))), {20: arrow(BOOL, arrow(INT, con(30)))}, {40: con(30)})
    yield "a variable in two parts of nested patterns", plan(INT, case(var(40), (pcon(20, pcon(21, pvar(11)), pvar(11)), var(11))), {20: arrow(con(31), arrow(INT, con(30))), 21: arrow(BOOL, con(31))}, {40: con(30)})
    yield "an earlier arm's variable", plan(INT, case(SEVEN, (pvar(11), SEVEN), (pvar(12), var(11)), (WILD, var(12))))
    yield "a later arm's variable is not seen", plan(INT, case(SEVEN, (WILD, var(12)), (pvar(12), SEVEN)))


def opened_in_order():
    """Each quantifier of a constructor has its number and its TVar before the next one has a number."""
    one = forall(10, app(con(30), arrow(tvar(10), arrow(tvar(10), INT))))
    two = forall(10, forall(11, app(con(30), arrow(tvar(10), arrow(tvar(11), INT)))))
    yield "the older of two quantifiers' unknowns is kept", plan(INT, case(SEVEN, (pcon(20), lit(1)), (pcon(21), lit(1))), {20: two, 21: one})


def long_plans():
    """By their lines, and the seven numbers with the nodes reported and solved."""
    arms = [(WILD, lit(1))] * 98
    yield "99 arms, the last of which fails", plan(INT, case(SEVEN, *arms, (WILD, var(50))))
    yield "99 arms, the first of which fails", plan(INT, case(SEVEN, (WILD, var(50)), *arms))
    for parts in (61, 99):
        signature = concat([[(13, 0, 0)] + INT] * parts) + con(30)
        yield f"a pattern of {parts} parts", plan(INT, case(constructor(21), (pcon(20, *[WILD] * parts), SEVEN)), {20: signature, 21: con(30)})
    hundred = product(*[INT] * 99)
    for last, title in ((BOOL, "which differ in the last node"), (INT, "which are the same")):
        yield f"two types of 901 nodes, {title}", plan(product(*[hundred] * 8, product(*[INT] * 98, last)), var(40), {}, {40: product(*[hundred] * 9)})


def directions():
    """Which side of a comparison a type stands on, which of two unknowns is solved, and what is looked for in a type."""
    yield "an applied function's result is below the type asked for", plan(con(30), apply(var(40), SEVEN), {}, {40: forall(10, arrow(INT, tvar(10)))})
    yield "the first part of an App on the right", plan(app(con(31), INT), apply(var(40), var(51)), {}, {40: forall(11, forall(10, arrow(app(tvar(10), tvar(10)), app(tvar(10), INT)))), 51: forall(10, tvar(10))})
    yield "its second part", plan(app(con(31), forall(11, tvar(11))), NO_ARM)
    yield "the first part of an App on the left", plan(app(con(31), UNIT), tlam(12, constructor(20)), {20: forall(10, forall(10, app(tvar(10), UNIT)))})
    yield "an unknown occurs in an Arrow", plan(INT, case(SEVEN, (pvar(52), apply(var(52), var(52)))))
    yield "a quantifier in an Arrow in a Product", plan(UNIT, var(62), {}, {62: product(arrow(UNIT, forall(11, tvar(11))))})
    yield "in an App in a Product", plan(UNIT, var(62), {}, {62: product(app(forall(11, tvar(11)), UNIT))})
    yield "of two unknowns the older is on the board alone", plan(arrow(con(32), INT), tlam(11, var(40)), {}, {40: forall(11, forall(10, arrow(tvar(10), INT)))})
    yield "the newer is", plan(INT, case(lam(55, INT, var(40))), {}, {40: forall(10, tvar(10))})
    yield "neither is", plan(forall(12, arrow(tvar(12), UNIT)), when(intrinsic(4), var(40), var(40)), {}, {40: forall(12, arrow(tvar(12), UNIT))})


def differences():
    """docs/DIFFERENCES.md: what the papers would say otherwise."""
    yield "types are not checked for being well formed: a Lambda's", plan(arrow(con(11), con(11)), lam(10, con(11), var(10)))
    yield "the same of a type variable", plan(arrow(tvar(11), tvar(11)), lam(10, tvar(11), var(10)))
    yield "a context variable's", plan(tvar(11), var(10), {}, {10: tvar(11)})
    yield "reach looks at TVars on the board alone", plan(con(30), apply(var(20), var(40)), {20: forall(10, arrow(tvar(10), con(30)))}, {40: forall(10, arrow(tvar(10), tvar(10)))})
    yield "the same of a constructor", plan(con(30), apply(constructor(20), var(40)), {20: forall(10, arrow(tvar(10), con(30)))}, {40: forall(10, arrow(tvar(10), tvar(10)))})
    yield "a name is captured by a TypeLambda", plan(forall(12, tvar(12)), tlam(11, var(40)), {}, {40: tvar(11)})
    yield "and not by a quantifier, which a fresh universal takes the place of", plan(forall(11, arrow(tvar(11), tvar(11))), lam(10, tvar(11), var(10)))
    yield "bound names are compared literally inside a Product", plan(arrow(product(forall(12, tvar(12))), INT), lam(10, product(forall(11, tvar(11))), lit(1)))
    yield "the same names", plan(arrow(product(forall(12, tvar(12))), INT), lam(10, product(forall(12, tvar(12))), lit(1)))
    yield "and outside one they are not", plan(arrow(forall(12, tvar(12)), INT), lam(10, forall(11, tvar(11)), lit(1)))
    yield "an Arrow's argument is compared the Rust's way", plan(UNIT, var(40), {}, {40: arrow(forall(10, arrow(tvar(10), tvar(10))), INT)})


# ---------------------------------------------------------------- LimitRows
PLENTY = 99
DECLARED = {20: forall(10, forall(11, arrow(tvar(10), arrow(tvar(11), con(30)))))}
LIMITED = {
    "7 as Int": plan(INT, SEVEN),
    "7 as Bool": plan(BOOL, SEVEN),
    "7 as a quantified type": plan(forall(10, forall(11, tvar(10))), SEVEN),
    "a Lambda, checked": plan(arrow(INT, INT), lam(10, INT, var(10))),
    "a Lambda, applied": plan(INT, apply(lam(10, INT, var(10)), SEVEN)),
    "a TypeLambda": plan(INT, tlam(11, SEVEN)),
    "an unknown applied": plan(INT, apply(NO_ARM, SEVEN)),
    "an unknown split for an Arrow on the right": plan(arrow(INT, BOOL), NO_ARM),
    "on the left": plan(UNIT, var(40), {}, {40: arrow(INT, BOOL)}),
    "an unknown split for an App on the right": plan(app(INT, BOOL), NO_ARM),
    "App on the left": plan(UNIT, var(40), {}, {40: app(INT, BOOL)}),
    "a quantifier on the left": plan(INT, var(40), {}, {40: forall(12, tvar(12))}),
    "a quantifier on the right": plan(arrow(INT, forall(11, arrow(INT, INT))), NO_ARM),
    "two quantifiers at once": plan(arrow(forall(11, forall(12, INT)), INT), NO_ARM),
    "Arrow and Arrow": plan(arrow(arrow(INT, INT), INT), lam(10, arrow(INT, INT), SEVEN)),
    "Arrow and Arrow, unequal": plan(arrow(arrow(BOOL, INT), INT), lam(10, arrow(INT, INT), SEVEN)),
    "App and App": plan(arrow(app(BOOL, INT), INT), lam(10, app(INT, INT), SEVEN)),
    "Product and Product": plan(product(INT, INT), var(40), {}, {40: product(INT, BOOL, INT)}),
    "a constructor with two quantifiers": plan(INT, constructor(20), DECLARED),
    "a constructor with three quantifiers": plan(INT, constructor(20), {20: forall(10, forall(11, forall(12, tvar(11))))}),
    "a pattern": plan(INT, case(NO_ARM, (pcon(20, pvar(12), pvar(11)), var(11))), DECLARED),
    "a pattern of the wrong arity": plan(INT, case(NO_ARM, (pcon(20, pvar(12)), SEVEN)), DECLARED),
    "a pattern bound nowhere": plan(INT, case(NO_ARM, (pvar(12), SEVEN), (pcon(21), SEVEN))),
    "an operator": plan(BOOL, binop(5, lit(1), SEVEN)),
    "an If": plan(INT, when(NO_ARM, lit(1), SEVEN)),
    "printInt": plan(UNIT, intrinsic(4, SEVEN)),
    "no function": plan(INT, apply(var(40), SEVEN), {}, {40: product(INT, BOOL)}),
    "a type that has a quantifier inside": plan(INT, var(40), {}, {40: product(forall(11, tvar(11)))}),
}
SCOPED = {
    "out of scope": plan(arrow(INT, forall(11, tvar(11))), NO_ARM),
    "a part out of scope": plan(arrow(INT, forall(11, arrow(tvar(11), INT))), NO_ARM),
}


def short(got):
    seven, report, solutions, _ = got
    return seven[0], seven[2], seven[3], len(report), sum(len(s) for _, s in solutions)


def sweep(ask, at, least):
    """The limit numbered at from the least on until it is not met: of values with one answer the first and the last."""
    said, value = [], least
    whole = ask([PLENTY] * 5)
    while not said or said[-1][1] != whole:
        limits = [PLENTY] * 5
        limits[at] = value
        said.append((limits, ask(limits)))
        value += 1
        assert value < PLENTY
    same = [list(group) for _, group in itertools.groupby(said, key=lambda s: s[1])]
    return [row for group in same for row in ([group[0], group[-1]] if len(group) > 1 else group)]


def pairs(ask, swept):
    """Two limits that one step passes: which is passed first."""
    for i, j in itertools.combinations(range(5), 2):
        for (mine, first), (yours, second) in itertools.product(swept[i], swept[j]):
            if first[0] in (22, 23, 24, 25) and second[0] in (22, 23, 24, 25) and first[0] != second[0] and first[1] == second[1]:
                limits = [min(a, b) for a, b in zip(mine, yours)]
                yield limits, ask(limits)


def swept_rows(reference, lines, option):
    ask = lambda limits: short(answer(reference, lines, "--limits", ",".join(map(str, limits)), *option))
    expected = lines.index((4, 0, 0)) - lines.index((3, 0, 0)) - 1
    swept = [sweep(ask, at, least) for at, least in enumerate((1, expected, 0, 0, 0))]  # the first Chk is on the board already
    return concat(swept) + list(pairs(ask, swept))


# ---------------------------------------------------------------- CallRows
SHEETS = {
    "whole": plan(INT, SEVEN),
    "bool": plan(BOOL, SEVEN),
    "unsolved": plan(INT, case(SEVEN, (WILD, var(99)))),
    "split": plan(arrow(INT, forall(11, tvar(11))), NO_ARM),
}
SIZES = [12288, 11192, 4096]
SHORT = [2, 3, 1]
REFUSED = 1, 32, 2, 3, 4, 5
AT_ONCE = {"refused": 10, "ran": 3}  # of one theorem, whose steps the prover bounds


# bytes of a sheet that is refused, and the same in the proof language
def refused_sheets():
    whole = sheet(SHEETS["whole"])
    yield "length", whole[1:], "drop 1 whole"
    yield "misspelt", whole[:29] + " " * 29 + whole[58:], "take 29 whole ++ (replicate 29 32 ++ drop 58 whole)"
    yield "unfit", whole + whole[87:], "whole ++ drop 87 whole"
    yield "both", whole[58:] + whole + " " * 29, "drop 58 whole ++ (whole ++ replicate 29 32)"
    yield "all", " " + whole[58:] + whole + " " * 29, "32 ∷ (drop 58 whole ++ (whole ++ replicate 29 32))"


def call_rows():
    """Title, call, sheet's name, ceiling, limit and lengths."""
    sheets = ["whole"] + [name for name, _, _ in refused_sheets()]
    for ceiling, limit, lengths, name in itertools.product((10000, 10001), (1024, 4097), (SIZES, SHORT), sheets):
        what = [f"ceiling {ceiling}"] * (ceiling > 10000) + [f"limit {limit}"] * (limit > 4096) + ["short buffers"] * (lengths == SHORT) + [f"sheet {name}"] * (name != "whole")
        if what and (lengths == SHORT or len(what) == 1):
            yield " and ".join(what), "first_call", name, ceiling, limit, lengths
    for at, title in enumerate(("board", "book", "report")):
        for short_by in (1, SIZES[at]):
            yield f"{title} short by {short_by}", "first_call", "whole", 10000, 1024, [n - short_by * (i == at) for i, n in enumerate(SIZES)]
    for limit in (0, 1, 4096, 4097, 4294967295):
        yield f"limit {limit}", "first_call", "bool", 10000, limit, [*SIZES[:2], 4 * min(limit, 4096)]
    for limit in (1, 4096):
        yield f"limit {limit}, the report short by one", "first_call", "bool", 10000, limit, [*SIZES[:2], 4 * limit - 1]
    for ceiling in (0, 3, 9999, 10000, 10001, 4294967295):
        yield f"ceiling {ceiling}", "first_call", "bool", ceiling, 1024, SIZES
    for call in ("first_call", "strict_call"):
        for name in ("unsolved", "split"):
            yield f"{name} by the {call}", call, name, 10000, 1024, SIZES
    yield "1 of the strict call", "strict_call", "split", 10001, 0, [0, 0, 0]
    yield "32 of the strict call", "strict_call", "split", 10000, 0, [0, 0, 0]
    yield "2 of the strict call", "strict_call", "split", 10000, 1, [12288, 11192, 3]


def buffers_after(got, limit, lengths):
    """Board, book and report that were 7, as document 01 lays them out."""
    seven, report, solutions, levels = got
    after = [[7] * n for n in lengths]
    if seven[0] in REFUSED:
        return after
    for words, size in zip(after, (*SIZES[:2], 4 * limit)):
        words[:size] = [0] * size
    _, book, told = after
    flat = lambda pairs: [n for pair in pairs for n in pair]
    told[: 2 * len(report)] = flat(report)
    start = 3000
    for k, s in solutions:
        book[3 * k: 3 * k + 2] = start, len(s)
        book[start: start + 2 * len(s)] = flat(s)
        start += 2 * len(s)
    for k, level in enumerate(levels):
        book[3 * k + 2] = level
    return after


def laid(words):
    """So many times each word."""
    return listed(f"({len(list(same))}, {word})" for word, same in itertools.groupby(words))


# ---------------------------------------------------------------- files
USES = """use mathlib.Core.Path.{◌≡◌, refl}
use mathlib.Core.List.{List, [], ◌∷◌, %s}
"""
NAT = "use Prim.Native.Nat.{ℕ}\n"


def uses(more, modules):
    said = {m: more.get(m, "").split() + words.split() for m, words in modules.items()} | {m: w.split() for m, w in more.items() if m not in modules}
    return "".join(f"use Rattle.{m}.{{{', '.join(w.replace('=', ' as ') for w in words)}}}\n" for m, words in said.items())


def opened(modules):
    return " ".join(w.split("=")[-1] for words in modules.values() for w in words.split())


def spelt(got):
    seven, report, solutions, _ = got
    solved = listed(f"◌≔◌ {k} {nodes(s)}" for k, s in solutions)
    return f"({listed(seven)}, {nodes(report)}, {solved})"


def telling(reference):
    tables = {"lookups": lookups(), "operators": operators(), "under-binders": under(), "type-lambda-names": type_lambda_names(reference),
              "constructors": itertools.chain(constructors(), opened_in_order()), "directions": directions(), "differences": differences()}
    text = ("-- More plans that tell the rules from a wrong turn, by computation. reference/telling.py makes this file from the answers of the Rust.\n"
            "-- Assumes nothing.\n" + USES % "◌++◌, map" + "use Prim.Native.Nat.{ℕ, zero, suc}\n" + uses({"nodes.specs.Nodes": "node words", "spelling.specs.declared.Triple": "Triple", "judgment.specs.Solutions": "◌≔◌", "judgment.specs.Result": "limits padded report_words"}, OPENED)
            + "use Rattle.judgment.proofs.Wall.{l, Row, row}\nuse Rattle.judgment.proofs.AtLimits.{short_under}\n\n"
            "-- the plan's lines and the answer to them at ceiling 10,000\nabbrev Asked : Type 0\nAsked = List Triple × Row\n")
    for name, rows in tables.items():
        table = "".join(f"    (({asked(ls)}), {spelt(answer(reference, ls))}) ∷  -- {title}\n" for title, ls in rows)
        word = name.replace("-", "_")
        text += (f"\nabbrev rows_{word} : List Asked\nrows_{word} =\n{table}    []\n"
                 f"\npub {name} : map (λ q. row 10000 q.0) rows_{word} ≡ map (λ q. q.1) rows_{word}\nunfolding row {opened(OPENED)}\n{name} = refl\n")
    return text + long_table(reference)


LONG_FORMS = """
-- long plans: the seven numbers, the nodes of the report and those of the solutions
abbrev times : {A : Type 0} → ℕ → List A → List A
times zero ls = []
times (suc n) ls = ls ++ times n ls

abbrev Long : Type 0
Long = List Triple × (List ℕ × ℕ × ℕ)
"""


def long_table(reference):
    rows = ""
    for title, lines in long_plans():
        seven, report, solutions, _ = answer(reference, lines)
        said = f"({listed(seven)}, {len(report)}, {sum(len(s) for _, s in solutions)})"
        rows += f"    (({folded(lines_of(lines))}), {said}) ∷  -- {title}\n"
    differ = list(long_plans())[4][1]
    words = [word for node in answer(reference, differ)[1] for word in node]
    report = (f"\n-- the words of a report of more than 1,024 nodes, that of the fifth of them\npub long-report : report_words 1024 (judge limits 10000 ({folded(lines_of(differ))})).report ≡\n"
              f"    {folded(words + [0] * (4096 - len(words)))}\nunfolding report_words padded words {opened(OPENED)}\nlong-report = refl\n")
    return LONG_FORMS + (f"\nabbrev rows_long : List Long\nrows_long =\n{rows}    []\n\npub long : map (λ q. short_under limits q.0) rows_long ≡ map (λ q. q.1) rows_long\n"
                         f"unfolding short_under {opened(OPENED)}\nlong = refl\n{report}")


def lines_of(lines):
    return [f"l {k} {v} {c}" for k, v, c in lines]


def folded(items):
    """A list in the proof language: what stands four times or more one after the other, an item or two, or as many as a Product of 99 parts has, as `times`."""
    for at, width in ((at, width) for at in range(len(items)) for width in (1, 2, 100, 200)):
        part, count = items[at: at + width], 1
        while items[at + count * width: at + (count + 1) * width] == part:
            count += 1
        if count >= 4:
            inner = folded(part) if width > 2 else listed(part)
            return "".join(f"{item} ∷ " for item in items[:at]) + f"(times {count} ({inner}) ++ ({folded(items[at + count * width:])}))"
    return listed(items)


LIMIT_FORMS = """use Rattle.judgment.proofs.Wall.{l}

-- entries, nodes on the board, nodes of a type written out, fresh numbers, nodes of solutions
abbrev Small : Type 0
Small = ℕ × ℕ × ℕ × ℕ × ℕ

abbrev under : Small → Mode → Levels → Limits
under q m v =
    record { entries = up_to q.0; nodes = up_to q.1; written = up_to q.2; numbers = up_to q.3; solved = up_to q.4; scope = scope_of m v }

-- number, entries taken, fresh numbers, nodes reported, nodes of solutions
unfoldable pub ends : Mode → List Triple → Small → List ℕ
ends m ls q =
    let r = judge (under q m) 10000 ls in
    r.answer.number ∷ r.answer.taken ∷ r.answer.fresh ∷ length r.report ∷ solution_nodes r.solutions ∷ []

abbrev met : ℕ → ℕ → ℕ → ℕ → ℕ → List ℕ → Small × List ℕ
met e n w f s r = ((e, n, w, f, s), r)
"""


def limit_rows(reference):
    modules = OPENED | LEVELS
    text = ("-- Plans under small limits, each of the five met exactly and passed by one wherever a plan's operations come to it, and each two that one step\n"
            f"-- passes; {PLENTY} is a limit that no plan meets. By computation: reference/telling.py makes this file from the answers of reference/limited.\n-- Assumes nothing.\n"
            + USES % "map" + NAT + "use lib.ListN.{length}\n"
            + uses({"spelling.specs.declared.Triple": "Triple", "judgment.specs.Board": "up_to Limits", "judgment.specs.Levels": "Levels Mode first_call strict_call scope_of"}, modules) + LIMIT_FORMS)
    for i, (title, lines, call) in enumerate([(t, p, "first_call") for t, p in LIMITED.items()] + [(t, p, "strict_call") for t, p in SCOPED.items()]):
        rows = swept_rows(reference, lines, ["--strict"] if call == "strict_call" else [])
        table = "".join(f"    met {' '.join(map(str, limits))} ({listed(said)}) ∷\n" for limits, said in rows)
        text += (f"\n-- {title}\nabbrev plan{i} : List Triple\nplan{i} = {asked(lines)}\n\nabbrev rows{i} : List (Small × List ℕ)\nrows{i} =\n{table}    []\n"
                 f"\npub limited{i} : map (λ q. ends {call} plan{i} q.0) rows{i} ≡ map (λ q. q.1) rows{i}\nunfolding ends {opened(modules)}\nlimited{i} = refl\n")
    return text


CALL_FORMS = """use Rattle.judgment.proofs.Wall.{l}

abbrev text : List Triple → List ℕ
text [] = []
text (t ∷ ts) = line_text t ++ text ts

-- so many times each word
abbrev laid : List (ℕ × ℕ) → List ℕ
laid [] = []
laid (p ∷ ps) = replicate p.0 p.1 ++ laid ps

abbrev filled : List (ℕ × ℕ) → List (ℕ × ℕ) → List (ℕ × ℕ) → Buffers
filled board book report = record { board = laid board; book = laid book; report = laid report }

unfoldable pub called : Mode → List ℕ → ℕ → ℕ → ℕ → ℕ → ℕ → Called
called m s c w board book report = call m s c w (filled ((board, 7) ∷ []) ((book, 7) ∷ []) ((report, 7) ∷ []))

-- refused before a run: the seven numbers and every word of the buffers
abbrev Refused : Type 0
Refused = List ℕ × Buffers

unfoldable pub refused : Mode → List ℕ → ℕ → ℕ → ℕ → ℕ → ℕ → Refused
refused m s c w board book report = let r = called m s c w board book report in (numbers r.answer, r.after)

-- run: the seven numbers, and the words that `book-after` and `report-after` of Calls.antt say to stand in book and report
abbrev Ran : Type 0
Ran = List ℕ × List ℕ × List ℕ

unfoldable pub ran : Mode → List ℕ → ℕ → ℕ → ℕ → ℕ → ℕ → Ran
ran m s c w board book report =
    let r = judge (limits_for m w) c (triples s) in
    (numbers (called m s c w board book report).answer, book_words r.solutions r.levels r.answer.fresh, report_words w r.report)
"""
SPELT = {
    "spelling.specs.Spelling": "field_from line_of line_at lines_from lines_of first_misspelt",
    "spelling.specs.Text": "field_text line_text",
    "grammar.specs.Grammar": "declared_by arms following read read_at",
    "grammar.specs.Check": "read_sheet check",
}
WORDS = "padded place_from threes_from node_words book_words report_words call"


def call_table(reference):
    modules = OPENED | LEVELS | SPELT
    modules["kinds.specs.Kinds"] += " begins head_of"
    modules["sheet.specs.Plan"] += " triples"
    modules["judgment.specs.Result"] += " " + WORDS
    modules["nodes.specs.Nodes"] = "words"
    bytes_of = {name: sheet(lines) for name, lines in SHEETS.items()} | {name: text for name, text, _ in refused_sheets()}
    text = ("-- Whole calls: the order of the refusals before a run, buffers short by a word or more, ceilings and limits at their bounds, with the seven numbers\n"
            "-- and the words of the buffers, each of which was 7: all of them where nothing is written, else those of book and report. By computation:\n"
            "-- reference/telling.py makes this file from the answers of `reference answer`. Assumes nothing.\n"
            + USES % "◌++◌" + NAT + "use lib.ListN.{take, drop, replicate}\n"
            + uses({"spelling.specs.declared.Triple": "Triple", "judgment.specs.Levels": "Mode first_call strict_call", "judgment.specs.Result": "numbers Buffers Called limits_for"}, modules) + CALL_FORMS)
    for name, lines in SHEETS.items():
        text += f"\nabbrev {name} : List ℕ\n{name} = text ({asked(lines)})\n"
    for name, _, spelling in refused_sheets():
        text += f"\nabbrev {name} : List ℕ\n{name} = {spelling}\n"
    said = [(*row, answer_of(reference, bytes_of[row[2]], options_of(*row[1:]))) for row in call_rows()]
    ended = lambda row: row[-1][0][0] in REFUSED
    for form, rows in (("refused", [row for row in said if ended(row)]), ("ran", [row for row in said if not ended(row)])):
        for i, first in enumerate(range(0, len(rows), AT_ONCE[form])):
            text += call_theorem(form, f"{form}{i}", rows[first: first + AT_ONCE[form]], opened(modules))
    return text


def options_of(call, name, ceiling, limit, lengths):
    return ["--ceiling", str(ceiling), "--limit", str(limit), "--lengths", ",".join(map(str, lengths))] + ["--strict"] * (call == "strict_call")


def call_theorem(form, title, rows, opened):
    calls, answers = "", ""
    for said, call, name, ceiling, limit, lengths, got in rows:
        board, book, report = (f"({laid(words)})" for words in buffers_after(got, limit, lengths))
        calls += f"    {form} {call} {name} {ceiling} {limit} {' '.join(map(str, lengths))} ∷  -- {said}\n"
        words = f"filled {board} {book} {report}" if form == "refused" else f"laid {book}, laid {report}"
        answers += f"    ({listed(got[0])}, {words}) ∷\n"
    asked = f"calls_{title}"
    return (f"\nabbrev {asked} : List {form.capitalize()}\n{asked} =\n{calls}    []\n\npub {title} : {asked} ≡\n{answers}    []\n"
            f"unfolding {form} called {opened}\n{title} = refl\n")


def answer_of(reference, text, options):
    seven, report, *rest = run(reference, "answer", *options, stdin=text).splitlines()
    numbers = lambda text: [int(n) for n in text.split()]
    of_nodes = lambda ns: list(zip(ns[::2], ns[1::2]))
    solutions = [(int(l.split()[0][1:]), of_nodes(numbers(l.split(":=")[1]))) for l in rest if l.startswith("^")]
    levels = [numbers(l[len("levels"):]) for l in rest if l.startswith("levels")][0]
    return numbers(seven), of_nodes(numbers(report[len("report"):])), solutions, levels


def main():
    reference = os.path.abspath(sys.argv[1])
    top = subprocess.run(["git", "rev-parse", "--show-toplevel"], capture_output=True, text=True, check=True).stdout.strip()
    for name, text in (("TellingMore", telling(reference)), ("LimitRows", limit_rows(reference)), ("CallRows", call_table(reference))):
        open(os.path.join(top, f"crates/judgment/proofs/{name}.antt"), "w", encoding="utf-8").write(text)


if __name__ == "__main__":
    main()
