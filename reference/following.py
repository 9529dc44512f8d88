#!/usr/bin/env python3
"""following.py [--seed S] [--count N] [--table | --places]: the definitions of writing out and of a chain beside second ones, on random books in
any order of places.

The second ones are below: `followed`, written from document 01's words alone (a solved unknown is followed into its solution, until
only unsolved ones are left), and `is_chain`, from the words of a chain (solved unknowns, each in the solution of the one before). A
book's unknowns have ranks, and a solution mentions solved unknowns of lower rank only, so that none leads back; its places are
shuffled, so that a solution may stand before or after those that it mentions. The prover computes `write_out` and `is_chain` on every
one of them. --table writes judgment/proofs/Following.antt instead, the books of DIRECTED and CHAINS; --places book/proofs/Places.antt,
where the solution of a node stands, by document 01's layout. Exit status 1 at a difference.
"""
import argparse, random, tempfile
from definition import nodes, proved, workplace

# book in order of places, and the type to write out
DIRECTED = [
    ({0: [(12, 1)], 1: [(17, 0)]}, [(17, 1)]),  # a solution placed before the one that mentions it
    ({1: [(17, 0)], 0: [(12, 1)]}, [(17, 1)]),  # and after
    ({0: [(17, 1)], 1: [(17, 2)], 2: [(17, 3)], 3: [(12, 1)]}, [(17, 0)]),  # as many links as solutions
    ({3: [(12, 1)], 2: [(17, 3)], 1: [(17, 2)], 0: [(17, 1)]}, [(17, 0)]),
    ({2: [(12, 2)], 0: [(13, 0), (17, 1), (17, 1)], 1: [(13, 0), (17, 2), (17, 2)]}, [(15, 0), (17, 0), (17, 2)]),  # doubled twice
    ({2: [(17, 5)], 0: [(17, 2)]}, [(16, 3), (17, 0), (17, 5), (17, 2)]),  # unsolved ones are left
    ({0: [(12, 1)]}, [(16, 4), (11, 0), (12, 0), (18, 0), (17, 0)]),  # only an unknown is followed
    ({}, [(17, 0)]),
]

# book in order of places, and the unknowns of which it is asked whether they are a chain
CHAINS = [
    ({0: [(17, 1)], 1: [(12, 1)]}, [0, 1]),
    ({1: [(12, 1)], 0: [(17, 1)]}, [0, 1]),  # in another order of places
    ({0: [(17, 1)], 1: [(12, 1)]}, [1, 0]),  # back
    ({0: [(17, 1)], 1: [(12, 1)]}, [0]),  # one link
    ({0: [(17, 1)], 1: [(12, 1)]}, [1]),  # into a solution without unknowns
    ({0: [(17, 1)]}, [0]),  # into one whose unknown is not solved
    ({0: [(17, 1)]}, [0, 1]),  # which can't be followed
    ({0: [(12, 1)]}, [1]),
    ({}, []),
    ({5: [(13, 0), (12, 1), (17, 3)], 3: [(16, 2), (17, 0), (17, 4)], 4: [(12, 2)], 0: [(12, 1)]}, [5, 3, 4]),  # through types of several nodes, falling and rising
    ({5: [(13, 0), (12, 1), (17, 3)], 3: [(16, 2), (17, 0), (17, 4)], 4: [(12, 2)], 0: [(12, 1)]}, [5, 3, 0]),
    ({5: [(13, 0), (12, 1), (17, 3)], 3: [(16, 2), (17, 0), (17, 4)], 4: [(12, 2)], 0: [(12, 1)]}, [5, 4]),  # one left out
    ({0: [(13, 0), (18, 1), (12, 1)], 1: [(12, 1)]}, [0, 1]),  # a universal and a Con of that number are no unknowns
]

# Threes of a book's words, the ones after the last that may be solved among them, and nodes that are looked up: whatever number stands in
# one, only an unknown below 1,000 can be solved, by a start from 3,000 on, whatever its level. In 16 bits 65,536 would be 0 and 66,535
# would be 999.
THREES = {0: (3003, 2, 1), 1: (3000, 1, 0), 2: (2999, 1, 3001), 999: (3007, 3, 1000), 1000: (5000, 7, 0)}
LOOKED_UP = [(17, n) for n in (0, 1, 2, 3, 998, 999, 1000, 1001, 65535, 65536, 65537, 66535, 66536, 131072, 2**31, 2**32 - 1)]
LOOKED_UP += [(kind, 0) for kind in (0, 1, 11, 12, 13, 14, 15, 16, 18, 65553)]

PLACES = """-- Where the solution of a node stands, for numbers of 32 bits and words as they come, by computation. The answers are
-- those of `place` in reference/following.py, which makes this file. Assumes nothing.
use Rattle.std.proofs.Common.{Option, Some, None, ◌≡◌, refl, List, [], ◌∷◌, ◌++◌, map, ℕ, replicate}
use Rattle.nodes.specs.declared.Place.{Place}
use Rattle.nodes.specs.Nodes.{Node, node, kind, number}
use Rattle.book.specs.Book.{place_of}
"""

COMMENT = """-- Types written out, and chains, over books in any order of places, by computation. The answers are those of `followed` and `is_chain`
-- in reference/following.py, which makes this file. Assumes nothing.
"""

USES = """use mathlib.Core.Path.{◌≡◌, refl}
use mathlib.Core.Bool.{Bool, true, false}
use mathlib.Core.List.{List, [], ◌∷◌, map}
use Prim.Native.Nat.{ℕ}
use Rattle.nodes.specs.Nodes.{node, Ty}
use Rattle.judgment.specs.Types.{occurs}
use Rattle.judgment.specs.Solutions.{◌≔◌, Solutions, find, links, any_solved, write_out_by, write_out}
use Rattle.judgment.specs.Links.{is_chain}
"""


def followed(book, ns):
    out = []
    for kind, number in ns:
        if kind == 17 and number in book:
            out += followed(book, book[number])
        else:
            out.append((kind, number))
    return out


def is_chain(book, ks):
    return all(k in book for k in ks) and all((17, j) in book[k] for k, j in zip(ks, ks[1:]))


def place(threes, kind, number):
    start, count, _ = threes.get(number, (0, 0, 0))
    return (start, count) if kind == 17 and number < 1000 and 3000 <= start else None


def some_type(pick, unknowns, depth):
    """A whole type over these unknowns, Int, Bool and a name."""
    if depth == 0 or pick.random() < 0.4:
        return [pick.choice([(17, k) for k in unknowns] * 2 + [(12, 1), (12, 2), (11, 10)])]
    kind, parts = pick.choice([(13, 2), (15, 2), (16, 1), (16, 2), (16, 3)])
    head = (kind, parts if kind == 16 else 0)
    return [head] + [n for _ in range(parts) for n in some_type(pick, unknowns, depth - 1)]


def some_book(pick):
    """The unknowns of a book by rank, the lowest first, and the book in order of places."""
    numbers = pick.sample(range(20), pick.randint(1, 6))
    unsolved = [k for k in range(20) if k not in numbers][:3]
    book = {}
    for rank, k in enumerate(numbers):
        lower = numbers[:rank]
        near = lower[-1:] if pick.random() < 0.5 else lower
        book[k] = some_type(pick, near + unsolved[:pick.randint(0, 3)], 2)
    places = numbers[:]
    pick.shuffle(places)
    return numbers, {k: book[k] for k in places}


def cases(seed, count):
    pick = random.Random(seed)
    while count:
        numbers, book = some_book(pick)
        asked = [(17, numbers[-1])] if pick.random() < 0.5 else some_type(pick, numbers, 2)
        answer = followed(book, asked)
        if len(answer) <= 200:
            count -= 1
            yield book, asked, answer


def some_walk(pick, book):
    """Unknowns as one comes to them by following solutions, or almost: one left out, doubled, exchanged or added."""
    walk = [pick.choice(list(book))]
    while walk[-1] in book and pick.random() < 0.85:
        unknowns = [n for k, n in book[walk[-1]] if k == 17]
        if not unknowns:
            break
        walk.append(pick.choice(unknowns))
    if pick.random() < 0.5:
        at = pick.randrange(len(walk))
        walk[at:at + 1] = pick.choice([[], [walk[at], walk[at]], [pick.randrange(20)], [walk[at], pick.choice(list(book))]])
    return walk


def in_place_order(book, asked):
    """What one pass in order of places gives: right only where no solution mentions one placed before it."""
    for k, s in book.items():
        asked = [n for a in asked for n in (s if a == (17, k) else [a])]
    return asked


def solutions(book):
    return "(" + "".join(f"◌≔◌ {k} {nodes(s)} ∷ " for k, s in book.items()) + "[])"


def listed(rows):
    return "".join(f"    {row} ∷\n" for row in rows) + "    []\n"


def written(name, found):
    return (f"\nabbrev asked{name} : List (Solutions × Ty)\nasked{name} =\n{listed(f'({solutions(b)}, {nodes(t)})' for b, t, _ in found)}"
            f"\nabbrev answered{name} : List Ty\nanswered{name} =\n{listed(nodes(u) for _, _, u in found)}"
            f"\npub written{name} : map (λ q. write_out q.0 q.1) asked{name} ≡ answered{name}\n"
            f"unfolding find links any_solved write_out_by write_out\nwritten{name} = refl\n")


def chained(name, found):
    numbers = ["(" + "".join(f"{k} ∷ " for k in ks) + "[])" for _, ks in found]
    return (f"\nabbrev walked{name} : List (Solutions × List ℕ)\nwalked{name} =\n{listed(f'({solutions(b)}, {n})' for (b, _), n in zip(found, numbers))}"
            f"\nabbrev told{name} : List Bool\ntold{name} = {''.join(f'{is_chain(b, ks)} ∷ '.lower() for b, ks in found)}[]\n"
            f"\npub chains{name} : map (λ q. is_chain q.0 q.1) walked{name} ≡ told{name}\n"
            f"unfolding find occurs is_chain\nchains{name} = refl\n")


def words(threes):
    """As a list of the prover's, the threes between in runs of zeros."""
    text, at = [], 0
    for k, (start, count, level) in threes.items():
        if at < k:
            text.append(f"replicate {3 * (k - at)} 0")
        text.append(f"({start} ∷ {count} ∷ {level} ∷ [])")
        at = k + 1
    return " ++ (".join(text) + ")" * (len(text) - 1)


def placed():
    def told(place):
        return "None" if place is None else f"Some (record {{ start = {place[0]}; count = {place[1]} }})"

    return (f"\nabbrev words : List ℕ\nwords = {words(THREES)}\n"
            f"\nabbrev told : List (Node × (Option Place))\ntold =\n{listed(f'(node {k} {n}, {told(place(THREES, k, n))})' for k, n in LOOKED_UP)}"
            f"\npub places : map (λ q. place_of words (kind q.0) (number q.0)) told ≡ map (λ q. q.1) told\n"
            f"unfolding place_of\nplaces = refl\n")


def main():
    a = argparse.ArgumentParser(description=__doc__, formatter_class=argparse.RawDescriptionHelpFormatter)
    a.add_argument("--seed", type=int, default=1)
    a.add_argument("--count", type=int, default=1000)
    a.add_argument("--table", action="store_true")
    a.add_argument("--places", action="store_true")
    o = a.parse_args()
    if o.places:
        print(PLACES + placed(), end="")
        return
    if o.table:
        print(COMMENT + USES + written("", [(b, t, followed(b, t)) for b, t in DIRECTED]) + chained("", CHAINS), end="")
        return
    found = list(cases(o.seed, o.count))
    told = sum(in_place_order(b, t) != u for b, t, u in found)
    pick = random.Random(o.seed)
    walks = [(b, some_walk(pick, b)) for b, _, _ in found]
    chains = sum(is_chain(b, ks) for b, ks in walks)
    with tempfile.TemporaryDirectory() as folder:
        workplace(folder)
        text = USES + "".join(written(i, found[i: i + 50]) + chained(i, walks[i: i + 50]) for i in range(0, len(found), 50))
        proved(folder, text, f"{len(found)} books")
    print(f"{len(found)} of {len(found)} types written out alike; one pass in order of places gives another for {told} of them")
    print(f"{len(walks)} of {len(walks)} walks judged alike; {chains} of them are chains")


if __name__ == "__main__":
    main()
