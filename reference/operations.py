#!/usr/bin/env python3
"""What crates/operations_run writes, worked out from the layout of board, book and report alone.

A fresh number is the counter. An entry takes a slot of eight words (kind, number, node counts of
its two types) and its nodes go on top of the others, from word 4,096 on. A solution's nodes follow the others from word
3,000 of the book on; words 3k and 3k+1 are its start and its count. Word 3k+2 is for the level: 0 for a number's own one as long as the
run goes on, else one more than the level, to which a solution lowers the unknowns in it. Then the longest chain that a book holds,
followed from its first unknown. Usage: operations.py > crates/operations_run/stdout
"""
import sys

CON, UNKNOWN, ARROW, VAR, SUB = 12, 17, 13, 2, 3


def write_out(solutions, nodes):
    out = []
    for kind, number in nodes:
        if kind == UNKNOWN and number in solutions:
            out += write_out(solutions, solutions[number])
        else:
            out.append((kind, number))
    return out


def main():
    fresh, entries, solutions, levels = 0, [], {}, {}
    written = []
    for _ in range(2):
        a, b = fresh, fresh + 1
        fresh += 2
        arrow = [(ARROW, 0), (UNKNOWN, b), (UNKNOWN, b)]
        entries.append((UNKNOWN, a, [], []))
        entries.append((SUB, 0, [(UNKNOWN, a)], arrow))
        solutions[a] = arrow
        levels[b] = levels.get(a, a)
        written = write_out(solutions, [(UNKNOWN, a)])
        entries.append((VAR, 10, written, []))

    board, nodes = [0] * 12288 + [7, 7], 0
    for i, (kind, number, left, right) in enumerate(entries):
        board[8 * i:8 * i + 4] = [kind, number, len(left), len(right)]
        for node in left + right:
            board[4096 + 2 * nodes:4098 + 2 * nodes] = node
            nodes += 1

    book, used = [0] * 11192 + [7, 7], 0
    for k, nodes_of in solutions.items():
        book[3 * k:3 * k + 2] = [3000 + 2 * used, len(nodes_of)]
        for node in nodes_of:
            book[3000 + 2 * used:3002 + 2 * used] = node
            used += 1
    for k, level in levels.items():
        book[3 * k + 2] = level + 1

    report = [0] * 4096 + [7]
    for i, node in enumerate(written):
        report[2 * i:2 * i + 2] = node

    # The second time the run was refused before the operations: nothing changed.
    for going in (1, 0):
        print(fresh, len(entries), nodes, used, going)
        for words in (board, book, report):
            for i, word in enumerate(words):
                if word:
                    print(i, word)

    sys.setrecursionlimit(10000)
    chain = {k: [(UNKNOWN, k + 1)] for k in range(999)} | {999: [(CON, 1)]}
    written = write_out(chain, [(UNKNOWN, 0)])
    print("same" if written == [(CON, 1)] else "differ")
    for i, word in enumerate(word for node in written for word in node):
        print(i, word)


main()
