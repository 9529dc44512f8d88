"""Writes the expected outputs of `cases` and of `large.awk` from the Rust's answers.

    python3 expected.py

wants ../../reference/target/release/reference (see README) and nothing of the
proved checker. The types are spelt by ../c/expected.py.
"""

import pathlib
import subprocess
import sys

HERE = pathlib.Path(__file__).resolve().parent
sys.path.insert(0, str(HERE.parent / "c"))
sys.dont_write_bytecode = True
from expected import NAMES, REFERENCE, pairs, spell

LARGE = [3, 15, 21, 22, 23, 24, 25]


def name(number):
    return NAMES.get(number, f"n{number}")


def many(number, one, more):
    return f"{number} {one if number == 1 else more}"


def sentence(number, line, taken, fresh, detail1, detail2, nodes):
    """What document 01 says of a result, in words."""
    refused = "The plan is refused: "
    undecided = "The plan is not decided: "
    counts = f"{many(taken, 'entry was', 'entries were')} taken and "
    counts += f"{many(fresh, 'fresh number was', 'fresh numbers were')} given."
    if number == 0:
        return f"The plan is accepted: all its parts fit. {counts}"
    if number == 3:
        length = "it is empty, has more than 2,000 lines or ends inside a line"
        return f"The sheet is refused: {length}. A line is 29 bytes with its line feed."
    if number == 4:
        field = "a field is blank, misspelt or too large, or has a minus sign that is not allowed"
        return f"The sheet is refused at line {line}: {field}, or the line feed is missing."
    if number == 5:
        going_on = "the plan can't go on with this line, or the line is lacking"
        return f"The sheet is refused at line {line}: {going_on}."
    if number == 11:
        return f"{refused}the variable {name(detail1)} is bound nowhere."
    if number == 12:
        return f"{refused}the data constructor {name(detail1)} is not declared."
    if number == 13:
        applied = f"a term is applied to an argument, but its type is {spell(nodes)}"
        return f"{refused}{applied}, which is no function type."
    if number == 14:
        parts = many(detail1, "part", "parts")
        return f"{refused}a pattern should have {parts} and has {detail2}."
    if number == 15:
        left = spell(nodes)
        return f"{refused}the type {left} does not fit the type {spell(nodes)}."
    if number == 17:
        return f"{refused}the unknown ^{detail1} can't stand for the type {spell(nodes)}."
    if number == 18:
        arguments = many(detail1, "argument", "arguments")
        return f"{refused}printInt takes {arguments} and has {detail2}."
    if number == 19:
        return f"{refused}the intrinsic {name(detail1)} is not known."
    limits = {
        21: "the ceiling was reached, and an entry remains",
        22: "the board would pass 512 entries or 4,096 type nodes",
        23: "a type written out would have more nodes than the limit",
        24: "a 1,001st fresh number would be needed",
        25: "the solutions would pass 4,096 nodes",
    }
    return f"{undecided}{limits[number]}. {counts}"


def write(case, sheet):
    command = [REFERENCE, "answer", "--ceiling", "10000"]
    answer = subprocess.run(command, input=sheet, capture_output=True, check=True)
    seven, report, *_ = answer.stdout.decode().splitlines()
    number, line, taken, fresh, detail1, detail2, _ = map(int, seven.split())
    nodes = pairs(report.split()[1:])
    text = sentence(number, line, taken, fresh, detail1, detail2, nodes)
    assert not nodes, "nodes left over"
    (HERE / f"sheets/{case}.expected").write_text(text + "\n")
    return number


def main():
    sys.setrecursionlimit(10000)
    for line in (HERE / "cases").read_text().splitlines():
        case, sheet = line.split()
        write(case, (HERE / sheet).read_bytes())
    for result in LARGE:
        command = ["awk", "-v", f"result={result}", "-f", HERE / "large.awk"]
        sheet = subprocess.run(command, capture_output=True, check=True).stdout
        assert write(f"large-{result}", sheet) == result


if __name__ == "__main__":
    main()
