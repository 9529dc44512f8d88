"""Writes the expected outputs of `cases` and `writes` from the judge's answers.

    python3 expected.py

wants ../../reference/target/release/reference (see README) and nothing of the
proved checker.
"""

import pathlib
import subprocess

HERE = pathlib.Path(__file__).resolve().parent
REFERENCE = HERE / "../../reference/target/release/reference"
NAMES = {1: "Int", 2: "Bool", 3: "Unit", 4: "printInt"}
# Before a run, which leaves the book as it was.
REFUSED = {1, 2, 3, 4, 5, 32}


def spell(nodes, place=0):
    """The next type as in the papers.

    Place: 0 anywhere, 1 left of an arrow or in a product, 2 applied, 3 argument.
    """
    kind, value = nodes.pop(0)
    if kind in (11, 12):
        return NAMES.get(value, f"n{value}")
    if kind == 16:
        parts = [spell(nodes, 1) for _ in range(value)]
        return f"({parts[0]} ×)" if value == 1 else "(" + " × ".join(parts) + ")"
    if kind == 17:
        return f"^{value}"
    if kind == 18:
        return f"!{value}"
    if kind == 13:
        left = spell(nodes, 1)
        text, bare = f"{left} → {spell(nodes)}", place == 0
    elif kind == 14:
        text, bare = f"∀{NAMES.get(value, f'n{value}')}. {spell(nodes)}", place == 0
    elif kind == 15:
        function = spell(nodes, 2)
        text, bare = f"{function} {spell(nodes, 3)}", place != 3
    return text if bare else f"({text})"


def pairs(words):
    numbers = [int(word) for word in words]
    return list(zip(numbers[::2], numbers[1::2]))


def expected(sheet, options):
    def option(name, default):
        return int(options[options.index(name) + 1]) if name in options else default

    limit = option("-l", 1024)
    lengths = f"{option('-b', 12288)},{option('-k', 11192)},{4 * limit}"
    command = [REFERENCE, "answer", "--ceiling", str(option("-c", 10000)), "--limit", str(limit), "--lengths", lengths]
    command += ["--strict"] if "--strict" in options else []
    answer = subprocess.run(command, input=sheet, capture_output=True, check=True)
    seven, report, *solutions, levels = answer.stdout.decode().splitlines()
    number, detail1 = int(seven.split()[0]), seven.split()[4]
    types = pairs(report.split()[1:])
    lines = [seven]
    if number == 17:
        lines.append(f"unknown: ^{detail1}")
    for title in {13: ["type"], 15: ["left", "right"], 17: ["type"]}.get(number, []):
        lines.append(f"{title}: {spell(types)}")
    assert not types, "nodes left over"
    if "-s" in options:
        for line in solutions:
            unknown, _, *words = line.split()
            lines.append(f"{unknown} = {spell(pairs(words))}")
    if "-v" in options and number not in REFUSED:
        lines.append(levels.replace("levels", "levels:"))
    return "\n".join(lines) + "\n"


def judged(words, given):
    return subprocess.run([REFERENCE, *words], input=given, capture_output=True, check=True).stdout


def written(triples, options):
    """The seven numbers of the writing call, with -c those of the check, and the output."""
    length = ["--out", options[options.index("-o") + 1]] if "-o" in options else []
    seven, out = judged(["write-call", *length], triples).split(b"\n", 1)
    lines = [seven]
    if "-c" in options and int(seven.split()[0]) == 0:
        sheet = out[:29 * (len(triples.split()) // 3)]
        lines.append(judged(["answer"], sheet).split(b"\n")[0])
    return b"\n".join(lines) + b"\n", out


def long_triples(count):
    """7 as products of products, in so many triples; run.sh makes the same."""
    return b"3 0 0 " + b"16 0 1 " * (count - 4) + b"12 1 0 4 0 0 22 7 0"


def write_cases():
    folder = HERE / "triples"
    for line in (HERE / "writes").read_text().splitlines():
        case, triples, *options = line.split()
        told, out = written((folder / f"{triples}.triples").read_bytes(), options)
        (folder / f"{case}.expected").write_bytes(told + out)
    # Of the longest sheet the numbers alone: run.sh makes its bytes.
    (folder / "longest.expected").write_bytes(written(long_triples(2000), ["-c"])[0])
    (folder / "too-long.expected").write_bytes(b"".join(written(long_triples(2001), ["-o", "29"])))


def main():
    for line in (HERE / "cases").read_text().splitlines():
        case, sheet, *options = line.split()
        text = expected((HERE / f"sheets/{sheet}.sheet").read_bytes(), options)
        (HERE / f"sheets/{case}.expected").write_text(text)
    long = f"{41:3}{0:20}{0:5}\n".encode() * 2001
    (HERE / "sheets/long.expected").write_text(expected(long, []))
    write_cases()


if __name__ == "__main__":
    main()
