#!/usr/bin/env python3
"""Counts the lines of each crate: code, definitions, proofs; blank lines and comments apart.

    tools/sizes.py           a line for each crate, then the sums
    tools/sizes.py --sum     the sums alone, as README.md gives them

`theory` is the proofs of laws, `functions` the invariants and answers of single functions (a folder each).
"""
import pathlib
import sys

CRATES = pathlib.Path(__file__).resolve().parent.parent / "crates"
TESTS = ("vectors", "probes")


def lines(files):
    count = 0
    for path in files:
        for line in path.read_text().splitlines():
            text = line.strip()
            if text and not text.startswith(("//", "--")):
                count += 1
    return count


def sizes(crate):
    return [
        lines(crate.glob("src/*.rt")),
        lines(crate.glob("specs/*.antt")),
        lines(crate.glob("proofs/*.antt")),
        lines(crate.glob("proofs/*/**/*.antt")),
        len(list(crate.glob("must-fail*/*.edit"))),
    ]


def main(args):
    total = [0] * 5
    tests = [0] * 5
    rows = []
    for crate in sorted(p for p in CRATES.iterdir() if (p / "src").is_dir()):
        numbers = sizes(crate)
        into = tests if crate.name.startswith(TESTS) else total
        for i, n in enumerate(numbers):
            into[i] += n
        rows.append((crate.name, numbers))
    shown = [("", ["code", "specs", "theory", "functions", "edits"])]
    if args != ["--sum"]:
        shown += rows
    shown += [("library and programs", total), ("tests, measurements", tests)]
    for name, numbers in shown:
        print(f"{name:24}" + "".join(f"{n:>10}" for n in numbers))


main(sys.argv[1:])
