#!/usr/bin/env python3
"""Makes the named tables for the check, with the original Rust's verdict on each.

    tools/named_tables.py ORACLE > tests/vectors/named-tables.jsonl

ORACLE is the built program of oracle/ (oracle/README.md). Each line is a call of the check in the form of the stored vectors, with a name:
honest tables, tables with one false cell, and tables that no honest filler makes.
"""
import json
import subprocess
import sys

P = 2**64 - 2**32 + 1
# column numbers
FLAG, BITS, BITS_INV, CI, LHS, LHS_INV, RHS, RHS_INV, RESULT, MULT = range(10)
SPLIT, LT, LOG, AND, POP, POW = 4, 6, 12, 14, 28, 30
CHALLENGES = [pow(7, 1000 + i, P) for i in range(15)]


def inverse(a):
    return pow(a % P, P - 2, P)


def ask(oracle, name, words):
    text = " ".join(str(w) for w in words)
    run = subprocess.run([oracle, name], input=text, capture_output=True, text=True, check=True)
    return [[int(w) for w in line.split()] if line[0].isdigit() else line.split() for line in run.stdout.splitlines()]


def filled(*entries):
    return ask(ORACLE, "fill", [w for e in entries for w in e])


def padded(rows, height):
    blank = [[0] * 10 for _ in range(height - len(rows))]
    return ask(ORACLE, "pad", [len(rows)] + [w for r in rows + blank for w in r])


def sums(rows):
    return ask(ORACLE, "extend", CHALLENGES + [w for r in rows for w in r])


def row(flag, bits, ci, lhs=0, rhs=0, result=0, mult=0):
    return [flag, bits, inverse(bits - 33), ci, lhs, inverse(lhs), rhs, inverse(rhs), result, mult]


def show(name, rows, aux=None):
    aux = aux or sums(rows)
    verdict = ask(ORACLE, "check", CHALLENGES + [w for r, a in zip(rows, aux) for w in r + a])[0]
    if verdict == ["zero"]:
        answer = "zero"
    else:
        group, at, index, *value = verdict[1:]
        answer = [group, at, index, value]
    print(
        json.dumps(
            {
                "name": name,
                "call": "check",
                "in": {
                    "table": [str(w) for r in rows for w in r],
                    "aux": [str(w) for a in aux for w in a],
                    "challenges": [str(w) for w in CHALLENGES],
                },
                "answer": ["ok", answer],
            }
        )
    )


def changed(rows, at, column, word):
    rows = [list(r) for r in rows]
    rows[at][column] = word
    return rows


def main():
    all_six = filled(
        (SPLIT, 5, 6, 1), (LT, 2, 3, 2), (AND, 12, 10, 3), (LOG, 9, 0, 4), (POW, 3, 5, 5), (POP, 13, 0, 6)
    )
    show("honest: all six instructions, padded", padded(all_six, 32))
    show("honest: pow with LHS not 0, then lt", filled((POW, 7, 5, 1), (LT, 2, 3, 1)))
    show("honest: pow with RHS 0, then lt 0 0, padded", padded(filled((POW, 7, 0, 1), (LT, 0, 0, 1)), 4))
    show("honest: lt 0 0 last, padded", padded(filled((LT, 0, 0, 1)), 4))
    show("honest: no entry, one padding row", padded([], 1))
    lt = filled((LT, 5, 3, 1))
    show("forged: lt 5 3 says 1, the sum made again", changed(lt, 0, RESULT, 1))
    show("forged: lt 5 3 says 1, the sum left", changed(lt, 0, RESULT, 1), sums(lt))
    show("forged: lt 3 3 says 1", changed(filled((LT, 3, 3, 1)), 0, RESULT, 1))
    show("forged: lt 0 0 says 1", changed(filled((LT, 0, 0, 1)), 0, RESULT, 1))
    show("forged: Result copied into the padding after lt 0 0", filled((LT, 0, 0, 1)) + [row(0, 0, LT)])
    show("forged: and 12 10 says 9", changed(filled((AND, 12, 10, 1)), 0, RESULT, 9))
    show("forged: pow 3 5 says 242", changed(filled((POW, 3, 5, 1)), 0, RESULT, 242))
    show("forged: pow with LHS halved", changed(filled((POW, 6, 2, 1)), 1, LHS, 3))
    show("forged: log_2_floor 8 says 4", changed(filled((LOG, 8, 0, 1)), 0, RESULT, 4))
    show("forged: log_2_floor of 0", [row(1, 0, LOG, 0, 0, P - 1, 1)])
    show("forged: pop_count 7 says 2", changed(filled((POP, 7, 0, 1)), 0, RESULT, 2))
    show("forged: a section cut short", [row(1, 0, AND, 1, 1, 1, 1)])
    show("forged: the last sum is another", lt, sums(lt)[:-1] + [[1, 2, 3]])
    show("forged: a multiplicity in a CopyFlag 0 row", changed(lt, 1, MULT, 1))
    show("forged: CopyFlag 2", changed(lt, 0, FLAG, 2), sums(lt))
    zero_and = [row(1, 0, AND, mult=1)]
    show("foreign: goes on after an all-zero row with free Bits", zero_and + [row(0, 7, AND), row(0, 1000, AND)])
    # 0 is p: halving downwards p, p >> 1, .. walks along p's bits and ends at 0 again, Bits from 34 on
    walk = [row(0, 34 + i, AND, P >> (i + 1)) for i in range(64)]
    show("foreign: walks along the bits of p after an all-zero row", zero_and + walk)
    show("foreign: the same walk, Bits from 1 on", zero_and + [row(0, 1 + i, AND, P >> (i + 1)) for i in range(64)])
    show("foreign: CopyFlag 0 rows at the start", [row(0, 5, SPLIT), row(0, 9, SPLIT)] + lt)
    show("foreign: CI outside the six", [row(1, 0, 5, mult=1)])
    show("foreign: CI outside the six, operands not 0", [row(1, 0, 5, 3, 1, 1, 1), row(0, 1, 5, 1, 0), row(0, 2, 5)])


if __name__ == "__main__":
    ORACLE = sys.argv[1] if len(sys.argv) == 2 else sys.exit(__doc__)
    main()
