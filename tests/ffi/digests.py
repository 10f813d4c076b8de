#!/usr/bin/env python3
"""Evaluates each of the forty constraints on 640 pseudo-random pairs of rows, and compares digests of the values with the original's.

    tests/ffi/digests.py LIBRARY.so

LIBRARY.so has the C functions of crates/probes; `probe_constraints` answers the values of all constraints on a pair of rows. oracle/src/digests.rs
describes the pairs, the digest and the lines; oracle/expected/constraint-digests.txt has those that the original Rust makes. Then one word of one value of
each constraint is changed, and each line must differ. Prints each line that differs, and how many; ends with status 1 where one does, or one with a changed
value does not.
"""
import ctypes
import pathlib
import sys

P = 2**64 - 2**32 + 1
DUE = pathlib.Path(__file__).resolve().parent.parent.parent / "oracle" / "expected" / "constraint-digests.txt"
PAIRS = 640
GROUPS = [1, 15, 22, 2]  # how many constraints each group has
WORDS = 3 * sum(GROUPS)
BITS, CI, LHS, RHS, RESULT = 1, 3, 4, 6, 8


def draws():
    x = 1
    while True:
        x = (x * 6364136223846793005 + 1442695040888963407) % P
        yield x


def pair(words, k):
    """Upper and lower row, their aux, and the challenges of pair k."""
    upper, upper_aux, lower, lower_aux, challenges = ([next(words) for _ in range(n)] for n in (10, 3, 10, 3, 15))
    if k % 3 == 1:
        upper, upper_aux, lower, lower_aux = ([word % 3 for word in part] for part in (upper, upper_aux, lower, lower_aux))
        upper[BITS] += 32
        lower[BITS] += 32
    if k % 3 == 2:
        upper[RESULT] %= 3
        lower[RESULT] %= 3
        for operand in (LHS, RHS):
            upper[operand] = (2 * lower[operand] + upper[operand] % 2) % P
    for row, flag, opcode in ((upper, k % 4, k // 16 % 8), (lower, k // 4 % 4, (k // 16 + k // 128) % 8)):
        row[0] = [0, 1, 2, row[0]][flag]
        row[CI] = [4, 6, 12, 14, 28, 30, 22, row[CI]][opcode]
    return upper + lower, upper_aux + lower_aux, challenges


def values_of(library, *arrays):
    """The values of all constraints, three words each, in the order of the lines."""
    values = (ctypes.c_uint64 * WORDS)()
    arguments = [part for words in arrays for part in ((ctypes.c_uint64 * len(words))(*words), ctypes.c_size_t(len(words)))]
    library.probe_constraints.restype = ctypes.c_uint64
    if library.probe_constraints(*arguments, values, ctypes.c_size_t(WORDS)):
        sys.exit("the lengths are refused")
    return list(values)


def lines(all_values):
    """The forty lines of the values on all pairs."""
    found = []
    for group, count in enumerate(GROUPS):
        for index in range(count):
            at, digest, zeros = 3 * len(found), 0, 0
            for values in all_values:
                for word in values[at : at + 3]:
                    digest = (digest * 31 + word) % P
                zeros += values[at : at + 3] == [0, 0, 0]
            found.append(f"{group} {index} {digest} {zeros}")
    return found


def main():
    library, words = ctypes.CDLL(sys.argv[1]), draws()
    all_values = [values_of(library, *pair(words, k)) for k in range(PAIRS)]
    due, got = DUE.read_text().splitlines(), lines(all_values)
    wrong = [f"{line}, wanted {wanted}" for line, wanted in zip(got, due) if line != wanted]
    for i in range(len(got)):  # constraint i on pair 16 i
        all_values[16 * i][3 * i + i % 3] ^= 1
    told = sum(line != wanted for line, wanted in zip(lines(all_values), due))
    for line in wrong:
        print(line)
    print(f"{len(got)} digests on {PAIRS} pairs of rows, {len(wrong)} differ; with one value changed {told} of {len(due)} differ")
    sys.exit(len(got) != len(due) or wrong != [] or told != len(due))


if __name__ == "__main__":
    main()
