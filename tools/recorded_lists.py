#!/usr/bin/env python3
"""Makes calls of plan, compare and record, with the heights, orders and lists that the original Rust answers.

    tools/recorded_lists.py ORACLE > tests/vectors/recorded-lists.jsonl

ORACLE is the built program of oracle/ (oracle/README.md). Each line is a call in the form of the stored vectors. Heights are those of one
entry at every opcode's edges and of lists; a padded height is the smallest power of two that is not less than it and 256, as the original
answers for a trace that has these entries alone (oracle/tests/suite/differences.rs). Recordings go onto lists with unused places, which hold other words and keep them; the position is where the key
stands in the original's list afterwards. A plan leaves out places whose multiplicity is 0, and does not examine them: the original is not given them.
"""
import itertools
import json
import subprocess
import sys

P = 2**64 - 2**32 + 1
OPCODES = SPLIT, LT, LOG, AND, POP, POW = 4, 6, 12, 14, 28, 30
TOP = 2**32 - 1
EDGES = [0, 1, 2, 3, 4, 2**15, 2**16 - 1, 2**16 + 1, 2**31 - 1, 2**31, TOP]

KEYS = [(SPLIT, 0, 0), (LT, 3, 3), (LT, 3, 4), (LT, 4, 3), (LOG, 1, TOP), (AND, 3, 1), (AND, TOP, TOP), (POP, TOP, 0), (POW, P - 1, 0), (POW, 2, 64)]

# a list of entries, then the keys that are recorded onto it, one after the other
RECORDINGS = [
    ([], [(AND, 3, 1), (AND, 3, 1), (AND, 1, 3), (AND, 3, 1), (LT, 3, 1)]),
    ([], [(POW, P - 1, TOP), (POW, 0, 0), (POW, P - 1, TOP), (POW, 0, 0), (POW, 0, 1)]),
    ([(LT, 2, 3, 0), (SPLIT, TOP, TOP, TOP - 1)], [(LT, 2, 3), (SPLIT, TOP, TOP), (LT, 3, 2), (LT, 2, 3)]),
    ([(AND, 3, 1, TOP), (LT, 2, 3, P - 4)], [(AND, 3, 1), (LT, 2, 3), (AND, 3, 1), (LT, 2, 3), (LT, 2, 3), (AND, 1, 3)]),
    ([(LOG, 1, 0, 7), (POP, 1, 0, 8), (POP, 0, 1, 9)], [(POP, 0, 1), (LOG, 1, 1), (POP, 1, 0), (LOG, 1, 0), (LOG, 1, 1)]),
    ([], [(SPLIT, 0, 0), (LT, 0, 0), (AND, 0, 0), (POP, 0, 0), (POW, 0, 0), (SPLIT, 0, 0), (POW, 0, 0), (AND, 0, 0)]),
]


def text(words):
    return [str(w) for w in words]


def old_words(n):
    return [(i * 2654435761 + 17) % 2**64 for i in range(n)]


def padded(height):
    return max(256, 1 << max(height - 1, 0).bit_length())


def a_list(entries, capacity):
    """The list in its arrays; unused places hold other words."""
    keys = [w for e in entries for w in e[:3]]
    counts = [e[3] for e in entries]
    return {
        "capacity": str(capacity),
        "used": str(len(entries)),
        "keys": text(keys + old_words(3 * capacity)[len(keys):]),
        "mults": text(counts + old_words(capacity)[len(counts):]),
    }


def say(call, numbers, answer, after):
    print(json.dumps({"call": call, "in": numbers, "answer": ["ok", answer], "after": after}))


class Oracle:
    """The original's program, asked one call after the other."""

    def __init__(self, path):
        self.path = path

    def ask(self, *words):
        run = subprocess.run([self.path, "batch"], input=" ".join(map(str, words)) + "\n", capture_output=True, text=True, check=True)
        lines = run.stdout.splitlines()
        assert lines[-1] == "end" and not lines[0].startswith("panic"), run.stdout
        return lines[:-1]

    def recorded(self, entries, key):
        """The entries after a recording."""
        lines = self.ask("record", len(entries), *(w for e in entries for w in e), *key)
        return [tuple(int(w) for w in line.split()) for line in lines[:-1]]

    def height(self, entries):
        """Of the counted entries."""
        counted = [e for e in entries if e[3]]
        lines = self.ask("record", len(counted), *(w for e in counted for w in e))
        return int(lines[-1].split()[1])

    def order(self, left, right):
        return {"less": "-1", "equal": "0", "greater": "1"}[self.ask("order", *left, *right)[0]]


def heights(oracle):
    for opcode in OPCODES:
        for i, lhs in enumerate(EDGES):
            if opcode == LOG and lhs == 0:
                continue
            entries = [(opcode, lhs, EDGES[(7 * i + opcode) % len(EDGES)], TOP)]
            plan(oracle, entries)
    plan(oracle, [(POW, P - 1, TOP, 1)])
    plan(oracle, [(POW, P - 1, TOP, 0)])
    plan(oracle, [(AND, 3, 1, 0), (LT, 2, 3, 2), (5, 2**64 - 1, 0, 0), (POP, TOP, 0, 0), (LT, 2, 3, 0), (POW, 2, 64, 1)])
    plan(oracle, [(AND, 3, 1, TOP + 1), (LT, 2, 3, P - 1)])
    for n in (1, 2, 5, len(KEYS)):
        plan(oracle, [key + (n,) for key in KEYS[:n]])


def plan(oracle, entries):
    height = oracle.height(entries)
    arrays = a_list(entries, len(entries) + 1)
    say("plan", arrays, text([height, padded(height)]), arrays)


def orders(oracle):
    for left, right in itertools.product(KEYS, repeat=2):
        say("compare", {"a": text(left), "b": text(right)}, oracle.order(left, right), {})


def recordings(oracle):
    for entries, keys in RECORDINGS:
        capacity = len(entries) + len(set(keys)) + 1
        for key in keys:
            after = oracle.recorded(entries, key)
            position = [e[:3] for e in after].index(key)
            say("record", dict(a_list(entries, capacity), entry=text(key)), str(position), a_list(after, capacity))
            entries = after


def main(path):
    oracle = Oracle(path)
    heights(oracle)
    orders(oracle)
    recordings(oracle)


if __name__ == "__main__":
    main(sys.argv[1] if len(sys.argv) == 2 else sys.exit(__doc__))
