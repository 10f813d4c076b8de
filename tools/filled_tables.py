#!/usr/bin/env python3
"""Makes calls of fill, pad and extend, and whole runs, on lists of all six instructions, with the words that the original Rust leaves.

    tools/filled_tables.py ORACLE > tests/vectors/filled-tables.jsonl

ORACLE is the built program of oracle/ (oracle/README.md). Each line is a call in the form of the stored vectors. Tables hold other words
before the call; each list is filled into as many rows as its height, into one fewer, which is refused, and into more. Places whose multiplicity is 0
get no section and are not examined: the original is not given them. A run is fill, pad, extend and check in a row; some are refused by fill or by
extend, and what the calls before have written stays.
"""
import json
import sys

from named_tables import CHALLENGES, P, ask

SPLIT, LT, LOG, AND, POP, POW = 4, 6, 12, 14, 28, 30
TOP = 2**32 - 1


def old_words(n):
    return [(i * 2654435761 + 17) % 2**64 for i in range(n)]


def text(words):
    return [str(w) for w in words]


def say(call, numbers, answer, after):
    print(json.dumps({"call": call, "in": numbers, "answer": answer, "after": after}))


def a_list(entries):
    keys = [w for e in entries for w in e[:3]]
    return {
        "capacity": str(len(entries)),
        "used": str(len(entries)),
        "keys": text(keys),
        "mults": text([e[3] for e in entries]),
    }


def rows_of(oracle, entries):
    """The original's rows of the counted entries."""
    return ask(oracle, "fill", [w for e in entries if e[3] for w in e])


def fills(oracle, entries):
    rows = rows_of(oracle, entries)
    words = [w for r in rows for w in r]
    for more in (-1, 0, 2):
        height = len(rows) + more
        if height < 0:
            continue
        table = old_words(10 * height)
        after = table if more < 0 else words + table[len(words):]
        answer = ["refused", "7"] if more < 0 else ["ok", str(len(rows))]
        say("fill", dict(a_list(entries), table=text(table)), answer, {"table": text(after)})
    return rows


def pads(oracle, rows, height):
    table = [w for r in rows for w in r] + old_words(10 * (height - len(rows)))
    words = ask(oracle, "pad", [len(rows)] + [w % P for w in table])
    after = [w for r in words for w in r]
    say("pad", {"table": text(table), "filled": str(len(rows))}, ["ok", "done"], {"table": text(after)})
    return words


def extends(oracle, rows):
    sums = ask(oracle, "extend", CHALLENGES + [w for r in rows for w in r])
    table = [w for r in rows for w in r]
    numbers = {"table": text(table), "aux": text(old_words(3 * len(rows))), "challenges": text(CHALLENGES)}
    say("extend", numbers, ["ok", text(sums[-1])], {"aux": text(w for s in sums for w in s)})


def run_call(entries, height, challenges, answer, table, aux):
    before = dict(a_list(entries), table=text(old_words(10 * height)), aux=text(old_words(3 * height)), challenges=text(challenges))
    say("run", before, answer, {"table": text(table), "aux": text(aux)})


def runs(oracle, entries, padding):
    rows = rows_of(oracle, entries)
    height = len(rows) + padding
    table = [w for r in rows for w in r] + [0] * (10 * padding)
    padded = ask(oracle, "pad", [len(rows)] + table)
    words = [w for r in padded for w in r]
    sums = [w for s in ask(oracle, "extend", CHALLENGES + words) for w in s]
    run_call(entries, height, CHALLENGES, ["ok", "zero"], words, sums)
    run_call(entries, height, CHALLENGES[:14] + [P], ["refused", "8"], words, old_words(3 * height))
    if not rows:  # no denominator is made
        run_call(entries, height, [0] * 15, ["ok", "zero"], words, [0] * 3 * height)
    else:
        run_call(entries, height, [0] * 15, ["refused", "9"], words, old_words(3 * height))
        run_call(entries, len(rows) - 1, CHALLENGES, ["refused", "7"], old_words(10 * len(rows) - 10), old_words(3 * len(rows) - 3))


ALL_SIX = [(SPLIT, 5, 6, 1), (LT, 2, 3, 2), (AND, 12, 10, 3), (LOG, 9, 0, 4), (POW, 3, 5, 5), (POP, 13, 0, 6)]

LISTS = [
    [(LT, 0, 0, 1)],
    [(LT, 3, 3, 1)],
    [(LT, 3, 3, 0)],
    [(LT, TOP, 0, 2)],
    [(LT, 2**31, TOP, TOP)],
    [(AND, 3, 1, 2)],
    [(AND, 3, 1, TOP + 1)],
    [(AND, 3, 1, P - 1)],
    [(AND, TOP, TOP, 1)],
    [(POW, 0, 0, 1)],
    [(POW, P - 1, 0, 1)],
    [(POW, P - 1, TOP, 1)],
    [(POW, 2, 64, 3)],
    [(LOG, 1, 0, 1)],
    [(LOG, TOP, 7, 1)],
    [(LOG, 5, 2**17, 1)],
    [(POP, 0, 0, 1)],
    [(POP, TOP, 0, 1)],
    [(POP, 2**16 + 1, 2**20, 1)],
    [(SPLIT, 0, 0, 4)],
    [(SPLIT, 1, 2**32 - 2, 4)],
    ALL_SIX,
    [(LT, 1, 2, 1), (LT, 1, 2, 5), (POW, 7, 1, 3), (LT, 0, 0, 1)],
    [(LT, 1, 2, 0), (LT, 1, 2, 5), (POW, 7, 1, 0), (LT, 0, 0, 1), (AND, 3, 1, 0)],
    [(5, 2**64 - 1, 0, 0), (AND, 1, 1, 2), (AND, 1, 1, 0), (LOG, 0, 0, 0), (LT, 2**32, 0, 0)],
]


def main(oracle):
    for entries in LISTS:
        rows = fills(oracle, entries)
        if len(rows) < 40:
            rows = pads(oracle, rows, len(rows) + 3)
            extends(oracle, rows)
    pads(oracle, [], 2)
    for entries in LISTS:
        if 0 < len(rows_of(oracle, entries)) < 6:
            runs(oracle, entries, 0)
    runs(oracle, ALL_SIX, 3)
    runs(oracle, LISTS[0], 2)
    runs(oracle, [(LT, 3, 3, 0)], 2)


if __name__ == "__main__":
    main(sys.argv[1] if len(sys.argv) == 2 else sys.exit(__doc__))
