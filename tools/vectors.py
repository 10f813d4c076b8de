#!/usr/bin/env python3
"""Makes the stored vectors from calls that were made outside this repository, and from edges.

    tools/vectors.py CALLS.jsonl field > crates/vectors_field/stdin
    tools/vectors.py CALLS.jsonl lists > tests/vectors/lists.jsonl
    tools/vectors.py CALLS.jsonl tables > tests/vectors/tables.jsonl
    tools/vectors.py CALLS.jsonl checks > tests/vectors/checks.jsonl

    tools/vectors.py numbers lists > crates/vectors_lists/stdin
    tools/vectors.py numbers tables > crates/vectors_table/stdin
    tools/vectors.py numbers checks > crates/vectors_check/stdin

CALLS.jsonl has single calls of document 01 with their answer and every array after the call, one JSON object a line. It is not here: 1,078 lines,
951,719 bytes, with the sha256 sum e65f32c3547678d5451e727d1a89fd549fd06f80933a5a21b3a08bb4a43565f0. From that file the first four commands make the stored
files to the last byte. The calls that a change request answers otherwise are left out. What the calls leave out, and edges, are added here; their
answers are computed by the few lines of arithmetic below, which share nothing with the library.

The last three need tests/vectors alone, and make the stored files to the last byte too. They write calls as numbers, a line a call, the first of which is the kind of
the line, for the programs vectors_lists, vectors_table and vectors_check, which read numbers and no JSON: those of lists.jsonl, request-07.jsonl and
recorded-lists.jsonl, of tables.jsonl and filled-tables.jsonl, of checks.jsonl and named-tables.jsonl. crates/vectors_text/stdin is tests/vectors/texts.packed, which
tests/pack-cases made of cases that came from outside too, and vectors_digests makes its own input.

Elements have no C function: theirs are numbers alone, and the program vectors_field runs them. The JSON lines have the form of CALLS.jsonl, and are run through the C
functions too (tests/ffi/vectors.py), as are the other files of tests/vectors.
Of these request-NN.jsonl has calls as change request NN has them: 1 replays, 2 client's sums, 3 lookups, 6 holds, 7 bases of pow, 10 archives, 11 two
recorders, 12 batches. request-07.jsonl has those calls of the request's file that take at most 6,000 characters, and the shortest one of each call and
answer that would have none; request-11.jsonl has those that take at most 800, and the shortest of each in the same way. From request-06.jsonl and
request-07.jsonl the calls that request 11 answers otherwise are taken out, 18 and 20. The others have the original Rust's answers (tools/filled_tables.py,
tools/named_tables.py and tools/recorded_lists.py make them).
"""
import contextlib
import io
import json
import pathlib
import sys

STORED = pathlib.Path(__file__).resolve().parent.parent / "tests" / "vectors"

P = 2**64 - 2**32 + 1


def inverse(a):
    return pow(a % P, P - 2, P)


# (a, b, c) stands for a + bX + cX^2 with X^3 = X - 1
def x_mul(a, b):
    c = [0] * 5
    for i in range(3):
        for j in range(3):
            c[i + j] += a[i] * b[j]
    return [(c[0] - c[3]) % P, (c[1] + c[3] - c[4]) % P, (c[2] + c[4]) % P]


def x_inverse(a):
    """Solves a * y = 1 as three linear equations by elimination; (0, 0, 0) where there is no solution."""
    unit = [[1, 0, 0], [0, 1, 0], [0, 0, 1]]
    columns = [x_mul(a, u) for u in unit]
    rows = [[columns[j][i] for j in range(3)] + [1 if i == 0 else 0] for i in range(3)]
    for k in range(3):
        pivot = next((r for r in range(k, 3) if rows[r][k]), None)
        if pivot is None:
            return [0, 0, 0]
        rows[k], rows[pivot] = rows[pivot], rows[k]
        scale = inverse(rows[k][k])
        rows[k] = [v * scale % P for v in rows[k]]
        for r in range(3):
            if r != k and rows[r][k]:
                factor = rows[r][k]
                rows[r] = [(v - factor * w) % P for v, w in zip(rows[r], rows[k])]
    return [rows[i][3] for i in range(3)]


def line(*numbers):
    flat = []
    for n in numbers:
        flat.extend(n if isinstance(n, list) else [n])
    text = " ".join(str(int(n)) for n in flat)
    assert len(text) < 65536  # a program runs no line that is longer than its buffer
    print(text)


# kind 1: a b, then new value add sub neg mul inverse is_zero equals
def base_line(a, b, answer=None):
    add, sub, mul, inv = answer or [(a + b) % P, (a - b) % P, a * b % P, inverse(a)]
    line(1, a, b, a % P, a % P, add, sub, -a % P, mul, inv, a % P == 0, a % P == b % P)


# kind 2: a b (three words each), then new from_base add sub mul scale inverse (three words each) is_zero equals
def extension_line(a, b, answer=None):
    reduced = [v % P for v in a]
    add, sub, mul, inv = answer or [
        [(v + w) % P for v, w in zip(a, b)],
        [(v - w) % P for v, w in zip(a, b)],
        x_mul(a, b),
        x_inverse(reduced),
    ]
    scaled = [v * b[0] % P for v in a]
    same = reduced == [w % P for w in b]
    line(2, a, b, reduced, [a[0] % P, 0, 0], add, sub, mul, scaled, inv, reduced == [0, 0, 0], same)


EDGES = [0, 1, P - 1, P, P + 1, 2**63, 2**64 - 1]
EXTENSION_EDGES = [
    [0, 0, 0],
    [1, 0, 0],
    [0, 1, 0],
    [0, 0, 1],
    [P, P, P],
    [P + 1, P, 0],
    [P - 1, P + 1, 2**64 - 1],
    [2**63, 0, 2**64 - 1],
]


def field(calls):
    for call in calls:
        numbers = call["in"]
        if call["call"] == "field":
            base_line(int(numbers["a"]), int(numbers["b"]), [int(n) for n in call["answer"][1]])
        if call["call"] == "xfield":
            a, b = ([int(n) for n in numbers[k]] for k in "ab")
            extension_line(a, b, [[int(n) for n in v] for v in call["answer"][1]])
    for a in EDGES:
        for b in EDGES:
            base_line(a, b)
    for a in EXTENSION_EDGES:
        for b in EXTENSION_EDGES:
            extension_line(a, b)


# ---- lists
def ints(words):
    return [int(w) for w in words]


def text(words):
    return [str(w) for w in words]


def say(call, given, answer, after):
    print(json.dumps({"call": call, "in": given, "answer": answer, "after": after}))


def as_they_are(calls, which):
    for call in calls:
        if call["call"] in which:
            say(call["call"], call["in"], call["answer"], call["after"])


def a_list(capacity, used, keys, mults):
    return {"capacity": str(capacity), "used": str(used), "keys": text(keys), "mults": text(mults)}


def refused(number):
    return ["refused", str(number)]


# A recording that is refused changes nothing.
def refused_recording(number, capacity, used, keys, mults, entry):
    before = a_list(capacity, used, keys, mults)
    say("record", {**before, "entry": text(entry)}, refused(number), before)


def recorded(position, capacity, used, keys, mults, entry, keys_after, mults_after, used_after):
    before = {**a_list(capacity, used, keys, mults), "entry": text(entry)}
    say("record", before, ["ok", str(position)], a_list(capacity, used_after, keys_after, mults_after))


# The plan's answer: height and padded height, or the number of the refusal
def planned(capacity, used, keys, mults, due):
    before = a_list(capacity, used, keys, mults)
    say("plan", before, ["ok", text(due)] if isinstance(due, list) else refused(due), before)


# A stored list: entries with their multiplicities, each of eight bytes or of four
def stored(entries, width=8):
    heights = [(key[2] if key[0] == 30 else max(key[1:])).bit_length() + 1 for key, _ in entries]
    numbers = [(len(entries), 4), (sum(heights), 4)]
    numbers += [pair for (opcode, lhs, rhs), _ in entries for pair in ((opcode, 1), (lhs, 8), (rhs, 8))]
    numbers += [(count, width) for _, count in entries]
    return [byte for number, size in numbers for byte in number.to_bytes(size, "little")]


# Reading onto `capacity` unused places, which hold 9: the entries that are read, or the number of the refusal
def reading(data, capacity, due):
    before = a_list(capacity, 0, [9] * 3 * capacity, [9] * capacity)
    if not isinstance(due, list):
        return refused_reading(due, before, data)
    keys, counts = [word for key, _ in due for word in key], [count for _, count in due]
    after = a_list(capacity, len(due), keys + [9] * (3 * capacity - len(keys)), counts + [9] * (capacity - len(counts)))
    say("read", {**before, "bytes": bytes(data).hex()}, ["ok", str(len(due))], after)


def refused_reading(number, before, data):
    say("read", {**before, "bytes": bytes(data).hex()}, refused(number), before)


# Writing to so many bytes, which hold 9: the bytes that are written at their start, or the number of the refusal
def writing_words(keys, counts, room, due):
    out = bytes([9] * room)
    written = bytes(due) if isinstance(due, list) else b""
    answer = ["ok", str(len(written))] if isinstance(due, list) else refused(due)
    say("write", {**a_list(len(counts), len(counts), keys, counts), "out": out.hex()}, answer, {"out": (written + out[len(written) :]).hex()})


# The counted entries of the list are written
def writing(entries, room, refusal=None):
    due = stored([(key, count) for key, count in entries if count]) if refusal is None else refusal
    writing_words([word for key, _ in entries for word in key], [count for _, count in entries], room, due)


def stored_edges():
    fine, other = [14, 3, 1], [6, 2, 3]
    # the length tells the form
    new = stored([(fine, 2)])
    for length in range(35):
        reading((new + [0] * 2)[:length], 1, [(fine, 2)] if length in (29, 33) else 10)
    reading([0] * 8, 0, [])
    reading([0] * 8, 1, [])
    # multiplicities at the limits of both forms
    for count in (0, 1, 2**32 - 1, 2**32, P - 1, P, 2**64 - 1):
        reading(stored([(fine, count)]), 1, [(fine, count)] if count < P else 5)
        if count < 2**32:
            reading(stored([(fine, count)], 4), 1, [(fine, count)])
    # 5 after 4, entry by entry; then 11, 12
    for entries, due in [
        ([(fine, P), ([5, 0, 0], 1)], 5),
        ([([5, 0, 0], 1), (fine, P)], 2),
        ([(fine, P), ([6, 2**32, 0], 1)], 5),
        ([([6, 2**32, 0], P), (fine, 1)], 3),
        ([([12, 0, 0], P), (fine, 1)], 4),
        ([(fine, 1), (fine, P)], 5),
        ([(fine, 1), (fine, P - 1)], 11),
        ([(fine, P), (fine, 1)], 5),
    ]:
        reading(stored(entries), 2, due)
        reading(stored(entries), 1, 6)
    other_height = stored([(fine, P)])
    other_height[4] += 1
    reading(other_height, 1, 5)
    reading(other_height[:25] + list((P - 1).to_bytes(8, "little")), 1, 12)
    reading(other_height[:29], 1, 12)
    # a list of the new length, cut to the old one
    reading(stored([(fine, 2**32 + 2)])[:29], 1, [(fine, 2)])
    reading(stored([(fine, 7 * 2**32 + 2), (other, 5)])[:50], 2, [(fine, 2), (other, 7)])
    # writing
    for count in (1, 2**32 - 1, 2**32, P - 1):
        for room in (33, 40):
            writing([(fine, count)], room)
        for room in (29, 32):
            writing([(fine, count)], room, 7)
    for count in (P, 2**64 - 1):
        writing([(fine, count)], 33, 5)
        writing([(fine, count), ([5, 0, 0], 1)], 58, 5)
    writing([([12, 0, 5], P)], 33, 4)
    writing([], 8)
    writing([], 7, 7)


def list_edges():
    empty = ([0] * 6, [0] * 2)
    # record 4 and record 1, of which the stored vectors have few
    for lhs, rhs in [(0, 0), (0, 2**32 - 1)]:
        refused_recording(4, 2, 0, *empty, [12, lhs, rhs])
    refused_recording(3, 2, 0, *empty, [12, 0, 2**32])
    for capacity, used, keys, mults in [
        (2, 3, [0] * 6, [0] * 2),
        (2, 0, [0] * 5, [0] * 2),
        (2, 0, [0] * 7, [0] * 2),
        (2, 0, [0] * 6, [0] * 3),
        (2, 0, [0] * 6, [0]),
        (2**63, 0, [], []),
        (2049, 0, [0] * 6, [0] * 2),
        (0, 1, [], []),
        (2**64 - 1, 2**64 - 1, [0] * 6, [0] * 2),
    ]:
        refused_recording(1, capacity, used, keys, mults, [6, 1, 1])
        planned(capacity, used, keys, mults, 1)
    # operands at their limits, for every opcode
    for opcode in (4, 6, 12, 14, 28, 30):
        for lhs, rhs, fine in [
            (2**32 - 1, 2**32 - 1, True),
            (1, 2**32, False),
            (2**32, 1, opcode == 30),
            (P - 1, 1, opcode == 30),
            (P, 1, opcode == 30),
            (2**64 - 1, 1, opcode == 30),
            (2**64 - 1, 2**32, False),
        ]:
            entry = [opcode, lhs, rhs]
            if fine:
                recorded(0, 2, 0, *empty, entry, [opcode, lhs % P, rhs] + [0] * 3, [1, 0], 1)
            else:
                refused_recording(3, 2, 0, *empty, entry)
    for opcode in (0, 1, 3, 5, 7, 13, 15, 29, 31, 4 + 2**32, P + 4, 2**64 - 1):
        refused_recording(2, 2, 0, *empty, [opcode, 2**32, 0])
    # a full list, a known key on it, a full count, a key that only an unused place holds
    keys, mults = [6, 1, 2, 14, 3, 4], [7, 2**32 - 1]
    refused_recording(6, 2, 2, keys, mults, [6, 2, 1])
    for count in (0, 2**32 - 2, 2**32 - 1, 2**32, P - 2):
        recorded(1, 2, 2, keys, [7, count], [14, 3, 4], keys, [7, count + 1], 2)
    for count in (P - 1, P, 2**64 - 1):
        refused_recording(5, 2, 2, keys, [7, count], [14, 3, 4])
    recorded(1, 2, 1, keys, mults, [14, 3, 4], keys, [7, 1], 2)
    # document 01's heights, whose padded height is the least; then padded heights around powers of two: sections of 33 rows and a shorter one
    for entry, height in [([14, 0, 0], 1), ([14, 1, 0], 2), ([6, 2**32 - 1, 0], 33), ([30, P - 1, 0], 1), ([30, 5, 7], 4)]:
        planned(1, 1, entry, [1], [height, 256])
    planned(0, 0, [], [], [0, 256])
    for count in (2**32 - 1, 2**32, P - 1):
        planned(1, 1, [6, 1, 2], [count], [3, 256])
    for height, padded in [(255, 256), (256, 256), (257, 512), (512, 512), (513, 1024)]:
        keys = [w for i in range(height // 33) for w in (6, 2**32 - 1 - i, 0)] + [14, 2 ** (height % 33 - 2), 0]
        n = len(keys) // 3
        planned(n, n, keys, [1] * n, [height, padded])
    for count in (P, 2**64 - 1):
        planned(1, 1, [6, 1, 2], [count], 5)


# Bases of pow as they come: LHS is taken modulo p, but in stored bytes
def base_edges():
    raw, reduced = [30, P + 5, 2], [30, 5, 2]
    for lhs in (0, 1, 40, 2**32 - 2):
        for first in (lhs, lhs + P):
            for second in (lhs, lhs + P):
                keys = [30, first, 2, 9, 9, 9]
                recorded(0, 2, 1, keys, [7, 3], [30, second, 2], keys, [8, 3], 1)
                recorded(1, 2, 1, keys, [7, 3], [30, second, 3], keys[:3] + [30, lhs, 3], [7, 1], 2)
                for room in (0, 58):
                    writing_words([30, first, 2, 30, second, 2], [1, 1], room, 11)
    # one more than the largest base that two words stand for, and a key of another opcode with these words
    recorded(1, 2, 1, [30, 2**32 - 1, 2, 9, 9, 9], [7, 3], [30, 0, 2], [30, 2**32 - 1, 2, 30, 0, 2], [7, 1], 2)
    recorded(1, 2, 1, [6, P + 5, 2, 9, 9, 9], [7, 3], [6, 5, 2], [6, P + 5, 2, 6, 5, 2], [7, 1], 2)
    # past the first eight places: the word, or the word plus p
    for n in (9, 16, 17):
        for place in range(n):
            for word, given in ((5, P + 5), (P + 5, 5)):
                keys = [w for i in range(n) for w in ([30, word, 2] if i == place else [30, 100 + i, 2])]
                recorded(place, n, n, keys, [1] * n, [30, given, 2], keys, [2 if i == place else 1 for i in range(n)], n)
    refused_recording(5, 1, 1, raw, [P - 1], reduced)
    refused_recording(6, 1, 1, raw, [1], [30, 6, 2])
    refused_recording(3, 1, 1, raw, [1], [30, P, 2**32])
    refused_recording(3, 1, 1, raw, [1], [12, P, 0])
    planned(2, 2, raw + reduced, [7, 1], [6, 256])
    planned(1, 1, [30, 2**64 - 1, 2**32 - 1], [1], [33, 256])
    planned(2, 2, raw + [5, 0, 0], [1, 1], 2)
    planned(1, 1, [30, P, 2**32], [1], 3)
    # written reduced; in stored bytes 3, entry by entry
    data = stored([(reduced, 7)])
    writing_words(raw, [7], 40, data)
    reading(data, 1, [(reduced, 7)])
    for entries, due in [
        ([([30, P - 1, 0], 1)], [([30, P - 1, 0], 1)]),
        ([([30, P, 0], 1)], 3),
        ([(raw, 1)], 3),
        ([([30, 2**64 - 1, 0], 1)], 3),
        ([([30, P, 0], 1), ([5, 0, 0], 1)], 3),
        ([([5, 0, 0], 1), ([30, P, 0], 1)], 2),
        ([([30, P, 0], P), ([5, 0, 0], 1)], 3),
        ([(reduced, 1), (raw, 1)], 3),
    ]:
        reading(stored(entries), 2, due)
        reading(stored(entries, 4) if max(count for _, count in entries) < P else stored(entries), 2, due)


# Keys whose multiplicity is 0 are left out of plans and of written lists, and not examined; reading judges them, and gives 6 where a place is used
def counted_edges():
    fine, other = [14, 3, 1], [6, 2, 3]
    left_out = [[5, 2**64 - 1, 0], [14, 2**32, 0], [30, 5, 2**32], [12, 0, 3], fine, other, [30, P + 5, 2]]
    for key in left_out:
        for entries in ([(key, 0)], [(key, 0), (fine, 2)], [(fine, 2), (key, 0)], [(key, 0), (key, 0)], [(other, 1), (key, 0), (fine, P - 1), (key, 0)]):
            keys, counts = [w for k, _ in entries for w in k], [count for _, count in entries]
            n, counted = len(entries), [k for k, count in entries if count]
            planned(n, n, keys, counts, [sum((max(k[1:])).bit_length() + 1 for k in counted), 256])
            length = 8 + 25 * len(counted)
            writing(entries, length)
            writing(entries, length + 3)
            writing(entries, length - 1, 7)
        # a counted key is examined, before and after a left-out one
        for count in (P, 2**64 - 1):
            for entries in ([(key, 0), (fine, count)], [(fine, count), (key, 0)]):
                planned(2, 2, [w for k, _ in entries for w in k], [c for _, c in entries], 5)
                writing(entries, 58, 5)
        for bad, number in (([5, 0, 0], 2), ([6, 0, 2**32], 3), ([12, 0, 3], 4)):
            planned(2, 2, key + bad, [0, 1], number)
            planned(2, 2, bad + key, [1, 0], number)
            writing([(key, 0), (bad, 1)], 58, number)
            writing([(bad, 1), (key, 0)], 58, number)
    # equal keys: two counted ones, or one
    for first, second in ((0, 1), (1, 0), (0, 0)):
        writing([(fine, first), (fine, second)], 58)
        writing([(fine, first), (other, 3), (fine, second)], 83)
    writing([(fine, 1), (other, 0), (fine, 1)], 83, 11)
    for counts in ([0, 4], [4, 0]):
        writing_words([30, P + 5, 2, 30, 5, 2], counts, 33, stored([([30, 5, 2], 4)]))
    # read: a key of multiplicity 0 takes a place, and is summed and judged
    data = stored([([14, 1, 1], 0), (fine, 2)])
    reading(data, 3, [([14, 1, 1], 0), (fine, 2)])
    reading(data[:4] + [3] + data[5:], 3, 12)
    for entries, due in [
        ([(fine, 0)], [(fine, 0)]),
        ([([5, 0, 0], 0)], 2),
        ([([14, 2**32, 0], 0)], 3),
        ([([12, 0, 0], 0)], 4),
        ([(fine, 0), (fine, 2)], 11),
        ([(fine, 0), (fine, 0)], 11),
    ]:
        reading(stored(entries), 2, due)
        reading(stored(entries, 4), 2, due)
    # read onto used places: 6, after 1 and 10 and before 2
    for used, counts in ((1, [7, 9]), (1, [0, 9]), (2, [7, 8])):
        keys = fine + other
        for data, number in [
            ([0] * 8, 6),
            (stored([(fine, 2)]), 6),
            (stored([(fine, 2)], 4), 6),
            (stored([([5, 0, 0], 2)]), 6),
            (stored([(fine, P)]), 6),
            (stored([(fine, 2), (fine, 2)]), 6),
            (stored([(fine, 2)])[:4] + [9] + stored([(fine, 2)])[5:], 6),
            (stored([(fine, 2), (other, 1), ([28, 1, 0], 1)]), 6),
            ([0] * 7, 10),
            (stored([(fine, 2)])[:-1], 10),
        ]:
            refused_reading(number, a_list(2, used, keys, counts), data)
        refused_reading(1, a_list(2, used, keys, counts + [0]), [0] * 8)


def lists(calls):
    as_they_are(calls, ("record", "compare", "plan", "read", "write"))
    edges()


def edges():
    list_edges()
    stored_edges()
    base_edges()
    counted_edges()


# ---- tables
def tables(calls):
    as_they_are(calls, ("fill", "pad", "extend"))


def checks(calls):
    as_they_are(calls, ("check",))


def changed(call):
    """Whether a change request answers a call of document 01 otherwise."""
    return changed_to_10(call) or changed_by_11(call)


def changed_by_11(call):
    """Places whose multiplicity is 0 are left out and not examined; reading onto used places gives 6."""
    which, numbers, (kind, value) = call["call"], call["in"], call["answer"]
    number = int(value) if kind == "refused" else 0
    if which == "read":
        return int(numbers["used"]) > 0 and number not in (1, 6, 10)
    if which not in ("plan", "fill", "write") or number == 1:
        return False
    keys, counts = ints(numbers["keys"]), ints(numbers["mults"])
    entries = [(keys[3 * i : 3 * i + 3], counts[i]) for i in range(int(numbers["used"]))]
    counted = [entry for entry in entries if entry[1]]
    if number in (2, 3, 4, 5):
        return next(filter(None, map(reason, counted)), 0) != number
    if number == 11:
        return len({tuple(key) for key, _ in counted}) == len(counted)
    return len(counted) < len(entries)


def reason(entry):
    """The first of the reasons 2 to 5 for an entry, 0 where there is none."""
    (opcode, lhs, rhs), count = entry
    if opcode not in (4, 6, 12, 14, 28, 30):
        return 2
    if rhs >= 2**32 or (opcode != 30 and lhs >= 2**32):
        return 3
    if opcode == 12 and lhs == 0:
        return 4
    return 5 if count >= P else 0


def changed_to_10(call):
    """Whether one of the requests 1 to 10 does."""
    which, numbers, (kind, value) = call["call"], call["in"], call["answer"]
    # request 4: a padded height is at least 256
    if which == "plan" and kind == "ok":
        return int(value[1]) < 256
    # request 9: the limit of multiplicities is p - 1. In recording the first equal key's counts, else that of each used place
    if kind == "refused" and int(value) == 5:
        keys, counts = ints(numbers["keys"]), ints(numbers["mults"])
        places = range(int(numbers["used"]))
        if which == "record":
            return next(counts[i] for i in places if keys[3 * i : 3 * i + 3] == ints(numbers["entry"])) < P - 1
        return max(counts[i] for i in places) < P
    # request 7: LHS of pow is taken modulo p, but in reading
    if kind == "refused" and int(value) == 3 and which in ("record", "plan", "fill", "write"):
        keys, used = ints(numbers["keys"]), int(numbers["used"])
        entries = [ints(numbers["entry"])] if which == "record" else [keys[3 * i : 3 * i + 3] for i in range(used)]
        opcode, lhs, rhs = next(e for e in entries if max(e[1], e[2]) >= 2**32 and (e[0] != 30 or e[1] >= P or e[2] >= 2**32))
        return opcode == 30 and rhs < 2**32
    # request 9: a list of N entries is written to 8 + 25 N bytes, and read from as many
    if which == "write" and kind == "ok":
        return int(value) != 8
    if which == "read" and kind == "refused" and int(value) == 10:
        data = bytes.fromhex(numbers["bytes"])
        return len(data) >= 8 and len(data) == 8 + 25 * int.from_bytes(data[:4], "little")
    return False


# ---- numbers
# A list is: capacity, used, the number of key words and they, the number of multiplicities and they. An answer is document 01's number, 0
# for done, and one value, 0 where there is none; the plan has two values.
def array(words):
    return [len(words)] + words


# The programs have buffers of 64 words for a list's arrays and of 512 bytes; what is longer would be cut there.
def some_bytes(digits):
    data = list(bytes.fromhex(digits))
    assert len(data) <= 512
    return array(data)


def list_of(numbers):
    assert max(len(numbers["keys"]), len(numbers["mults"])) <= 64
    return [int(numbers["capacity"]), int(numbers["used"])] + array(ints(numbers["keys"])) + array(ints(numbers["mults"]))


def answer_of(call, values):
    kind, value = call["answer"]
    if kind == "refused":
        return [int(value)] + [0] * values
    got = value if isinstance(value, list) else [value]
    return [0] + ints(got)


def list_after(after):
    return [int(after["capacity"]), int(after["used"])] + ints(after["keys"]) + ints(after["mults"])


# kind 1, record: list, entry; answer with the position; sizes, keys and multiplicities after it
# kind 2, compare: two entries; 0 less, 1 equal, 2 greater
# kind 3, plan: list; answer with height and padded height
# kind 4, read: list, bytes; answer with N; sizes, keys and multiplicities after it
# kind 5, write: list, the bytes of out; answer with the length; out after it
def list_line(call):
    numbers, after = call["in"], call["after"]
    which = call["call"]
    if which == "record":
        line(1, list_of(numbers), ints(numbers["entry"]), answer_of(call, 1), list_after(after))
    if which == "compare":
        line(2, ints(numbers["a"]), ints(numbers["b"]), int(call["answer"][1]) + 1)
    if which == "plan":
        line(3, list_of(numbers), answer_of(call, 2))
    if which == "read":
        line(4, list_of(numbers), some_bytes(numbers["bytes"]), answer_of(call, 1), list_after(after))
    if which == "write":
        line(5, list_of(numbers), some_bytes(numbers["out"]), answer_of(call, 1), list(bytes.fromhex(after["out"])))


# kind 1, fill: list, table; answer with the height; table after it
# kind 2, pad: table, filled count; answer; table after it
# kind 3, extend: table, aux, challenges; answer with three words; aux after it
# kind 4, run: list, table, aux, challenges; answer, 0 for zero; table and aux after it
def table_line(call):
    numbers, after = call["in"], call["after"]
    which = call["call"]
    if which == "fill":
        line(1, list_of(numbers), array(ints(numbers["table"])), answer_of(call, 1), ints(after["table"]))
    if which == "pad":
        number = 0 if call["answer"][0] == "ok" else int(call["answer"][1])
        line(2, array(ints(numbers["table"])), int(numbers["filled"]), number, ints(after["table"]))
    if which == "extend":
        arrays = [array(ints(numbers[k])) for k in ("table", "aux", "challenges")]
        line(3, *arrays, answer_of(call, 3), ints(after["aux"]))
    if which == "run":
        arrays = [array(ints(numbers[k])) for k in ("table", "aux", "challenges")]
        number = 0 if call["answer"] == ["ok", "zero"] else int(call["answer"][1])
        line(4, list_of(numbers), *arrays, number, ints(after["table"]), ints(after["aux"]))


# kind 1, check: table, aux, challenges; document 01's number, then group, row, index and three words, all 0 for zero, and 1 for nonzero in
# front of them
def check_line(call):
    numbers = call["in"]
    kind, value = call["answer"]
    if kind == "refused":
        answer = [int(value), 0] + [0] * 6
    elif value == "zero":
        answer = [0, 0] + [0] * 6
    else:
        answer = [0, 1] + ints(value[:3]) + ints(value[3])
    line(1, array(ints(numbers["table"])), array(ints(numbers["aux"])), array(ints(numbers["challenges"])), answer)


def stored_calls(name):
    with open(STORED / f"{name}.jsonl") as f:
        return list(map(json.loads, f))


# The edges of the lists, which lists.jsonl ends with, come last here too
def list_calls():
    with contextlib.redirect_stdout(io.StringIO()) as made:
        edges()
    last = list(map(json.loads, made.getvalue().splitlines()))
    calls = stored_calls("lists")
    assert calls[-len(last) :] == last
    return calls[: -len(last)] + stored_calls("request-07") + stored_calls("recorded-lists") + last


NUMBERS = {
    "lists": (list_line, list_calls),
    "tables": (table_line, lambda: stored_calls("tables") + stored_calls("filled-tables")),
    "checks": (check_line, lambda: stored_calls("checks") + stored_calls("named-tables")),
}
WHICH = {"field": field, "lists": lists, "checks": checks, "tables": tables}


def main():
    if len(sys.argv) != 3 or sys.argv[2] not in (NUMBERS if sys.argv[1] == "numbers" else WHICH):
        sys.exit(__doc__)
    if sys.argv[1] == "numbers":
        write, calls = NUMBERS[sys.argv[2]]
        for call in calls():
            write(call)
        return
    with open(sys.argv[1]) as f:
        WHICH[sys.argv[2]]([call for call in map(json.loads, f) if not changed(call)])


main()
