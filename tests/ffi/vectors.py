#!/usr/bin/env python3
"""Runs call vectors through the C functions: tests/ffi/vectors.py LIBRARY.so FILE.jsonl ..

Each vector is made twice: with `answers` two words longer than stated, of which the last two must stay as they were, and with one word
too few, which must give 1 and change nothing. The number, the answers, the places used and every array are compared, on refusals too. `run` is fill, pad,
extend and check in a row, up to the first that is refused: its number is due, and what the calls before it have written stays. Vectors of request 11 have
the multiplicities and holds of both recorders, and say which of them calls: it is lent its own, and the other's where the call takes them; where it does
not, they must be due as they were. Where a vector of an earlier request names no holds, or no other recorder, these are lent as zeros, one a place, and
must stay so. Then each vector is run again with its number wrong, and with each other number of its answer, the places used and the first, the middle and the last
word of each array wrong, one at a time; each of these must be told apart.

Prints how many vectors of each call had each number, and of how many of the forty constraints some table has it as the first that is not zero: where all
of tests/vectors is run, this must be so of all. Ends with status 1 where anything differs, a wrong vector does not, or a constraint is missing.
"""
import collections
import ctypes
import json
import pathlib
import sys

STORED = pathlib.Path(__file__).resolve().parent.parent / "vectors"
CONSTRAINTS = 40
MARK = 7777
MOST_PLACES = 2048
STATED = {"record": 2, "hold": 2, "confirm": 0, "drop": 0, "replay": 2, "compare": 1, "plan": 2, "read": 1, "write": 1, "fill": 1, "pad": 0, "extend": 3, "check": 7,
          "run": 7, "client_sum": 3, "batches": 2, "cascade_record": 1, "byte_sum": 3, "cascade_sum": 3, "archive": 0, "unarchive": 0}
# the arguments in order: numbers by name, arrays in brackets
ARGUMENTS = {
    "record": "capacity used [keys] [mults] [holds] [other_mults] [other_holds] entry",
    "hold": "capacity used [keys] [mults] [holds] [other_mults] [other_holds] entry",
    "confirm": "capacity used [keys] [mults] [holds] position",
    "drop": "capacity used [keys] [mults] [holds] position",
    "replay": "capacity used [keys] [mults] [holds] [other_mults] [other_holds] [trace]",
    "compare": "a b",
    "plan": "capacity used [keys] [mults] [holds]",
    "read": "[bytes] capacity used [keys] [mults] [holds] [other_mults] [other_holds]",
    "write": "capacity used [keys] [mults] [holds] [out]",
    "fill": "capacity used [keys] [mults] [holds] [table]",
    "pad": "[table] filled",
    "extend": "[table] [aux] [challenges]",
    "check": "[table] [aux] [challenges]",
    "run": "capacity used [keys] [mults] [holds] [table] [aux] [challenges]",
    "client_sum": "[requests] [challenges]",
    "cascade_record": "capacity used [keys] [mults] [bytes] value",
    "byte_sum": "[bytes] [challenges] [aux]",
    "cascade_sum": "capacity used [keys] [mults] [challenges] [aux]",
    "batches": "[jobs] setting [results]",
    "archive": "[table] [aux] [out]",
    "unarchive": "[bytes] [table] [aux]",
}
NAMES = {"cascade_record": "look_up", "unarchive": "restore"}  # of the C function, where it is another
NO_FUNCTION = ("field", "xfield")  # calls on elements, which the program vectors_field runs
RUN = ("fill", "pad", "extend", "check")
USED = {"record": 1, "hold": 1, "replay": 1, "read": 0, "cascade_record": 0}  # which word of `answers` is the number of places used afterwards
CASCADES = ("cascade_record", "cascade_sum")  # their keys have 16 bits
OWN = ("mults", "holds")
OTHERS = ("other_mults", "other_holds")


def for_caller(numbers, recorder):
    """Of the pairs of arrays, first's and second's, those of the recorder that calls as its own, and the other's."""
    for name in OWN:
        pair = numbers[name]
        numbers[name], numbers["other_" + name] = pair[recorder], pair[1 - recorder]


def with_recorders(vector):
    """The vector with the arrays of the recorder that calls and those of the other one; zeros where its call is lent them and it names none."""
    given = vector["in"]
    if "pad" in given:
        recorder = int(given.pop("pad"))
        for_caller(given, recorder)
        for_caller(vector["after"], recorder)
    elif "[holds]" in ARGUMENTS[vector["call"]]:
        given.setdefault("holds", ["0"] * len(given["mults"]))
        if "[other_holds]" in ARGUMENTS[vector["call"]]:
            places = int(given["capacity"])
            given.update({name: ["0"] * (places if places <= MOST_PLACES else 0) for name in OTHERS})
    return vector


def numbers(value):
    """A number, a list of numbers or bytes in hexadecimal digits, as a list of numbers."""
    return [int(v) for v in value] if isinstance(value, list) else [int(value)]


def is_bytes(name, value):
    """Stored bytes and the room for them are hexadecimal digits; `bytes` of a lookup are multiplicities."""
    return name in ("bytes", "out") and isinstance(value, str)


def content(name, value):
    return list(bytes.fromhex(value)) if is_bytes(name, value) else numbers(value)


def kind_of(call, name, value):
    if is_bytes(name, value):
        return ctypes.c_uint8
    return ctypes.c_uint16 if call in CASCADES and name == "keys" else ctypes.c_uint64


def is_array(call, name):
    """Whether it is an array that the call is lent, or one of the other recorder's."""
    return f"[{name}]" in ARGUMENTS[call] or name in OTHERS


def make_run(library, vector, words):
    """The number and the words of `answers` of the check, or of the first call that is refused, and every array afterwards."""
    given = vector["in"]
    for call in RUN:
        number, answers, arrays = make(library, {"call": call, "in": given}, words)
        given = {**given, **arrays, "filled": answers[0]} if call == "fill" else {**given, **arrays}
        if number:
            break
    return number, answers, {name: content(name, value) for name, value in given.items() if is_array("run", name)}


def make(library, vector, words):
    """The number returned, the words of `answers` and every array afterwards."""
    if vector["call"] == "run":
        return make_run(library, vector, words)
    arguments, arrays = [], {}
    for word in ARGUMENTS[vector["call"]].split():
        name = word.strip("[]")
        if name == word:
            arguments += [ctypes.c_uint64(n) for n in numbers(vector["in"][name])]
        else:
            values = content(name, vector["in"][name])
            arrays[name] = (kind_of(vector["call"], name, vector["in"][name]) * len(values))(*values)
            arguments += [arrays[name], ctypes.c_size_t(len(values))]
    answers = (ctypes.c_uint64 * words)(*[MARK] * words)
    if STATED[vector["call"]]:
        arguments += [answers, ctypes.c_size_t(words)]
    function = getattr(library, "u32_table_" + NAMES.get(vector["call"], vector["call"]))
    function.restype = ctypes.c_uint64
    number = function(*arguments)
    not_lent = {name: content(name, vector["in"][name]) for name in OTHERS if name in vector["in"]}
    return number, list(answers), {**not_lent, **{name: list(array) for name, array in arrays.items()}}


def wanted(vector):
    """The number and the answers that are due."""
    call = vector["call"]
    if call == "replay":  # on a refusal too: the steps done and the places used
        *number, steps = vector["answer"][1:]
        return int(number[0]) if number else 0, [int(steps), int(vector["after"]["used"])]
    kind, value = vector["answer"]
    if kind == "refused":
        return int(value), []
    if call in ("record", "hold"):
        return 0, [int(value), int(vector["after"]["used"])]
    if call == "compare":
        return 0, [{"-1": 0, "0": 1, "1": 2}[value]]
    if not STATED[call]:
        return 0, []
    if call == "cascade_record":
        return 0, [int(vector["after"]["used"])]
    if call in ("check", "run"):
        return 0, [0] if value == "zero" else [1] + numbers(value[:3]) + numbers(value[3])
    return 0, numbers(value)


def used_after(vector, number, answers):
    """The places used after a call: as it hands them over, or as before."""
    call = vector["call"]
    handed_over = call in USED and (number == 0 or call == "replay")
    return answers[USED[call]] if handed_over else int(vector["in"].get("used", 0))


def differs(library, vector):
    """What differs: None where nothing does."""
    call, given, left = vector["call"], vector["in"], vector.get("after", {})
    before = {name: content(name, given[name]) for name in given if is_array(call, name)}
    after = {**before, **{name: content(name, value) for name, value in left.items() if name in before}}
    number, answers = wanted(vector)
    got = make(library, vector, STATED[call] + 2)
    due = number, answers + [MARK] * (STATED[call] + 2 - len(answers)), after
    if got != due:
        return f"{got[:2]}, wanted {due[:2]}"
    sizes = int(given.get("capacity", 0)), used_after(vector, *got[:2])
    if sizes != tuple(int(left.get(name, size)) for name, size in zip(("capacity", "used"), sizes)):
        return f"sizes {sizes}, wanted {left}"
    if STATED[call] and call != "run":
        short = STATED[call] - 1
        got, due = make(library, vector, short), (1, [MARK] * short, before)
        return None if got == due else f"with too few words of answers {got[:2]}, wanted {due[:2]}"
    return None


def other(word):
    """Another number of an answer; -1 is less, of compare."""
    return "0" if word == "-1" else str(int(word) ^ 1)


def wrong_answers(value):
    """The value with one of its numbers wrong; a value is a number, a word, or a list of values."""
    if isinstance(value, list):
        for i, part in enumerate(value):
            yield from (value[:i] + [wrong] + value[i + 1 :] for wrong in wrong_answers(part))
    elif value.lstrip("-").isdigit():
        yield other(value)


def wrong_ones(vector):
    """The vector with one number of its answer wrong, or a word of an array afterwards, or the places used."""
    if vector["answer"][0] == "ok":
        steps = vector["answer"][1:] if vector["call"] == "replay" else []
        yield {**vector, "answer": ["refused", "1", *steps]}
    for answer in wrong_answers(vector["answer"]):
        yield {**vector, "answer": answer}
    after = vector.get("after", {})
    for name, value in after.items():
        if name in ("capacity", "used"):
            yield {**vector, "after": {**after, name: other(value)}}
        elif is_array(vector["call"], name):
            old = content(name, value)
            for place in {0, len(old) // 2, len(old) - 1} if old else ():
                new = old[:place] + [old[place] ^ 1] + old[place + 1 :]
                yield {**vector, "after": {**after, name: bytes(new).hex() if is_bytes(name, value) else new}}


def main():
    library, paths = ctypes.CDLL(sys.argv[1]), sys.argv[2:]
    counts, firsts, differ, told, missed = collections.Counter(), set(), 0, 0, 0
    for path in paths:
        for line in open(path):
            vector = json.loads(line)
            call = vector["call"]
            if call in NO_FUNCTION:
                continue
            with_recorders(vector)
            difference = differs(library, vector)
            if difference:
                differ += 1
                print(f"{path}: {call} differs: {difference}")
            number, answers = wanted(vector)
            counts[call, number] += 1
            if call == "check" and answers and answers[0]:
                firsts.add((answers[1], answers[3]))
            found = [differs(library, wrong) is not None for wrong in wrong_ones(vector)]
            told, missed = told + sum(found), missed + found.count(False)
    for call in STATED:
        print(call, " ".join(f"{number}: {n}" for (c, number), n in sorted(counts.items()) if c == call))
    print(f"first constraint that is not zero: {len(firsts)} of {CONSTRAINTS}")
    print(f"{sum(counts.values())} vectors, {differ} differ; {told} wrong vectors told apart, {missed} not")
    all_stored = set(STORED.glob("*.jsonl")) <= {pathlib.Path(path).resolve() for path in paths}
    sys.exit(differ != 0 or missed != 0 or not told or (all_stored and len(firsts) != CONSTRAINTS))


if __name__ == "__main__":
    main()
