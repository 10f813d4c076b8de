#!/usr/bin/env python3
"""Makes samples/: inputs of u32list with the text that is due, tables for u32check, and jobs for u32batch with the text that is due.

    tools/samples.py samples

The texts are computed by the arithmetic below, which shares nothing with the library. The check's answer is not computed: for a table that
is filled, padded and extended it is `zero`, and that is what is to be seen. Every run makes the same bytes.
"""
import pathlib
import sys

P = 2**64 - 2**32 + 1
SPLIT, LT, LOG, AND, POP, POW = 4, 6, 12, 14, 28, 30


# ---- recordings and stored lists
def record(entries, opcode, lhs, rhs=0):
    """The first equal key gains one; else the key is appended with 1."""
    key = (opcode, lhs, rhs)
    entries[key] = entries.get(key, 0) + 1


def height(key):
    opcode, lhs, rhs = key
    return (rhs if opcode == POW else max(lhs, rhs)).bit_length() + 1


def stored(challenges, entries, width=8):
    """The input of u32list. A multiplicity takes eight bytes, or four in lists of the old length."""
    out = b"".join(word.to_bytes(8, "little") for word in challenges)
    out += len(entries).to_bytes(4, "little") + sum(map(height, entries)).to_bytes(4, "little")
    for opcode, lhs, rhs in entries:
        out += bytes([opcode]) + lhs.to_bytes(8, "little") + rhs.to_bytes(8, "little")
    return out + b"".join(count.to_bytes(width, "little") for count in entries.values())


# ---- the table
def inverse(a):
    return pow(a, P - 2, P)


def result(opcode, lhs, rhs, bits):
    """The Result of a row: what the instruction gives on what is left of the operands from this bit on."""
    if opcode == SPLIT:
        return 0
    if opcode == LT:
        if lhs == rhs:
            return 0 if bits == 0 else 2
        return int(lhs < rhs)
    if opcode == AND:
        return lhs & rhs
    if opcode == LOG:
        return bits + lhs.bit_length() - 1 if lhs else P - 1
    if opcode == POW:
        return pow(lhs, rhs, P)
    return lhs.bit_count()


def row(flag, bits, opcode, lhs, rhs, value, count):
    return [flag, bits, inverse((bits - 33) % P), opcode, lhs, inverse(lhs), rhs, inverse(rhs), value, count]


def section(key, count):
    opcode, lhs, rhs = key
    rows = []
    for bits in range(height(key)):
        below = lhs if opcode == POW else lhs >> bits
        rows.append(row(int(bits == 0), bits, opcode, below, rhs >> bits, result(opcode, below, rhs >> bits, bits), count if bits == 0 else 0))
    return rows


def padded_table(entries, least=256):
    """The height and the rows up to the padded height, which is no less than the byte lookup's 256 rows; the calls take any number of rows."""
    rows = [r for key, count in entries.items() for r in section(key, count)]
    last = rows[-1] if rows else [0, 0, 0, SPLIT, 0, 0, 0, 0, 0, 0]
    padding = [0, 0, inverse(P - 33), last[3], last[4], last[5], 0, 0, 2 if last[3] == LT else last[8], 0]
    size = least
    while size < len(rows):
        size *= 2
    return len(rows), rows + [padding] * (size - len(rows))


# ---- the sum: (a, b, c) is a + bX + cX^2 with X^3 = X - 1
def times(x, y):
    c = [0] * 5
    for i in range(3):
        for j in range(3):
            c[i + j] += x[i] * y[j]
    return [(c[0] - c[3]) % P, (c[1] + c[3] - c[4]) % P, (c[2] + c[4]) % P]


def inverse_of_element(x):
    """The power p^3 - 2, by squaring."""
    answer, exponent = [1, 0, 0], P**3 - 2
    while exponent:
        if exponent & 1:
            answer = times(answer, x)
        x, exponent = times(x, x), exponent >> 1
    return answer


def running_sums(challenges, rows):
    """The sum so far beside each row."""
    indeterminate, *weights = [challenges[i : i + 3] for i in range(0, 15, 3)]
    total, sums = [0, 0, 0], []
    for r in rows:
        if r[0] == 1:
            fields = (r[4], r[6], r[3], r[8])
            compressed = [sum(w[i] * f for w, f in zip(weights, fields)) for i in range(3)]
            summand = inverse_of_element([(a - b) % P for a, b in zip(indeterminate, compressed)])
            total = [(t + r[9] * s) % P for t, s in zip(total, summand)]
        sums.append(total)
    return sums


def last_sum(challenges, rows):
    return ([[0, 0, 0]] + running_sums(challenges, rows))[-1]


def text(challenges, entries):
    """What u32list prints for a list of admitted entries that is stored whole. Keys whose multiplicity is 0 are among its entries, and have no rows."""
    if len(entries) > 2048:
        return "refused 10\n"
    if any(opcode == POW and lhs >= P for opcode, lhs, _ in entries):
        return "refused 3\n"
    if max(entries.values(), default=0) >= P:
        return "refused 5\n"
    rows, table = padded_table({key: count for key, count in entries.items() if count})
    if len(table) > 512:
        return "refused 7\n"
    lines = [f"entries {len(entries)} rows {rows} padded {len(table)}"]
    lines += [" ".join(map(str, r)) for r in table]
    lines += ["sum " + " ".join(map(str, last_sum(challenges, table))), "zero"]
    return "\n".join(lines) + "\n"


# ---- the samples
PLAIN = [1] + [0] * 14  # document 01's printed example: Indeterminate (1, 0, 0), weights zero


def drawn(seed):
    """Fifteen words below p."""
    words = []
    while len(words) < 15:
        seed = (seed * 6364136223846793005 + 1442695040888963407) % 2**64
        if seed < P:
            words.append(seed)
    return words


def second(samples, span):
    """One second: each sample is compared with a limit and its bits are counted."""
    entries = {}
    for i in range(samples):
        reading = abs(i * 7 % (2 * span) - span)
        record(entries, LT, reading, 20)
        record(entries, POP, reading)
    return entries


def filled_up(entries, rows):
    """Powers with exponent 0 are added, a row each, until the list has this height."""
    base = 2
    while sum(map(height, entries)) < rows:
        record(entries, POW, base)
        base += 1
    return entries


def different(count):
    entries = {}
    for i in range(count):
        record(entries, LT if i % 2 else AND, 1000 + i, 1500)
    return entries


def samples():
    yield "example", PLAIN, {(AND, 3, 1): 2}
    yield "count-of-zero", PLAIN, {(AND, 1, 1): 0, (AND, 3, 1): 2}
    yield "count-past-four-bytes", PLAIN, {(AND, 3, 1): 2**32 + 2}
    yield "count-at-the-limit", PLAIN, {(AND, 3, 1): P - 1}
    yield "count-above-it", PLAIN, {(AND, 3, 1): P}
    yield "base-below-p", PLAIN, {(POW, P - 1, 3): 2}
    yield "base-of-p", PLAIN, {(POW, P, 3): 2}
    yield "a-200-samples", drawn(200), second(200, 25)
    yield "a-400-samples", drawn(400), second(400, 37)
    yield "a-400-samples-at-the-limit", drawn(400), filled_up(second(400, 37), 512)
    yield "a-400-samples-above-it", drawn(400), filled_up(second(400, 37), 513)
    yield "a-full-list-new-length", drawn(2048), different(2048)
    yield "b-last-lt-0-0", drawn(2), {(AND, 6, 3): 1, (LT, 2, 3): 4, (POP, 3, 0): 2, (LT, 0, 0): 1}


def old_samples():
    """Lists of the old length: they are read, and print what they printed."""
    yield "example-old-length", PLAIN, {(AND, 3, 1): 2}
    yield "a-full-list", drawn(2048), different(2048)
    yield "a-one-entry-too-many", drawn(2048), different(2049)


def tables():
    """The challenges, the number of rows and the rows, for u32check."""
    challenges = drawn(3)
    _, table = padded_table({(AND, 3, 1): 2, (LT, 5, 9): 3, (POP, 7, 0): 1}, least=1)
    yield "honest", challenges, table
    first = next(r for r in table if r[:1] == [1] and r[3] == LT)
    first[8] = 1 - first[8]
    yield "one-false-comparison", challenges, table
    # and 3, 1 in as many rows as its height, and in fewer
    rows = section((AND, 3, 1), 2)
    yield "and-3-1-three-rows", challenges, rows
    yield "and-3-1-two-rows", challenges, rows[:2]
    yield "and-3-1-one-row", challenges, rows[:1]
    # an entry of one row, once and twice
    once = section((AND, 0, 0), 1)
    yield "and-0-0", challenges, once
    yield "and-0-0-twice", challenges, once + once


# ---- jobs, for u32batch
def batched(settings, jobs):
    """The table of what each setting gives, each job added to the open batch or to a new one."""
    lines = [f"jobs {len(jobs)}", "    setting    batches       rows    padding   share"]
    for setting in settings:
        if not 1 <= setting <= 131072:
            lines.append(f"{setting:11}  refused 1: a setting is a number of rows from 1 to 131072")
        elif max(jobs, default=0) > setting:
            lines.append(f"{setting:11}  refused 17: a job has more rows than the setting")
        else:
            batches = []
            for job in jobs:
                if batches and batches[-1] + job <= setting:
                    batches[-1] += job
                else:
                    batches.append(job)
            padded = sum(max(256, 1 << (rows - 1).bit_length()) for rows in batches)
            thousandths = 1000 * (padded - sum(jobs)) // padded if padded else 0
            lines.append(f"{setting:11}{len(batches):11}{sum(jobs):11}{padded - sum(jobs):11}{thousandths // 10:5}.{thousandths % 10}%")
    return "\n".join(lines) + "\n"


def days():
    """A day's jobs: 400 small ones, some of them long, and the settings to try."""
    jobs, state = [], 12
    for hour in range(8):
        for job in range(50):
            state = state * 6364136223846793005 % 2**64 + 1442695040888963407
            jobs.append(20 + (state >> 40) % (1800 if job % 10 == hour else 300))
    yield "a-day", [500, 1000, 2048, 4096, 8192, 16384, 32768, 65536, 131072], jobs


def main():
    folder = pathlib.Path(sys.argv[1])
    (folder / "tables").mkdir(parents=True, exist_ok=True)
    for width, lists in (8, samples()), (4, old_samples()):
        for name, challenges, entries in lists:
            (folder / f"{name}.bin").write_bytes(stored(challenges, entries, width))
            (folder / f"{name}.txt").write_text(text(challenges, entries))
    for name, longer in ("a-full-list", "a-one-byte-too-many"), ("a-full-list-new-length", "a-one-byte-too-many-new-length"):
        (folder / f"{longer}.bin").write_bytes((folder / f"{name}.bin").read_bytes() + b"\0")
        (folder / f"{longer}.txt").write_text("refused 10\n")
    (folder / "jobs").mkdir(exist_ok=True)
    for name, settings, jobs in days():
        lines = [" ".join(map(str, settings)), *map(str, jobs)]
        (folder / "jobs" / f"{name}.jobs").write_text("\n".join(lines) + "\n")
        (folder / "jobs" / f"{name}.txt").write_text(batched(settings, jobs))
    for name, challenges, table in tables():
        lines = [" ".join(map(str, challenges)), str(len(table)), *(" ".join(map(str, r)) for r in table)]
        (folder / "tables" / f"{name}.table").write_text("\n".join(lines) + "\n")


if __name__ == "__main__":
    main()
