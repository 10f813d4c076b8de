#!/usr/bin/env python3
"""Brings the must-fail edits of an older Rattle to today's, with the same wrong meaning.

usage: tools/port_edits.py lay OLD FOLDER          makes FOLDER/mut0, FOLDER/mut1 ..: the files of the commit OLD with the edits applied, as many in
                                                   one file as touch no line near one another, and FOLDER/rounds.json, which edit stands where
       tools/port_edits.py take OLD FOLDER [EDIT..]  writes the edits (those named) anew from FOLDER/base and FOLDER/r0, r1 ..: what port.py made of the
                                                   files of OLD, and of the same files with mut0, mut1 .. over them (or FOLDER/rx, with the file of mutK
                                                   beside the old one as NAMEVK.antt)
       tools/port_edits.py check                   each edit can be applied: its files are there, and each old text stands once

Between 'lay' and 'take' port.py runs in each of those folders (a repository with crates/ of OLD). An edit that stands as it is and has no word of the older
Rattle is left alone. What 'take' can't turn it names; the edits that it wrote are read by eye."""
import collections
import difflib
import glob
import json
import os
import re
import subprocess
import sys

TOP = os.path.dirname(os.path.dirname(os.path.realpath(__file__)))
sys.path.insert(0, os.path.join(TOP, "tools"))
import respell  # noqa: E402

OLDER = re.compile(r"·|⌜|⌝|\bnow |\.entry\b|\.exit\b|«|mathlib|\beqb\b|\bltb\b|\bleb\b|\bgetD\b|vec-len|′|\b_\S+_\b|λ r\.|\br ≡ ")
TOKEN = re.compile(r"[^\s(){}\[\],;:.«»@\"]+|\S")
NEAR = 3


def edits():
    for path in sorted(glob.glob(os.path.join(TOP, "crates/*/must-fail*/*.edit"))):
        yield path


def load(path):
    """The lines of comment, and the pairs: file, old, new."""
    file, pairs, head = None, [], []
    for line in open(path, encoding="utf-8").read().split("\n"):
        if line.startswith("file: "):
            file = line[6:]
        elif line.startswith("old: "):
            pairs.append([file, line[5:], None])
        elif line.startswith("new:"):
            pairs[-1][2] = line[5:]
        elif line:
            head.append(line)
    return head, pairs


def store(path, head, pairs):
    lines, file = list(head), None
    for f, old, new in pairs:
        if f != file:
            lines.append("file: " + f)
            file = f
        lines += ["old: " + old, "new: " + new]
    open(path, "w", encoding="utf-8").write("\n".join(lines) + "\n")


def applied(text, pairs):
    for old, new in pairs:
        if text.count(old) != 1:
            raise ValueError(f"{text.count(old)} times: {old}")
        text = text.replace(old, new)
    return text


def at(commit, path):
    r = subprocess.run(["git", "show", f"{commit}:{path}"], cwd=TOP, capture_output=True)
    return r.stdout.decode() if r.returncode == 0 else None


def here(path):
    path = os.path.join(TOP, path)
    return open(path, encoding="utf-8").read() if os.path.exists(path) else ""


def touched(a, b):
    codes = difflib.SequenceMatcher(None, a.split("\n"), b.split("\n"), autojunk=False).get_opcodes()
    return [tuple(c[1:]) for c in codes if c[0] != "equal"]


def of_file(pairs):
    return [(f, [p[1:] for p in pairs if p[0] == f]) for f in dict.fromkeys(p[0] for p in pairs)]


def lay(old, folder):
    rows = respell.load()
    files, olds = collections.defaultdict(list), {}
    for path in edits():
        crate = os.path.relpath(path, TOP).split("/")[1]
        for f, pairs in of_file(load(path)[1]):
            src = f"crates/{crate}/{f}"
            if f.startswith("proofs"):
                print("by hand:", path, f)
                continue
            if src not in olds:
                olds[src] = at(old, src)
            try:
                applied(here(src), pairs)
                stands = True
            except ValueError:
                stands = False
            words = [w for p in pairs for t in p for w in respell.WORD.findall(re.sub(r'"[^"]*"', "", t))]
            if stands and f.startswith("src") and not any(OLDER.search(t) for p in pairs for t in p) and not any(w in rows for w in words):
                continue
            a = applied(olds[src], pairs)
            files[src].append((os.path.relpath(path, TOP), touched(olds[src], a), a))
    rounds = []
    for src, them in files.items():
        them.sort(key=lambda e: e[1][0])
        placed = []
        for rel, spans, a in them:
            for k in range(99):
                if k == len(placed):
                    placed.append([])
                used = [s for _, s2, _ in placed[k] for s in s2]
                if all(s[1] + NEAR <= u[0] or u[1] + NEAR <= s[0] for s in spans for u in used):
                    placed[k].append((rel, spans, a))
                    break
        for k, it in enumerate(placed):
            while len(rounds) <= k:
                rounds.append({})
            rounds[k][src] = it
    for k, r in enumerate(rounds):
        for src, them in r.items():
            lines = olds[src].split("\n")
            changes = [(s, a.split("\n")[s[2]:s[3]]) for _, spans, a in them for s in spans]
            for s, new in sorted(changes, reverse=True):
                lines[s[0]:s[1]] = new
            to = os.path.join(folder, f"mut{k}", src)
            os.makedirs(os.path.dirname(to), exist_ok=True)
            open(to, "w", encoding="utf-8").write("\n".join(lines))
    json.dump([{src: [(rel, spans) for rel, spans, _ in them] for src, them in r.items()} for r in rounds], open(os.path.join(folder, "rounds.json"), "w"))
    print(len(rounds), "rounds")


def turned(path, rows):
    text = open(path, encoding="utf-8").read()
    text = respell.turn_code(text, rows, r"(?<![^\s(){}.;,@\"«»])--" if path.endswith(".antt") else r"//")
    return respell.DOTTED.sub(r"\1_of", text)


def tokens(text, rows=None):
    """Tokens with their places; with rows as they are spelled today, but for « and »."""
    found = [(m[0], m.start(), m.end()) for m in TOKEN.finditer(text)]
    if rows is not None:
        found = [(rows.get(t, t).replace("′", "'"), a, b) for t, a, b in found if t not in "«»⌜⌝"]
    return found


def line_map(a, b):
    """For each line of a the line of b that stands in its place, as far as known."""
    there = {}
    for tag, i1, i2, j1, j2 in difflib.SequenceMatcher(None, a, b, autojunk=False).get_opcodes():
        for i in range(i1, i2):
            there[i] = j1 + (i - i1) if tag == "equal" else (j1 + min(i - i1, max(j2 - j1 - 1, 0)))
    return there


def only(text):
    return [t for t, _, _ in tokens(text)]


def at_once(text, base, made):
    """The text with the lines of base that made changed, where they stand in text: None if they do not."""
    pairs = []
    for i1, i2, j1, j2 in touched(base, made):
        b, m = base.split("\n"), made.split("\n")
        lo, hi = i1, i2
        while True:
            was = "\n".join(b[lo:hi]) + "\n"
            if text.count(was) == 1 and lo < hi:
                break
            if hi - lo > i2 - i1 + 12:
                return None
            lo, hi = max(lo - 1, 0), min(hi + 1, len(b))
        text = text.replace(was, "\n".join(b[lo:i1] + m[j1:j2] + b[i2:hi]) + "\n")
    return text


def fragments(text, want):
    """Pairs of one line each that make want of text, as tokens; old texts stand once."""
    pairs, now = [], text
    shift = 0
    for h in touched(text, want):
        tl, wl = text.split("\n"), want.split("\n")
        starts = [0]
        for line in tl:
            starts.append(starts[-1] + len(line) + 1)
        base = sum(len(x) + 1 for x in tl[:h[0]])
        a = [(t, s + base, e + base) for t, s, e in tokens("\n".join(tl[h[0]:h[1]]))]
        wbase = sum(len(x) + 1 for x in wl[:h[2]])
        b = [(t, s + wbase, e + wbase) for t, s, e in tokens("\n".join(wl[h[2]:h[3]]))]
        if not a:
            return None
        groups = []
        for tag, i1, i2, j1, j2 in difflib.SequenceMatcher(None, [t[0] for t in a], [t[0] for t in b], autojunk=False).get_opcodes():
            if tag == "equal":
                continue
            if i1 == i2 or j1 == j2:
                if i1 > 0 and j1 > 0:
                    i1, j1 = i1 - 1, j1 - 1
                else:
                    i2, j2 = i2 + 1, j2 + 1
            line = lambda i: text.count("\n", 0, a[i][1])
            if groups and line(groups[-1][1] - 1) == line(i1) and line(groups[-1][0]) == line(i1) and line(i1) == line(i2 - 1) or groups and i1 < groups[-1][1]:
                groups[-1][1], groups[-1][3] = i2, j2
            else:
                groups.append([i1, i2, j1, j2])
        for i1, i2, j1, j2 in groups:
            new = re.sub(r"\s+", " ", want[b[j1][1]:b[j2 - 1][2]])
            start, end = a[i1][1], a[i2 - 1][2]
            parts, p = [], start
            for piece in text[start:end].split("\n"):
                body = piece.strip()
                if body:
                    q = p + len(piece) - len(piece.lstrip())
                    parts.append((q, q + len(body), new if not parts else ""))
                p += len(piece) + 1
            for s, e, n in parts:
                s, e = s + shift, e + shift
                line0, line1 = now.rfind("\n", 0, s) + 1, now.find("\n", e)
                lead = re.match(r"\s*", now[line0:line1])[0]
                l, r = line0 + len(lead), line1
                if len(now[l:r]) > 110 or now.count(now[l:r]) != 1:
                    inner = [(t[1] + line0, t[2] + line0) for t in tokens(now[line0:line1])]
                    x = next(k for k, t in enumerate(inner) if t[1] > s)
                    y = max(k for k, t in enumerate(inner) if t[0] < e)
                    l, r = s, e
                    while now.count(now[l:r]) != 1 or r - l < 16:
                        if x == 0 and y == len(inner) - 1:
                            break
                        if x > 0:
                            x -= 1
                        if y < len(inner) - 1 and now.count(now[inner[x][0]:r]) != 1:
                            y += 1
                        l, r = min(l, inner[x][0]), max(r, inner[y][1])
                    if now.count(now[l:r]) != 1:
                        return None
                pairs.append([now[l:r], now[l:s] + n + now[e:r]])
                now = now[:s] + n + now[e:]
                shift += len(n) - (e - s)
    return pairs if only(now) == only(want) else None


def spelled(old_file, base, made, mutated, text, pairs, rows):
    """The same fragments as the edit names, as they are spelled in base and made; None where they are not on one line or do not stand once."""
    out, now = [], text
    if len(pairs) != 1:
        was = old_file
        lines = set()
        for o, n in pairs:
            k = was.count("\n", 0, was.index(o))
            if k in lines:
                return None
            lines.add(k)
            was = was.replace(o, n)
        if was.count("\n") != old_file.count("\n"):
            return None
    a, b = tokens(old_file, rows), tokens(base)
    ma, mb = tokens(mutated, rows), tokens(made)

    def place(whole, tw, to, there, frag_at, frag):
        # the tokens of the lines round the fragment against those round the same place
        first = [k for k, t in enumerate(tw) if t[1] >= frag_at and t[2] <= frag_at + len(frag)]
        if not first:
            return None
        lo, hi = max(first[0] - 60, 0), min(first[-1] + 61, len(tw))
        return first[0], first[-1], lo, hi

    whole_map = token_map(a, b)
    whole_made = token_map(ma, mb)
    was, mut_at = old_file, 0
    for o, n in pairs:
        p = old_file.find(o) if old_file.count(o) == 1 else -1
        q = mutated.find(n) if n and mutated.count(n) == 1 else -1
        if p < 0:
            return None
        if q < 0:
            line = old_file.count("\n", 0, p)
            col = p - (old_file.rfind("\n", 0, p) + 1)
            ml = mutated.split("\n")
            sm = line_map(old_file.split("\n"), ml)
            k = sm.get(line)
            if k is None or ml[k][col:col + len(n)] != n or not n:
                return None
            q = sum(len(x) + 1 for x in ml[:k]) + col
        f = between(a, b, whole_map, p, o, base)
        g = between(ma, mb, whole_made, q, n, made)
        if f is None or g is None or "\n" in f or now.count(f) != 1 or f == g:
            return None
        g = re.sub(r"\s+", " ", g)
        if f.count(")") > f.count("(") and g.count(")") > g.count("(") and "(" + f in now:
            f, g = "(" + f, "(" + g
        out.append([f, g])
        now = now.replace(f, g)
    return out, now


def token_map(a, b):
    there = {}
    for tag, i1, i2, j1, j2 in difflib.SequenceMatcher(None, [t[0] for t in a], [t[0] for t in b], autojunk=False).get_opcodes():
        if tag == "equal":
            for i in range(i1, i2):
                there[i] = j1 + i - i1
    return there


def between(a, b, there, p, frag, text):
    inside = [k for k, t in enumerate(a) if t[1] >= p and t[2] <= p + len(frag)]
    if not inside or inside[0] not in there or inside[-1] not in there:
        return None
    return text[b[there[inside[0]]][1]:b[there[inside[-1]]][2]]


def take(old, folder, names=()):
    rows = respell.load()
    rounds = json.load(open(os.path.join(folder, "rounds.json")))
    count, open_ = collections.Counter(), []
    made_of = collections.defaultdict(dict)
    for k, r in enumerate(rounds):
        for src, them in r.items():
            where = os.path.join(folder, f"r{k}", src)
            if not os.path.isfile(where):
                where = os.path.join(folder, "rx", src.replace(".antt", f"V{k}.antt"))
            if not os.path.isfile(where):
                open_ += [(rel, src, "no run") for rel, _ in them]
                continue
            base, made = turned(os.path.join(folder, "base", src), rows), turned(where, rows)
            old_file = at(old, src)
            # which lines of base each edit has: by the lines of old, in order
            to_base = line_map([" ".join(rows.get(t, t) for t in only(l)) for l in old_file.split("\n")], [" ".join(only(l)) for l in base.split("\n")])
            hunks = touched(base, made)
            owner = {}
            for h in hunks:
                best = min(((max(h[0] - to_base.get(s[1] - 1, 0), to_base.get(s[0], 0) - max(h[1] - 1, h[0]), 0), rel) for rel, spans in them for s in spans), default=None)
                owner[h] = best[1] if best and best[0] <= 12 else None
                if owner[h] is None:
                    print("hunk of no edit:", src, h, base.split("\n")[h[0]:h[1]], made.split("\n")[h[2]:h[3]])
            for rel, spans in them:
                b, m = base.split("\n"), made.split("\n")
                lines, last = [], 0
                for h in hunks:
                    if owner[h] == rel:
                        lines += b[last:h[0]] + m[h[2]:h[3]]
                        last = h[1]
                lines += b[last:]
                made_of[rel][src] = (base, "\n".join(lines), old_file)
    for rel, by_file in sorted(made_of.items()):
        if names and rel not in names:
            continue
        path = os.path.join(TOP, rel)
        head, pairs = load(path)
        crate, result, how = rel.split("/")[1], [], set()
        for f, ps in of_file(pairs):
            src = f"crates/{crate}/{f}"
            if src not in by_file:
                result += [[f, *p] for p in ps]
                continue
            base, made, old_file = by_file[src]
            text = here(src)
            want = at_once(text, base, made) if base != made else None
            if want is None:
                open_.append((rel, src, "turned file shows no change" if base == made else "lines differ at HEAD"))
                result += [[f, *p] for p in ps]
                continue
            try:
                mutated = applied(old_file, ps)
                asis = None
                try:
                    asis = applied(text, ps)
                except ValueError:
                    pass
                if asis is not None and only(asis) == only(want):
                    got = ps
                    how.add("as it is")
                else:
                    got = spelled(old_file, base, made, mutated, text, ps, rows)
                    if got and only(got[1]) == only(want):
                        got = got[0]
                        how.add("spelled")
                    else:
                        got = fragments(text, want)
                        how.add("fragments")
            except ValueError as e:
                got = None
                open_.append((rel, src, str(e)))
            if not got:
                open_.append((rel, src, "no fragments"))
                result += [[f, *p] for p in ps]
            else:
                result += [[f, *p] for p in got]
        if not any(rel == o[0] for o in open_):
            store(path, head, result)
            count[" and ".join(sorted(how))] += 1
            if "fragments" in how:
                print("fragments:", rel)
    for o in open_:
        print("open:", *o)
    print(dict(count), len(open_), "open")


def check():
    bad = n = 0
    for path in edits():
        n += 1
        crate = os.path.relpath(path, TOP).split("/")[1]
        for f, pairs in of_file(load(path)[1]):
            try:
                applied(here(f"crates/{crate}/{f}"), pairs)
            except ValueError as e:
                bad += 1
                print(os.path.relpath(path, TOP), f, e)
    print(n, "edits,", bad, "bad")
    return bad > 0


if __name__ == "__main__":
    if sys.argv[1:2] == ["lay"] and len(sys.argv) == 4:
        raise SystemExit(lay(sys.argv[2], sys.argv[3]))
    if sys.argv[1:2] == ["take"] and len(sys.argv) >= 4:
        raise SystemExit(take(sys.argv[2], sys.argv[3], sys.argv[4:]))
    if sys.argv[1:] == ["check"]:
        raise SystemExit(check())
    print(__doc__)
    raise SystemExit(2)
