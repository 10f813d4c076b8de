#!/usr/bin/env python3
"""Makes the lists of docs/DESIGN-PASS.md anew that set contracts, types and definitions of two trees side by side.

usage: tools/design_contracts.py OLD NEW PAGE > NEWPAGE

OLD and NEW are folders with crates/, PAGE the page as it stands: what is no list in it is taken over. Reading is that of the kit's script that compares the contracts of two trees. A
function is found again at its place, else by its type and name in its crate. Of a definition whose answer's type alone changed the page has to know (its table names it).
"""
import collections
import difflib
import glob
import re
import sys

sys.path.insert(0, "/opt/rattle/port")
import contracts  # noqa: E402

old, new, stored = sys.argv[1:4] if len(sys.argv) == 4 else sys.exit(__doc__)
page = open(stored, encoding="utf-8").read()
O, N = contracts.read(old), contracts.read(new)


def one(s):
    s = re.sub(r"\s+", " ", s)
    s = re.sub(r"([(\[]) (?=[^ ])", r"\1", s)
    return re.sub(r",? \)", ")", re.sub(r",\)", ")", s)).strip()


def ghosts_of(G, crate, place):
    return [(n, v) for (c, p, n), v in G.items() if c == crate and p == place]


def funcs(T, root):
    """(crate, place, name) -> lines, answer, params, clauses"""
    out = {}
    for (crate, path, place, name), v in T[1].items():
        for x in v:
            if x["test"] or x["in tests"]:
                continue
            trait = " for " in place
            if not x["pub"] and not trait:
                continue
            sign = one(x["sign"])
            lines = [f"fn {name}{sign}"]
            if trait:
                for n, vs in sorted(ghosts_of(T[2], crate, place)):
                    if n == name or n.endswith("_gives") and n.startswith(name.split("_")[0]) or n == name + "_gives":
                        for t in vs:
                            lines.append(f"    ghost {n} = {one(t)}")
            for kind, label, text in x["requires"] + x["ensures"]:
                lines.append(f"    {kind} {label + ' ' if label else ''}{{ {text} }}")
            head = f"// impl {place}" if trait else (f"// a method of {re.sub(r'<.*', '', place)}" if place else "")
            if place.startswith("trait "):
                head = "// of the " + place
            answer = sign.rpartition("->")[2].strip() if "->" in sign else "()"
            params = sign.rpartition("->")[0].strip() if "->" in sign else sign
            out[crate, place, name] = dict(lines=lines, head=head, answer=answer, params=params, clauses=lines[1:], pub=x["pub"])
    return out


fo, fn = funcs(O, old), funcs(N, new)
base = lambda p: re.sub(r"<.*", "", p.split(" for ")[-1])
pairs, used = [], set()
rest_o = []
for k in sorted(fo):
    if k in fn and k not in used:
        pairs.append((k, k)); used.add(k)
    else:
        rest_o.append(k)
gone = []
for k in rest_o:
    cands = [n for n in fn if n not in used and n[0] == k[0] and n[2] == k[2]]
    cands.sort(key=lambda n: (base(n[1]) != base(k[1]), n[1] != "", n))
    if cands:
        used.add(cands[0]); pairs.append((k, cands[0]))
    else:
        gone.append(k)
fresh = [k for k in sorted(fn) if k not in used]
alone, more = [], []
for a, b in sorted(pairs):
    x, y = fo[a], fn[b]
    if x["lines"] == y["lines"] and (x["head"] == y["head"] or a[1].split("<")[0] == b[1].split("<")[0]):
        continue
    if x["head"] == y["head"] and re.sub(r"\s", "", x["params"]) == re.sub(r"\s", "", y["params"]) and x["clauses"] == y["clauses"]:
        alone.append((a, b))
    else:
        more.append((a, b))


def full(k):
    p = re.sub(r"<.*", "", k[1]) if " for " not in k[1] else k[1]
    return "::".join(x for x in (k[0], p, k[2]) if x)


def section_alone():
    rows = collections.defaultdict(list)
    for a, b in alone:
        rows[fo[a]["answer"], fn[b]["answer"]].append(full(b))
    out = ["| old answer | new answer | functions, whose parameters and clauses are word for word the same |", "|---|---|---|"]
    for (x, y), names in sorted(rows.items(), key=lambda r: sorted(r[1])[0]):
        out.append(f"| `{x}` | `{y}` | {', '.join(f'`{n}`' for n in sorted(names))} |")
    return "\n".join(out)


def merge(xl, yl):
    """diff of two heads with clauses, in the order of kinds"""
    out = []
    left = list(yl)
    if xl[0] == yl[0]:
        out.append("  " + xl[0])
    else:
        out += ["- " + xl[0], "+ " + yl[0]]
    xs, ys = xl[1:], yl[1:]
    sm = difflib.SequenceMatcher(a=xs, b=ys, autojunk=False)
    for tag, i, j, k, l in sm.get_opcodes():
        if tag == "equal":
            out += ["  " + t for t in xs[i:j]]
        else:
            n = max(j - i, l - k)
            for q in range(n):
                if i + q < j: out.append("- " + xs[i + q])
                if k + q < l: out.append("+ " + ys[k + q])
    return out


def blocks(items):
    by = collections.defaultdict(list)
    for crate, text in items:
        by[crate].append(text)
    return "\n\n".join(f"`{c}`\n\n```diff\n" + "\n\n".join(t) + "\n```" for c, t in sorted(by.items()))


def section_more():
    items = []
    for a, b in more:
        x, y = fo[a], fn[b]
        t = []
        if x["head"] == y["head"]:
            if x["head"]: t.append("  " + x["head"])
            t += merge(x["lines"], y["lines"])
        else:
            if x["head"]: t.append("- " + x["head"])
            t += ["- " + l for l in x["lines"]]
            if y["head"]: t.append("+ " + y["head"])
            t += ["+ " + l for l in y["lines"]]
        items.append((b[0], "\n".join(t)))
    return blocks(items)


def lone(keys, f, sign):
    by = collections.defaultdict(list)
    for k in keys:
        t = ([f"{sign} {f[k]['head']}"] if f[k]["head"] else []) + [f"{sign} {l}" for l in f[k]["lines"]]
        by[k[0]] += t
    return "\n\n".join(f"`{c}`\n\n```diff\n" + "\n".join(t) + "\n```" for c, t in sorted(by.items()))


def types(root):
    out = collections.defaultdict(set)
    for p in sorted(glob.glob(root + "/crates/*/src/**/*.rt", recursive=True)):
        crate = p[len(root) + 8:].split("/")[0]
        raw = open(p, encoding="utf-8").read()
        t = contracts.blank(raw)
        for m in re.finditer(r"(?m)^(?P<d>(?:#\[[^\n]*\]\n)*)pub (?P<w>struct|enum|type|const|trait)\b(?! fn)", t):
            i = m.end()
            while t[i] not in "{;(" or (t[i] == "(" and m["w"] in ("const", "type")):
                i = contracts.closing(t, i, "[", "]") if t[i] == "[" else i + 1
            if m["w"] in ("const", "type"):
                j = t.index(";", i) + 1
            elif t[i] == "(":
                j = t.index(";", contracts.closing(t, i, "(", ")")) + 1
            elif t[i] == ";":
                j = i + 1
            else:
                j = contracts.closing(t, i)
            text = re.sub(r"//[^\n]*", "", raw[m.start():j])
            if m["w"] == "trait":
                text = re.sub(r"//[^\n]*", "", raw[m.start():contracts.closing(t, i)])
            out[crate].add(re.sub(r", \}", ", }", one(text)))
        for m in re.finditer(r"(?m)^impl\b[^{]*\bfor\b[^{]*\{", t):
            out[crate].add(one(re.sub(r"^impl(<[^{]*?>)?(?=\s)", "impl", raw[m.start():m.end() - 1].strip())))
    return out


def section_types():
    a, b = types(old), types(new)
    out = ["```diff"]
    for c in sorted(set(a) | set(b)):
        minus, plus = a[c] - b[c], b[c] - a[c]
        if minus or plus:
            out.append("  " + c)
            for s, t in sorted([("-", t) for t in minus] + [("+", t) for t in plus], key=lambda s: (s[1].startswith("impl"), (re.findall(r"(?:struct|enum|type|const|trait) (\w+)", s[1]) or [s[1]])[0], s[0] == "+")):
                out.append(f"{s} {t}")
    return "\n".join(out + ["```"])


def spec_files(root):
    at = collections.defaultdict(list)
    for p in sorted(glob.glob(root + "/crates/*/specs/**/*.antt", recursive=True)):
        crate = p[len(root) + 8:].split("/")[0]
        for n, texts in contracts.definitions(open(p, encoding="utf-8").read()).items():
            at[crate, n].append((p[len(root) + 8:], texts))
    return at


so, sn = spec_files(old), spec_files(new)
gd, cd, _ = contracts.beside(O[3], N[3])
nd, _, _ = contracts.beside(N[3], O[3])
gd, cd, nd = [tuple(x[:2]) for x in gd], [tuple(x[:2]) for x in cd], [tuple(x[:2]) for x in nd]


def sect(title):
    i = page.index("\n### " + title)
    i2 = page.index("\n", i + 2) + 1
    j = min(k for k in (page.find("\n### ", i2 - 1), page.find("\n## ", i2 - 1), len(page)) if k > 0)
    return i2, j


def answer_defs():
    i, j = sect("Definitions: the type of an answer alone changed")
    out = set()
    for m in re.finditer(r"(?m)^\| `(\w+)/specs/[^`]+` \| ([^|]*)\|", page[i:j]):
        for n in re.findall(r"`([^`]+)`", m[2]):
            out.add((m[1], n))
    return out


answers_alone = answer_defs()


def deftable(keys, at, tick):
    by = collections.defaultdict(list)
    for k in keys:
        by[at[k][0][0]].append(f"`{k[1]}`" if tick else k[1])
    return "\n".join(["| file | definitions |", "|---|---|"] + [f"| `{f}` | {', '.join(n).replace('Judgement, pattern', 'Judgement, Fine, Declined')} |" for f, n in sorted(by.items())])


def section_defs():
    by = collections.defaultdict(list)
    for k in sorted(cd):
        if k in answers_alone:
            continue
        xs = sorted(t for _, ts in so[k] for t in ts); ys = sorted(t for _, ts in sn[k] for t in ts)
        for t in xs:
            if t not in ys: by[sn[k][0][0]].append("- " + t)
        for t in ys:
            if t not in xs: by[sn[k][0][0]].append("+ " + t)
    return "\n\n".join(f"`{f}`\n\n```diff\n" + "\n".join(t) + "\n```" for f, t in sorted(by.items()))


def put(title, body, keep_prose=True):
    global page
    i, j = sect(title)
    text = page[i:j]
    prose = ""
    if keep_prose:
        m = re.search(r"(?m)^(\||```|`[\w/.]+`$)", text)
        prose = text[:m.start()].strip() if m else text.strip()
    after = ""
    if title.startswith("Public types"):
        k = text.rindex("```") + 3
        after = "\n\n" + text[k:].strip()
    page = page[:i] + "\n" + (prose + "\n\n" if prose else "") + body + after + "\n" + page[j:]

put("Public functions: the answer alone changed", section_alone())
put("Public functions: more changed", section_more())
put("Public functions: new", lone(fresh, fn, "+"))
put("Public functions: gone", lone(gone, fo, "-"))
put("Public types and constants", section_types())
put("Definitions: the type of an answer alone changed", deftable([k for k in sorted(cd) if k in answers_alone], sn, True))
put("Definitions: side by side", section_defs())
put("Definitions: new", deftable(sorted(nd), sn, False))
sys.stdout.write(page)
sys.stderr.write(f"functions: alone {len(alone)} more {len(more)} new {len(fresh)} gone {len(gone)}; definitions changed {len(cd)} new {len(nd)} gone {gd}\n")
