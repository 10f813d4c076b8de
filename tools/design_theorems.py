#!/usr/bin/env python3
"""Compares the theorems and lemmas of two trees, by their statements alone.

usage: tools/design_theorems.py OLD NEW [--tables [PAGE]] [--named] [--check PAGE] [--private] [--specs]

OLD and NEW are folders with crates/. Every name with a type signature, and every record and data type, of crates/*/specs/**/*.antt and
crates/*/proofs/**/*.antt, inside `module _ (..) where` too: the module's parameters belong to the statement, and so do the private abbrevs that it
uses. Left out: proofs/**/{Answers,Invariants,Goals,Given}.antt, names that are not pub (but with --private), and what specs/ has as definitions
(abbrev, unfoldable, record, data: `port.py contracts` compares those; --specs compares them here too).

An old name is found again in the same file, else in another file of its crate, else in another crate, there only where the statement is the same.
A pair is
  the same       white space, import paths, qualifiers and aliases of imports aside
  the same, in other clothes: where the parameters stand (module or arrow, grouped or not), or their names
  answer         only types and cases of answers differ (old enums that are gone; Result, Option, Ok, Err, Some, None), one for one in the file
  asks less      the conclusion is the same, and the hypotheses are some of the old ones
  changed        else
A name that is private now counts as gone, with a remark. A line with - is the old text, with + the new one.

  (nothing)      counts, then what is changed, gone and new, as text
  --tables       the same as the tables and ```diff blocks of docs/DESIGN-PASS.md; the third column of what is gone is taken over from PAGE
  --named        what README.md, docs/*.md and docs/changes/*.md of OLD name in backticks: changed or gone, with the pages
  --check PAGE   which names the page's lists miss, and which it has that it should not have
"""
import collections
import glob
import os
import re
import sys

SKIP = {"Answers.antt", "Invariants.antt", "Goals.antt", "Given.antt", "Lib.antt"}
MODS = ("abbrev", "unfoldable", "pub", "opaque")
TOKEN = re.compile(r'"(?:[^"\\]|\\.)*"|«[^»]*»|[(){}\[\];,]|[^\s(){}\[\];,"]+')


# ---- reading
def uncomment(line):
    out, i, inside = "", 0, False
    while i < len(line):
        c = line[i]
        if inside:
            out += c
            if c == "\\" and i + 1 < len(line):
                out += line[i + 1]
                i += 1
            elif c == '"':
                inside = False
        elif c == '"':
            inside, out = True, out + c
        elif line.startswith("--", i) and (i == 0 or line[i - 1] in " \t") and (i + 2 == len(line) or line[i + 2] in " -"):
            break
        else:
            out += c
        i += 1
    return out.rstrip()


def squeeze(t):
    return " ".join(t.split())


def depth(t):
    return sum(t.count(c) for c in "({[") - sum(t.count(c) for c in ")}]")


class Item:
    def __init__(self, crate, file, name, pub, kind, mods, ctx, scope, text, body, line):
        self.crate, self.file, self.name, self.pub, self.kind = crate, file, name, pub, kind
        self.mods, self.ctx, self.scope, self.text, self.body, self.line = mods, ctx, scope, text, body, line

    @property
    def key(self):
        return self.file, self.name

    def finish(self, uses):
        """The whole statement: the modules with the private abbrevs that are used, then the item."""
        own = squeeze(self.text)
        need = [own] + [c for c in self.ctx if isinstance(c, str)]
        used, more = set(), True
        while more:
            more = False
            for n, t in self.scope.items():
                if n not in used and n != self.name and any(has_name(n, x) for x in need):
                    used.add(n)
                    need.append(t)
                    more = True
        parts = []
        for c in self.ctx:
            if isinstance(c, str):
                parts.append(c)
            elif c[0] in used:
                parts.append("abbrev " + c[1])
        self.statement = squeeze(" ".join(parts + [own] + ([self.body] if self.kind == "definition" else [])))
        self.head = squeeze(" ".join(parts + [own]))
        self.short = squeeze(" ".join([c for c in self.ctx if isinstance(c, str)] + [own]))
        self.uses = uses
        self.tokens = canonical(self.statement, uses)
        self.own_abbrevs = [("abbrev " + c[1]) for c in self.ctx if not isinstance(c, str) and c[0] in used]
        self.raw = canonical(self.statement, ({}, uses[1]))


def has_name(n, text):
    core = n.strip("◌") if "◌" in n and len(n) > 1 else n
    toks = TOKEN.findall(text)
    if "◌" in n:
        return core in toks or n in toks
    return any(t == n or t.startswith(n + ".") for t in toks)


def canonical(text, uses):
    """The tokens without qualifiers of imports, each import by its own name; a name that the statement binds stays."""
    names, mods = uses
    out, toks = [], TOKEN.findall(text)
    bound = {t for t, n in zip(toks, toks[1:] + [""]) if n == ":"}
    for m in re.finditer(r"[({]\s*([^(){}:]+?)\s*:", text):
        bound |= set(m[1].split())
    for t in toks:
        if t in bound:
            out.append(t)
            continue
        t = names.get(t, t)
        if "." in t and not t.startswith('"'):
            head, _, rest = t.partition(".")
            if head in mods and rest:
                t = rest
            elif head in names and head not in bound:
                t = names[head] + "." + rest
        out.append(t)
    return out


def read_uses(chunk, names, mods):
    t = squeeze(chunk)
    t = re.sub(r"^pub ", "", t)
    m = re.match(r"use (\S+?)\.\{(.*)\}$", t)
    if m:
        for part in m[2].split(","):
            part = part.strip()
            if " as " in part:
                a, b = (x.strip() for x in part.split(" as "))
                names[b] = a
        return
    m = re.match(r"use (\S+?)(?: as (\S+))?$", t)
    if m:
        mods.add(m[2] or m[1].split(".")[-1])


def parse(crate, root, path):
    file = os.path.relpath(path, os.path.join(root, "crates"))
    lines = [(i + 1, uncomment(l)) for i, l in enumerate(open(path, encoding="utf-8").read().split("\n"))]
    lines = [(i, l) for i, l in lines if l.strip()]
    names, mods, items = {}, set(), []

    def block(rows, ctx, scope):
        if not rows:
            return
        base = min(len(l) - len(l.lstrip()) for _, l in rows)
        chunks, open_ = [], 0
        for i, l in rows:
            ind = len(l) - len(l.lstrip())
            if ind == base and open_ <= 0 and l.strip()[0] not in ")}]" or not chunks:
                chunks.append([])
                open_ = 0
            chunks[-1].append((i, l))
            open_ += depth(re.sub(r'"(?:[^"\\]|\\.)*"', "", l))
        scope, ctx, last = dict(scope), list(ctx), None
        for ch in chunks:
            text = "\n".join(l for _, l in ch)
            words = text.split()
            if words[0] == "use" or words[:2] == ["pub", "use"]:
                read_uses(text, names, mods)
                continue
            if words[0].startswith("infix") or words[:2] == ["pub", "mod"] or words[0] == "mod":
                continue
            if words[0] == "unfolding":
                continue
            if words[0] == "module" or words[:2] == ["pub", "module"]:
                head, k = "", 0
                for k, (_, l) in enumerate(ch):
                    head += " " + l
                    if l.split()[-1] == "where" and depth(head) == 0:
                        break
                last = None
                block(ch[k + 1:], ctx + [squeeze(head)], scope)
                continue
            m, w = [], list(words)
            while w and w[0] in MODS:
                m.append(w.pop(0))
            if w and w[0] in ("record", "data") and len(w) > 1 and w[1] not in ("{", "=") and "where" in w:
                last = None
                items.append(Item(crate, file, w[1], "pub" in m, w[0], m, list(ctx), scope, text, "", ch[0][0]))
                continue
            if len(w) > 1 and w[1] == ":":
                it = Item(crate, file, w[0], "pub" in m, "definition" if "abbrev" in m or "unfoldable" in m else "theorem",
                          m, list(ctx), scope, text, "", ch[0][0])
                items.append(it)
                last = it
                if "abbrev" in m and "pub" not in m:
                    t = squeeze(" ".join(w))
                    scope[w[0]] = t
                    ctx.append((w[0], t))
                continue
            if "abbrev" in m:
                t = squeeze(" ".join(w))
                scope[w[0]] = t
                ctx.append((w[0], t))
                last = None
                continue
            if last is not None:
                last.body = squeeze(last.body + " " + text)
                if last.name in scope and "pub" not in last.mods and "abbrev" in last.mods:
                    t = squeeze(last.text.replace("abbrev", "", 1) + " " + last.body)
                    scope[last.name] = t
                    ctx[:] = [(last.name, t) if not isinstance(c, str) and c[0] == last.name else c for c in ctx]
        return

    block(lines, [], {})
    for it in items:
        it.finish((names, mods))
    return items


def tree(root):
    items = []
    for part in ("specs", "proofs"):
        for path in sorted(glob.glob(os.path.join(root, "crates", "*", part, "**", "*.antt"), recursive=True)):
            rel = os.path.relpath(path, os.path.join(root, "crates"))
            bits = rel.split(os.sep)
            if os.path.basename(path) in SKIP:
                continue
            for it in parse(bits[0], root, path):
                it.part = part
                items.append(it)
    return items


# ---- statements as hypotheses and a conclusion
def groups(tokens):
    """Splits a token list at arrows of depth 0."""
    out, cur, d = [], [], 0
    for t in tokens:
        d += (t in "({[" and len(t) == 1) - (t in ")}]" and len(t) == 1)
        if t == "→" and d == 0:
            out.append(cur)
            cur = []
        else:
            cur.append(t)
    return out + [cur]


def telescope(tokens):
    """[(name, how, type)] where all of the tokens are groups (x y : A) or {x : A}, else None."""
    out, i = [], 0
    while i < len(tokens):
        if tokens[i] not in ("(", "{"):
            return None
        d, j = 0, i
        while j < len(tokens):
            d += (tokens[j] in ("(", "{", "[")) - (tokens[j] in (")", "}", "]"))
            if d == 0:
                break
            j += 1
        inner, how = tokens[i + 1:j], tokens[i]
        d, colon = 0, None
        for k, t in enumerate(inner):
            d += (t in ("(", "{", "[")) - (t in (")", "}", "]"))
            if t == ":" and d == 0:
                colon = k
                break
        if colon is None or any(t in ("(", ")", "{", "}", "→", "◌≡◌") for t in inner[:colon]):
            return None
        for n in inner[:colon]:
            out.append([n, how, inner[colon + 1:]])
        i = j + 1
    return out


def flat(it):
    """(hypotheses, conclusion): the parameters of modules and of the type in one row."""
    if it.kind not in ("theorem",):
        return None
    toks, hyps = list(it.tokens), []
    while toks[:2] == ["module", "_"]:
        d = 0
        for k, t in enumerate(toks):
            d += (t in ("(", "{", "[")) - (t in (")", "}", "]"))
            if t == "where" and d == 0:
                break
        tel = telescope(toks[2:k])
        if tel is None:
            return None
        hyps += tel
        toks = toks[k + 1:]
        if toks[:1] == ["abbrev"]:
            return None
    while toks and toks[0] in MODS:
        toks.pop(0)
    if len(toks) < 2 or toks[0] != it.name or toks[1] != ":":
        return None
    segs = groups(toks[2:])
    for s in segs[:-1]:
        tel = telescope(s)
        hyps += tel if tel is not None else [["_", "(", s]]
    concl = segs[-1]
    for h in hyps:
        h[2] = [t for t in h[2]]
        while len(h[2]) > 2 and h[2][0] == "(" and h[2][-1] == ")" and closes(h[2]):
            h[2] = h[2][1:-1]
    used = lambda n, where: any(t == n or t.startswith(n + ".") for t in where)
    for k, h in enumerate(hyps):
        if h[0] != "_" and not used(h[0], concl) and not any(used(h[0], g[2]) for g in hyps[k + 1:]):
            h[0] = "_"
    return hyps, concl


def closes(t):
    d = 0
    for k, x in enumerate(t):
        d += (x in ("(", "{", "[")) - (x in (")", "}", "]"))
        if d == 0 and k < len(t) - 1:
            return False
    return True


def renamed(f):
    """The same with the variables by their numbers."""
    hyps, concl = f
    table, out = {}, []
    sub = lambda ts: tuple(table.get(t, table[t.split(".")[0]] + t[len(t.split(".")[0]):] if t.split(".")[0] in table else t) for t in ts)
    for n, how, ty in hyps:
        ty = sub(ty)
        if n != "_":
            table[n] = f"#{len(table)}"
        out.append((table.get(n, "_") if n != "_" else "_", ty))
    return tuple(out), sub(concl)


def bare(f):
    return tuple((n, tuple(t)) for n, _, t in f[0]), tuple(f[1])


# ---- answers
CASES = {"Ok", "Err", "Some", "None", "Fine", "Declined"}


def collapse(tokens):
    """`Result ℕ Refusal` and `Option ℕ` as one token."""
    out, i = [], 0
    def arg(i):
        if i < len(tokens) and tokens[i] in ("(", "{"):
            d, j = 0, i
            while True:
                d += (tokens[j] in ("(", "{")) - (tokens[j] in (")", "}"))
                j += 1
                if d == 0:
                    return j
        return i + 1
    while i < len(tokens):
        t = tokens[i]
        if t in ("Result", "Option") and i + 1 < len(tokens) and tokens[i + 1] not in (")", "→", ";", ","):
            j = arg(i + 1)
            if t == "Result":
                j = arg(j)
            out.append("‹" + " ".join(tokens[i:j]) + "›")
            i = j
        else:
            out.append(t)
            i += 1
    k = 0
    while k + 2 < len(out):
        if out[k] == "(" and out[k + 1].startswith("‹") and out[k + 2] == ")" and (k == 0 or out[k - 1] != ":"):
            out[k:k + 3] = [out[k + 1]]
        k += 1
    return out


def enums(root):
    """The enums and structs of the sources, with their cases."""
    types, cases = set(), set()
    for path in glob.glob(os.path.join(root, "crates", "*", "src", "**", "*.rt"), recursive=True):
        text = re.sub(r"//.*", "", open(path, encoding="utf-8").read())
        for m in re.finditer(r"\b(enum|struct) (\w+)[^{;]*\{([^}]*)\}", text):
            types.add(m[2])
            if m[1] == "enum":
                cases |= {c for c in re.findall(r"(?:^|,)\s*(\w+)", re.sub(r"\([^)]*\)", "", m[3])) if c[0].isupper()}
    return types, cases


def answer_alone(a, b, gone):
    x, y = collapse(a.raw), collapse(b.raw)
    if len(x) != len(y):
        return None
    table, names = {}, a.uses[0]
    for s, t in zip(x, y):
        if s == t or names.get(s, s) == b.uses[0].get(t, t) and names.get(s, s) not in gone:
            continue
        if names.get(s, s) not in gone or not (t in CASES or t.startswith("‹") or t in ("Judgement", "Ordering", "Less", "Equal", "Greater") or t in a.newtypes):
            return None
        if table.setdefault(s, t) != t:
            return None
    return table


# ---- comparing
def compare(old, new, root_old, root_new):
    by_file, by_crate, by_name = {}, collections.defaultdict(list), collections.defaultdict(list)
    for it in new:
        by_file.setdefault(it.key, it)
        by_crate[it.crate, it.name].append(it)
        by_name[it.name].append(it)
    told, cold = enums(root_old)
    tnew, cnew = enums(root_new)
    gone = (told | cold)
    pairs, taken = [], set()
    olds = {it.key for it in old}
    for it in old:
        it.newtypes = tnew
        free = lambda c: c.key not in olds and id(c) not in taken
        hit = by_file.get(it.key)
        if hit is None:
            own = [c for c in by_crate[it.crate, it.name] if free(c)]
            hit = own[0] if own else None
            if hit is None:
                for c in by_name[it.name]:
                    if free(c) and (c.tokens == it.tokens or answer_alone(it, c, gone) is not None or same_flat(it, c)):
                        hit = c
                        break
        if hit is not None:
            taken.add(id(hit))
        pairs.append((it, hit, judge(it, hit, gone)))
    return pairs, [it for it in new if id(it) not in taken]


def same_flat(a, b):
    f, g = flat(a), flat(b)
    return f is not None and g is not None and renamed(f) == renamed(g)


def judge(a, b, gone):
    if b is None:
        return "gone"
    if a.pub and not b.pub:
        return "private"
    if a.kind == b.kind == "theorem":
        strip = lambda it: [t for t in it.tokens if t != "pub"]
    else:
        strip = lambda it: it.tokens
    if strip(a) == strip(b):
        return "same"
    if same_flat(a, b):
        return "clothes"
    if answer_alone(a, b, gone) is not None:
        return "answer"
    f, g = flat(a), flat(b)
    if f is not None and g is not None and f[1] == g[1]:
        rest = [tuple(h[2]) for h in f[0]]
        for h in g[0]:
            if tuple(h[2]) in rest:
                rest.remove(tuple(h[2]))
            else:
                return "changed"
        return "asks less"
    return "changed"


# ---- printing
def by_file(items):
    out = collections.defaultdict(list)
    for it in items:
        out[it[0].file if isinstance(it, tuple) else it.file].append(it)
    return sorted(out.items())


def wanted(it, args):
    if not it.pub and "--private" not in args:
        return False
    if it.part == "specs" and it.kind != "theorem" and "--specs" not in args:
        return False
    return True


def diff(a, b):
    """Private abbrevs of a module are printed only where they differ."""
    x, y = a.statement, b.statement
    for t in a.own_abbrevs:
        if t in b.own_abbrevs:
            x, y = squeeze(x.replace(t, "", 1)), squeeze(y.replace(t, "", 1))
    lines = [f"- {x}", f"+ {y}"]
    if a.file != b.file:
        lines.insert(0, f"  {a.name} went to {b.file}")
    return lines


def report(pairs, fresh, args):
    count = collections.Counter(j for _, _, j in pairs)
    print(f"old names {len(pairs)}: the same {count['same']}, the same in other clothes {count['clothes']}, cases of an answer alone {count['answer']}, "
          f"asks less {count['asks less']}, changed {count['changed']}, private now {count['private']}, gone {count['gone']}; new {len(fresh)}")
    moved = [(a, b) for a, b, j in pairs if b is not None and a.file != b.file]
    print(f"\n# elsewhere now: {len(moved)}")
    for a, b in moved:
        print(f"  {a.file}: {a.name} -> {b.file}")
    for what in ("clothes", "answer", "asks less", "changed"):
        some = [(a, b) for a, b, j in pairs if j == what]
        print(f"\n# {what}: {len(some)}")
        for file, ps in by_file(some):
            print(f"\n{file}")
            for a, b in sorted(ps, key=lambda p: p[0].name):
                print("\n".join(diff(a, b)))
    for what in ("private", "gone"):
        some = [a for a, b, j in pairs if j == what]
        print(f"\n# {what}: {len(some)}")
        for file, its in by_file(some):
            print(f"  {file}: " + ", ".join(sorted(i.name for i in its)))
    print(f"\n# new: {len(fresh)}")
    for file, its in by_file(fresh):
        print(f"  {file}: " + ", ".join(i.name for i in its))


def gone_table(lost, known):
    print("| file | gone | what states it now |\n|---|---|---|")
    for file, its in by_file(lost):
        plain = sorted(a.name for a, j in its if j == "gone")
        own = sorted(a.name for a, j in its if j == "private")
        text = ", ".join(plain) + ("; " if plain and own else "") + (", ".join(own) + (" stand" if len(own) > 1 else " stands") + " there, for that file alone" if own else "")
        print(f"| `{file}` | {text} | {known.get(file, '')} |")


def tables(pairs, fresh, page, args):
    known = {}
    if page:
        text = open(page, encoding="utf-8").read()
        known = dict(re.findall(r"^\| `([^`]+/proofs/[^`]+)` \| [^|]* \| ([^|]*) \|$", text, re.M))
    lost = [(a, j) for a, _, j in pairs if j in ("gone", "private") and a.pub]
    print(f"Lemmas, {len(lost)} that other files could use:\n")
    gone_table(lost, known)
    if "--private" in args:
        lost = [(a, j) for a, _, j in pairs if j == "gone" and not a.pub]
        print(f"\nLemmas, {len(lost)} for their own file alone:\n")
        gone_table(lost, {})
    pairs = [(a, b, j) for a, b, j in pairs if a.pub]
    fresh = [b for b in fresh if b.pub]
    print("\n### Theorems and lemmas: the cases of an answer alone changed\n\n| file | theorems |\n|---|---|")
    for file, ps in by_file([(a, b) for a, b, j in pairs if j == "answer"]):
        print(f"| `{file}` | " + ", ".join(f"`{n}`" for n in sorted(a.name for a, _ in ps)) + " |")
    print("\n### Theorems and lemmas: side by side\n")
    for file, ps in by_file([(a, b) for a, b, j in pairs if j in ("changed", "asks less", "clothes")]):
        print(f"`{file}`\n\n```diff")
        for a, b in sorted(ps, key=lambda p: p[0].name):
            print("\n".join(diff(a, b)))
        print("```\n")
    print("### Theorems and lemmas: new\n\n| file | theorems |\n|---|---|")
    for file, its in by_file(fresh):
        print(f"| `{file}` | " + ", ".join(i.name for i in its) + " |")
    moved = [(a, b) for a, b, j in pairs if b is not None and a.file != b.file]
    if moved:
        print("\nWent elsewhere, word for word where not among those above: " + "; ".join(f"`{a.name}` from `{a.file}` to `{b.file}`" for a, b in moved) + ".")


def pages_of(root):
    return [p for p in [os.path.join(root, "README.md")] + sorted(glob.glob(os.path.join(root, "docs", "*.md")) + glob.glob(os.path.join(root, "docs", "changes", "*.md")))
            if os.path.exists(p)]


def named_in(root, old):
    """For each old item the pages that name it, by file (sure) or by the bare name (maybe another of that name)."""
    sure, maybe = collections.defaultdict(set), collections.defaultdict(set)
    files = {it.file for it in old}
    funcs = set()
    for path in glob.glob(os.path.join(root, "crates", "*", "src", "**", "*.rt"), recursive=True):
        funcs |= set(re.findall(r"\bfn (\w+)", open(path, encoding="utf-8").read()))
    names = {it.name for it in old}
    for page in pages_of(root):
        short = os.path.relpath(page, root)
        for line in open(page, encoding="utf-8"):
            under, end = None, 0
            for m in re.finditer(r"`([^`]+)`", line):
                before, span = line[end:m.start()], squeeze(m[1])
                f = re.search(r"([\w/]+\.antt)`?:? *$", line[:m.start()])
                if f:
                    under = f[1]
                elif not re.fullmatch(r"`?[, ]*(and )?", before):
                    under = None
                end = m.end()
                p = re.match(r"(?:crates/)?([\w/]+\.antt)(?::| with)? +(.*)$", span)
                if re.match(r"\S*must-fail\S*: ", span):
                    continue
                for n in re.split(r"[,\s()]+", p[2] if p else span):
                    n = n.split("::")[-1].split(": ")[-1]
                    where = p[1] if p else under
                    if n not in names:
                        continue
                    if where:
                        for g in files:
                            if g == where or g.endswith("/" + where):
                                sure[g, n].add(short)
                    else:
                        maybe[n].add(short + ("?" if n in funcs else ""))
    return sure, maybe


def named(pairs, root, args):
    old = [a for a, _, _ in pairs]
    sure, maybe = named_in(root, old)
    rows = []
    for a, b, j in pairs:
        where = sorted(sure.get(a.key, set()) | maybe.get(a.name, set()))
        if where or (a.part == "specs" and a.kind == "theorem"):
            rows.append((a, b, j, where))
    count = collections.Counter(j for _, _, j, _ in rows)
    print(f"named on a page of OLD, or a theorem in specs/: {len(rows)}: " + ", ".join(f"{k} {v}" for k, v in count.items()))
    print("(a ? after a page: the name is a function's too, and only the bare name stands there)\n")
    for a, b, j, where in rows:
        if j in ("same",):
            continue
        print(f"{a.file}: {a.name} [{j}] " + ", ".join(where))
        if b is not None and j not in ("gone",):
            for l in diff(a, b):
                print("    " + l)


def check(pairs, fresh, page, args):
    text = open(page, encoding="utf-8").read()

    def section(a, b):
        i = text.index(a)
        j = text.find(b, i + 1)
        return text[i:j if j > 0 else len(text)]

    def table(sec):
        out = set()
        for m in re.finditer(r"^\| `([^`]+\.antt)` \| ([^|]*)\|", sec, re.M):
            cell = re.sub(r" stands? there, for that file alone", "", m[2])
            for n in re.split(r"[,;]\s*", cell):
                n = n.strip().strip("`")
                if n:
                    out.add((m[1], n))
        return out

    def blocks(sec):
        out = set()
        for m in re.finditer(r"`([^`]+\.antt)`\n\n```diff\n(.*?)```", sec, re.S):
            for l in m[2].split("\n"):
                if l.startswith(("+ ", "- ")):
                    w = re.search(r"(?:record|data) (\S+)", l) if re.search(r"\bpub (record|data) ", l) else re.search(r"pub (\S+) :", l)
                    if w:
                        out.add((m[1], w[1]))
        return out

    def show(what, mine, pages):
        print(f"\n# {what}: by this script {len(mine)}, on the page {len(pages)}")
        for label, s in (("the page misses", mine - pages), ("the page has, and should not", pages - mine)):
            if s:
                print(f"  {label}:")
                for f in sorted({x for x, _ in s}):
                    print(f"    {f}: " + ", ".join(sorted(n for g, n in s if g == f)))

    lost = {a.key for a, _, j in pairs if j in ("gone", "private")}
    show("gone", lost, table(section("Lemmas, ", "Must-fail edits:")))
    ans = table(section("### Theorems and lemmas: the cases", "### Theorems and lemmas: side"))
    side = blocks(section("### Theorems and lemmas: side", "### Theorems and lemmas: new"))
    same = {a.key for a, _, j in pairs if j == "clothes"}
    show("answer alone, or side by side", {a.key for a, _, j in pairs if j in ("answer", "changed", "asks less")}, (ans | side) - same)
    if same - (ans | side):
        print("  not on the page, and only the parameters stand otherwise: " + ", ".join(f"{f}: {n}" for f, n in sorted(same - (ans | side))))
    show("changed, that the page has under answers alone", {a.key for a, _, j in pairs if j == "changed"} & ans, set())
    show("new", {i.key for i in fresh}, table(section("### Theorems and lemmas: new", "\n## ")))
    texts = {(m, l[2:]) for m, b in re.findall(r"`([^`]+\.antt)`\n\n```diff\n(.*?)```", section("### Theorems and lemmas: side", "### Theorems and lemmas: new"), re.S)
             for l in b.split("\n") if l[:2] == "+ "}
    ours = {(b.file, x): b.name for a, b, j in pairs if b is not None for x in (b.statement, b.head, b.short)}
    stale = [(f, t) for f, t in sorted(texts) if (f, t) not in ours]
    print(f"\n# new texts on the page that are not those of NEW word for word: {len(stale)}")
    for f, t in stale:
        print(f"  {f}: {t[:300]}")


def main(argv):
    args = [a for a in argv if not a.startswith("--")]
    flags = [a for a in argv if a.startswith("--")]
    if len(args) < 2:
        sys.exit(__doc__)
    old = [it for it in tree(args[0])]
    new = [it for it in tree(args[1])]
    pairs, fresh = compare(old, new, args[0], args[1])
    # a name that was private and is pub now is new to other files
    if "--private" not in flags:
        fresh = fresh + [b for a, b, _ in pairs if b is not None and b.pub and not a.pub]
    fresh = sorted((b for b in fresh if wanted(b, flags)), key=lambda b: (b.file, b.line))
    pairs = [(a, b, j) for a, b, j in pairs if wanted(a, flags)]
    if "--check" in flags:
        check(pairs, fresh, args[2], flags)
    elif "--named" in flags:
        named(pairs, args[0], flags)
    elif "--tables" in flags:
        tables(pairs, fresh, args[2] if len(args) > 2 else None, flags)
    else:
        report(pairs, fresh, flags)


if __name__ == "__main__":
    try:
        main(sys.argv[1:])
    except BrokenPipeError:
        sys.stderr.close()
