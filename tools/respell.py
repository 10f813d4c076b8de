#!/usr/bin/env python3
"""Brings the names of definitions and lemmas to snake case, and those of facts and types to camel case: whole words of specs/, proofs/, of the
clauses and comments of src/, and of code spans in pages, by the table tools/respell.tsv.

usage: tools/respell.py table          makes the table anew from the tree, which port.py has turned: once, before the names are turned
       tools/respell.py turn PATH..    turns files: .antt and .rt; .edit whole words of 'old:' and 'new:'; .md code spans
A second run changes nothing. Names that fall together stop 'table'."""
import collections
import os
import re
import sys

TOP = os.path.dirname(os.path.dirname(os.path.realpath(__file__)))
TABLE = os.path.join(TOP, "tools", "respell.tsv")
WORD = re.compile(r"[^\s(){}\[\].;,:@\"«»`|]+")
SIGNATURE = re.compile(r"^(\s*)(?:where\s+|let\s+)?((?:(?:abbrev|unfoldable|pub|private)\s+)*)([^\s(){}:,;.=]+(?: [^\s(){}:,;.=]+)*)\s+:(?=\s|$)")
TYPED = re.compile(r"^\s*(?:(?:abbrev|unfoldable|pub|private)\s+)*(?:record|data)\s+([^\s(){}:,;]+)")
BINDER = re.compile(r"[({]([^\s(){}:,;.=]+(?: [^\s(){}:,;.=]+)*)\s+:\s")
KEYWORDS = {"abbrev", "unfoldable", "pub", "private", "record", "data", "where", "let", "in", "use", "mod", "unfolding", "module", "ruleset", "syntax", "="}
# Names that would fall together with a field of a record that cites them, or with a local name.
CHOSEN = {
    "oneMinusProduct": "one_minus_product_of", "ciIsPow": "ci_is_pow_of", "firstRows": "first_rows_of",
    "table-shape": "table_shaped", "aux-shape": "aux_shaped", "challenges-shape": "challenges_shaped",
}
IMPORT = re.compile(r"^\s*(?:ghost\s+)?(?:pub\s+)?use\s+([\w.·-]+)\.\{([^}]*)\}", re.M)


# What falls together in single files, mended before the table is made: the folder or file, what stands there, what is to stand.
BEFORE = [
    ("crates/transcript/proofs", r"\brow_words\b", "row_words_lem"),
    ("crates/u32list_example/proofs/PrintedExample.antt", r"(?<!\.)\bfirst_rows\b", "first_rows_are"),
    ("crates/list_bytes/proofs/put_entries/Proof.antt", r"(?:\bentry_at\b(?=\.result|\.ensures)|(?<=let )entry_at(?= = ))", "entry"),
    ("crates/list_repeats/proofs/has_repeats/Proof.antt", r"(?:\bentry_at\b(?=\.result|\.ensures)|(?<=let )entry_at(?= = ))", "entry"),
]
# Names of an import that had a middle dot, as 'admission as Entries·admission'.
DOTTED = re.compile(r"\b(?:Entries|Archives|Results|Lists|Stored)·([a-z_]+)")


def files(kinds):
    for root, dirs, names in os.walk(os.path.join(TOP, "crates")):
        dirs[:] = sorted(d for d in dirs if d not in ("out", "must-fail", "must-fail-more"))
        for name in sorted(names):
            if name.endswith(kinds):
                yield os.path.join(root, name)


def code(text):
    """The text without comments and quoted text."""
    return re.sub(r'"(?:\\.|[^"\\\n])*"|(?:(?<=\s)|^)--[^\n]*|//[^\n]*', " ", text, flags=re.M)


def snake(name):
    body, primes = re.match(r"(.*?)('*)$", name).groups()
    body = body.replace("-", "_")
    body = re.sub(r"([a-z0-9])([A-Z])", lambda m: m[1] + "_" + m[2], body)
    body = re.sub(r"([A-Z])([A-Z][a-z])", lambda m: m[1] + "_" + m[2], body)
    return body.lower() + primes


def camel(name):
    return "".join(w[:1].upper() + w[1:] for w in re.split(r"[-_]", name))


def turns(name):
    return re.fullmatch(r"[A-Za-z][\w'-]*", name, flags=re.A) and ("-" in name or re.search(r"[a-z0-9][A-Z]", name)) and (name[0].islower() or "-" in name)


def table():
    for top, old, new in BEFORE:
        for path in files((".antt",)):
            if os.path.relpath(path, TOP).startswith(top):
                text = open(path, encoding="utf-8").read()
                if re.search(old, text):
                    open(path, "w", encoding="utf-8").write(re.sub(old, new, text))
    own, types, kit, words_of = set(), set(), collections.defaultdict(set), {}
    crates = set(os.listdir(os.path.join(TOP, "crates")))
    for path in files((".antt",)):
        text = code(open(path, encoding="utf-8").read())
        in_proof = path.endswith("/Proof.antt")
        plain = re.sub(r"^\s*(pub )?use [^{\n]*", " ", text, flags=re.M)
        words_of[path] = set(re.findall(r"(?<![^\s(){}\[\];,:@\"«»`|])[^\s(){}\[\].;,:@\"«»`|]+", plain))
        for head, names in IMPORT.findall(text):
            parts = head.split(".")
            if not (parts[0] == "Rattle" and len(parts) > 1 and parts[1] in crates):
                for n in names.split(","):
                    kit[n.split(" as ")[0].strip()].add(path)
                    kit[n.split(" as ")[-1].strip()].add(path)
        joined = re.sub(r"\n\s+(?=[→:×])", " ", text)
        for line in joined.split("\n"):
            if line.lstrip().startswith(("use ", "pub use ", "ghost ", "mod ", "pub mod ", "import ")):
                continue
            m = TYPED.match(line)
            if m:
                if not m[1][0].isupper():
                    types.add(m[1])
                own.add(m[1])
            m = SIGNATURE.match(line)
            if m and not (in_proof and not m[1] and re.search(r":\s+tie\.", line)):
                for n in m[3].split(" "):
                    if n and n not in KEYWORDS:
                        own.add(n)
                        if re.search(r"(?:→|:)\s*Type \d\s*$", line) and not n[0].isupper() and re.fullmatch(r"[a-z][\w-]*", n, flags=re.A):
                            types.add(n)
            for names in BINDER.findall(line):
                for n in names.split(" "):
                    if n not in KEYWORDS:
                        own.add(n)
    rows, both = {}, []
    for n in sorted(own):
        if n in types and not n[0].isupper():
            rows[n] = camel(n)
        elif turns(n):
            rows[n] = camel(n.split("-")[0]) + "_" + snake("-".join(n.split("-")[1:])) if n[0].isupper() else snake(n)
    rows.update((n, new) for n, new in CHOSEN.items() if n in rows)
    taken = {}
    for n, new in rows.items():
        if "-" not in n:
            taken[new] = n
    used = set().union(*words_of.values())
    for n, new in rows.items():
        if "-" in n and n not in CHOSEN and (new in taken or new in used):
            rows[n] = new + "_lem"
            print(f"lemma of a definition's name: {n} -> {rows[n]}")
    for n in own:
        if re.search(r"\w-\w|^[a-z]\w*[A-Z]", n) and n not in rows and not n[0].isupper() and not n.startswith("◌"):
            rows[n] = snake(n)
    for n in list(rows):
        if n in kit:
            both.append((n, sorted(kit[n])[:2]))
            del rows[n]
    bad = 0
    for n, where in both:
        print(f"also of the kit, stays: {n}  {where}")
    for path, words in words_of.items():
        news = collections.defaultdict(set)
        for w in words:
            news[rows.get(w, w)].add(w)
        for new, olds in news.items():
            if len(olds) > 1 and any(o in rows for o in olds):
                print(f"falls together: {sorted(olds)} -> {new}  {os.path.relpath(path, TOP)}")
                bad += 1
    declared = collections.defaultdict(set)
    with open(TABLE, "w", encoding="utf-8") as f:
        for old, new in sorted(rows.items()):
            f.write(f"{old}\t{new}\n")
    print(f"{len(rows)} rows, {bad} fall together, types: {sorted(types)}")
    return 0


def load():
    with open(TABLE, encoding="utf-8") as f:
        return dict(l.rstrip("\n").split("\t") for l in f if "\t" in l)


def words(text, rows):
    return WORD.sub(lambda m: rows.get(m[0], m[0]), text)


def spans(text, rows):
    """Of prose: what stands in code spans, and bare words in camel case."""
    def bare(m):
        w = m[0]
        return rows[w] if w in rows and "-" not in w and re.search(r"[a-z0-9][A-Z]", w) else w
    out, last = [], 0
    for m in re.finditer(r"`[^`\n]+`", text):
        out.append(WORD.sub(bare, text[last:m.start()]))
        out.append("`" + words(m[0][1:-1], rows) + "`")
        last = m.end()
    out.append(WORD.sub(bare, text[last:]))
    return "".join(out)


def turn_code(text, rows, comment):
    """Code by whole words; comments by their spans; quoted text stays."""
    out, last = [], 0
    for m in re.finditer(r'(?P<q>b?"(?:\\.|[^"\\\n])*")|(?P<c>' + comment + r"[^\n]*)", text):
        out.append(words(text[last:m.start()], rows))
        out.append(m[0] if m["q"] else spans(m[0], rows))
        last = m.end()
    out.append(words(text[last:], rows))
    return "".join(out)


def turn(paths):
    rows = load()
    changed = 0
    for top in paths:
        found = [top] if os.path.isfile(top) else [os.path.join(r, n) for r, d, ns in os.walk(top) if "/out" not in r for n in ns]
        for path in found:
            if not path.endswith((".antt", ".rt", ".edit", ".md")):
                continue
            text = open(path, encoding="utf-8").read()
            if path.endswith(".antt"):
                new = turn_code(text, rows, r"(?<![^\s(){}.;,@\"«»])--")
            elif path.endswith(".rt"):
                new = turn_code(text, rows, r"//")
            elif path.endswith(".edit"):
                new = "".join(l if not l.startswith(("old:", "new:")) else l[:4] + turn_code(l[4:], rows, r"(?://|(?<=\s)-- )") for l in text.splitlines(keepends=True))
            else:
                new = spans(text, rows)
            new = DOTTED.sub(r"\1_of", new)
            if new != text:
                open(path, "w", encoding="utf-8").write(new)
                changed += 1
    print(f"{changed} files changed")
    return 0


if __name__ == "__main__":
    if sys.argv[1:] == ["table"]:
        raise SystemExit(table())
    if sys.argv[1:2] == ["turn"] and sys.argv[2:]:
        raise SystemExit(turn(sys.argv[2:]))
    print(__doc__)
    raise SystemExit(2)
