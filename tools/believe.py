#!/usr/bin/env python3
"""What a reader has to believe: every definition on which a public contract or a claimed theorem rests.

    tools/believe.py

Prints each file with the definitions in it that are needed, then those of the kit's library by module. Where it begins: the `requires` and `ensures` of every `pub fn` in
crates/*/src, and of every method of a public trait or of an `impl` of a trait for a public type there, with the `ghost` items beside it; and the statement of every theorem
that docs/CLAIMS.md cites. From there it follows each name, by the `use` lines of the file it stands in, to its declaration, and on through the names there. Of a theorem only
the statement counts, of a definition all of it; but of a decision (`Dec`) the type says all. The types that the code declares (`declared`) stand in src, with the contracts.

tools/check_claims.py compares this with the list in README.md.
"""
import functools
import pathlib
import re
import sys

sys.dont_write_bytecode = True

ROOT = pathlib.Path(__file__).resolve().parent.parent
CRATES = ROOT / "crates"
NAME = r"«[^»]+»|[^\s(){}«»;,]+"
DECLARATION = re.compile(rf"^( *)((?:pattern abbrev |abbrev |unfoldable )?)((?:pub )?)((?:record |data )?)({NAME})(?= :| \(| \{{|$)")
KEYWORDS = {"use", "ghost", "module", "where", "unfolding", "let", "in", "infixl", "infixr", "infix", "record", "data", "pub", "mod", "with", "λ", "Type"}


def uncommented(text):
    return re.sub(r"(?m)(^|\s)--.*$", r"\1", text)


def bare(name):
    """A name as it stands in a term: an operator without its places, a quoted name without its quotes."""
    return name.strip("«»").strip("◌")


def tokens(text):
    """The names in a text; what follows a dot is a field, and no name. `X.name` is a name of the module that is called X here."""
    text = re.sub(r"(?<=[\s)])\.(?:«[^»]+»|[^\s(){};,]+)", " ", " " + text)
    for quoted, word in re.findall(r"«([^»]+)»|([^\s(){}«»;,]+)", text):
        if quoted:
            yield quoted
        else:
            word = word.rstrip(".")
            yield word
            yield word.strip(".").strip("◌")


def imported(text):
    """The `use` lines: names with the module and the name there, and modules that are given a name."""
    names, modules = {}, {}
    for module, inside in re.findall(r"^ *(?:ghost )?(?:pub )?use ([^\s{;]+)\.\{([^}]*)\};?", text, re.M):
        for part in inside.split(","):
            there, _, here = part.strip().partition(" as ")
            if there:
                names[bare(here or there)] = (module, there.strip())
    for module, name in re.findall(r"^ *(?:ghost )?(?:pub )?use ([^\s{;]+) as ([^\s;]+);?", text, re.M):
        modules[name] = module
    return names, modules


class File:
    """An antt file: its imports, and its declarations by name."""

    def __init__(self, path):
        self.path = path
        text = uncommented(path.read_text())
        self.names, self.modules = imported(text)
        self.whole, self.statement, self.sealed, self.hidden = {}, {}, set(), set()
        self.local = {}  # constructors and fields, with the declaration that they belong to
        lines = text.splitlines()
        heads = []  # the modules with parameters that are open, with their indentation
        i = 0
        while i < len(lines):
            line = lines[i]
            opened = re.match(r"^( *)module _", line)
            if opened:
                heads = [h for h in heads if h[0] < len(opened.group(1))]
                head = [line]
                while "where" not in lines[i].split():
                    i += 1
                    head.append(lines[i])
                heads.append((len(opened.group(1)), " ".join(head)))
                i += 1
                continue
            found = DECLARATION.match(line)
            if not found or found.group(5) in KEYWORDS or (found.group(1) and not heads) or not (":" in line or found.group(4) or "(" in line):
                i += 1
                continue
            indent, how, public, kind, name = found.groups()
            heads = [h for h in heads if h[0] < len(indent)]
            if len(indent) > 2 * len(heads):
                i += 1
                continue
            around = " ".join(h[1] for h in heads)
            signature, i = [line], i + 1
            while i < len(lines) and (lines[i].startswith(indent + " ") and lines[i].strip()):
                signature.append(lines[i])
                i += 1
            body = []
            while i < len(lines) and not self.begins(lines[i], indent, name):
                body.append(lines[i])
                i += 1
            name = bare(name)
            self.statement[name] = around + " " + "\n".join(signature)
            self.whole[name] = around + " " + "\n".join(signature + body)
            if not (how or kind) or re.search(r"→ Dec (\S+|\(.*\))\s*$", "\n".join(signature)):
                self.sealed.add(name)
            if not public:
                self.hidden.add(name)
            if kind:
                for constructor in re.findall(rf"^ +(?:pub )?({NAME})(?: [^\n:]*)? :", "\n".join(signature[1:] + body), re.M):
                    self.local.setdefault(bare(constructor), name)

    def begins(self, line, indent, name):
        """Whether another declaration begins here."""
        if re.match(r" *module _", line):
            return True
        found = DECLARATION.match(line)
        if not found or found.group(5) in KEYWORDS or len(found.group(1)) > len(indent):
            return False
        return (" : " in line or line.rstrip().endswith(" :") or bool(found.group(4))) and not re.match(rf" *{re.escape(name)} [^:]*=", line)

    def said(self, name):
        """What a declaration says, without its own name."""
        return re.sub(rf"(?<![^\s«]){re.escape(name)}»?(?= *[:({{])", "", self.statement[name], count=1)

    def resolve(self, word):
        """Where a name is declared: in this file, or in a module."""
        if word in self.whole:
            return (None, word)
        if word in self.local:
            return (None, self.local[word])
        if word in self.names:
            return self.names[word]
        alias, _, name = word.partition(".")
        if name and alias in self.modules:
            return (self.modules[alias], name)
        return None


@functools.lru_cache(maxsize=None)
def file_at(path):
    return File(path)


def place(module):
    """The file of a module of ours, "code" for what the code declares, None for the kit's library."""
    found = re.match(r"Rattle\.(\w+)\.(specs|proofs)\.(.*)", module)
    if not found or not (CRATES / found.group(1)).is_dir():
        return None
    crate, part, rest = found.groups()
    if rest.startswith("declared."):
        return "code"
    path = CRATES / crate / part / (rest.replace(".", "/") + ".antt")
    if not path.is_file() and part == "proofs":
        return "code"
    return path


def part(path):
    """specs or proofs."""
    return path.relative_to(CRATES).parts[1]


def is_public(block, lines):
    """Whether a block is a public trait, or an `impl` of a trait for a public type: what it holds is as public, without the word."""
    found = re.match(r"impl\b.*\sfor\s(?:\w+::)*(\w+)", block)
    return block.startswith("pub trait ") or (found is not None and any(re.match(rf"pub (?:struct|enum) {found.group(1)}\b", line) for line in lines))


def contracts():
    """The `requires` and `ensures` of each public function and method, and what a public trait, or an `impl` of a trait for a public type, says of its methods in `ghost` items,
    as that of an operator; but no proof of a trait's laws. The source file, the name, the text."""
    for path in sorted(CRATES.glob("*/src/*.rt")):
        lines = path.read_text().splitlines()
        public = False  # in such a trait or impl
        for k, line in enumerate(lines):
            if re.match(r"(pub trait|impl)\b", line):
                public = is_public(line, lines)
            elif line.startswith("}"):
                public = False
            said = re.match(r" +ghost (?!use |laws )(\w+)(?: =|:) \{", line) if public else None
            found = re.match(r'^( *)(pub )?(?:const )?(?:extern "C" )?fn (\w+)', line)
            if said:
                yield path, said.group(1), line
            if not found or not (found.group(2) or (public and found.group(1))):
                continue
            clauses, deep = [], 0
            for later in lines[k:]:
                if re.match(r"\s*(requires|ensures)\b", later):
                    clauses.append(later)
                    deep = later.count("{") - later.count("}")
                elif deep > 0:
                    clauses.append(later)
                    deep += later.count("{") - later.count("}")
                elif later.rstrip().endswith(("{", "}", ";")):
                    break
            yield path, found.group(3), "\n".join(clauses)


def claimed():
    """The theorems that docs/CLAIMS.md cites."""
    for span in re.findall(r"`([^`]+)`", (ROOT / "docs" / "CLAIMS.md").read_text()):
        place_, _, names = " ".join(span.split()).partition(": ")
        if re.fullmatch(r"\w+/proofs/\S+\.antt", place_) and not place_.startswith("crate/"):
            for name in names.split(", "):
                yield CRATES / place_, name


def closure():
    """The definitions of ours that are needed, by file, and those of the kit, by module; and what could not be found."""
    ours, kit, lost = {}, {}, []
    waiting = []

    def follow(target, name, asked):
        """A name of a module, or of a file, is needed."""
        where = target if isinstance(target, pathlib.Path) else place(target)
        if where == "code":
            return
        if where is None:
            kit.setdefault(target, set()).add(name)
            return
        name = bare(name)
        if not where.is_file():
            lost.append(f"{asked}: {target} is not there")
            return
        file = file_at(where)
        owner = name if name in file.whole else file.local.get(name)
        if owner is None:
            lost.append(f"{asked}: {where.relative_to(CRATES)} does not declare {name}")
        elif owner not in ours.setdefault(where, set()):
            ours[where].add(owner)
            waiting.append((where, owner))

    def read(file, text, asked, names=None, modules=None):
        for word in tokens(text):
            if names is not None:
                alias, _, rest = word.partition(".")
                found = names.get(word) or ((modules[alias], rest) if rest and alias in modules else None)
            else:
                found = file.resolve(word)
            if found:
                follow(file.path if found[0] is None else found[0], found[1], asked)

    for path, function, text in contracts():
        names, modules = imported(path.read_text())
        read(None, text, f"{path.parts[-3]}::{function}", names, modules)
    for path, name in claimed():
        if not path.is_file() or bare(name) not in file_at(path).statement:
            lost.append(f"docs/CLAIMS.md: {path.relative_to(CRATES)} does not declare {name}")
        else:
            read(file_at(path), file_at(path).said(bare(name)), name)
    while waiting:
        path, name = waiting.pop()
        file = file_at(path)
        sealed = part(path) != "specs" and name in file.sealed
        read(file, file.said(name) if sealed else file.whole[name], f"{path.relative_to(CRATES)}: {name}")
    shown = {path: names - file_at(path).hidden for path, names in ours.items()}
    return {path: names for path, names in shown.items() if names}, kit, lost


def main():
    ours, kit, lost = closure()
    for path in sorted(ours):
        print(f"{path.relative_to(CRATES)}: {', '.join(sorted(ours[path]))}")
    for module in sorted(kit):
        print(f"{module}: {', '.join(sorted(kit[module]))}")
    for line in lost:
        print("not found:", line, file=sys.stderr)
    return 1 if lost else 0


if __name__ == "__main__":
    sys.exit(main())
