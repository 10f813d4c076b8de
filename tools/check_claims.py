#!/usr/bin/env python3
"""Checks the pages that a reader goes by: docs/CLAIMS.md, docs/RULES.md, the list in README.md of what there is to believe, and docs/DECISIONS.md.

    tools/check_claims.py

- Every definition, function, theorem, must-fail edit, program and file that docs/CLAIMS.md or docs/RULES.md cites is there. A page cites, in backticks,
  `crate/specs/File.antt: a, b`, `crate/src/lib.rt: a`, `crate/proofs/File.antt: a`, `crate/must-fail: a, b` (in must-fail or must-fail-more), the program `vectors_field`, and files.
- docs/CLAIMS.md is made of blocks: a sentence, then lines that begin with one of LABELS.
- README.md lists, under the heading BELIEVE, exactly the files in specs/ on which public contracts and claimed theorems rest, the definitions in proofs/ that they name, and the
  definitions of the kit's library (tools/believe.py computes them).
- docs/DECISIONS.md lists every function with a `requires`.

Prints how many citations were checked, and each thing that is missing; ends with status 1 where one is.
"""
import pathlib
import re
import sys

sys.dont_write_bytecode = True

import believe  # noqa: E402

ROOT = pathlib.Path(__file__).resolve().parent.parent
CRATES = ROOT / "crates"
LABELS = ("defined by", "proved by", "refused", "tested by", "because of", "stands in", "shown by")
BELIEVE = "## What there is to believe"


def declares(path, name):
    """Whether a file declares the name: a definition or a theorem has its signature, a function or a type its item."""
    if not path.is_file():
        return False
    text = path.read_text()
    quoted = re.escape(name)
    if path.suffix == ".antt":
        return re.search(rf"^[ \t]*(?:(?:abbrev|unfoldable) )?pub (?:record |data )?«?{quoted}»?[ :(]", text, re.M) is not None
    return re.search(rf"\b(?:fn|struct|enum|const) {quoted}\b", text) is not None


def spans(text):
    """What stands in backticks; a line may end within."""
    return [" ".join(span.split()) for span in re.findall(r"`([^`]+)`", text)]


def uncited(page):
    """How many citations a page has, and those of which nothing is there."""
    checked, missing = 0, []
    for span in spans((ROOT / page).read_text()):
        place, _, names = span.partition(": ")
        if place.startswith("crate/") or "*" in span:
            continue  # how citations look
        if names:
            for name in names.split(", "):
                checked += 1
                if place.endswith("/must-fail"):
                    good = any((CRATES / folder / f"{name}.edit").is_file() for folder in (place, place + "-more"))
                else:
                    good = declares(CRATES / place, name)
                if not good:
                    missing.append(f"{place}: {name}")
        elif re.fullmatch(r"vectors_\w+", span):
            checked += 1
            if not (CRATES / span / "src" / "main.rt").is_file():
                missing.append(span)
        elif re.search(r"\.(antt|rt)$", span) or span.endswith("/must-fail"):
            missing.append(f"{span}, without a name")
        elif re.fullmatch(r"[\w.-]+(/[\w.-]+)+", span):
            checked += 1
            if not (ROOT / span).exists():
                missing.append(span)
    return checked, [f"{page} cites what is not there: {m}" for m in missing]


def misshapen():
    """What in docs/CLAIMS.md is no block: a sentence with no line below it, a line that begins otherwise, an edit where a definition is due."""
    wrong = []
    blocks = re.split(r"^(?=\*\*|#)", (ROOT / "docs" / "CLAIMS.md").read_text(), flags=re.M)
    for block in blocks:
        if not block.startswith("**"):
            continue
        sentence = " ".join(block[2:].split("**")[0].split())
        items = re.findall(r"^- (.*(?:\n  .*)*)", block, re.M)
        if not items:
            wrong.append(f"no line below: {sentence}")
        for item in items:
            label = next((known for known in LABELS if item.startswith(known + " ")), None)
            if label is None:
                wrong.append(f"a line that begins otherwise: {item[:60]}")
                continue
            edits = [span for span in spans(item) if "/must-fail: " in span]
            if label == "refused" and not edits:
                wrong.append(f"a line `refused` without an edit: {sentence}")
            if label in ("defined by", "proved by", "tested by") and edits:
                wrong.append(f"an edit in a line `{label}`: {edits[0]}")
    if re.search(r"^\|", "".join(blocks), re.M):
        wrong.append("a table")
    return [f"docs/CLAIMS.md: {w}" for w in wrong]


def unbelieved():
    """Where README's list of what there is to believe is not the computed one."""
    text = (ROOT / "README.md").read_text()
    if BELIEVE not in text:
        return [f"README.md has no heading {BELIEVE}"]
    section = text.split(BELIEVE, 1)[1].split("\n## ", 1)[0]
    ours, kit, lost = believe.closure()
    wrong = [f"a name that tools/believe.py cannot find: {line}" for line in lost]
    listed = {"specs": set(), "proofs": {}, "kit": {}}
    for span in spans(section):
        place, _, names = span.partition(": ")
        if re.fullmatch(r"\w+/specs/\S+\.antt", place):
            listed["specs"].add(place)
        elif re.fullmatch(r"\w+/proofs/\S+\.antt", place):
            listed["proofs"].setdefault(place, set()).update(names.split(", "))
        elif names and re.fullmatch(r"\w+(\.\w+)+", place):
            listed["kit"].setdefault(place, set()).update(names.split(", "))
    due = {"specs": {}, "proofs": {}, "kit": kit}
    for path, names in ours.items():
        due[believe.part(path)][str(path.relative_to(CRATES))] = names
    for place, names in sorted(due["specs"].items()):
        if place not in listed["specs"]:
            wrong.append(f"README.md does not list {place}, which has to be believed: {', '.join(sorted(names))}")
    for place in sorted(listed["specs"] - set(due["specs"])):
        wrong.append(f"README.md lists {place}, which nothing rests on")
    for kind in ("proofs", "kit"):
        for place in sorted(set(due[kind]) | set(listed[kind])):
            lacks = due[kind].get(place, set()) - listed[kind].get(place, set())
            more = listed[kind].get(place, set()) - due[kind].get(place, set())
            if lacks:
                wrong.append(f"README.md does not list {place}: {', '.join(sorted(lacks))}")
            if more:
                wrong.append(f"README.md lists {place}: {', '.join(sorted(more))}, which nothing rests on")
    return wrong


def requiring():
    """Each function with a `requires`: crate and name."""
    for path in sorted(CRATES.glob("*/src/*.rt")):
        name = None
        for line in path.read_text().splitlines():
            found = re.match(r'^ *(?:pub )?(?:const )?(?:extern "C" )?fn (\w+)\b', line)
            if found:
                name = found.group(1)
            if re.match(r"\s*requires\b", line):
                yield path.parts[-3], name


def unlisted():
    """The functions with a `requires` that docs/DECISIONS.md does not list."""
    listed = {}
    for line in (ROOT / "docs" / "DECISIONS.md").read_text().splitlines():
        cells = [c.strip() for c in line.strip("|").split("|")]
        if len(cells) == 3 and re.fullmatch(r"`\w+`", cells[0]):
            listed[cells[0].strip("`")] = set(re.findall(r"`(\w+)`", cells[1]))
    return [
        f"docs/DECISIONS.md does not list {crate}::{name}, which has a requires"
        for crate, name in requiring()
        if name not in listed.get(crate, set())
    ]


def main():
    checked, missing = 0, []
    for page in ("docs/CLAIMS.md", "docs/RULES.md"):
        if (ROOT / page).is_file():
            count, wrong = uncited(page)
            checked += count
            missing += wrong
        else:
            missing.append(f"{page} is not there")
    missing += misshapen() + unbelieved() + unlisted()
    for line in missing:
        print(line)
    print(f"claims, rules and what there is to believe: {checked} citations checked, {len(missing)} missing")
    sys.exit(1 if missing else 0)


if __name__ == "__main__":
    main()
