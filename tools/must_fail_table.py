#!/usr/bin/env python3
"""Makes docs/MUST-FAIL.md: each must-fail edit, what wrong program it makes, and the fact that fails first.

    tools/must_fail_table.py LOG.. > page && mv page docs/MUST-FAIL.md

A LOG is what `rt must-fail`, `rt ci` or tests/must-fail-more printed: a line for each edit, with the first thing that the prover said. An edit that no LOG tells of keeps the fact
that the page names already; a fact of the older kit keeps its mark too. Ends with status 1 where an edit has no fact yet, was not refused or could not be tried, and where its
first error shows only that a proof no longer fits the code (a name that is not there), which says nothing of the contract.

    tools/must_fail_table.py --check

compares the stored page with the folders, and runs nothing: each edit stands in it, under its crate, with its own comment and its mark, no other does, and none names a path of a
machine. The facts are taken from the page: they are known only once the edits were tried.

A LOG does not say in which of the two folders an edit stands: where a crate has one of the same name in each, no LOG counts for them, and the page's facts are written by hand.
"""
import pathlib
import re
import sys

import crates

ROOT = pathlib.Path(__file__).resolve().parent.parent
PAGE = ROOT / "docs" / "MUST-FAIL.md"
# first errors that show nothing
SHAPE_ONLY = ("that can be named from here", "is not in scope", "has no field", "has no `")
OLDER = " °"

HEAD = """# Must-fail edits

Each line is a wrong program, or a wrong definition, that the prover refuses, and the fact that fails first. An edit keeps the code's shape, so what fails is a fact and not
the fit of a proof. The gate tries those of the folders `must-fail` and fails if the prover accepts one; those of `must-fail-more`, marked with +, are tried
by `tests/must-fail-more`, so that the gate stays short. Made by `tools/must_fail_table.py`.

A fact is named by its proof: *function*: `returns` is that what the function ensures holds where it returns, `loop-i-preserved` that the loop over i keeps its
invariant, `NAME-requires` that what NAME requires holds where it is called; any other name is a lemma's. A `?` stands where an edit was not tried yet.

A fact with ° is one that the older kit named: which fact fails first was not looked at anew since the edit was brought to today's language. Lemmas have today's names in it, goals those
of that kit: `loop-again` was what is `loop-i-preserved` now, `loop-holds` what is `loop-i-init`.
"""


def comment(edit):
    words = []
    for line in edit.read_text().splitlines():
        if not line.startswith("#"):
            break
        words.append(line[1:].strip())
    return " ".join(words)


def told(logs):
    """What the prover said of each edit, by crate and edit: how the try ended, and the first error. The last LOG that tells of an edit counts."""
    found = {}
    for log in logs:
        for line in log.read_text(errors="replace").splitlines():
            line = re.match(r"(?:rt: )?must-fail (\w+)/([\w.-]+)\.edit: (.*)", line)
            if line:
                crate, edit, rest = line.groups()
                refused = re.match(r"refused, as it must be(?: \([^)]*(?:\)[^:)]*)*\))?(?:: (.*))?$", rest)
                found[crate, edit] = (bool(refused), (refused.group(1) or "") if refused else rest)
    return found


FUNCTION = re.compile(r'( *)(?:pub(?:\([^)]*\))? )?(?:const )?(?:unsafe )?(?:extern "C" )?fn (\w+)')


def function_at(path, number):
    """The function that a line belongs to, with the type of its `impl`: its item begins there or a few lines below, under attributes, or the line is in its body."""
    lines = path.read_text().splitlines()
    at_item = re.match(r" *(#|//|pub\b|const\b|unsafe\b|extern\b|fn\b)", lines[number - 1])
    for k in range(number - 1, min(number + 9, len(lines))) if at_item else range(number - 1, -1, -1):
        found = FUNCTION.match(lines[k])
        if found:
            above = (re.match(r"impl(?:<[^>]*>)? (?:.* for )?(\w+)", line) for line in reversed(lines[:k]))
            owner = next((a.group(1) for a in above if a), None) if found.group(1) else None
            return f"{owner}::{found.group(2)}" if owner else found.group(2)
    return None


def fact(crate, said):
    """The fact in words: the function's or the module's name and the goal or the declaration."""
    found = re.match(r"(?:note: )?(?:\./)?(\S+?):(\d+):\d+: (?:error(?:\[[\w-]+\])?: )?(.*)", said)
    if not found:
        return f"`{said[:80].strip('`')}`"
    place, number, message = found.groups()
    goal = re.search(r"\(`([^`]+)`?\)?", message) if "it is not proved that" in message else None
    if goal:
        function = function_at(ROOT / "crates" / crate / place, int(number)) if place.startswith("src/") else None
        return f"*{function}*: `{goal.group(1)}`" if function else f"`{place}`: `{goal.group(1)}`"
    named = re.match(r"`([^`]+)`: ", message)
    if re.match(r"proofs/.*/(?:Answers|Invariants|Proof)\.antt$", place):
        return f"*{'::'.join(place.split('/')[1:-1])}*" + (f": `{named.group(1)}`" if named else "")
    return f"`{place}`" + (f": `{named.group(1)}`" if named else "")


def kept():
    """The facts that the page names already, by crate and edit, with its mark."""
    facts, crate = {}, ""
    for line in PAGE.read_text().splitlines():
        if line.startswith("## "):
            crate = line[3:].strip()
        cells = line.split(" | ")
        if crate and line.startswith("| ") and len(cells) >= 3 and not line.startswith("| edit |"):
            facts[crate, cells[0][2:]] = cells[-1].removesuffix(" |")
    return facts


def check():
    """What the page has that the folders have not, and the reverse."""
    stored = PAGE.read_text()
    made, _ = page(kept(), {})
    stored_lines, made_lines = (places(text) for text in (stored, made))
    wrong = [f"{where}, which is in the page but not in the folders: {line}" for where, line in sorted(stored_lines - made_lines)]
    wrong += [f"{where}, which is in the folders but not in the page: {line}" for where, line in sorted(made_lines - stored_lines)]
    wrong += [f"{where}, a path of a machine: {line}" for where, line in sorted(stored_lines) if "`/" in line or "::target::" in line]
    return wrong or (["its head, its order or its count"] if stored != made else [])


def places(text):
    """Each line of a page's tables, with the crate that it stands under."""
    found, crate = set(), ""
    for line in text.splitlines():
        if line.startswith("## "):
            crate = line[3:].strip()
        elif crate and line.startswith("| ") and not line.startswith("| edit |"):
            found.add((crate, line))
    return found


def page(before, tries):
    """The page, and what is wrong with it. `before` has the facts that the page names already, `tries` what the logs tell."""
    bad = []
    out = [HEAD]
    count = older = 0
    for crate in crates.uses():
        edits = sorted((ROOT / "crates" / crate).glob("must-fail*/*.edit"), key=lambda e: (e.stem, e.parent.name))
        if not edits:
            continue
        out.append(f"## {crate}\n\n| edit | the wrong program | the fact that fails |\n|---|---|---|")
        names = [edit.stem for edit in edits]
        for edit in edits:
            more = "" if edit.parent.name == "must-fail" else " +"
            refused, said = tries.get((crate, edit.stem), (True, "")) if names.count(edit.stem) == 1 else (True, "")
            known = before.get((crate, edit.stem + more), "?")
            if not refused or any(words in said for words in SHAPE_ONLY):
                bad.append(f"{crate}/{edit.stem}: {said[:100]}")
            elif said:
                known = fact(crate, said)
            if known == "?":
                bad.append(f"{crate}/{edit.stem}: not tried, or no error found")
            count += 1
            older += known.endswith(OLDER)
            out.append(f"| {edit.stem}{more} | {comment(edit)} | {known} |")
        out.append("")
    out.append(
        f"{count} edits, {older} of them with a fact of the older kit. The first error names the goal, or the two sides that do not agree, or says that a rewriting step finds nothing\n"
        "to rewrite, since what is stated has changed. In none is it a name that is missing."
    )
    return "\n".join(out) + "\n", bad


def main(args):
    if args == ["--check"]:
        wrong = check()
        for line in wrong:
            print(f"docs/MUST-FAIL.md is not current: {line[:200]}")
        return 1 if wrong else 0
    if not args or args[0].startswith("-"):
        sys.exit(__doc__)
    text, bad = page(kept(), told(map(pathlib.Path, args)))
    sys.stdout.write(text)
    for line in bad:
        print(line, file=sys.stderr)
    return 1 if bad else 0


if __name__ == "__main__":
    sys.exit(main(sys.argv[1:]))
