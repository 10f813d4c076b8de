#!/usr/bin/env python3
"""Measures what the check of each crate costs in `rt ci`: processor seconds and memory, as a table for docs/GATE.md.

    tools/gate_costs.py            over `rt ci --anew`, which proves all from nothing
    tools/gate_costs.py COMMAND..  over another command that checks crates, as `rt ci NAME`, or the gate

Every half second it looks at the provers that the command has started here, each by the crate that its command line names: what a prover does in its last half second is not seen. `edits` is how many
must-fail edits the gate tries, with the seconds of their checks, `tests` the seconds of the check of a crate's tests. What the command prints goes to standard error.
"""
import collections
import os
import pathlib
import re
import subprocess
import sys
import time

import crates

ROOT = pathlib.Path(__file__).resolve().parent.parent
TICKS = os.sysconf("SC_CLK_TCK")


def of_here(folder):
    """Whether a prover in this folder is one of ours: it is within the repository, or an edit's copy that an `rt` here has made."""
    copy = re.search(r"/rt-edit-(\d+)-", folder)
    return f"{os.readlink(f'/proc/{copy[1]}/cwd') if copy else folder}/".startswith(f"{ROOT}/")


def provers():
    """The provers that run here: crate, what is checked, process and when it began, seconds so far, most kilobytes so far."""
    for entry in pathlib.Path("/proc").iterdir():
        if not entry.name.isdigit():
            continue
        try:
            words = (entry / "cmdline").read_bytes().decode(errors="replace").split("\0")
            if not words[0].endswith("/rattle") or "--crate-name" not in words:
                continue
            fields = (entry / "stat").read_text().rpartition(")")[2].split()
            most = re.search(r"VmHWM:\s*(\d+)", (entry / "status").read_text())
            folder = os.readlink(entry / "cwd")
            if not of_here(folder):
                continue
        except OSError:
            continue
        kind = "edits" if "/rt-edit" in folder else "tests" if "--test" in words else "proof"
        seconds = (int(fields[11]) + int(fields[12])) / TICKS
        yield words[words.index("--crate-name") + 1], kind, (entry.name, fields[19]), seconds, int(most.group(1)) if most else 0


def main(command):
    running = subprocess.Popen(command, cwd=ROOT, stdout=sys.stderr)
    seconds, most = {}, collections.Counter()
    while running.poll() is None:
        at_once = collections.Counter()
        for crate, kind, process, spent, kilobytes in provers():
            seconds[crate, kind, process] = spent
            at_once[crate, kind] += kilobytes
        for key, kilobytes in at_once.items():
            most[key] = max(most[key], kilobytes)
        time.sleep(0.5)
    spent = collections.Counter()
    for (crate, kind, _), value in seconds.items():
        spent[crate, kind] += value
    print("| crate | seconds | MB | edits | their seconds | tests |\n|---|---|---|---|---|---|")
    sums = collections.Counter()
    for name in crates.uses():
        edits = len(list((ROOT / "crates" / name / "must-fail").glob("*.edit")))
        for kind in ("proof", "edits", "tests"):
            sums[kind] += spent[name, kind]
        row = [name, f"{spent[name, 'proof']:.0f}", most[name, "proof"] // 1024, edits, f"{spent[name, 'edits']:.0f}", f"{spent[name, 'tests']:.0f}"]
        print("|", " | ".join(map(str, row)), "|")
    print(f"| all | {sums['proof']:.0f} | | | {sums['edits']:.0f} | {sums['tests']:.0f} |")
    return running.returncode


if __name__ == "__main__":
    sys.exit(main(sys.argv[1:] or ["rt", "ci", "--anew"]))
