#!/usr/bin/env python3
"""Runs the gate and measures it, for the notes in docs/changes.

    tools/gate_times.py > gate.log

Passes on what .ci/run prints. Then two lines more: the processor seconds (user and system, of all processes) of the whole gate and of its part up to the end of `rt ci`, the proofs,
edits, programs and tests; and the minutes that it took. What an earlier `rt ci` on this machine kept is not proved again: the line `rt: ok` says how much was. Ends with the gate's
status; where that is 0, the line before these two is the gate's last one.
"""
import os
import pathlib
import re
import resource
import subprocess
import sys
import time

ROOT = pathlib.Path(__file__).resolve().parent.parent
TICKS = os.sysconf("SC_CLK_TCK")


def used(top):
    """Processor seconds so far of a process and all below it, those that have ended included."""
    parents, ticks = {}, {}
    for entry in pathlib.Path("/proc").iterdir():
        if entry.name.isdigit():
            try:
                fields = (entry / "stat").read_text().rpartition(")")[2].split()
            except OSError:
                continue
            parents[int(entry.name)] = int(fields[1])
            ticks[int(entry.name)] = sum(map(int, fields[11:15]))

    def below(pid):
        while pid not in (0, 1, top):
            pid = parents.get(pid, 0)
        return pid == top

    return sum(ticks[pid] for pid in parents if below(pid)) / TICKS


def main():
    begun = time.monotonic()
    gate = subprocess.Popen([ROOT / ".ci" / "run"], stdout=subprocess.PIPE, stderr=subprocess.STDOUT)
    proofs = None
    for line in gate.stdout:
        if proofs is None and re.match(rb"\d+ passed, \d+ failed", line):
            proofs = used(gate.pid)
        sys.stdout.buffer.write(line)
        sys.stdout.buffer.flush()
    status = gate.wait()
    spent = resource.getrusage(resource.RUSAGE_CHILDREN)
    whole = spent.ru_utime + spent.ru_stime
    print(f"processor seconds: {whole:.0f} in all, {proofs or whole:.0f} of them up to the end of rt ci")
    print(f"minutes: {(time.monotonic() - begun) / 60:.1f}")
    return status


if __name__ == "__main__":
    sys.exit(main())
