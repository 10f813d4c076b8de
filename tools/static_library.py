#!/usr/bin/env python3
"""Builds static libraries over what `rt ci` has just proved: tools/static_library.py NAME ..

Each goes to target/staticlib/libNAME.a. `rt ci` leaves the libraries below a crate in crates/*/out/rlib, with their statements and their code and
without their proofs, and builds each program over them. `rt lib` makes its own, with the proofs, which takes minutes. Here `rattle build` proves the
crate NAME once more and compiles it over those of `rt ci`, side by side where there are several. It makes nothing of a crate that is not proved.
Only the gate calls this, right after `rt ci`: nothing here looks whether a file was changed since.
"""
import pathlib
import shutil
import subprocess
import sys

import crates

ROOT = pathlib.Path(__file__).resolve().parent.parent
KIT = pathlib.Path(shutil.which("rattle") or "rattle").resolve().parent.parent


def below(name, on):
    """All crates of the repository below this one."""
    found = {it for it in on[name] if it in on}
    return found.union(*(below(it, on) for it in found))


def rlib(name, on):
    return ROOT / f"crates/{name}/out/rlib/{name}.rlib" if name in on else KIT / f"rlibs/{name}.rlib"


def words(name, on, to):
    """What `rt` gives `rattle build` for a static library."""
    externs = [f"--extern={it}={rlib(it, on)}" for it in ["std", *on[name]]]
    folders = [KIT / "rlibs", *(rlib(it, on).parent for it in sorted(below(name, on)))]
    logic = [f"--antt-project={KIT}/rattle/logic/antt-project.json", f"--logic-built={KIT}/logic_built", f"--toolchain={KIT}/toolchain"]
    kind = [f"--links={name}=", "--crate-type=staticlib", "-o", to]
    return ["rattle", "build", "--crate-name", name, "src/lib.rt", *externs, *(f"-Ldependency={it}" for it in folders), *logic, *kind]


def main(names):
    on = crates.uses()
    folder = ROOT / "target/staticlib"
    folder.mkdir(parents=True, exist_ok=True)
    building = []
    for name in names:
        command = words(name, on, folder / f"lib{name}.a")
        log = open(folder / f"lib{name}.log", "w+")
        building.append((name, log, subprocess.Popen(command, cwd=ROOT / "crates" / name, stdout=log, stderr=subprocess.STDOUT)))
    failed = [(name, log) for name, log, it in building if it.wait()]
    for name, log in failed:
        log.seek(0)
        print(f"{log.read()}{name} was not built", file=sys.stderr)
    return 1 if failed else 0


if __name__ == "__main__":
    sys.exit(main(sys.argv[1:]))
