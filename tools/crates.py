"""The crates of this repository, as crates.txt names them, each after those it stands on."""
import pathlib

CRATES_TXT = pathlib.Path(__file__).resolve().parent.parent / "crates.txt"


def uses():
    """Each crate with the libraries that it names, those of the kit among them. What else stands before the colon says how it is built."""
    found = {}
    for line in CRATES_TXT.read_text().splitlines():
        line = line.split("#")[0].strip()
        if line:
            named, on = line.split(":")
            found[named.split()[0]] = on.split()
    return found
