#!/usr/bin/env python3
"""Counts the places in crates/*/src that docs/DESIGN-PASS.md speaks of.

    tools/design_counts.py                  of the files as they stand
    tools/design_counts.py --list           each place too, with its file and line
    tools/design_counts.py [--list] COMMIT  of the files at that commit

Each line is a pattern on single lines, after the number of the point that it stands for; the last goes by the names of functions. So a pattern finds what looks like a place:
what it finds is read by eye before it is called one, and what it does not find is found by eye alone.
"""
import pathlib
import re
import subprocess
import sys

ROOT = pathlib.Path(__file__).resolve().parent.parent
NAMES = r"(equals|add|sub|mul|neg|scale|compare|compare_words|same_[a-z]+|number|from_base|from_words|order|order_number|bit|both|wide|widened|element_of|digit)"
POINTS = [
    ("1 own enums", r"^\s*(pub )?enum [A-Z]\w*"),
    ("1 an answer or value beside its flag", r"^\s*(pub )?(answer|inside|next|number|sizes): (Recorded|Replayed|Completed|Read|Written|bool|usize|u64|Sizes|Result<.*>),$"),
    ("1 numbers for kinds", r"^pub const [A-Z_0-9]+: u64 = (4|6|12|14|20|22|28|30|36|44|1);$|group: u64|kind: usize"),
    ("1 a refusal handed on by hand", r"(Declined|Refused|Err)\(reason\) => |let (Judgement|Completed)::(Declined|Refused)\(reason\) = "),
    ("3 loops over a counted index", r"^\s*('\w+: )?(while \w+ (<|!=) |loop \{|while 0 < (calls|parts) )"),
    ("4 equality, order, conversion, arithmetic by hand", r"^\s*(pub )?fn " + NAMES + r"\b"),
    ("5 a list by its four parts", r"^\s*holds: &"),
    ("5 a table that is lent with the fact that it is the right one", r"(small|inverses|outputs)\.now ≡"),
    ("5 room in a buffer, required", r"requires .*(max_text|max_answer|max_line|max_words|max_archive|max_row_line)"),
    ("5 an entry by its three words", r"^\s*(other_)?right_operand: u64,$"),
    ("6 a buffer and a place in it", r"(out|results|buffer): &mut \[u(8|64)\], (at|place): usize|text: &\[u8\], from: usize"),
    ("7 a switch on what to do", r"(stored: bool|group: u64|operation: Operation|step: Step)\b.*[,)]"),
]


def git(*words):
    return subprocess.run(["git", "-C", ROOT, *words], capture_output=True, text=True, check=True).stdout


def files(commit):
    """The name and the text of each source file."""
    names = git("ls-tree", "-r", "--name-only", commit, "crates") if commit else git("ls-files", "crates")
    for name in names.split("\n"):
        if re.fullmatch(r"crates/\w+/src/.*\.rt", name):
            yield name, git("show", f"{commit}:{name}") if commit else (ROOT / name).read_text()


def main(args):
    listed = "--list" in args
    texts = list(files(next((word for word in args if word != "--list"), None)))
    for point, pattern in POINTS:
        found = [(name, i + 1, line.strip()) for name, text in texts for i, line in enumerate(text.split("\n")) if re.search(pattern, line)]
        print(f"{len(found):5} {point}")
        for name, i, line in found if listed else []:
            print(f"        {name}:{i}: {line[:140]}")
    functions = {}
    for name, text in texts:
        for function in re.findall(r"^\s*(?:pub )?fn (\w+)", text, re.M):
            if function != "main":
                functions.setdefault(function, set()).add(name.split("/")[1])
    twice = {function: crates for function, crates in functions.items() if len(crates) > 1}
    print(f"{len(twice):5} 2 names of functions that stand in more than one crate")
    for function, crates in sorted(twice.items()) if listed else []:
        print(f"        {function}: {' '.join(sorted(crates))}")


main(sys.argv[1:])
