#!/usr/bin/env python3
"""Draws which crate stands on which, from crates.txt: a frame for each part of the library.

    tools/picture.py > docs/crates.svg
    tools/picture.py --text

A crate stands above all that it depends on. An arrow that follows from others is left out (a crate that stands on `air` stands on all
below it), and so are the programs that test and measure. With --text all crates are printed line by line: a crate's level, the crate, and what it stands
on directly. With --check the stored picture is compared with what would be drawn.
"""
import pathlib
import sys

import crates

ROOT = pathlib.Path(__file__).resolve().parent.parent
WIDE, HIGH, GAP_X, GAP_Y, EDGE, FRAME = 122, 28, 26, 54, 34, 10
TESTS = ("vectors", "probes", "bench")
KINDS = {
    "call": ("#dcebf7", "#3b6e98", "code with calls of document 01 and the requests"),
    "code": ("#f2f2ee", "#77776f", "code between them"),
    "theory": ("#f6ecd9", "#9a7429", "definitions and theorems"),
    "program": ("#e0f0df", "#4c8a47", "programs, C calls"),
}
KIND = {
    "field": "call", "xfield": "call", "isa": "call", "list_record": "call", "list_replay": "call", "list_shared": "call", "list_stored": "call", "check_table": "call", "fill": "call",
    "extend": "call", "client_sum": "call", "lookup": "call", "lookup_sums": "call", "archive": "call", "transcript": "call", "sums": "theory", "air": "theory",
    "archive_trips": "theory",
    "row_bound": "theory", "four_calls": "theory", "client_law": "theory", "list_laws": "theory", "shared_law": "theory", "list_round_trips": "theory", "u32list_example": "theory",
    "u32list": "program", "u32check": "program", "u32archive": "program", "batches": "call", "u32batch": "program", "u32_table": "program",
}  # fmt: skip

# A part of the library: its name, and its crates with the column of each. Parts share a column only where one stands above the other.
PARTS = {
    "words, entries": {"words": 1, "isa": 1},
    "elements": {"field": 5, "xfield": 5},
    "lists": {"list": 1, "list_record": 0, "list_replay": 0, "list_laws": 0, "list_shared": 2, "list_bytes": 1, "list_repeats": 2, "list_stored": 1, "list_round_trips": 1},
    "table": {"table": 5, "sums": 5},
    "check": {"air": 5, "check_rows": 5, "check_plain": 6, "check_pairs": 5, "check_search": 5, "check_table": 5},
    "filling": {"fill_results": 7, "fill_sections": 7, "fill": 7, "extend": 7},
    "the four calls": {"row_bound": 7, "four_calls": 7},
    "the other side": {"client_sum": 8, "client_law": 8, "shared_law": 8},
    "programs": {"text": 9, "transcript": 9, "numbers": 10, "names": 11, "streams": 12, "u32list_example": 9, "u32list": 12, "table_text": 10, "table_input": 11, "u32check": 11},
    "lookup tables": {"lookup": 13, "lookup_sums": 13},
    "batches": {"batches": 14, "batch_text": 14, "u32batch": 14},
    "archives": {"archive": 15, "archive_trips": 15},
    "archive program": {"archive_text": 16, "u32archive": 16},
    "C functions": {"c_answers": 1, "c_lists": 1, "c_batches": 0, "c_tables": 2, "c_lookups": 3, "c_archive": 4, "u32_table": 1},
}  # fmt: skip


def own():
    """Each crate with the crates of this repository that it names."""
    on = crates.uses()
    return {name: [d for d in libraries if d in on] for name, libraries in on.items()}


def below(deps):
    """Each crate with all that it stands on."""
    found = {}
    for name in deps:  # crates.txt names a crate after those it stands on
        found[name] = set(deps[name]).union(*(found[d] for d in deps[name]))
    return found


def direct(deps):
    """Each crate with those it stands on that no other of them stands on."""
    all_below = below(deps)
    return {n: [d for d in ds if not any(d in all_below[e] for e in ds)] for n, ds in deps.items()}


def levels(deps):
    """The level of each crate: one above the highest that it stands on."""
    level = {}
    for name in deps:
        level[name] = 1 + max((level[d] for d in deps[name]), default=-1)
    return level


def drawn_levels(deps):
    """The same, with each part's crates drawn up as far as those that stand on them let them, so that frames are small and apart."""
    level = levels(deps)
    part = {name: title for title, names in PARTS.items() for name in names}
    for name in reversed(list(deps)):
        users = [level[n] for n, ds in deps.items() if name in ds]
        same = [level[n] for n, ds in deps.items() if name in ds and part[n] == part[name]]
        if same:
            level[name] = min(users) - 1
        elif users and not [d for d in deps[name] if part[d] == part[name]] and len(PARTS[part[name]]) > 1:
            level[name] = max(level[name], min(users) - 1)
    return level


def kind(name):
    return KIND.get(name, "code")


def svg(deps):
    deps = {n: ds for n, ds in deps.items() if not n.startswith(TESTS)}
    parts = {name: (title, column) for title, names in PARTS.items() for name, column in names.items()}
    strangers = sorted(set(deps) ^ set(parts))
    if strangers:
        sys.exit(f"tools/picture.py and crates.txt differ on {', '.join(strangers)}: give each crate a part")
    edges = direct(deps)
    level = drawn_levels(deps)
    width = 2 * EDGE + (1 + max(c for _, c in parts.values())) * (WIDE + GAP_X) - GAP_X
    height = 2 * EDGE + (1 + max(level.values())) * (HIGH + GAP_Y) - GAP_Y + 60
    at = {n: (EDGE + parts[n][1] * (WIDE + GAP_X), height - 60 - EDGE - HIGH - level[n] * (HIGH + GAP_Y)) for n in deps}
    if len(set(at.values())) != len(at):
        sys.exit("tools/picture.py: two crates in one place: give one of them another column")
    frames = {}
    for title, names in PARTS.items():
        xs, ys = [at[n][0] for n in names], [at[n][1] for n in names]
        frames[title] = (min(xs) - FRAME, min(ys) - FRAME - 14, max(xs) + WIDE + FRAME, max(ys) + HIGH + FRAME)
    for a, (x, y, u, v) in frames.items():
        for b, (x2, y2, u2, v2) in frames.items():
            if a < b and x < u2 and x2 < u and y < v2 and y2 < v:
                sys.exit(f"tools/picture.py: the frames of {a} and {b} overlap: give their crates other columns")
    out = [
        f'<svg xmlns="http://www.w3.org/2000/svg" width="{width}" height="{height}" viewBox="0 0 {width} {height}" '
        'font-family="sans-serif" font-size="13">',
        "<title>Which crate stands on which</title>",
        "<desc>" + "; ".join(f"{n} on {', '.join(d) if d else 'nothing'}" for n, d in edges.items()) + "</desc>",
        f'<rect width="{width}" height="{height}" fill="#ffffff"/>',
    ]
    for title, (x, y, u, v) in frames.items():
        out.append(f'<rect x="{x}" y="{y}" width="{u - x}" height="{v - y}" rx="8" fill="#fafafa" stroke="#c8c8c8" stroke-dasharray="4 3"/>')
    for name, ds in edges.items():
        x, y = at[name]
        for d in ds:
            u, v = at[d]
            a, b, c, e = x + WIDE // 2, y + HIGH, u + WIDE // 2, v
            out.append(f'<path d="M{a} {b} C{a} {b + 26} {c} {e - 26} {c} {e}" fill="none" stroke="#9a9a9a" stroke-width="1"/>')
    for title, (x, y, u, v) in frames.items():
        out.append(f'<text x="{x + 8}" y="{y + 15}" font-size="12" fill="#555555">{title}</text>')
    for name, (x, y) in at.items():
        fill, line, _ = KINDS[kind(name)]
        out.append(f'<rect x="{x}" y="{y}" width="{WIDE}" height="{HIGH}" rx="4" fill="{fill}" stroke="{line}"/>')
        out.append(f'<text x="{x + WIDE // 2}" y="{y + 19}" text-anchor="middle">{name}</text>')
    x, y = EDGE, height - 44
    for fill, line, words in KINDS.values():
        out.append(f'<rect x="{x}" y="{y}" width="14" height="14" fill="{fill}" stroke="{line}"/>')
        out.append(f'<text x="{x + 20}" y="{y + 12}" font-size="12">{words}</text>')
        x += 44 + 6 * len(words)
    out.append(f'<text x="{EDGE}" y="{height - 14}" font-size="12">Lines go down to what a crate stands on; those that follow from others are left out.</text>')
    out.append("</svg>")
    return "\n".join(out) + "\n"


def text(deps):
    edges = direct(deps)
    level = levels(deps)
    lines = [f"{level[name]:2} {name:16} {' '.join(edges[name])}".rstrip() for name in sorted(deps, key=lambda n: level[n])]
    return "\n".join(lines) + "\n"


def main(args):
    deps = own()
    if args == ["--text"]:
        sys.stdout.write(text(deps))
    elif args == ["--check"]:
        stored = ROOT / "docs" / "crates.svg"
        if not stored.is_file() or stored.read_text() != svg(deps):
            sys.exit("docs/crates.svg is not that of crates.txt: tools/picture.py > docs/crates.svg")
    elif not args:
        sys.stdout.write(svg(deps))
    else:
        sys.exit(__doc__)


main(sys.argv[1:])
