#!/usr/bin/env python3
"""Prints for each crate the share of the tree that is proved again when the crate changes.

The share is that of the lines of .rt and .antt files in the crate and in all crates above it, by the
dependencies in crates.txt. Crates stand under the layers of crates.txt (its comments), in its order.

    python3 bench/shares.py            a table of the layers
    python3 bench/shares.py NAME ..    those crates alone: lines, and the crates above each
    python3 bench/shares.py --check    status 1 where docs/ARCHITECTURE.md has other layers or crates, or a
                                       share that is off by more than 1
    python3 bench/shares.py --write    puts the table, but for tests and bench, into docs/ARCHITECTURE.md
"""
import pathlib
import re
import sys
import textwrap

ROOT = pathlib.Path(__file__).resolve().parent.parent
PAGE = ROOT / "docs/ARCHITECTURE.md"
SOURCES = (".rt", ".antt")
HEAD = "| layer | percent of the tree proved again |\n|---|---|\n"
LEFT_OUT = ("tests", "bench")
OFF = 1


def layers():
    """The layers of crates.txt in order: pairs of a name and its crates."""
    found = []
    for line in (ROOT / "crates.txt").read_text().splitlines():
        if line.startswith("#"):
            found.append((line.lstrip("# ").strip(), []))
        elif ":" in line:
            if not found:
                found.append(("crates", []))
            found[-1][1].append(line.split(":")[0].split()[0])
    return [(name, crates) for name, crates in found if crates]


def dependencies():
    """The crates of the repository that each crate uses."""
    uses = {}
    for line in (ROOT / "crates.txt").read_text().splitlines():
        line = line.split("#")[0]
        if ":" in line:
            name, listed = line.split(":", 1)
            uses[name.split()[0]] = set(listed.split())
    return {name: listed & set(uses) for name, listed in uses.items()}


def above(name, uses):
    """The crate and all crates that stand on it, directly or not."""
    reached = {name}
    while True:
        more = {crate for crate, listed in uses.items() if listed & reached} - reached
        if not more:
            return reached
        reached |= more


def line_count(name):
    """The lines of the crate's .rt and .antt files; what rt made in out/ is left out."""
    folder = ROOT / "crates" / name
    total = 0
    for path in folder.rglob("*"):
        parts = path.relative_to(folder).parts
        if path.suffix in SOURCES and parts[0] != "out" and path.is_file():
            total += len(path.read_text().splitlines())
    return total


def shares(uses):
    """The share of each crate, in percent."""
    lines = {name: line_count(name) for name in uses}
    whole = sum(lines.values())
    return {name: 100 * sum(lines[crate] for crate in above(name, uses)) / whole for name in uses}


def row(layer, crates, found):
    return f"| {layer} | " + ", ".join(f"{name} {round(found[name])}" for name in crates) + " |\n"


def written():
    """The page in three parts: the text before its rows of shares, these rows, the text after them."""
    page = PAGE.read_text()
    if page.count(HEAD) != 1:
        sys.exit(f"docs/ARCHITECTURE.md doesn't have the table of shares, once:\n{HEAD}")
    first = page.index(HEAD) + len(HEAD)
    rows = re.match(r"(?:\|.*\n)*", page[first:])[0]
    return page[:first], rows, page[first + len(rows):]


def row_shares(line):
    """The layer of a row, and the share that it has of each crate."""
    found = re.fullmatch(r"\| ([^|]+) \| ((?:\w+ \d+(?:, )?)+) \|", line)
    if not found:
        sys.exit(f"docs/ARCHITECTURE.md: no row of shares: {line}")
    pairs = [pair.split() for pair in found[2].split(", ")]
    return found[1], {name: int(share) for name, share in pairs}


def differences(rows, found):
    """Where rows of the page differ from what was measured."""
    there = [row_shares(line) for line in rows.splitlines()]
    wanted = [(layer, crates) for layer, crates in layers() if layer not in LEFT_OUT]
    if [(layer, list(known)) for layer, known in there] != wanted:
        return ["other layers or crates, or in another order, than crates.txt has"]
    return [f"{name}: {share} percent; it is {found[name]:.1f}" for _, known in there
            for name, share in known.items() if abs(round(found[name]) - share) > OFF]


def check(found):
    faults = differences(written()[1], found)
    for fault in faults:
        print(f"docs/ARCHITECTURE.md: {fault}")
    if faults:
        sys.exit("docs/ARCHITECTURE.md isn't current: run bench/shares.py --write")


def write(found):
    before, _, after = written()
    rows = "".join(row(layer, crates, found) for layer, crates in layers() if layer not in LEFT_OUT)
    PAGE.write_text(before + rows + after)


def tell(name, uses, found):
    """Prints the share of one crate, and what is above it."""
    reached = sorted(above(name, uses) - {name})
    print(f"{name}: {line_count(name)} lines, {round(found[name])} % proved again, {len(reached)} crates above")
    print(textwrap.fill(" ".join(reached), 100, initial_indent="    ", subsequent_indent="    "))


def main():
    words = sys.argv[1:]
    if words in (["--help"], ["-h"]):
        print(__doc__.strip())
        return
    uses = dependencies()
    for name in words:
        if name not in uses and words not in (["--check"], ["--write"]):
            sys.exit(f"{name}: not in crates.txt")
    found = shares(uses)
    if words == ["--check"]:
        check(found)
    elif words == ["--write"]:
        write(found)
    elif words:
        for name in words:
            tell(name, uses, found)
    else:
        print(f"{len(uses)} crates, {sum(map(line_count, uses))} lines\n")
        print(HEAD + "".join(row(layer, crates, found) for layer, crates in layers()), end="")


if __name__ == "__main__":
    main()
