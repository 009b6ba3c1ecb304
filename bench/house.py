#!/usr/bin/env python3
"""Prints measures of the repository itself, from its files and its history alone.

    bench/house.py      a table: what was measured, and the figure

Crates and dependencies are those of crates.txt; a dependency is implied where another one has it too. The
share is how much of the tree a commit proves again, by bench/shares.py, on average over the last 200
commits, without merges, that change .rt or .antt files of crates that there are. Lines of proofs that are
code are neither blank, nor comments, nor imports. Private functions and clauses are those of src; the former
of the product only, without tests and bench.

Status: 0 printed, 2 something isn't as this script reads it, or git fails, 4 the command line.
"""
import os
import re
import sys

HERE = os.path.dirname(os.path.realpath(__file__))
sys.path.insert(0, os.path.join(os.path.dirname(HERE), "tools"))
sys.path.insert(0, HERE)

import instructions
import shares
import tvlib

ROOT = shares.ROOT
COMMITS = 200
WIDTH = 100
FOLDERS = ("src", "specs", "proofs")
IMPORT = re.compile(r"\s*(?:unfoldable )?(?:pub )?use ")
PRIVATE = re.compile(r"\s*(?:const |unsafe |ghost )*fn \w")
CLAUSE = re.compile(r"\s*(?:requires|ensures)\b")
CHANGED = re.compile(r"^crates/(\w+)/(?:src|specs|proofs)/\S*\.(?:rt|antt)$", re.M)


def files(folder):
    """The .rt and .antt files in this folder of each crate."""
    found = [path for path in sorted((ROOT / "crates").glob(f"*/{folder}/**/*"))
             if path.suffix in shares.SOURCES and path.is_file()]
    if not found:
        raise tvlib.Failure(tvlib.FAULT, f"no file in crates/*/{folder}")
    return found


def lines_of(path):
    return path.read_text().splitlines()


def crate_of(path):
    return path.relative_to(ROOT / "crates").parts[0]


# Crates and their dependencies.

def below(name, uses):
    """The crates that a crate stands on, directly or not."""
    reached, left = set(), [name]
    while left:
        more = uses[left.pop()] - reached
        reached |= more
        left += more
    return reached


def needed(uses):
    """The number of dependencies that no other one of their crate implies."""
    known = {name: below(name, uses) for name in uses}
    return sum(not any(crate in known[other] for other in listed - {crate})
               for listed in uses.values() for crate in listed)


def history(uses):
    """For each of the last commits the crates that it changes."""
    done = tvlib.run(["git", "-C", str(ROOT), "log", "-n", str(COMMITS), "--no-merges", "--format=%x01",
                      "--name-only", "--", "crates/*.rt", "crates/*.antt"])
    if done.status != 0:
        raise tvlib.Failure(tvlib.FAULT, "git log: " + done.errors.decode(errors="replace").strip())
    commits = [set(CHANGED.findall(names)) & set(uses)
               for names in done.output.decode(errors="replace").split("\1")[1:]]
    return [crates for crates in commits if crates]


def mean_share(uses):
    """The mean share of the tree that a commit proves again, in percent, and of how many commits."""
    commits = history(uses)
    if not commits:
        raise tvlib.Failure(tvlib.FAULT, "git log has no commit that changes a crate")
    lines = {name: shares.line_count(name) for name in uses}
    reached = {name: shares.above(name, uses) for name in uses}
    total = sum(sum(lines[crate] for crate in set().union(*(reached[name] for name in crates)))
                for crates in commits)
    return 100 * total / len(commits) / sum(lines.values()), len(commits)


# Lines.

def is_code(line):
    """Whether a line of a proof file is neither blank, nor a comment, nor an import."""
    return bool(line.strip()) and not line.lstrip().startswith(("--", "//")) and not IMPORT.match(line)


def proofs():
    """Lines, lines of code, and bytes of the proofs."""
    found = files("proofs")
    lines = [line for path in found for line in lines_of(path)]
    return len(lines), sum(map(is_code, lines)), sum(path.stat().st_size for path in found)


def without_comment(lines):
    """The number of private functions of a file that have no `///`."""
    count = 0
    for index, line in enumerate(lines):
        if PRIVATE.match(line):
            before = index - 1
            while before >= 0 and lines[before].lstrip().startswith("#["):
                before -= 1
            count += not (before >= 0 and lines[before].lstrip().startswith("///"))
    return count


def product():
    return {name for layer, crates in shares.layers() if layer not in shares.LEFT_OUT for name in crates}


# The table.

def rows():
    """Each measure with its figure."""
    uses = shares.dependencies()
    if not uses:
        raise tvlib.Failure(tvlib.FAULT, "crates.txt has no crates")
    share, commits = mean_share(uses)
    lines, code, size = proofs()
    source = [path for path in files("src") if path.suffix == ".rt"]
    yield "crates", f"{len(uses):,}"
    yield "dependencies, and those that imply them", f"{sum(map(len, uses.values())):,}, {needed(uses):,}"
    yield f"percent of the tree that a commit proves again, mean of {commits}", f"{share:.1f}"
    yield "lines of .rt and .antt", f"{sum(map(shares.line_count, uses)):,}"
    yield "lines of proofs, of which code", f"{lines:,}, {code:,}"
    yield "bytes of proofs", f"{size:,}"
    sections = list(instructions.sections(tvlib.read_text(str(instructions.PAGE))))
    if not sections:
        raise tvlib.Failure(tvlib.FAULT, "docs/INSTRUCTIONS.md has no sections with names")
    for title, _, listed in sections:
        yield f"files in INSTRUCTIONS, {title[0].lower()}{title[1:]}", f"{len(listed):,}"
    own = product()
    yield "private functions without `///`", \
        f"{sum(without_comment(lines_of(path)) for path in source if crate_of(path) in own):,}"
    yield "files in src without a head", f"{sum(not path.read_text().startswith('//') for path in source):,}"
    for folder in FOLDERS:
        long = sum(len(line) > WIDTH for path in files(folder) for line in lines_of(path))
        yield f"lines over {WIDTH} columns in {folder}", f"{long:,}"
    clauses = sum(bool(CLAUSE.match(line)) for path in source for line in lines_of(path))
    yield "lines of src that begin a `requires` or `ensures`", f"{clauses:,}"


def main():
    if sys.argv[1:]:
        print(__doc__.strip())
        return 0 if sys.argv[1:] in (["--help"], ["-h"]) else tvlib.WORDS
    table = list(rows())
    print("| measure | figure |\n|---|---|")
    for what, figure in table:
        print(f"| {what} | {figure} |")
    return 0


if __name__ == "__main__":
    tvlib.start(main)
