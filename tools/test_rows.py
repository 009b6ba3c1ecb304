#!/usr/bin/env python3
"""Whole runs of tv, each beside the status and the output that it must have.

    tools/test_rows.py [-v] [FILE ..]      (default: tools/testdata/rows/*.txt)

A file has comments (`# `, `## `) before its rows. A row is

    === what it shows
    the command line, whose first word is `tv`
    --- A
    the text of the file A
    --- B
    the text of the file B
    --- the status
    what is written to standard output

`--- B` right behind text, and not at the beginning of a line, says that A has no newline at its end. The
program is TV (default: crates/tv/out/tv); without one the rows are skipped, and said. The last line
counts; the status is 1 where a row failed, and 2 where a file has a part that is no row, or none.
"""
import dataclasses
import glob
import os
import re
import shutil
import subprocess
import sys
import tempfile

import tvlib

ROWS = os.path.join(os.path.dirname(os.path.abspath(__file__)), "testdata", "rows", "*.txt")
ROW = re.compile(r"(?P<title>[^\n]+)\n(?P<line>tv[^\n]*)\n--- A\n(?P<source>.*?)--- B\n(?P<target>.*?)--- (?P<status>[0-9])\n(?P<output>.*)", re.S)
SECONDS = 60


@dataclasses.dataclass(frozen=True)
class Row:
    title: str
    words: list
    source: str
    target: str
    status: int
    output: str


def rows_in(path):
    """The rows of a file. Exits with 2 where a part of it is no row, or it has none."""
    comments, *parts = re.split(r"^=== ", tvlib.read_text(path), flags=re.M)
    if not parts or not all(line.startswith("#") for line in comments.splitlines()):
        sys.exit(tvlib.said(f"{path}: no rows") or 2)
    return [row_of(path, part) for part in parts]


def row_of(path, part):
    # comments before the next table end a row
    text = re.sub(r"^## .*\Z", "", part, flags=re.M | re.S)
    found = ROW.fullmatch(text)
    if not found or found["line"].split(" ")[0] != "tv":
        sys.exit(tvlib.said(f"{path}: no row: {part.splitlines()[0]}") or 2)
    return Row(found["title"], found["line"].split()[1:], found["source"], found["target"], int(found["status"]), found["output"])


def fault_of(row, program, folder):
    """What a run of the row's command line gave that the row doesn't have; None if all is as it says."""
    for name, text in (("A", row.source), ("B", row.target)):
        with open(os.path.join(folder, name), "w", newline="") as file:
            file.write(text)
    try:
        done = subprocess.run([program, *row.words], cwd=folder, capture_output=True, timeout=SECONDS)
    except subprocess.TimeoutExpired:
        return f"no end after {SECONDS} s"
    if done.returncode != row.status:
        return f"status {done.returncode}, not {row.status}"
    if done.stdout != row.output.encode():
        return f"wrote\n{done.stdout.decode(errors='replace')}"
    return f"wrote to standard error: {done.stderr.decode(errors='replace')}" if done.stderr else None


def main():
    words = sys.argv[1:]
    is_loud = "-v" in words
    rows = [row for path in [word for word in words if word != "-v"] or sorted(glob.glob(ROWS)) for row in rows_in(path)]
    if not rows:
        return tvlib.said(f"{ROWS}: no rows") or 2
    program = os.environ.get("TV") or os.path.join(os.path.dirname(os.path.dirname(os.path.abspath(__file__))), "crates", "tv", "out", "tv")
    if not shutil.which(program):
        print(f"test_rows: {len(rows)} rows skipped: no program {program}")
        return 0
    failed = 0
    with tempfile.TemporaryDirectory() as folder:
        for row in rows:
            fault = fault_of(row, os.path.abspath(shutil.which(program)), folder)
            failed += fault is not None
            if fault or is_loud:
                print(f"{'failed' if fault else 'passed'}: {row.title}{f': {fault}' if fault else ''}")
    print(f"test_rows: {len(rows) - failed} passed, {failed} failed")
    return 1 if failed else 0


if __name__ == "__main__":
    tvlib.start(main)
