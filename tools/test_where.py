#!/usr/bin/env python3
"""Tests that tools/where answers the questions in testdata/where.txt.

    tools/test_where.py [-v]

A line of that file is `question -> file`; the file has to be among the places that the question gets. Lines that
begin with # are no questions. The last line counts; the status is 1 where a question isn't answered, 2 where
a line isn't one, or there are fewer than 20.
"""
import importlib.machinery
import importlib.util
import os
import sys

import tvlib

FILE = os.path.join(tvlib.HERE, "testdata", "where.txt")
AT_LEAST = 20


def script():
    """tools/where as a module."""
    path = os.path.join(tvlib.HERE, "where")
    loader = importlib.machinery.SourceFileLoader("where", path)
    module = importlib.util.module_from_spec(importlib.util.spec_from_loader("where", loader))
    sys.modules["where"] = module
    loader.exec_module(module)
    return module


def questions():
    """The questions, each with the file of its answer."""
    found = []
    for number, line in enumerate(tvlib.read_text(FILE).splitlines(), 1):
        parts = line.split(" -> ")
        if line.startswith("#") or not line.strip():
            continue
        if len(parts) != 2 or not all(part.strip() for part in parts):
            raise tvlib.Failure(tvlib.FAULT, f"where.txt:{number}: not `question -> file`: {line}")
        found.append((parts[0].strip(), parts[1].strip()))
    if len(found) < AT_LEAST:
        raise tvlib.Failure(tvlib.FAULT, f"where.txt has {len(found)} questions; it takes {AT_LEAST}")
    return found


def main():
    sys.dont_write_bytecode = True
    index, failed = script().Index(), 0
    asked = questions()
    for question, file in asked:
        found = [place.path for place in index.find(question)]
        if file not in found:
            failed += 1
            print(f"failed: {question}: {file} isn't among {' '.join(found) or 'its answers, of which there are none'}")
        elif "-v" in sys.argv[1:]:
            print(f"passed: {question}: {file} is number {found.index(file) + 1}")
    print(f"where: {len(asked) - failed} passed, {failed} failed")
    return 1 if failed else 0


if __name__ == "__main__":
    tvlib.start(main)
