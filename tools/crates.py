#!/usr/bin/env python3
"""Writes crates/README.md: the crates by layer, each with the first sentence of its root comment.

    tools/crates.py            prints the page
    tools/crates.py --check    status 1 where crates/README.md is another one
    tools/crates.py --write    writes it

The layers are those of crates.txt, in its order. The sentence is the first of the `//!` comment of
src/lib.rt, or of src/main.rt where the crate is a program.

Status: 0 printed, written or current, 1 not current, 2 a crate isn't as this script reads it, 4 the
command line.
"""
import os
import re
import sys

import tvlib

ROOT = os.path.dirname(tvlib.HERE)
PAGE = os.path.join(ROOT, "crates", "README.md")
LINE = re.compile(r"(\w+)(?: staticlib)?:((?: [\w-]+)*)$")
HEAD = """\
# The crates

Each crate with the first sentence of its root comment, by the layers of [crates.txt](../crates.txt), lowest
first. What each promises is in [ARCHITECTURE](../docs/ARCHITECTURE.md). `tools/crates.py --write` writes this page.
"""


def layers():
    """The layers of crates.txt: pairs of a name and its crates, each with the crates that it uses."""
    found = []
    for number, line in enumerate(tvlib.read_text(os.path.join(ROOT, "crates.txt")).splitlines(), 1):
        crate = LINE.match(line)
        if line.startswith("#"):
            found.append((line.lstrip("# ").strip(), {}))
        elif crate and found:
            found[-1][1][crate[1]] = crate[2].split()
        elif line.strip():
            raise tvlib.Failure(tvlib.FAULT, f"crates.txt:{number}: no layer and no crate: {line}")
    return [(name, crates) for name, crates in found if crates]


def root_file(name):
    """The path of a crate's root file in the repository."""
    for file in ("lib.rt", "main.rt"):
        path = f"crates/{name}/src/{file}"
        if os.path.isfile(os.path.join(ROOT, path)):
            return path
    raise tvlib.Failure(tvlib.FAULT, f"{name}: no src/lib.rt and no src/main.rt")


def first_sentence(text):
    """The first sentence of a comment; empty where the comment is."""
    text = " ".join(text.split())
    found = re.match(r".+?(?<![ (][A-Z])[.?!](?= |$)", text)
    return found[0] if found else text


def root_sentence(path):
    """The first sentence of the `//!` comment that a file begins with."""
    lines = []
    for line in tvlib.read_text(os.path.join(ROOT, path)).splitlines():
        if not line.startswith("//! "):
            break
        lines.append(line[4:])
    if not lines:
        raise tvlib.Failure(tvlib.FAULT, f"{path}: doesn't begin with //!")
    return first_sentence(" ".join(lines))


def page():
    """The text of crates/README.md."""
    found = layers()
    named = [name for _, crates in found for name in crates]
    folders = sorted(name for name in os.listdir(os.path.join(ROOT, "crates"))
                     if os.path.isdir(os.path.join(ROOT, "crates", name)))
    if sorted(named) != folders:
        raise tvlib.Failure(tvlib.FAULT, "not both in crates.txt and in crates/, once each: "
                            + " ".join(sorted(set(named) ^ set(folders)) or named))
    lines = [HEAD]
    for layer, crates in found:
        lines.append(f"## {layer[0].upper()}{layer[1:]}\n")
        for name in crates:
            path = root_file(name)
            lines.append(f"- [`{name}`]({path.removeprefix('crates/')}): {root_sentence(path)}")
        lines.append("")
    return "\n".join(lines).rstrip() + "\n"


def main():
    how = sys.argv[1:]
    if how not in ([], ["--check"], ["--write"]):
        print(__doc__.strip())
        return 0 if how in (["--help"], ["-h"]) else tvlib.WORDS
    text = page()
    if how == []:
        print(text, end="")
    elif how == ["--write"]:
        tvlib.write_out(PAGE, text)
    elif not os.path.isfile(PAGE) or tvlib.read_text(PAGE) != text:
        print("crates/README.md isn't current: run tools/crates.py --write")
        return 1
    return 0


if __name__ == "__main__":
    tvlib.start(main)
