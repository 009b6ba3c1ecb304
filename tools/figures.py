#!/usr/bin/env python3
"""Keeps what docs/TOOLS.md shows of the tools as they print it.

    tools/figures.py --write      runs the commands, and writes what they print, and the tables
    tools/figures.py --check      says what differs

A block after `<!-- run -->` has commands after `$`, which are run in one shell in a folder of their
own, and below them what they print. Between `<!-- table NAME -->` and `<!-- end -->` is a table:
`advice` is tvwhy.ADVICE, `pairs` what passes of LLVM make of bench/pairs.c. The table `pairs` needs
clang-19 and opt-19, and is left as it is where they aren't installed, or are of another version than
the one that it names. Limits of time are raised while the commands run, so that a busy machine shows
the same.

Status: 0 nothing differs, or it was written, 1 something differs, 127 a program is missing.
"""
import argparse
import collections
import difflib
import json
import os
import re
import shutil
import subprocess
import sys
import tempfile

import tvir
import tvlib
import tvwhy

ROOT = os.path.dirname(tvlib.HERE)
PAGE = os.path.join(ROOT, "docs", "TOOLS.md")
RUN = re.compile(r"(<!-- run -->\n```\n)(.*?)(```\n)", re.S)
TABLE = re.compile(r"(<!-- table (\w+) -->\n)(.*?)(<!-- end -->\n)", re.S)
SECONDS = 600
PASSES = ["instcombine", "simplifycfg", "gvn", "early-cse", "reassociate", "sccp",
          "aggressive-instcombine", "default<O2>"]


def printed(body):
    """A block's commands with what they print below them."""
    commands = [line for line in body.splitlines() if line.startswith("$ ")]
    with tempfile.TemporaryDirectory(prefix="figures-") as folder:
        for name in ("tools", "bench", "examples", "crates"):
            os.symlink(os.path.join(ROOT, name), os.path.join(folder, name))
        script = "\n".join(line[2:] for line in commands)
        done = subprocess.run(["sh", "-c", script], cwd=folder, capture_output=True, text=True,
                              env={**os.environ, "TV": tvlib.tv_program(), "TV_TRACE": "false",
                                   "TV_LLVM_NONE": "1", "TV_TIME": str(SECONDS)})
    output = (done.stdout + done.stderr).replace(f"seconds {SECONDS}", "seconds 10")
    return "".join(line + "\n" for line in commands) + output


def advice():
    """What is refused, and what to do."""
    rows = [f"| {kind} | {text} |" for kind, text in tvwhy.ADVICE.items()]
    return "\n".join(["", "| what is there | what to do |", "|---|---|", *rows, "", ""])


def llvm():
    """The version of LLVM, or None where clang or opt isn't installed, or tv-split isn't built."""
    os.environ.pop("TV_LLVM_NONE", None)
    if not shutil.which("clang-19") or not shutil.which("opt-19") or not tvir.split_program():
        return None
    said = subprocess.run(["opt-19", "--version"], capture_output=True, text=True).stdout
    return re.search(r"LLVM version (\S+)", said).group(1)


def pairs(version):
    """What each pass changes of bench/pairs.c, and what of it tv then doesn't read."""
    with tempfile.TemporaryDirectory(prefix="figures-") as folder:
        module = os.path.join(folder, "pairs.ll")
        subprocess.run(["clang-19", "-S", "-emit-llvm", "-O0", "-Xclang", "-disable-O0-optnone",
                        os.path.join(ROOT, "bench", "pairs.c"), "-o", module], check=True)
        rows = [pairs_row(module, passes) for passes in PASSES]
    return "\n".join(["", f"LLVM {version}; {rows[0][0]} functions:", "",
                      "| passes | changed | refused | at |", "|---|---|---|---|",
                      *(row for _, row in rows), "", ""])


def pairs_row(module, passes):
    """The number of functions, and the table's row of these passes."""
    done = subprocess.run([os.path.join(tvlib.HERE, "tv-check"), "--before", "function(sroa)",
                           "--opt", f"-passes={passes}", "--weight", "1", "--json", module],
                          capture_output=True, text=True,
                          env={**os.environ, "TV": tvlib.tv_program(), "TV_TRACE": "false", "TV_OPT": "opt-19",
                               "TV_TIME": str(SECONDS)})
    rows = [json.loads(line) for line in done.stdout.splitlines()]
    changed = [row for row in rows if row["kind"] != "same"]
    at = collections.Counter(tvwhy.kind_of(row["what"]) for row in changed
                             if row["kind"] == "refused")
    said = ", ".join(f"`{what}` {number}" for what, number in sorted(
        at.items(), key=lambda item: (-item[1], item[0])))
    return len(rows), f"| `{passes}` | {len(changed)} | {sum(at.values())} | {said} |"


def renewed(text, blocks):
    """The page with all figures anew; `blocks` says whether commands are run too."""
    if blocks:
        text = RUN.sub(lambda found: found[1] + printed(found[2]) + found[3], text)

    def table(found):
        old, version = found[3], llvm()
        if found[2] == "advice":
            new = advice()
        elif version and (not old or f"LLVM {version};" in old or "--write" in sys.argv):
            new = pairs(version)
        else:
            print(f"skipped: the table {found[2]}: no LLVM of its version, or no tv-split")
            new = old
        return found[1] + new + found[4]
    return TABLE.sub(table, text)


def main():
    parser = argparse.ArgumentParser(description=__doc__,
                                     formatter_class=argparse.RawDescriptionHelpFormatter)
    how = parser.add_mutually_exclusive_group(required=True)
    how.add_argument("--write", action="store_true")
    how.add_argument("--check", action="store_true")
    options = parser.parse_args()
    old = tvlib.read_text(PAGE)
    new = renewed(old, True)
    if options.write:
        tvlib.write_out(PAGE, new)
        return 0
    lines = list(difflib.unified_diff(old.splitlines(), new.splitlines(), "docs/TOOLS.md",
                                      "printed now", lineterm="", n=1))
    print("".join(line + "\n" for line in lines), end="")
    return 1 if lines else 0


if __name__ == "__main__":
    tvlib.start(main)
