#!/usr/bin/env python3
"""Tests of the scripts that hold pages to the tree: crates.py, links.py, instructions.py, where, test_where.py, and
shares.py and house.py of bench/.

    tools/test_pages.py [-v]

Each case makes a small tree with these scripts in it, and wants of a fault in it a status that isn't 0, with
words. The last line counts; the status is 1 where a case failed.
"""
import os
import pathlib
import shutil
import subprocess
import sys
import tempfile

HERE = pathlib.Path(__file__).resolve().parent
COPIED = ["tools/crates.py", "tools/links.py", "tools/instructions.py", "tools/where", "tools/test_where.py",
          "tools/tvlib.py", "bench/shares.py", "bench/house.py"]
NOTE = "# NAME: the libraries that it uses.\n"
CRATES = NOTE + "\n# base\nlow: indexmap\n\n# program\nhigh: low\ntop staticlib: high low\n\n# tests\ntest_all: top\n"
INSTRUCTIONS = """\
# Instructions

## A new colour

Names: `Red` `Green`

| | file | what it gets | names |
|---|---|---|---|
| 1 | `crates/low/src/lib.rt` | the variant | |
| 2 | `crates/high/src/lib.rt` | its name | `Red` |
"""
ARCHITECTURE = """\
# Architecture

| layer | percent of the tree proved again |
|---|---|
| base | low 100 |
| program | high 57, top 33 |

## What it costs

| question | file |
|---|---|
| which colours | `low/specs/Colours` |
"""
README = """\
# Read me

[One](docs/ARCHITECTURE.md), [two](docs/ARCHITECTURE.md#what-it-costs), [a line](crates/low/src/lib.rt#L2),
[a page](https://example.org/none), [here](#read-me), `[no link](none.md)`.

```
[no link](none.md)
```
"""
FILES = {
    "crates.txt": CRATES,
    "README.md": README,
    "docs/INSTRUCTIONS.md": INSTRUCTIONS,
    "docs/ARCHITECTURE.md": ARCHITECTURE,
    "crates/low/src/lib.rt": "//! Colours, and\n//! no more. It promises nothing.\npub enum Colour {\n    Red,\n    Green,\n}\n",
    "crates/low/specs/Colours.antt": "-- Which colours there are.\nabbrev pub IsColour : Type 0\n",
    "crates/low/proofs/Mixing.antt": "-- How colours mix.\nuse Rattle.std\n\npub mixed : IsColour\nmixed = refl\n",
    "crates/high/src/lib.rt": "//! Names of colours.\n/// Red.\npub fn red() {}\n\nfn Red()\n    ensures { result }\n{}\n",
    "crates/top/src/main.rt": "//! The program.\n\n\n\n\n",
    "crates/test_all/src/lib.rt": "//! Tests.\n\n\n\n\n",
}


class Tree:
    """A small tree, in which nothing is wrong."""

    def __init__(self, folder):
        self.root = pathlib.Path(folder)
        for name in COPIED:
            (self.root / name).parent.mkdir(parents=True, exist_ok=True)
            shutil.copy(HERE.parent / name, self.root / name)
        for name, text in FILES.items():
            self.write(name, text)
        want(self.run("tools/crates.py", "--write"), 0)

    def write(self, name, text):
        (self.root / name).parent.mkdir(parents=True, exist_ok=True)
        (self.root / name).write_text(text)

    def change(self, name, old, new):
        text = (self.root / name).read_text()
        want(text.count(old), 1)
        self.write(name, text.replace(old, new))

    def run(self, script, *words):
        """The status of a script; what it says is kept."""
        done = subprocess.run([sys.executable, str(self.root / script), *words], cwd=self.root, text=True,
                              capture_output=True, timeout=120, env={**os.environ, "PYTHONDONTWRITEBYTECODE": "1"})
        self.said = done.stdout + done.stderr
        if "Traceback" in self.said:
            raise AssertionError(self.said)
        return done.returncode

    def git(self, *words):
        subprocess.run(["git", "-c", "user.name=n", "-c", "user.email=n@localhost", *words], cwd=self.root, check=True,
                       capture_output=True, timeout=60)

    def refused(self, status, words, script, *arguments):
        """Wants this status of a script, and these words."""
        want(self.run(script, *arguments), status)
        if words not in self.said:
            raise AssertionError(f"{words!r} isn't in {self.said!r}")


def want(found, wanted):
    if found != wanted:
        raise AssertionError(f"{found!r}, not {wanted!r}")


def nothing_is_wrong(tree):
    want(tree.run("tools/crates.py", "--check"), 0)
    want(tree.run("tools/links.py"), 0)
    want(tree.run("tools/instructions.py"), 0)
    want(tree.run("bench/shares.py", "--check"), 0)


def help_is_printed(tree):
    for script in ("tools/crates.py", "tools/links.py", "tools/where", "bench/shares.py", "bench/house.py"):
        want(tree.run(script, "--help"), 0)
        want(bool(tree.said.strip()), True)


def wrong_words(tree):
    for script in ("tools/crates.py", "tools/links.py", "bench/house.py"):
        tree.refused(4, "", script, "--chekc")
    tree.refused(1, "not in crates.txt", "bench/shares.py", "--chekc")


# crates.py

def the_page_of_crates(tree):
    want(tree.run("tools/crates.py"), 0)
    want("## Base\n\n- [`low`](low/src/lib.rt): Colours, and no more.\n\n## Program" in tree.said, True)
    want("- [`top`](top/src/main.rt): The program.\n" in tree.said, True)


def a_stale_page_of_crates(tree):
    tree.change("crates/high/src/lib.rt", "Names of colours", "What colours are called")
    tree.refused(1, "isn't current", "tools/crates.py", "--check")
    want(tree.run("tools/crates.py", "--write"), 0)
    want(tree.run("tools/crates.py", "--check"), 0)
    (tree.root / "crates/README.md").unlink()
    tree.refused(1, "isn't current", "tools/crates.py", "--check")


def a_crate_without_a_comment(tree):
    tree.change("crates/high/src/lib.rt", "//! Names of colours.\n", "")
    tree.refused(2, "crates/high/src/lib.rt", "tools/crates.py", "--check")


def a_crate_without_a_root(tree):
    (tree.root / "crates/high/src/lib.rt").unlink()
    tree.refused(2, "high", "tools/crates.py", "--check")


def a_crate_that_is_not_listed(tree):
    tree.write("crates/more/src/lib.rt", "//! More.\n")
    tree.refused(2, "more", "tools/crates.py", "--check")


def a_crate_that_is_listed_twice(tree):
    tree.change("crates.txt", "# tests\n", "# tests\nhigh: low\n")
    tree.refused(2, "high", "tools/crates.py", "--check")


def a_line_of_crates_that_is_none(tree):
    tree.change("crates.txt", "high: low\n", "high = low\n")
    tree.refused(2, "crates.txt:7", "tools/crates.py", "--check")


# links.py

def links_that_lead_nowhere(tree):
    for link, words in (("[a](none.md)", "no such file"), ("[a](docs/ARCHITECTURE.md#none)", "no such anchor"),
                        ("[a](#none)", "no such anchor"), ("[a](../other.md)", "out of the repository"),
                        ("[a](/etc/passwd)", "out of the repository"), ("[a](crates/low/src/lib.rt#L99)", "no such anchor"),
                        ("[a](docs/ARCH", "isn't understood"), ("[a][none]", "isn't understood"),
                        ("[a]: none.md", "no such file"), ("<a href=\"none.md\">a</a>", "no such file"),
                        ("[a\nb](none.md)", "no such file"), ("[`a`](none.md)", "no such file"),
                        ("```\ncode\n```\n[a](none.md)", "no such file")):
        tree.write("docs/NEW.md", f"# New\n\n{link}\n".replace("(docs/", "(../docs/").replace("(crates/", "(../crates/")
                   .replace("(../other", "(../../other"))
        tree.refused(1, words, "tools/links.py")
        want("docs/NEW.md:" in tree.said, True)


def links_that_lead_somewhere(tree):
    tree.write("docs/NEW.md", "# New: `a_b`, and (c)!\n\n# Twice\n\n# Twice\n\n[a](#new-a_b-and-c) [b](#twice-1) [c][d]\n"
               "[e](../crates/low) [f](mailto:a@b)\n<!-- [g](none.md) -->\n\n[d]: ARCHITECTURE.md\n")
    want(tree.run("tools/links.py"), 0)


def no_pages_at_all(tree):
    for path in tree.root.rglob("*.md"):
        path.unlink()
    tree.refused(2, "no .md file", "tools/links.py")


# instructions.py

def a_name_that_is_not_there(tree):
    tree.change("docs/INSTRUCTIONS.md", "Names: `Red` `Green`", "Names: `Red` `Green` `Blue`")
    tree.refused(1, "crates/low/src/lib.rt: Blue", "tools/instructions.py")


def a_file_that_is_not_there(tree):
    tree.change("docs/INSTRUCTIONS.md", "crates/high/src/lib.rt", "crates/high/src/gone.rt")
    tree.refused(1, "no such file", "tools/instructions.py")


def a_file_that_is_in_no_table(tree):
    tree.write("crates/high/src/both.rt", "//! Red and Green.\n")
    tree.refused(1, "is in no table", "tools/instructions.py")


def no_section_with_names(tree):
    tree.write("docs/INSTRUCTIONS.md", "# Instructions\n")
    tree.refused(1, "", "tools/instructions.py")


# shares.py

def a_share_that_differs(tree):
    tree.change("docs/ARCHITECTURE.md", "high 57", "high 66")
    tree.refused(1, "high: 66 percent", "bench/shares.py", "--check")
    want(tree.run("bench/shares.py", "--write"), 0)
    want(tree.run("bench/shares.py", "--check"), 0)
    want((tree.root / "docs/ARCHITECTURE.md").read_text(), ARCHITECTURE)


def a_share_that_is_missing(tree):
    tree.change("docs/ARCHITECTURE.md", ", top 33", "")
    tree.refused(1, "other layers or crates", "bench/shares.py", "--check")


def a_row_of_shares_that_is_none(tree):
    tree.change("docs/ARCHITECTURE.md", "top 33", "top some")
    tree.refused(1, "no row of shares", "bench/shares.py", "--check")


def no_table_of_shares(tree):
    tree.write("docs/ARCHITECTURE.md", "# Architecture\n")
    tree.refused(1, "doesn't have the table", "bench/shares.py", "--check")
    tree.refused(1, "doesn't have the table", "bench/shares.py", "--write")


# house.py

def measures(tree):
    tree.git("init", "-q")
    tree.git("add", "-A")
    tree.git("commit", "-qm", "all")
    tree.write("crates/high/src/lib.rt", "\n" * 7)
    tree.git("commit", "-qam", "high")
    want(tree.run("bench/house.py"), 0)
    for line in ("| crates | 4 |", "| dependencies, and those that imply them | 4, 3 |", "mean of 2 | 78.3 |",
                 "| lines of proofs, of which code | 5, 2 |", "| files in INSTRUCTIONS, a new colour | 2 |",
                 "| private functions without `///` | 0 |", "| files in src without a head | 1 |"):
        want((line, line in tree.said), (line, True))


def private_functions(tree):
    tree.git("init", "-q")
    tree.git("add", "-A")
    tree.git("commit", "-qm", "all")
    want(tree.run("bench/house.py"), 0)
    want("| private functions without `///` | 1 |" in tree.said, True)
    want("| lines of src that begin a `requires` or `ensures` | 1 |" in tree.said, True)


def no_history(tree):
    tree.refused(2, "git log", "bench/house.py")


# where

def where_it_is(tree):
    want(tree.run("tools/where", "which", "colours", "are", "there"), 0)
    want(tree.said.split(":")[0], "crates/low/specs/Colours.antt")
    want(tree.run("tools/where", "IsColour"), 0)
    want(tree.said.startswith("crates/low/specs/Colours.antt:2: IsColour"), True)
    tree.refused(1, "nothing", "tools/where", "zebra")
    tree.refused(4, "tools/where WORDS", "tools/where")


def where_without_crates(tree):
    shutil.rmtree(tree.root / "crates")
    tree.refused(2, "no crates", "tools/where", "colours")


def questions(tree):
    right = "which colours are there -> crates/low/specs/Colours.antt\n" * 20
    tree.write("tools/testdata/where.txt", "# Questions\n" + right)
    want(tree.run("tools/test_where.py"), 0)
    tree.write("tools/testdata/where.txt", right + "names of colours -> crates/top/src/main.rt\n")
    tree.refused(1, "failed: names of colours", "tools/test_where.py")
    tree.write("tools/testdata/where.txt", right + "a line\n")
    tree.refused(2, "where.txt:21", "tools/test_where.py")
    tree.write("tools/testdata/where.txt", right[:100])
    tree.refused(2, "where.txt", "tools/test_where.py")


CASES = [nothing_is_wrong, help_is_printed, wrong_words, the_page_of_crates, a_stale_page_of_crates,
         a_crate_without_a_comment, a_crate_without_a_root, a_crate_that_is_not_listed, a_crate_that_is_listed_twice,
         a_line_of_crates_that_is_none, links_that_lead_nowhere, links_that_lead_somewhere, no_pages_at_all,
         a_name_that_is_not_there, a_file_that_is_not_there, a_file_that_is_in_no_table, no_section_with_names,
         a_share_that_differs, a_share_that_is_missing, a_row_of_shares_that_is_none, no_table_of_shares, measures,
         private_functions, no_history, where_it_is, where_without_crates, questions]


def main():
    failed = 0
    for case in CASES:
        with tempfile.TemporaryDirectory(prefix="test-pages-") as folder:
            try:
                case(Tree(folder))
                if "-v" in sys.argv[1:]:
                    print(f"passed: {case.__name__}")
            except (AssertionError, OSError, subprocess.SubprocessError) as error:
                failed += 1
                print(f"failed: {case.__name__}: {error}")
    print(f"pages: {len(CASES) - failed} passed, {failed} failed")
    return 1 if failed else 0


if __name__ == "__main__":
    sys.exit(main())
