#!/usr/bin/env python3
"""Tests of edits.py: what it makes of the lines of a log, and that docs/EDITS.md has a line for each edit.

    tools/test_edits.py [-v]

The tree of the tests is a small one that they make. The last line counts; the status is 1 where one failed.
"""
import pathlib
import subprocess
import sys
import tempfile

HERE = pathlib.Path(__file__).resolve().parent
SOURCE = """\
pub struct Board {
    count: u64,
}

impl Board {
    /// Draws.
    pub fn claim(&mut self) -> u64
        ensures above { self.old.count < result }
    {
        self.count += 1;
        self.next()
    }

    fn next(&self) -> u64
        ensures { result ≡ self.count }
    {
        self.count
    }
}
"""
ROOT = "mod board;\n\npub use board::Board;\n"
EDIT = "file: src/board.rt\nold:         self.count += 1;\nnew:         self.count += 2;\n"
PAGE = "# Edits\n\n<!-- tools/edits.py -->\n| crate | edit | function | refused at |\n|---|---|---|---|\n<!-- end -->\nend\n"
SAID = "rt: must-fail low/skips_one.edit: refused, as it must be"
CLAUSE = SAID + ": note: src/board.rt:8:5: it is not proved that what the function ensures holds (`returns-clause-above`); the"
ROW = "| `low` | skips one | `Board::claim`, public | clause `above` (`returns-clause-above`) |"


class Tree:
    """A tree with one crate, one edit and an empty page."""

    def __init__(self, folder):
        self.folder = pathlib.Path(folder)
        self.put("tools/edits.py", (HERE / "edits.py").read_text())
        self.put("docs/EDITS.md", PAGE)
        self.put("crates/low/src/lib.rt", ROOT)
        self.put("crates/low/src/board.rt", SOURCE)
        self.put("crates/low/must-fail/skips_one.edit", EDIT)

    def put(self, name, text):
        path = self.folder / name
        path.parent.mkdir(parents=True, exist_ok=True)
        path.write_text(text)

    def run(self, *words, log=""):
        done = subprocess.run([sys.executable, "tools/edits.py", *words], cwd=self.folder, input=log, capture_output=True,
                              text=True, timeout=60)
        return done.returncode, done.stdout, done.stderr

    def row(self, log):
        """The status and the last line of the table of a log."""
        status, out, _ = self.run("-", log=log)
        return status, out.splitlines()[-1]


def want(found, wanted):
    assert found == wanted, f"{found!r} in place of {wanted!r}"


def a_clause(tree):
    want(tree.row(CLAUSE), (0, ROW))


def a_clause_without_name(tree):
    log = CLAUSE.replace("rt:8:5", "rt:15:5").replace("returns-clause-above", "returns")
    want(tree.row(log), (0, "| `low` | skips one | `Board::next` | its clause (`returns`) |"))


def a_call(tree):
    log = CLAUSE.replace("returns-clause-above", "load-requires-clause-seat")
    want(tree.row(log)[1].split(" | ")[3], "what `load` requires: `seat` (`load-requires-clause-seat`) |")


def a_loop(tree):
    log = CLAUSE.replace("returns-clause-above", "search-preserved-in_ok-push")
    want(tree.row(log)[1].split(" | ")[3], "invariant of the loop `search` (`search-preserved-in_ok-push`) |")


def a_written_proof(tree):
    log = SAID + ": ./proofs/board/Board/claim/Answers.antt:9:36: error: `returns-clause-above`: as printed, the two"
    want(tree.row(log)[1], ROW.replace(") |", "), in a written proof |"))


def a_cut_name(tree):
    status, row = tree.row(CLAUSE[:CLAUSE.index("above")])
    want((status, "`returns-clause-`" in row), (0, True))


def faults_get_no_line(tree):
    for said in (SAID + " (only because a proof file names what the edit took away, so this says little): note: src/board.rt:8:5: x",
                 SAID + " (only by a limit of the prover, which gave no verdict): src/board.rt:8:5: error: x",
                 SAID, SAID + ": something else",
                 "rt: must-fail low/skips_one.edit: NOT REFUSED: the crate is still proved with this edit",
                 "rt: must-fail low/skips_one.edit: BAD EDIT: an 'old:' text is not there",
                 "rt: must-fail low/skips_one.edit: NOT TRIED: killed"):
        status, out, err = tree.run("-", log=said)
        want((status, len(out.splitlines()), err.count("low/skips_one")), (1, 2, 1))


def an_edit_of_another_tree(tree):
    status, out, err = tree.run("-", log=CLAUSE.replace("skips_one", "skips_two"))
    want((status, len(out.splitlines()), err.count("low/skips_two")), (1, 2, 1))


def an_empty_log(tree):
    want(tree.run("-", log="rt: low proved\n")[0], 1)


def written_and_checked(tree):
    want(tree.run("--check")[0], 1)
    want(tree.run("--write", "-", log=CLAUSE), (0, "", ""))
    want((tree.folder / "docs/EDITS.md").read_text(), PAGE.replace("<!-- end", ROW + "\n<!-- end"))
    want(tree.run("--check"), (0, "", ""))
    want(tree.run("--check", "-", log=CLAUSE), (0, "", ""))
    want(tree.run("--check", "-", log=CLAUSE.replace("clause-above", "clause-below"))[0], 1)


def an_edit_that_is_new_or_gone(tree):
    tree.run("--write", "-", log=CLAUSE)
    tree.put("crates/low/must-fail/another.edit", EDIT)
    want(tree.run("--check")[0], 1)
    want(tree.run("--write", "-", log=CLAUSE)[0], 1)
    (tree.folder / "crates/low/must-fail/another.edit").unlink()
    (tree.folder / "crates/low/must-fail/skips_one.edit").unlink()
    want(tree.run("--check")[0], 1)


def an_edit_of_a_contract(tree):
    tree.run("--write", "-", log=CLAUSE)
    tree.put("crates/low/must-fail/skips_one.edit", EDIT.replace("        self.count += 1;", "self.old.count < result"))
    want(tree.run("--check")[0], 1)
    tree.put("crates/low/must-fail/skips_one.edit", EDIT.replace("src/board.rt", "specs/Board.antt"))
    want(tree.run("--check")[0], 1)


def wrong_words(tree):
    want(tree.run()[0], 4)
    want(tree.run("--wrong", "-")[0], 4)
    want(tree.run("--write")[0], 4)
    want(tree.run("none.log")[0], 5)


def the_page_of_the_repository(_tree):
    done = subprocess.run([sys.executable, str(HERE / "edits.py"), "--check"], capture_output=True, text=True, timeout=60)
    want((done.returncode, done.stderr), (0, ""))


CASES = [a_clause, a_clause_without_name, a_call, a_loop, a_written_proof, a_cut_name, faults_get_no_line,
         an_edit_of_another_tree, an_empty_log, written_and_checked, an_edit_that_is_new_or_gone, an_edit_of_a_contract, wrong_words, the_page_of_the_repository]


def main():
    failed = 0
    for case in CASES:
        with tempfile.TemporaryDirectory(prefix="test-edits-") as folder:
            try:
                case(Tree(folder))
                if "-v" in sys.argv[1:]:
                    print(f"passed: {case.__name__}")
            except (AssertionError, OSError, subprocess.TimeoutExpired) as error:
                failed += 1
                print(f"failed: {case.__name__}: {error}")
    print(f"edits: {len(CASES) - failed} passed, {failed} failed")
    return 1 if failed else 0


if __name__ == "__main__":
    sys.exit(main())
