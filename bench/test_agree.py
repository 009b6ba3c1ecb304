#!/usr/bin/env python3
"""Tests of agree.py: how rows are read and compared, and what a fault of one of the three makes of it.

    bench/test_agree.py [-v]

The whole script runs with stand-ins for tv and opt (tools/testdata). The last line counts; the status
is 1 where a case failed.
"""
import json
import os
import subprocess
import sys
import tempfile

sys.dont_write_bytecode = True
HERE = os.path.dirname(os.path.realpath(__file__))
TOOLS = os.path.join(os.path.dirname(HERE), "tools")
sys.path[:0] = [HERE, TOOLS]

import agree
from test_tools import DATA, equal, has

# An opt that is the stand-in, and with -tv appends what the case has as the plugin's report.
OPT = """#!/usr/bin/env -S python3 -IS
import os, subprocess, sys
words = sys.argv[1:]
report = [word.partition("=")[2] for word in words if word.startswith("-tv-report=")]
if report:
    sys.stderr.write(os.environ.get("PLUGIN_SAYS", ""))
    if os.environ.get("PLUGIN_SIGNAL"):
        os.kill(os.getpid(), int(os.environ["PLUGIN_SIGNAL"]))
    open(report[0], "a").write(os.environ["PLUGIN_REPORT"])
    sys.exit(0)
os.execv(sys.executable, [sys.executable, "-IS", os.environ["STAND_IN"], *words])
"""
MODULE = """define i8 @twice(i8 %x) {
  %y = add i8 %x, %x
  ret i8 %y
}
define i8 @bad(i8 %x) {
  %y = add i8 %x, 1
  ret i8 %y
}
define i8 @same(i8 %x) {
  ret i8 %x
}
"""
TWICE, BAD = ("twice", "correct", ""), ("bad", "incorrect", "")


def report(*rows, end=True):
    """The plugin's report with these rows."""
    lines = [{"file": "x", "pass": "p", "function": name, "kind": kind, "detail": detail}
             for name, kind, detail in rows]
    if end:
        lines.append({"file": "x", "kind": "end", "rows": len(rows)})
    return "".join(json.dumps(line) + "\n" for line in lines)


def rows_agree(folder):
    for rows, wanted in [
            (("correct", "correct", "correct"), True), (("bounded x", "bounded", "correct"), True),
            (("correct", "bounded", "correct"), False), (("same", "same", "no row"), True),
            (("missing", "missing", "no row"), True), (("extra", "extra", "no row"), True),
            (("correct", "correct", "no row"), False), (("same", "same", "correct"), False),
            (("correct", "correct", "vacuous"), False), (("vacuous", "vacuous", "vacuous"), True),
            (("refused source Call 1:1", "refused", "refused target Call 2:2"), True),
            (("no row", "no row", "correct"), False), (("no row", "same", "no row"), False),
            (("same", "no row", "no row"), False), (("correct", "correct"), True),
            (("correct", "incorrect"), False)]:
        equal(agree.agree(*rows), wanted, f"agreement of {rows}")


def functions_are_compared(folder):
    kinds, lines = agree.compared(
        {"a": "correct", "b": "bounded", "c": "unknown time", "d": "correct no bound", "0": "correct",
         "t": "unknown reach time"},
        {"t": "correct", "a": "correct", "b": "bounded", "c": "correct", "d": "correct", "0": "correct", "e": "same"},
        {"a": "correct", "b": "correct", "c": "correct", "d": "unknown weight", "t": "correct", "unnamed": "failed"})
    equal(dict(kinds), {"correct": 2, "bounded": 1, "time": 2, "different": 2}, "counts")
    equal(lines, ["@d: tv-check correct no bound, tv-tree correct, plugin unknown weight",
                  "@e: tv-check no row, tv-tree same, plugin no row"], "differences")
    kinds, lines = agree.compared({"unnamed": "correct"}, {"unnamed": "correct"},
                                  {"unnamed": "incorrect", "f": "correct"})
    equal((dict(kinds), len(lines)), ({"different": 2}, 2), "a function that is called unnamed")


def reports_are_read(folder):
    equal(agree.of_plugin("").rows, {}, "no report")
    equal(agree.of_plugin(report(("a b", "correct", ""), ("f", "unknown", "weight"))).rows,
          {'"a b"': "correct", "f": "unknown weight"}, "rows of the plugin")
    for text in (report(TWICE, end=False), report(TWICE).replace('"rows": 1', '"rows": 2'),
                 report(TWICE, TWICE)):
        try:
            agree.of_plugin(text)
        except agree.Fault:
            continue
        raise AssertionError(f"{text!r} is taken for a report")
    found = agree.of_check('{"function": "", "kind": "failed", "detail": "tv died"}\n'
                           '{"function": "f", "kind": "same", "detail": ""}\n')
    equal((found.rows, found.faults), ({"f": "same"}, ["tv died"]), "tv-check's rows")
    found = agree.of_tree("file,passes,function,kind,cause\nx,p,f,same,\nx,p,,opt failed,signal 6\n")
    equal((found.rows, found.faults), ({"f": "same"}, ["opt failed: signal 6"]), "tv-tree's rows")
    names = ["f", "a b", "é", "1", "x\"y"]
    equal([agree.spelled(name) for name in names], ["f", '"a b"', '"\\C3\\A9"', '"1"', '"x\\22y"'],
          "names")


def run(folder, *words, **variables):
    """Status, output, and standard error of the script on a folder, with the stand-ins."""
    kept = {name: value for name, value in os.environ.items() if not name.startswith("TV")}
    done = subprocess.run(
        [sys.executable, os.path.join(HERE, "agree.py"), os.path.join(folder, "tree"), *words],
        cwd=folder, capture_output=True, text=True, timeout=300,
        env={**kept, "TV": os.path.join(DATA, "fake-tv"), "TV_LLVM_NONE": "1",
             "TV_OPT": os.path.join(folder, "opt"), "STAND_IN": os.path.join(DATA, "wrong-opt"),
             "TV_LLVM": os.path.join(folder, "opt"), **variables})
    return done.returncode, done.stdout, done.stderr


def whole_runs(folder):
    os.mkdir(os.path.join(folder, "tree"))
    path = os.path.join(folder, "tree", "a.ll")
    for name, text in ((path, MODULE), (os.path.join(folder, "opt"), OPT)):
        with open(name, "w") as file:
            file.write(text)
    os.chmod(os.path.join(folder, "opt"), 0o755)
    status, out, err = run(folder, "-p", "double,wrong", PLUGIN_REPORT=report(TWICE, BAD))
    equal((status, out.splitlines()[-1]),
          (0, "files 1 left out 0 functions 3 differences 0 faults 0"), f"no difference: {out}{err}")
    has(out, "correct          1\n", "incorrect        1\n", "same             1\n")
    status, out, _ = run(folder, "-p", "double,wrong", PLUGIN_REPORT=report(TWICE))
    equal(status, 1, "status of a row that the plugin lacks")
    has(out, f"difference {path} @bad: tv-check incorrect, tv-tree incorrect, plugin no row\n")
    for more, said in (({"PLUGIN_REPORT": report(TWICE, end=False)}, "a report without its end"),
                       ({"PLUGIN_SIGNAL": "11", "PLUGIN_SAYS": "bye\n"}, "ended by signal 11: bye"),
                       ({"PLUGIN_REPORT": "no JSON\n"}, "Expecting value")):
        status, out, _ = run(folder, "-p", "double,wrong", **more)
        equal(status, 2, f"status of {said}")
        has(out, f"fault {path} plugin: {said}", "functions 0 differences 0 faults 1\n")
    with open(path, "w") as file:
        file.write("broken\n")
    status, out, _ = run(folder, "-p", "double", PLUGIN_REPORT="")
    equal(status, 3, "status where nothing was compared")
    has(out, f"left out {path} opt fails: wrong-opt: error: expected top-level entity\n")
    equal(run(folder, "-p", "double", "--wrong")[0], 4, "status of a wrong option")
    equal(run(folder, "-p", "double", TV="nothing")[0], 127, "status without tv")


CASES = [rows_agree, functions_are_compared, reports_are_read, whole_runs]


def main():
    failed = 0
    for case in CASES:
        with tempfile.TemporaryDirectory(prefix="test-agree-") as folder:
            try:
                case(folder)
            except (AssertionError, OSError, ValueError, LookupError, agree.Fault,
                    subprocess.TimeoutExpired) as error:
                failed += 1
                print(f"failed: {case.__name__}: {type(error).__name__}: {error}", flush=True)
                continue
        if "-v" in sys.argv[1:]:
            print(f"passed: {case.__name__}", flush=True)
    print(f"agree: {len(CASES) - failed} passed, {failed} failed")
    return 1 if failed else 0


if __name__ == "__main__":
    sys.exit(main())
