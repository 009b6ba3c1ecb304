#!/usr/bin/env python3
"""Tests of the scripts in this folder, on the small modules in testdata.

    tools/test_tools.py [-v]

Each case runs a script as a user does, with a fake opt whose passes are partly wrong, and
compares its status and what it wrote with what must come out. The cases run with a fake tv, then
with the real one where it is built, and those of LLVM's own passes where opt-19 or opt is
installed; what isn't there is skipped, and said. The last line counts; the status is 1 where a
case failed.
"""
import concurrent.futures
import contextlib
import csv
import html.parser
import json
import os
import pty
import pwd
import re
import shutil
import signal
import stat
import subprocess
import sys
import tempfile
import time
import xml.etree.ElementTree

import tvbounds
import tvwhy

TOOLS = os.path.dirname(os.path.realpath(__file__))
DATA = os.path.join(TOOLS, "testdata")
ARITH = os.path.join(DATA, "tree", "arith.ll")
NAMES = os.path.join(DATA, "tree", "sub", "names.ll")
BROKEN = os.path.join(DATA, "tree", "sub", "broken.ll")
SLOW = os.path.join(DATA, "slow", "slow.ll")
WHOLE = os.path.join(DATA, "whole", "whole.ll")
PROOF = os.path.join(DATA, "two.tvproof")
PRINTED = os.path.join(TOOLS, "..", "crates", "test_reading", "src", "print_tests.rt")
SCRIPTS = ["tv-check", "opt-tv", "tv-tree", "tv-vacuous", "tv-reduce", "tv-html", "tv-baseline",
           "tv-proof", "quick"]
SOLVERS = ["cadical", "minisat", "picosat"]
AT_A_TIME = 2


class Bench:
    """A folder and an environment in which scripts run."""

    def __init__(self, folder, **variables):
        self.folder = folder
        kept = {name: value for name, value in os.environ.items()
                if not name.startswith("TV") and name != "REAL_OPT"}
        path = os.path.dirname(sys.executable) + os.pathsep + kept.get("PATH", os.defpath)
        self.variables = {**kept, "PATH": path, **variables}

    def run(self, script, *args, data="", **variables):
        path = os.path.join(TOOLS, script)
        return subprocess.run([path, *args], cwd=self.folder, input=data, text=True,
                              capture_output=True, env={**self.variables, **variables}, timeout=300)

    def file(self, *names):
        with open(os.path.join(self.folder, *names)) as file:
            return file.read()

    def write(self, name, text):
        with open(os.path.join(self.folder, name), "w") as file:
            file.write(text)

    def only(self, folder, ending):
        names = [name for name in os.listdir(os.path.join(self.folder, folder))
                 if name.endswith(ending)]
        equal(len(names), 1, f"files {ending} in {folder}")
        return self.file(folder, names[0])

    def passes(self, name, file):
        return self.run(os.path.join(DATA, "wrong-opt"), "-S", f"-passes={name}", file).stdout


def equal(found, wanted, what):
    if found != wanted:
        raise AssertionError(f"{what}: found {shown(found)}, wanted {shown(wanted)}")


def shown(value):
    text = repr(value)
    return text if len(text) <= 1000 else text[:1000] + ".."


def has(text, *wanted):
    for part in wanted:
        if part not in text:
            raise AssertionError(f"{part!r} is not in {shown(text)}")


def has_not(text, *unwanted):
    for part in unwanted:
        if part in text:
            raise AssertionError(f"{part!r} is in {shown(text)}")


# All scripts.

def help_is_one_screen(bench):
    for script in SCRIPTS:
        done = bench.run(script, "--help")
        equal((done.returncode, done.stderr), (0, ""), f"{script} --help")
        has(done.stdout, script, {"tv-baseline": "BASELINE", "tv-proof": "FOLDER", "quick": "rt try"}.get(script, "TV"))
        equal(len(done.stdout.splitlines()) <= 50, True, f"{script} --help is one screen")


def quick_without_rt(bench):
    there = os.path.join(bench.folder, "bin")
    os.mkdir(there)
    for name in ("python3", "env"):
        os.symlink(shutil.which(name), os.path.join(there, name))
    done = bench.run("quick", "out", PATH=there)
    equal((done.returncode, done.stdout), (127, ""), "status without an rt")
    has(done.stderr, "quick: rt was not found: put the kit's bin on the PATH\n")
    bench.write("bin/rt", "#!/bin/sh\necho 'error: no such kit' >&2\nexit 3\n")
    os.chmod(os.path.join(there, "rt"), 0o755)
    done = bench.run("quick", "out", PATH=there + os.pathsep + bench.variables["PATH"])
    equal((done.returncode, done.stdout), (1, ""), "status where rt fails")
    has(done.stderr, "rt try ended without a program:\nerror: no such kit\n")
    for args in (["--fast"], ["a", "b"]):
        done = bench.run("quick", *args, PATH=there)
        equal((done.returncode, done.stdout), (4, ""), f"status of {args}")
        has(done.stderr, "quick: ", "tools/quick [OUT]")
    done = bench.run("quick", "bin", PATH=there)
    equal((done.returncode, done.stdout), (4, ""), "status of a folder")
    has(done.stderr, "quick: bin is a folder: name the file of the program\n")
    equal(sorted(os.listdir(bench.folder)), ["bin"], "files")


# tv-check.

COUNTS = "correct 1 incorrect 1 unknown 1 refused 1 signature 0 missing 0 extra 0 vacuous 1\n"
REPORT = """tv-check 1 turns 4 blocks 2 bytes 8 seconds 10
@twice correct no bound
@bad_sum incorrect
  arg 0 %x = 0
  arg 1 %y = 1
  source returns 1
  target returns 255 (-1, 0xff)
@never vacuous
@heavy unknown weight
@calls refused source Unsupported 33:8 call @outside
refused 1, by what is there:
      1 call @outside  calls are not read: inline them on both sides first (--before \
'always-inline' or 'inline'), or give the pass functions without calls
""".replace("\\\n", "") + COUNTS


def check_two(bench):
    bench.write("after.ll", bench.passes("double,wrong", ARITH))
    for args in ([ARITH, "after.ll"], ["-j", "1", ARITH, "after.ll"],
                 ["--opt", "-passes=double,wrong", ARITH]):
        done = bench.run("tv-check", *args)
        equal((done.returncode, done.stdout, done.stderr), (1, REPORT, ""), f"answer to {args}")
    done = bench.run("tv-check", ARITH, "-", data=bench.file("after.ll"))
    equal((done.returncode, done.stdout), (1, REPORT), "answer with standard input")
    done = bench.run("tv-baseline", "base", "-", "--name", "f", "--write", data=REPORT)
    has(done.stdout, "incorrect: f @bad_sum incorrect\nrows 5 incorrect 1 new 0 gone 0\n")
    has(bench.file("base"), "f @calls refused source Unsupported\n", "f @never vacuous\n")


def names_are_no_words(bench):
    for line, from_outside, jumps in (("  %call = add i8 %x, 1", False, []),
                                      ("  %r = tail call i8 @f()", True, []),
                                      ("call:", False, []),
                                      ("  %load.3 = add i8 %x, 1", False, []),
                                      ("  %q = load ptr, ptr %p", True, []),
                                      ("  %q = load volatile i8, ptr %p", False, []),
                                      ("  br label %call", False, ["call"]),
                                      ("  %label = add i8 %x, 1", False, [])):
        equal((bool(tvbounds.FROM_OUTSIDE.search(line)), tvbounds.JUMP.findall(line)),
              (from_outside, jumps), line)


FIRST = "".join(REPORT.splitlines(True)[:7]).replace("seconds 10\n", "seconds 10 first\n") + (
    "correct 1 incorrect 1 unknown 0 refused 0 signature 0 missing 0 extra 0\n")


def check_first(bench):
    bench.write("after.ll", bench.passes("double,wrong", ARITH))
    for jobs in "1", "2", "4":
        done = bench.run("tv-check", ARITH, "after.ll", "--first", "-j", jobs, "--json=rows")
        equal((done.returncode, done.stdout, done.stderr), (1, FIRST, ""), f"answer to -j {jobs}")
        equal(bench.file("rows").count("\n"), 2, "objects of the rows")
    done = bench.run("tv-check", "--opt", "-passes=double", ARITH, "--first", "-f", "twice")
    equal(done.returncode, 0, "status where none is incorrect")
    has(done.stdout, "seconds 10 first\n@twice correct no bound\ncorrect 1 incorrect 0 ")


def check_first_and_slow(bench):
    slow, others = open(SLOW).read(), open(ARITH).read()
    bench.write("last.ll", others + "\n" + slow)
    bench.write("first.ll", slow + "\n" + others)
    for name in "last", "first":
        bench.write(f"{name}_after.ll", bench.passes("double,wrong", f"{name}.ll"))
    log = os.path.join(bench.folder, "log")
    done = bench.run("tv-check", "last.ll", "last_after.ll", "--first", "-j", "1", FAKE_TV_LOG=log)
    equal((done.stdout, bench.file("log").count("\n")), (FIRST, 4),
          "report and runs of tv: what it finds, two pairs, and how far the correct one reaches")
    done = bench.run("tv-check", "last.ll", "last_after.ll", "--first", "-j", "6", "--seconds", "100")
    equal(done.stdout, FIRST.replace("seconds 10", "seconds 100"), "a slow function after it")
    done = bench.run("tv-check", "first.ll", "first_after.ll", "--first", "-j", "6", "--seconds", "2")
    wanted = FIRST.replace("seconds 10 first\n", "seconds 2 first\n@slow unknown time\n")
    equal(done.stdout, wanted.replace("unknown 0", "unknown 1"), "a slow function before it")


def check_src_and_tgt(bench):
    text = "define i8 @src(i8 %x) {\n  %r = add i8 %x, %x\n  ret i8 %r\n}\n"
    good = text.replace("src", "tgt").replace("add i8 %x, %x", "shl i8 %x, 1")
    more = text.replace("src", "src2") + good.replace("tgt", "tgt2").replace("shl", "sub")
    bench.write("pair.ll", text + good)
    done = bench.run("tv-check", "pair.ll")
    equal((done.returncode, done.stderr), (0, ""), "status of a right pair")
    has(done.stdout, "@src correct no bound\n")
    done = bench.run("tv-check", "-", data=text + good + more + text.replace("src", "src_3"))
    equal(done.returncode, 1, "status of three pairs")
    has(done.stdout, "@src correct no bound\n", "@src2 incorrect\n", "@src_3 missing\n")
    equal(bench.run("tv-check", "-", data=text + text.replace("src", "tgt")).stdout.split("\n")[1],
          "@src same", "the row of equal functions")


def check_folders(bench):
    tree = os.path.join(DATA, "tree")
    done = bench.run("tv-check", "--opt", "-passes=rename,widen", tree)
    equal(done.returncode, 2, "status where opt fails on a module")
    has(done.stdout, f"module {NAMES}\n@old missing\n@wide signature\n@new extra\n",
        f"fault {BROKEN}: opt -passes=rename,widen: wrong-opt: error")
    equal(len(re.findall(r"^@\w+ same$", done.stdout, re.M)), 5, "same rows")
    done = bench.run("tv-check", tree, tree, "--function", "o*", "-f", "@wide")
    equal(re.findall(r"^@(\w+) (\w+)$", done.stdout, re.M), [("old", "same"), ("wide", "same")],
          "rows of patterns")
    bench.write("base.csv", done.stdout)
    equal(bench.run("tv-baseline", "base", "base.csv").returncode, 0, "status of the baseline")


def check_front(bench):
    bench.write("one.ll", CALLS)
    bench.write("empty.ll", "target triple = \"x\"\n")
    bench.write("twice.ll", "define void @f() {\n  ret void\n}\n" * 2)
    for args, status, wanted in [
            ([], 4, "nothing to check: tv-check A B, "),
            (["--tunrs", "3", "a", "b"], 4, "--tunrs is no option; did you mean --turns?"),
            (["--turns", "99", "a", "b"], 4, "--turns: takes a number from 0 to 64, not '99'"),
            (["--jobs", "0", "a", "b"], 4, "--jobs/-j: takes a number of at least 1, not '0'"),
            (["check", "a", "b"], 4, "check is no file: tv-check takes files straight"),
            (["a", "b", "c"], 4, "3 files: two are compared"),
            (["one.l", "one.ll"], 5, "cannot read one.l: No such file or directory; did you mean "
                                     "one.ll?"),
            (["one.ll"], 4, "one.ll has no function @src: name two files"),
            ([".", "one.ll"], 4, ". is a folder and one.ll is not"),
            (["--opt=-passes=double"], 4, "--opt needs the files"),
            (["one.ll", "one.ll", "-f", "cals"], 4, "no function @cals; did you mean @calls?"),
            (["--json", "--sarif", "a", "b"], 4, "one form at most goes to standard output"),
            (["twice.ll", "twice.ll"], 9, "twice.ll:4:1: name twice: @f"),
            (["empty.ll", "empty.ll"], 3, "no function with a body: nothing was judged")]:
        done = bench.run("tv-check", *args)
        equal(done.returncode, status, f"status of {args}: {done.stderr}")
        has(done.stderr, "tv-check: " if status != 4 or args else "", wanted)
    equal(bench.run("tv-check", "one.ll", "one.ll", TV="/no/tv").returncode, 127, "without a tv")
    done = bench.run("tv-check", "--version")
    has(done.stdout, "tv-check 1, Python 3.", f"tv {bench.variables['TV']} sha256 ", "opt ")


def check_refusals(bench):
    text = CALLS.replace("call i8 @outside(i8 %x)", "call i8 @llvm.ctpop.i8(i8 %x)")
    bench.write("before.ll", text)
    bench.write("after.ll", text.replace("add i8 %y, %y", "shl i8 %y, 1"))
    done = bench.run("tv-check", "before.ll", "after.ll", "--keep", "kept")
    equal(done.returncode, 3, "status")
    has(done.stdout, "@calls refused source Unsupported 4:8 call @llvm.ctpop.i8\n",
        "      1 call @llvm.ctpop.i8  intrinsics are not read: ")
    equal(bench.only("kept", ".after.ll"), bench.file("after.ll"), "the module that is kept")


def check_before(bench):
    args = ("tv-check", "--opt", "-passes=double", "--before", "double", ARITH, "--json")
    rows = list(map(json.loads, bench.run(*args).stdout.splitlines()))
    equal({row["kind"] for row in rows}, {"same"}, "rows where the source has had the pass")
    equal((rows[1]["path"], rows[1]["first_line"]), (ARITH, 9), "the line in the file")
    done = bench.run("tv-check", "--opt", "-passes=double", "--before", "double", BROKEN)
    equal((done.returncode, done.stderr), (2, ""), "status where opt fails")
    has(done.stdout, f"fault {BROKEN}: opt -passes=double: wrong-opt: error")
    equal(bench.run("tv-check", "--before", "double", ARITH).returncode, 4, "status without --opt")


HEADS = "%struct.s = type { i32, i8 }\n@g = global i32 0\ndeclare i8 @llvm.ctpop.i8(i8)\n"
# What tv refuses: parameters and body of a function, what the row names, and the class of advice.
REFUSED = [
    ("ptr nocapture %p", "ret i8 0", "attribute nocapture", "attribute"),
    ("ptr dereferenceable(4) %p", "ret i8 0", "attribute dereferenceable(4)", "attribute"),
    ("i8 %x", "%y = call i8 @llvm.ctpop.i8(i8 %x)\n  ret i8 %y", "call @llvm.ctpop.i8",
     "intrinsic"),
    ("i8 %x", 'call void asm "", ""()\n  ret i8 0', "call of inline asm", "call"),
    ("ptr %p", "%y = load i8, ptr %p, !tbaa !0\n  ret i8 %y", "metadata !tbaa", "metadata"),
    ("ptr %p", "%y = load volatile i8, ptr %p\n  ret i8 %y", "volatile", "atomic"),
    ("float %x", "ret i8 0", "float", "floating point"),
    ("<2 x i8> %x", "ret i8 0", "<", "vector"),
    ("ptr %p", "%y = getelementptr %struct.s, ptr %p, i64 1\n  ret i8 0", "type %struct.s", "struct"),
    ("i8 %x", "%y = load i8, ptr @g\n  ret i8 %y", "global @g", "global"),
    ("i8 %x", "%y = udiv i8 %x, undef\n  ret i8 %y", "undef", "undef"),
    ("i8 %x", "%y = add i8 %x, undef\n  %z = udiv i8 1, %y\n  ret i8 %z", "%y", "undef"),
    ("ptr %p", "%y = ptrtoint ptr %p to i8\n  ret i8 %y", "ptrtoint", "pointer cast"),
    ("i128 %x", "ret i8 0", "i128", "type"),
]


def check_words(bench):
    texts = [HEADS + "".join(f"define i8 @f{number}({params}) {{\n  %u = add i8 0, {more}\n"
                             f"  {body}\n}}\n" for number, (params, body, *_) in enumerate(REFUSED))
             + "!0 = !{!1, !1, i64 0}\n!1 = !{!\"x\"}\n" for more in (0, 1)]
    bench.write("a.ll", texts[0])
    bench.write("b.ll", texts[1])
    done = bench.run("tv-check", "a.ll", "b.ll", "--json")
    rows = list(map(json.loads, done.stdout.splitlines()))
    advice = {text: kind for kind, text in tvwhy.ADVICE.items()}
    equal([(row["kind"], row["what"], advice.get(row["advice"])) for row in rows],
          [("refused", what, kind) for _, _, what, kind in REFUSED], "what is refused")


def check_limit(bench):
    bench.write("both.ll", open(SLOW).read() + "\n" + open(NAMES).read())
    bench.write("after.ll", bench.passes("double", "both.ll").replace("ret i8 %x", "ret i8 0"))
    begun = time.monotonic()
    done = bench.run("tv-check", "both.ll", "after.ll", "--seconds", "2")
    equal(time.monotonic() - begun < 30, True, "within its time")
    equal(done.returncode, 2, "status")
    has(done.stdout, "@slow unknown time\n", "unknown 1")
    done = bench.run("tv-check", "both.ll", "after.ll", "--function", "old")
    has(done.stdout, "@old ")
    has_not(done.stdout, "@slow")


def check_interrupted(bench):
    bench.write("both.ll", open(ARITH).read() + "\n" + open(SLOW).read())
    bench.write("after.ll", bench.passes("double,wrong", "both.ll"))
    child = subprocess.Popen([os.path.join(TOOLS, "tv-check"), "both.ll", "after.ll", "-j", "2",
                              "--seconds", "100", "--json=rows"], cwd=bench.folder, text=True,
                             env=bench.variables, stdout=subprocess.PIPE, stderr=subprocess.PIPE,
                             # a shell's job in the background is begun with interrupts ignored
                             preexec_fn=lambda: signal.signal(signal.SIGINT, signal.SIG_DFL))
    lines = [child.stdout.readline() for _ in range(10)]
    equal(lines[9], "@calls refused source Unsupported 33:8 call @outside\n", "a row as it comes")
    child.send_signal(signal.SIGINT)
    rest, errors = child.communicate(timeout=60)
    equal((child.returncode, errors), (130, "tv-check: interrupted: 5 of 6 functions\n"), "status")
    has(rest, COUNTS)
    equal(bench.file("rows").count("\n"), 5, "objects of the rows that there are")


def check_forms(bench):
    args = ("tv-check", "--opt", "-passes=double,wrong", ARITH)
    done = bench.run(*args, "--json", "--junit=j.xml", "--sarif=s.json", "--html=p.html")
    equal((done.returncode, done.stderr), (1, ""), "status")
    rows = {row["function"]: row for row in map(json.loads, done.stdout.splitlines())}
    equal(list(rows), ["twice", "bad_sum", "never", "heavy", "calls"], "objects")
    wrong, refused = rows["bad_sum"], rows["calls"]
    equal((wrong["kind"], wrong["path"], wrong["first_line"], wrong["bounds"]),
          ("incorrect", ARITH, 9, {"turns": 4, "blocks": 2, "bytes": 8}), "an incorrect row")
    equal(wrong["counterexample"][1], {"what": "arg 1", "name": "%y", "value": "1", "forms": ""},
          "an argument")
    equal([refused[key] for key in ("side", "line", "column", "what")],
          ["source", 33, 8, "call @outside"], "a refused row")
    suite, = xml.etree.ElementTree.parse(os.path.join(bench.folder, "j.xml")).getroot()
    equal([suite.get(key) for key in ("tests", "failures", "errors", "skipped")],
          ["5", "1", "0", "3"], "a suite")
    equal(suite[1][0].tag, "failure", "the case of an incorrect row")
    sarif = json.loads(bench.file("s.json"))
    results = sarif["runs"][0]["results"]
    equal([(each["ruleId"], each["level"]) for each in results],
          [("incorrect", "error"), ("vacuous", "warning"), ("unknown", "warning"),
           ("refused", "note")], "results")
    equal(results[0]["locations"][0]["physicalLocation"],
          {"artifactLocation": {"uri": ARITH}, "region": {"startLine": 9}}, "a place")
    well_formed(bench.file("p.html"))
    has(bench.file("p.html"), "@bad_sum incorrect", "<code>%y</code>", "sha256")


def check_trace(bench):
    args = ("tv-check", "--opt", "-passes=wrong", ARITH, "--function", "bad_sum")
    traced = {"TV_TRACE": os.path.join(DATA, "fake-trace"), "TV_ARGS": "--turns 5"}
    done = bench.run(*args, "--json=rows", "--html=p.html", "--sarif=s.json", "--turns", "6", **traced)
    has(done.stdout, "  target returns 255 (-1, 0xff)\n    | source, on the choices 0",
        "    | entry:\n    |   ret i8 %r ; %r = 1 (0x1)\n", "    | difference: they return")
    row = json.loads(bench.file("rows"))
    equal((row["trace"][0], row["trace"][-1]), ("source, on the choices 0 (one of its runs)",
          "difference: they return different values"), "the trace of a row")
    equal(len(row["counterexample"]), 4, "the counterexample without it")
    well_formed(bench.file("p.html"))
    has(bench.file("p.html"), "both runs, step by step", "<div>difference: they return")
    has_not(bench.file("s.json"), "step by step", "difference")
    bench.write("report", done.stdout)
    bench.write("after.ll", bench.passes("wrong", ARITH))
    has(bench.run("tv-html", ARITH, "after.ll", "--report", "report").stdout, "<div>difference")
    has_not(bench.run(*args, "--no-trace", **traced).stdout, "difference")
    has_not(bench.run(*args, TV_TRACE="false").stdout, "    | ")


def trace_of_tv(bench):
    """The trace of the real program, where it is built."""
    built = os.path.join(os.path.dirname(TOOLS), "crates", "tv_trace", "out", "tv_trace")
    if not shutil.which(built):
        return
    done = bench.run("tv-check", "--opt", "-passes=wrong", ARITH, "-f", "bad_sum", TV_TRACE=built)
    has(done.stdout, "    | source, on the choices 0", "%x = 0 (0x0)", "%y = 1 (0x1)",
        "    |   returns 255 (-1, 0xff)", "    | difference: they return different values")


def check_terminal(bench):
    bench.write("both.ll", open(SLOW).read() + "\n" + open(ARITH).read())
    bench.write("after.ll", bench.passes("double,wrong", "both.ll"))
    leader, follower = pty.openpty()
    child = subprocess.Popen([os.path.join(TOOLS, "tv-check"), "both.ll", "after.ll", "-j", "2",
                              "--seconds", "3"], cwd=bench.folder, stdin=follower, stdout=follower,
                             stderr=follower, env={**bench.variables, "TERM": "xterm"})
    os.close(follower)
    text = b""
    with contextlib.suppress(OSError):
        while True:
            text += os.read(leader, 65536)
    equal(child.wait(timeout=60), 1, "status")
    os.close(leader)
    text = text.decode().replace("\r\n", "\n")
    has(text, "@twice \033[32mcorrect\033[0m", "\033[1;31mincorrect", "/6 functions, ", "@slow runs ",
        "in the order of the text:\n@slow \033[33munknown", COUNTS.replace("unknown 1", "unknown 2"))
    equal(text.index("@twice \033") < text.index("@slow \033"), True, "rows as they come")


MEMORY = """define void @src(ptr %p, i32 %x) {
  %a = getelementptr inbounds i8, ptr %p, i64 8
  store i32 %x, ptr %a
  ret void
}
define void @tgt(ptr %p, i32 %x) {
  %a = getelementptr inbounds i8, ptr %p, i64 8
  store i32 12345, ptr %a
  ret void
}
define void @src2(ptr %p, i32 %x) {
  store i32 %x, ptr %p, align 32
  ret void
}
define void @tgt2(ptr %p, i32 %x) {
  store i32 7, ptr %p, align 32
  ret void
}
define i32 @src3(ptr %p, i32 %x) {
entry:
  %c = icmp ult i32 %x, 10
  br i1 %c, label %a, label %b
a:
  %q = getelementptr inbounds i8, ptr %p, i64 40
  store i32 %x, ptr %q
  br label %b
b:
  %r = phi i32 [ 1, %a ], [ 0, %entry ]
  ret i32 %r
}
define i32 @tgt3(ptr %p, i32 %x) {
entry:
  %c = icmp ult i32 %x, 10
  br i1 %c, label %a, label %b
a:
  %q = getelementptr inbounds i8, ptr %p, i64 40
  store i32 11, ptr %q
  br label %b
b:
  %r = phi i32 [ 1, %a ], [ 0, %entry ]
  ret i32 %r
}
define i8 @src4(ptr %p, i8 %i) {
  %z = zext i8 %i to i64
  %j = add i64 %z, 33
  %q = getelementptr inbounds i8, ptr %p, i64 %j
  %c = icmp ult i8 %i, 9
  br i1 %c, label %a, label %b
a:
  %v = load i8, ptr %q
  ret i8 %v
b:
  ret i8 0
}
define i8 @tgt4(ptr %p, i8 %i) {
  ret i8 0
}
define i32 @src5(i32 %x) {
entry:
  br label %l
l:
  %i = phi i32 [ 0, %entry ], [ %n, %l ]
  %n = add i32 %i, 1
  %c = icmp eq i32 %n, 40
  br i1 %c, label %e, label %l
e:
  ret i32 %x
}
define i32 @tgt5(i32 %x) {
  ret i32 0
}
define i8 @src8(ptr %p, i8 %x) {
  %c = icmp ult i8 %x, 3
  br i1 %c, label %a, label %b
a:
  %d = icmp ugt i8 %x, 5
  br i1 %d, label %dead, label %b
dead:
  store i8 1, ptr %p
  br label %b
b:
  ret i8 0
}
define i8 @tgt8(ptr %p, i8 %x) {
  ret i8 0
}
define i32 @src6(i1 %c, ptr %p) {
entry:
  %g = getelementptr i16, ptr %p, i64 6
  br i1 %c, label %a, label %b
a:
  br label %b
b:
  %s = phi ptr [ %p, %entry ], [ %g, %a ]
  %h = getelementptr i8, ptr %s, i64 4
  %v = load i32, ptr %h
  ret i32 %v
}
define i32 @tgt6(i1 %c, ptr %p) {
  %g = getelementptr i16, ptr %p, i64 6
  %s = select i1 %c, ptr %g, ptr %p
  %h = getelementptr i8, ptr %s, i64 4
  %v = load i32, ptr %h
  ret i32 %v
}
define i16 @src7(ptr %p, ptr %q) {
  %a = load i16, ptr %p
  %b = load i16, ptr %q
  %s = add i16 %a, %b
  store i16 %s, ptr %p
  ret i16 %s
}
define i16 @tgt7(ptr %p, ptr %q) {
  %b = load i16, ptr %q
  %a = load i16, ptr %p
  %s = add i16 %b, %a
  store i16 %s, ptr %p
  ret i16 %s
}
define i8 @src9(ptr %p, i1 %c) {
  br i1 %c, label %a, label %b
a:
  %q = getelementptr inbounds i8, ptr %p, i64 32
  store i8 1, ptr %q
  br label %b
b:
  ret i8 0
}
define i8 @tgt9(ptr %p, i1 %c) {
  ret i8 0
}
define i8 @src10(ptr %p, i8 %i) {
  %q = getelementptr inbounds i8, ptr %p, i64 16
  %z = zext i8 %i to i64
  %r = getelementptr inbounds i16, ptr %q, i64 %z
  store i16 7, ptr %r
  ret i8 0
}
define i8 @tgt10(ptr %p, i8 %i) {
  %q = getelementptr inbounds i8, ptr %p, i64 16
  store i16 7, ptr %q
  ret i8 0
}
define i16 @src11(ptr %p, i8 %i) {
  %j = add nuw i8 %i, 5
  %z = zext i8 %j to i64
  %r = getelementptr inbounds i16, ptr %p, i64 %z
  %v = load i16, ptr %r
  ret i16 %v
}
define i16 @tgt11(ptr %p, i8 %i) {
  %r = getelementptr inbounds i8, ptr %p, i64 10
  %v = load i16, ptr %r
  ret i16 %v
}
define i8 @src12(ptr %p, i8 %i) {
  %c = icmp ult i8 %i, 9
  br i1 %c, label %a, label %b
a:
  %q = getelementptr inbounds i8, ptr %p, i64 30
  %z = zext i8 %i to i64
  %r = getelementptr inbounds i32, ptr %q, i64 %z
  store i32 7, ptr %r
  br label %b
b:
  ret i8 0
}
define i8 @tgt12(ptr %p, i8 %i) {
  ret i8 0
}
"""


def check_bounds(bench):
    bench.write("m.ll", MEMORY)
    done = bench.run("tv-check", "m.ll", "--seconds", "250")
    equal((done.returncode, done.stderr), (1, ""), "status")
    found = dict(re.findall(r"^@(\w+) (.*)$", done.stdout, re.M))
    # the bytes are what is reached and the greatest alignment
    equal(found, {"src": "incorrect [blocks 1 bytes 16]",
                  "src2": "vacuous source store undefined 12:3 [blocks 1 bytes 20]",
                  "src3": "bounded source store undefined 25:3 [blocks 1]",
                  "src4": "bounded source load undefined 50:8 [blocks 1]",
                  "src8": "bounded source store unreached 79:3 [blocks 1]",
                  "src5": "vacuous", "src6": "correct [blocks 1 bytes 24]",
                  "src7": "correct [blocks 2 bytes 8]",
                  # an access that can't fit doesn't raise the bytes
                  "src9": "bounded source store undefined 124:3 [blocks 1]",
                  # an index that varies counts as 0, past what is constant
                  "src10": "incorrect [blocks 1 bytes 20]",
                  "src11": "incorrect [blocks 1 bytes 14]",
                  "src12": "bounded source store undefined 163:3 [blocks 1]"}, "rows")
    done = bench.run("tv-check", "m.ll", "--seconds", "250", "--bytes", "8", "-f", "src")
    has(done.stdout, "@src vacuous source store undefined 3:3 [blocks 1]\n")
    done = bench.run("tv-check", "m.ll", "--seconds", "250", "-f", "src5", TV_ARGS="--turns 64")
    equal(done.returncode, 1, "status of a loop within --turns")
    has(done.stdout, "@src5 incorrect [turns 64]\n")


def check_layout(bench):
    text = 'source_filename = "x"\ntarget datalayout = "e-p:32:32"\n\n' \
           "define i8 @f(i8 %x) {\n  %r = add i8 %x, %x\n  ret i8 %r\n}\n"
    bench.write("a.ll", text)
    bench.write("b.ll", text.replace("add i8 %x, %x", "shl i8 %x, 1"))
    done = bench.run("tv-check", "a.ll", "b.ll")
    equal(done.returncode, 3, "status")
    has(done.stdout, '@f refused source data-layout 2:21 target datalayout "e-p:32:32"\n',
        "tv judges 64-bit little-endian targets")
    done = bench.run("tv-tree", "run", "a.ll", "-p", "double", "--out", "one")
    has(done.stdout, '1  refused source data-layout target datalayout "e-p:32:32"\n')
    bench.run("opt-tv", "-S", "-passes=double", "a.ll")
    has(bench.only("tv-out", ".txt"), "@f refused source data-layout 2:21 target datalayout ")


def figures(bench):
    done = bench.run("figures.py", "--check", TV_OPT="")
    equal((done.returncode, done.stderr), (0, ""), f"status; docs/TOOLS.md: {done.stdout}")


# opt-tv.

def opt_output_is_passed_on(bench):
    done = bench.run("opt-tv", "-S", "-passes=double,wrong", ARITH)
    equal(done.returncode, 0, "status")
    equal(done.stdout, bench.passes("double,wrong", ARITH), "output")
    equal(done.stderr, "", "messages")
    has(bench.only("tv-out", ".txt"), "opt-tv: -S -passes=double,wrong", "@twice correct",
        "@bad_sum incorrect\n  arg 0 %x = 0\n", "@calls refused source Unsupported 33:8 call @outside",
        "@heavy unknown weight")
    equal(bench.only("tv-out", ".before.ll"), open(ARITH).read(), "kept source")
    equal(bench.only("tv-out", ".after.ll"), done.stdout, "kept target")


def opt_reads_standard_input(bench):
    done = bench.run("opt-tv", "-S", "-passes=double", "-o", "out.ll", data=open(ARITH).read(),
                     TV_OUT="r/s")
    equal((done.returncode, done.stdout), (0, ""), "status and output")
    equal(bench.file("out.ll"), bench.passes("double", ARITH), "output")
    has(bench.only("r/s", ".txt"), "incorrect 0 unknown 1")


def opt_gate(bench):
    done = bench.run("opt-tv", "-S", "-passes=wrong", ARITH, "-o", "out.ll", TV_GATE="1")
    equal(done.returncode, 1, "status")
    has(done.stderr, "opt-tv: incorrect: @bad_sum; see tv-out/arith.ll-")
    for allowed, status, wanted in [("", 2, "opt-tv: vacuous: @never, @heavy; see"),
                                    ("vacuous unknown", 3, "opt-tv: refused: @calls; see"),
                                    ("vacuous,unknown,refused", 0, ""),
                                    ("incorrect", 4, "TV_ALLOW=incorrect: no kind of row")]:
        done = bench.run("opt-tv", "-S", "-passes=double", ARITH, TV_GATE="1", TV_ALLOW=allowed)
        equal(done.returncode, status, f"status of right passes where {allowed} may pass")
        has(done.stderr, wanted)


def opt_failure_is_passed_on(bench):
    done = bench.run("opt-tv", "-S", "-passes=double", BROKEN, TV_GATE="1")
    equal(done.returncode, 1, "status")
    equal(done.stderr, "wrong-opt: error: expected top-level entity\n", "messages")
    equal(os.path.exists(os.path.join(bench.folder, "tv-out")), False, "a report")


def opt_changed_names(bench):
    bench.run("opt-tv", "-S", "-passes=rename,widen", NAMES)
    has(bench.only("tv-out", ".txt"), "@old missing", "@new extra", "@wide signature")


def opt_steps(bench):
    bench.run("opt-tv", "-S", "-passes=double,wrong,rename", ARITH, TV_STEPS="1")
    report = bench.only("tv-out", ".txt")
    has(report, "steps 3", "step 1 double\n@twice correct", "step 2 wrong\n@bad_sum incorrect",
        "@bad_sum incorrect at step 2: wrong\n")
    has_not(report, "step 3 rename")


def opt_not_text(bench):
    done = bench.run("opt-tv", "-S", "-passes=double", ARITH, "-disable-output", TV_GATE="1")
    equal(done.returncode, 0, "status")
    has(bench.only("tv-out", ".txt"), "not judged: opt wrote no module")


def opt_without_tv(bench):
    for gate in ("", "1"):
        done = bench.run("opt-tv", "-S", "-passes=double", ARITH, TV="/no/tv", TV_GATE=gate)
        equal((done.returncode, done.stdout, done.stderr),
              (127, "", "opt-tv: TV=/no/tv: no such program\n"), "status and messages")


def opt_slow_pair(bench):
    bench.run("opt-tv", "-S", "-passes=double", SLOW, TV_TIME="1")
    has(bench.only("tv-out", ".txt"), "@slow unknown time\n", "unknown 1")


def opt_whole_refusal(bench):
    bench.run("opt-tv", "-S", "-passes=double", WHOLE)
    has(bench.only("tv-out", ".txt"), "not judged: input:1:1: no token\n")


def opt_judges_nothing(bench):
    bench.write("calls.ll", CALLS)
    args = ("opt-tv", "-S", "-passes=double", "calls.ll")
    done = bench.run(*args, TV_GATE="1")
    equal(done.returncode, 3, "status where all is refused")
    has(done.stderr, "opt-tv: refused: @calls; see ", "--allow-none")
    has(bench.only("tv-out", ".before.ll"), "call i8 @outside")
    has(bench.only("tv-out", ".after.ll"), "shl i8 %y, 1")
    for more, variables in (([], {"TV_ALLOW_NONE": "1"}), (["--allow-none"], {})):
        done = bench.run(*args, *more, TV_GATE="1", **variables)
        equal((done.returncode, done.stderr), (0, ""), "status where that is allowed")


def opt_same(bench):
    bench.run("opt-tv", "-S", "-passes=wrong", ARITH)
    has(bench.only("tv-out", ".txt"), "@twice same\n", "@calls same\n", "same 4")


def opt_asks_once(bench):
    log = os.path.join(bench.folder, "log")
    bench.run("opt-tv", "-S", "-passes=double,wrong", ARITH, FAKE_TV_LOG=log)
    equal(bench.file("log").count("\n"), 9,
          "runs of tv: what it finds, a changed function each, one more asked again, and how far two correct ones reach")


def opt_summary(bench):
    for passes, file in (("double,wrong", ARITH), ("double", NAMES), ("double", ARITH)):
        bench.run("opt-tv", "-S", f"-passes={passes}", file)
    done = bench.run("opt-tv", "--summary")
    equal(done.returncode, 1, "status")
    has(done.stdout, "incorrect @bad_sum in tv-out/arith.ll-", "reports 3 without rows 0\n",
        "\ncorrect 2 incorrect 1 unknown 2 refused 2 ")
    done = bench.run("tv-baseline", "base", "tv-out", "--write")
    equal(done.returncode, 1, "status of the baseline, for a row is incorrect")
    has(done.stdout, "incorrect: -S -passes=double,wrong arith.ll @bad_sum incorrect")
    has(bench.file("base"), "-S -passes=double arith.ll @calls refused source Unsupported\n",
        "@never vacuous\n", "@heavy unknown weight\n")


# tv-tree.

PASSES = ("-p", "double,wrong", "-p", "rename,widen")
CALLS = """declare i8 @outside(i8)

define i8 @calls(i8 %x) {
  %y = call i8 @outside(i8 %x)
  %r = add i8 %y, %y
  ret i8 %r
}
"""
TOTALS = """modules 6 opt failed 2 functions 15
same             7
correct          1
incorrect        1
vacuous          1
unknown          1
                 1  unknown weight
refused          1
                 1  refused source Unsupported call @outside
signature        1
missing          1
extra            1
one/rows.csv one/index.html
"""


def tree_run(bench, *args, **variables):
    folder = os.path.join(DATA, "tree")
    return bench.run("tv-tree", "run", folder, *PASSES, "--jobs", "2", *args, **variables)


def tree_totals(bench):
    done = tree_run(bench, "--out", "one")
    equal((done.returncode, done.stdout), (1, TOTALS), "status and totals")
    rows = {(row["passes"], row["function"]): row
            for row in csv.DictReader(bench.file("one", "rows.csv").splitlines())}
    row = rows["double,wrong", "calls"]
    equal([row[key] for key in ("kind", "cause", "word", "column")],
          ["refused", "source Unsupported", "call @outside", "8"], "a refused row")
    equal(rows["double,wrong", "never"]["kind"], "vacuous", "a vacuous row")
    page = bench.file("one", "index.html")
    well_formed(page)
    has(page, "@bad_sum incorrect", "opt failed", "source Unsupported")


def tree_resumes(bench):
    log = os.path.join(bench.folder, "log")
    tree_run(bench, "--out", "one", FAKE_TV_LOG=log)
    first = bench.file("log").count("\n")
    equal(first, 13, "runs of tv: what it finds in four pairs of modules, six pairs, one asked again, "
                     "and how far two correct ones reach")
    done = tree_run(bench, "--out", "one", FAKE_TV_LOG=log)
    equal((done.returncode, bench.file("log").count("\n")), (1, first), "status and pairs")


def tree_by_lines(bench):
    tree_run(bench, "--out", "one")
    folder = os.path.join(DATA, "tree")
    lines = bench.run("tv-tree", "list", folder, *PASSES).stdout
    equal(len(lines.splitlines()), 6, "lines of work")
    for line in lines.splitlines()[:2]:
        equal(bench.run("tv-tree", "do", "--out", "two", line).returncode, 0, "status of do")
    bench.run("tv-tree", "do", "--out", "two", "-", data="".join(lines.splitlines(True)[2:]))
    equal(bench.run("tv-tree", "table", "--out", "two").returncode, 1, "status of table")
    done = bench.run("tv-tree", "table", "--out", "two", "--work", "-", data=lines + "more\tp\n")
    equal((done.returncode, done.stderr), (1, "tv-tree: 1 lines of work aren't done\n"), "lacking")
    has(bench.file("two", "rows.csv"), "more,p,,failed,not done,")
    done = bench.run("tv-tree", "table", "--out", "two")
    equal(rows_without_times(bench, "two"), rows_without_times(bench, "one"), "rows")


def rows_without_times(bench, folder):
    rows = csv.DictReader(bench.file(folder, "rows.csv").splitlines())
    return sorted([value for key, value in row.items() if key != "seconds"] for row in rows)


def tree_time_out(bench):
    done = bench.run("tv-tree", "run", SLOW, "-p", "double", "--out", "one", "--seconds", "1")
    equal(done.returncode, 2, "status")
    has(done.stdout, "1  unknown time")


def tree_stopped(bench):
    args = ["tv-tree", "run", SLOW, ARITH, "-p", "double", "--out", "one", "--seconds", "120"]
    child = subprocess.Popen([os.path.join(TOOLS, args[0]), *args[1:]], cwd=bench.folder,
                             env={**bench.variables, "TMPDIR": bench.folder},
                             stdout=subprocess.DEVNULL, stderr=subprocess.DEVNULL)
    # it is at work once its folder of temporary files is there
    for _ in range(600):
        if any(name.startswith("tv-") for name in os.listdir(bench.folder)):
            break
        time.sleep(0.1)
    time.sleep(1)
    child.send_signal(signal.SIGTERM)
    equal(child.wait(timeout=60), 143, "status, before a pair's time is over")
    left = [name for name in os.listdir(bench.folder) if name.startswith("tv-")]
    equal(left, [], "temporary files")
    done = bench.run(*args[:-1], "3")
    has(done.stdout, "modules 2 opt failed 0 functions 6", "1  unknown time")


def tree_bad_folder(bench):
    done = bench.run("tv-tree", "run", "nowhere", "-p", "double", "--out", "one")
    equal((done.returncode, done.stderr), (5, "tv-tree: nowhere: no such folder\n"), "answer")


# tv-vacuous, tv-reduce, tv-html, tv-baseline.

def vacuous_rows(bench):
    bench.write("after.ll", bench.passes("double,wrong", ARITH))
    done = bench.run("tv-vacuous", ARITH, "after.ll")
    equal((done.returncode, done.stdout),
          (1, "@bad_sum incorrect\n@never vacuous\n@heavy unknown weight\n"
              "@calls refused source Unsupported 33:8 call @outside\n"
              "correct 2 vacuous 1 bounded 0 unknown 1 incorrect 1 refused 1\n"),
          "status and rows")
    done = bench.run("tv-vacuous", NAMES, NAMES)
    equal((done.returncode, done.stdout), (0, "correct 0 vacuous 0 bounded 0 unknown 0 same 2\n"),
          "none")
    equal(bench.run("tv-vacuous", NAMES, "nowhere.ll").returncode, 5, "status without a file")


def reduced(bench):
    bench.write("in.ll", open(NAMES).read() + open(ARITH).read().split("\n\n")[2] + "\n")
    done = bench.run("tv-reduce", "in.ll", "-f", "@bad_sum", "-p", "double,wrong")
    equal(done.returncode, 0, "status " + done.stderr)
    has(done.stdout, "in.reduced.ll", "@bad_sum incorrect\n", "  target ")
    small = bench.file("in.reduced.ll")
    has(small, "@bad_sum(")
    has_not(small, "@old", "@wide")
    has(bench.file("in.reduced.after.ll"), "@bad_sum(")


def reduced_pair(bench):
    text = """define i32 @f(i32 %x, i32 %y, ptr %p) {
entry:
  %a = add i32 %x, 3
  %c = icmp ult i32 %y, 10
  br i1 %c, label %t, label %e
t:
  %d = add i32 %a, %y
  br label %e
e:
  %r = phi i32 [ %d, %t ], [ %a, %entry ]
  ret i32 %r
}
"""
    bench.write("a.ll", text)
    bench.write("b.ll", text.replace("%d = add", "%d = sub"))
    done = bench.run("tv-reduce", "a.ll", "b.ll", "-f", "f", TV_TIME="200")
    equal(done.returncode, 0, "status " + done.stderr)
    has(done.stderr, " steps tried, ", " kept, ", " lines, ")
    has(done.stdout, "a.reduced.ll", "@src incorrect\n")
    small = bench.file("a.reduced.ll")
    has(small, "define i32 @src(", "%d = add i32 %a, %y\n", "%d = sub i32 %a, %y\n")
    has_not(small, "icmp", "phi", "ptr")
    done = bench.run("tv-check", "a.reduced.ll")
    equal(done.returncode, 1, "status of the small pair")


def reduced_with_arguments(bench):
    bench.write("in.ll", open(ARITH).read())
    log = os.path.join(bench.folder, "log")
    done = bench.run("tv-reduce", "in.ll", "-f", "bad_sum", "-p", "wrong", "--opt",
                     "-unknown-to-the-fake", WRONG_OPT_LOG=log)
    equal(done.returncode, 0, "status " + done.stderr)
    has(done.stderr, "tv-reduce: ", " steps tried, ")
    has(bench.file("log"), "-unknown-to-the-fake -passes=wrong")


def nothing_to_reduce(bench):
    done = bench.run("tv-reduce", ARITH, "-f", "twice", "-p", "double", "-o", "out.ll")
    equal((done.returncode, done.stderr),
          (3, "tv-reduce: nothing to reduce: @twice correct no bound\n"), "answer")
    equal(os.path.exists(os.path.join(bench.folder, "out.ll")), False, "a file")


class Tags(html.parser.HTMLParser):
    """Holds that tags are closed in the order in which they were opened."""
    VOID = {"meta", "link", "br"}

    def __init__(self):
        super().__init__()
        self.open = []

    def handle_starttag(self, tag, attrs):
        equal(tag != "script", True, "no script")
        if tag not in self.VOID:
            self.open.append(tag)

    def handle_endtag(self, tag):
        equal(self.open.pop(), tag, "closing tag")


def well_formed(page):
    tags = Tags()
    tags.feed(page)
    equal(tags.open, [], "open tags at the end")


HEAD = "tv 2 turns 4 blocks 2 bytes 8 rounds 64 conflicts 0 weight 100000\n"
ONE_UNKNOWN = "correct 0 incorrect 0 unknown 1 refused 0 signature 0 missing 0 extra 0\n"


def pages(bench):
    bench.write("after.ll", bench.passes("double,wrong", ARITH))
    done = bench.run("tv-html", ARITH, "after.ll")
    equal((done.returncode, done.stderr), (1, ""), "status")
    well_formed(done.stdout)
    has(done.stdout, "@bad_sum incorrect", "<code>returns 255</code></td><td>-1, 0xff",
        "<mark>call</mark>", "incorrect <strong>1</strong>", "<code>%y</code>", "sha256",
        "seconds 10", "calls are not read",
        '<div class="new"><span class="no">+ 10</span>  %r = sub i8')
    equal(re.findall(r'<details id="f-([^"]*)"( open)?', done.stdout)[:2],
          [("bad_sum", " open"), ("never", "")], "the order of the functions")
    args = ("tv-html", ARITH, "after.ll", "--report", "report", "-o", "page.html")
    bench.write("report", f"{HEAD}@twice unknown rounds\n{ONE_UNKNOWN}")
    equal(bench.run(*args).returncode, 2, "status of a report")
    has(bench.file("page.html"), "@twice unknown rounds")
    for text in (f"{HEAD}@twice unknown rounds\n", f"{HEAD}@none unknown rounds\n{ONE_UNKNOWN}",
                 f"{HEAD}@twice correct\n{ONE_UNKNOWN}"):
        bench.write("report", text)
        os.remove(os.path.join(bench.folder, "page.html"))
        done = bench.run(*args)
        equal(done.returncode, 2, "status of a report that isn't whole")
        has(done.stderr, "tv-html: report: ")
        bench.write("page.html", "")


def baseline(bench):
    kinds = ["unknown weight", "correct"]
    for name, a, (b, c), end in [
            ("old", "refused source Unsupported 3:4", kinds, "1 0 1 1 0 0"),
            ("moved", "refused source Unsupported 9:9", ["correct", "correct"], "2 0 0 1 0 0"),
            ("new", "refused source Limit 3:4", ["unknown weight", "missing"], "0 0 1 1 0 1"),
            ("wrong", "refused source Unsupported 3:4",
             ["unknown weight", "incorrect\n  arg 0 = 1\n  source returns 0\n  target ub"],
             "0 1 1 1 0 0"),
            ("cut", "correct", kinds, None), ("lies", "correct", kinds, "2 1 1 0 0 0")]:
        last = " ".join(" ".join(each) for each in zip(ONE_UNKNOWN.split()[::2],
                                                       [*(end or "").split(), "0"]))
        bench.write(name, f"{HEAD}@a {a}\n@b {b}\n@c {c}\n{last if end else '@d correct'}\n")
    bench.write("none", HEAD + ONE_UNKNOWN.replace("1", "0"))
    for report, args, status, wanted in [
            ("old", [], 2, ["new: f @a refused source Unsupported", "new: f @b unknown weight"]),
            ("old", ["--write"], 0, ["rows 3 incorrect 0 new 0 gone 0"]),
            ("old", [], 0, ["rows 3 incorrect 0 new 0 gone 0"]),
            ("moved", [], 0, ["gone: f @b unknown weight", "new 0 gone 1"]),
            ("new", [], 3, ["new: f @a refused source Limit", "new: f @c missing", "new 2 gone 1"]),
            ("new", ["--allow", "missing"], 3, ["new 1 gone 1"]),
            ("wrong", [], 1, ["incorrect: f @c incorrect", "new 0 gone 0"]),
            ("wrong", ["--write"], 1, ["incorrect: f @c incorrect"]),
            ("old", ["--allow", "incorrect"], 4, []),
            ("cut", [], 2, []), ("lies", [], 2, []), ("none", [], 3, []), ("nowhere", [], 5, [])]:
        done = bench.run("tv-baseline", "base", report, "--name", "f", *args)
        equal(done.returncode, status, f"status of {report} {args}")
        has(done.stdout, *wanted)
    equal(bench.file("base"), "f @a refused source Unsupported\nf @b unknown weight\n", "the list")


def baseline_of_lines(bench):
    """The JSON lines of the plugin: rows of two compilers, each with an end."""
    rows = [{"file": "a.c", "pass": "gvn", "function": "f", "kind": "refused",
             "detail": "source Unsupported 3:4"},
            {"file": "b.c", "pass": "gvn", "function": "f", "kind": "correct", "detail": ""},
            {"file": "b.c", "kind": "end", "rows": 1}, {"file": "a.c", "kind": "end", "rows": 1}]
    lines = [json.dumps(row) + "\n" for row in rows]
    bench.write("rows", "".join(lines))
    done = bench.run("tv-baseline", "base", "rows")
    equal((done.returncode, done.stdout),
          (3, "new: a.c gvn @f refused source Unsupported\nrows 2 incorrect 0 new 1 gone 0\n"),
          "a new row")
    equal(bench.run("tv-baseline", "base", "rows", "--write").returncode, 0, "status of --write")
    for text, said in (("".join(lines[:3]), "the rows of a.c have no end"),
                       ("".join(lines) + '{"file": "a', "rows:5: not a line of the plugin"),
                       ('{"kind": "end"}\n', "rows:1: not a line of the plugin")):
        bench.write("rows", text)
        done = bench.run("tv-baseline", "base", "rows")
        equal(done.returncode, 2, "status of a report that isn't whole")
        has(done.stderr, said)


def lower_without_plugin(bench):
    done = bench.run("tv-check", "--lower", ARITH, ARITH, TV_LLVM="/none")
    equal(done.returncode, 127, "status")
    has(done.stderr, "--lower needs tv-split, which is built with the plugin")


def baseline_of_tree(bench):
    tree_run(bench, "--out", "one")
    done = bench.run("tv-baseline", "base", "one/rows.csv", "--write")
    equal(done.returncode, 1, "status, for a row is incorrect")
    has(bench.file("base"), "arith.ll double,wrong @calls refused source Unsupported call @outside\n",
        "names.ll rename,widen @wide signature\n", "broken.ll double,wrong opt failed")


# LLVM's own passes.

def llvm_tree(bench):
    done = bench.run("tv-tree", "run", ARITH, "-p", "instcombine", "--out", "one")
    equal(done.returncode, 2, "status " + done.stderr)
    has(done.stdout, "refused source Unsupported call", "vacuous")


def llvm_steps(bench):
    done = bench.run("opt-tv", "-S", "-passes=default<O1>", ARITH, "-o", "out.ll", TV_STEPS="1",
                     TV_GATE="1", TV_ALLOW="vacuous,unknown,refused")
    equal(done.returncode, 0, "status " + done.stderr)
    has(bench.only("tv-out", ".txt"), "no function went wrong at a step", "instcombine")


def llvm_bitcode(bench):
    done = bench.run("opt-tv", "-passes=instcombine", ARITH, "-o", "out.bc", TV_GATE="1",
                     TV_ALLOW="vacuous,unknown,refused")
    equal(done.returncode, 0, "status")
    has(bench.only("tv-out", ".txt"), "@twice correct")
    done = bench.run("tv-check", "out.bc", "out.bc")
    equal((done.returncode, done.stderr), (0, ""), "status of bitcode against itself")
    has(done.stdout, "@twice same\n")
    done = bench.run("tv-check", "--opt", "-passes=instcombine", "out.bc", "-f", "twice")
    equal(done.returncode, 0, "status of opt on bitcode")


def printed_modules():
    """What the tests of ir_printer compare printed modules with, by name."""
    with open(PRINTED, encoding="ascii") as file:
        text = file.read()
    literal = r'"((?:[^"\\]|\\.)*)"'
    named = re.findall(r"^const (\w+): &str = " + literal, text, re.M | re.S)
    rows = re.findall(r'name: "([^"]*)",\s*text: [^\n]*\s*printed: ' + literal, text)
    for name, body in named + rows:
        body = re.sub(r"\\\n\s*", "", body)
        yield name, body.replace(r"\n", "\n").replace(r'\"', '"').replace("\\\\", "\\")


def llvm_reads_printed(bench):
    opt = bench.variables["TV_OPT"]
    modules = list(printed_modules())
    equal(len(modules), 11, "number of printed modules")
    for name, module in modules:
        if llvm_version(opt) < 20:
            module = module.replace("icmp samesign", "icmp")
        done = subprocess.run([opt, "-S", "-passes=verify"], input=module, capture_output=True,
                              text=True)
        equal(done.returncode, 0, f"status of {name}: {done.stderr}")


# tv-proof and lrat.py.

LIMITS = "turns 4 blocks 2 bytes 8 rounds 64 conflicts 0 weight 100000\n"
PARTS = """@f correct variables 1 clauses 2 steps 1 refuted yes
@"a b" incorrect variables 3 clauses 5 steps 3 refuted yes
parts 2 passed 2 failed 0
"""


def proof_parts(bench):
    done = bench.run("tv-proof", PROOF, "-o", "parts", "--no-solvers")
    equal((done.returncode, done.stdout, done.stderr), (0, LIMITS + PARTS, ""), "status and output")
    equal(bench.file("parts", "1-f.cnf"), "p cnf 1 2\n1 0\n-1 0\n", "clauses")
    equal(bench.file("parts", "1-f.lrat"), "3 0 2 1 0\n", "log")
    # Resolving clause 1 with 2 and 3 gives clause 1 again; 2 is true where 1 is false.
    equal(bench.file("parts", "2-_a_b_.lrat"), "6 1 2 0 3 1 0\n7 1 0 4 6 0\n8 0 5 7 0\n", "log")
    for stem in ("1-f", "2-_a_b_"):
        done = bench.run("lrat.py", f"parts/{stem}.cnf", f"parts/{stem}.lrat")
        equal(done.returncode, 0, f"status of lrat.py on {stem}")


def first_format(bench):
    bench.write("first", open(PROOF).read().replace("tvproof 2\n" + LIMITS, "tvproof 1\n"))
    done = bench.run("tv-proof", "first", "--no-solvers")
    equal((done.returncode, done.stdout, done.stderr), (0, PARTS, ""), "status and output")


def wrong_logs(bench):
    proof = open(PROOF).read()
    for old, new in (("6 4 0 1 0", "6 4 0 3 0"), ("7 5 0 0", "6 5 0 0"), ("7 5 0 0", "9 5 0 0"),
                     ("log 3", "log 2"), ("-1 0\nlog 3", "-2 0\nlog 3")):
        lines = proof.replace(old, new)
        bench.write("wrong", lines if new != "log 2" else lines.replace("7 5 0 0\n", ""))
        done = bench.run("tv-proof", "wrong", "--no-solvers")
        equal(done.returncode, 1, f"status with {new}")
        has(done.stdout, "steps", "refuted no\n", "parts 2 passed 1 failed 1\n")


def no_proof_files(bench):
    proof = open(PROOF).read()
    for text, line in (("", 1), ("tvproof 3\n", 1), ("tvproof 2\n", 2),
                       (proof.replace("tvproof 2", "tvproof 1"), 2),
                       (proof.replace("blocks 2", "blocks 02"), 2),
                       (proof.replace("conflicts 0", f"conflicts {2**63}"), 2),
                       (proof.replace("log 1", "log 2"), 9),
                       (proof.replace("p cnf 1 2", "p cnf 1 02"), 4), (proof[:-1], 19)):
        bench.write("other", text)
        done = bench.run("tv-proof", "other", "--no-solvers")
        wanted = f"tv-proof: other:{line}: not a line of a proof file\n"
        equal((done.returncode, done.stderr), (2, wanted), f"status and message of {text!r}")


def wrong_lrat(bench):
    bench.run("tv-proof", PROOF, "-o", "parts", "--no-solvers")
    right = bench.file("parts", "2-_a_b_.lrat")
    for old, new in (("3 1 0\n7", "1 3 0\n7"), ("4 6 0", "4 2 6 0"), ("8 0 5 7 0\n", ""),
                     ("8 0 5 7 0", "8 0 5 9 0"), ("7 1 0", "3 1 0"), ("4 6 0", "4 0"),
                     ("5 7 0", "-5 7 0"), ("7 1 0", "6 d 6 0\n7 1 0")):
        bench.write("wrong", right.replace(old, new, 1))
        done = bench.run("lrat.py", "parts/2-_a_b_.cnf", "wrong")
        equal(done.returncode, 1, f"status with {new!r} for {old!r}")
    bench.write("longer", right.replace("8 0", "6 d 6 1 0\n8 0"))
    equal(bench.run("lrat.py", "parts/2-_a_b_.cnf", "longer").returncode, 0, "with deletions")


def solvers_agree(bench):
    done = bench.run("tv-proof", PROOF)
    equal(done.returncode, 0, "status")
    found = list(filter(shutil.which, SOLVERS))
    for line in done.stdout.splitlines()[1:3]:
        has(line, *(f"{solver} unsat" for solver in found))
    bench.write("sat", "tvproof 1\nrow @f correct\np cnf 2 1\n1 -2 0\nlog 0\n")
    done = bench.run("tv-proof", "sat")
    equal(done.returncode, 1, "status of clauses with a model")
    has(done.stdout, "refuted no", *(f"{solver} sat" for solver in found))


def proof_of_tv(bench):
    before, after = (os.path.join(DATA, f"loop_{name}.ll") for name in ("before", "after"))
    tv = bench.variables["TV"]
    report = subprocess.run([tv, "check", "--turns", "2", before, after, "--proof", "out.tvproof"],
                            cwd=bench.folder, capture_output=True, text=True)
    has(report.stdout, "@count correct\n")
    done = bench.run("tv-proof", "out.tvproof")
    equal(done.returncode, 0, "status")
    has(done.stdout, "@count correct", "refuted yes", "parts 1 passed 1 failed 0\n")


# Where tv writes its proof file, on real files.

SOURCE = "define i8 @f(i8 %x) {\n  %r = add i8 %x, %x\n  ret i8 %r\n}\n"
TARGET = "define i8 @f(i8 %x) {\n  %r = shl i8 %x, 1\n  ret i8 %r\n}\n"
BESIDE = ["out.tv-new"] + [f"out.tv-new{number}" for number in range(1, 10)]
LONGEST_NAME = 255

# Runs what follows with no byte written to any file: each write to one fails.
NO_WRITE = ["sh", "-c", "trap '' XFSZ; ulimit -f 0; exec \"$@\"", "sh"]


def proved(bench, name, source="A", before=(), **how):
    """Status and output of a run of tv that writes its proof file to this name."""
    command = [*before, bench.variables["TV"], "check", source, "B", "--proof", name]
    done = subprocess.run(command, cwd=bench.folder, stdin=subprocess.DEVNULL,
                          capture_output=True, text=True, timeout=60, **how)
    return done.returncode, done.stdout


def proof_text(bench):
    """The proof file's text, after the pair that it is of was written."""
    bench.write("A", SOURCE)
    bench.write("B", TARGET)
    status, report = proved(bench, "fresh")
    equal(status, 0, f"status of {report}")
    text = bench.file("fresh")
    has(text, "tvproof 2\n" + LIMITS)
    os.remove(os.path.join(bench.folder, "fresh"))
    return text


def is_put(bench, name, text, **how):
    """Holds that the proof file is written to the name, and that no other name comes or goes."""
    before = set(os.listdir(bench.folder))
    status, report = proved(bench, name, **how)
    equal((status, bench.file(name)), (0, text), f"status and file after {report}")
    equal(set(os.listdir(bench.folder)), before | {name}, "names in the folder")


def is_not_put(bench, name, **how):
    """Holds that the proof file can't be written to the name, and that no name comes or goes."""
    before = set(os.listdir(bench.folder))
    found = proved(bench, name, **how)
    equal(found, (7, f"cannot write {name}\n"), "status and output")
    equal(set(os.listdir(bench.folder)), before, "names in the folder")


def put_beside_a_file(bench):
    text = proof_text(bench)
    path = os.path.join(bench.folder, "out")
    bench.write("out.tv-new", SOURCE)
    is_put(bench, "out", text)
    is_put(bench, "out", text, source="out.tv-new")
    bench.write("out", "old")
    is_not_put(bench, "out", before=NO_WRITE)
    equal(bench.file("out"), "old", "the old file")
    os.remove(path)
    is_not_put(bench, "out", before=NO_WRITE)
    os.mkdir(path)
    is_not_put(bench, "out")
    equal(os.listdir(path), [], "names in the folder at the name")
    equal(bench.file("out.tv-new"), SOURCE, "the file beside, which is the user's")


def put_beside_no_file(bench):
    text = proof_text(bench)
    link, dangling, pipe, folder = (os.path.join(bench.folder, name) for name in BESIDE[:4])
    bench.write("other", "other")
    os.symlink("other", link)
    os.symlink("nothing", dangling)
    os.mkfifo(pipe)
    os.mkdir(folder)
    is_put(bench, "out", text)
    equal((os.readlink(link), bench.file("other")), ("other", "other"), "the link and its file")
    equal(os.readlink(dangling), "nothing", "the dangling link")
    equal(os.listdir(folder), [], "names in the folder beside")


def put_with_all_names_taken(bench):
    text = proof_text(bench)
    for name in BESIDE:
        bench.write(name, name)
    is_put(bench, "out", text)
    bench.write("out", "old" + text)
    is_put(bench, "out", text)
    equal([bench.file(name) for name in BESIDE], BESIDE, "the files beside")


def put_to_a_pipe(bench):
    text = proof_text(bench)
    path = os.path.join(bench.folder, "out")
    os.mkfifo(path)
    with subprocess.Popen(["cat", path], stdout=subprocess.PIPE, text=True) as reader:
        status, _ = proved(bench, "out")
        equal((status, reader.communicate(timeout=60)[0]), (0, text), "status and what is read")
    equal(stat.S_ISFIFO(os.lstat(path).st_mode), True, "a pipe is left")
    equal(sorted(os.listdir(bench.folder)), ["A", "B", "out"], "names in the folder")


def put_to_a_device(bench):
    proof_text(bench)
    for name, status in ((os.devnull, 0), ("/dev/full", 7)):
        before = set(os.listdir("/dev"))
        equal(proved(bench, name)[0], status, f"status at {name}")
        equal(stat.S_ISCHR(os.lstat(name).st_mode), True, f"{name} is a device")
        equal([n for n in set(os.listdir("/dev")) - before if ".tv-new" in n], [], "new names")


def put_through_a_link(bench):
    text = proof_text(bench)
    os.mkdir(os.path.join(bench.folder, "sub"))
    bench.write("sub/file", "old" + text)
    for name, leads in (("out", "sub/file"), ("dangling", "sub/new")):
        os.symlink(leads, os.path.join(bench.folder, name))
        is_put(bench, name, text)
        equal(os.readlink(os.path.join(bench.folder, name)), leads, "where the link leads")
    equal(sorted(os.listdir(os.path.join(bench.folder, "sub"))), ["file", "new"], "names there")


def put_keeps_permissions(bench):
    text = proof_text(bench)
    path = os.path.join(bench.folder, "out")
    for mode in (0o640, 0o600, 0o400, 0o444, 0o666):
        bench.write("out", "old")
        os.chmod(path, mode)
        number = os.stat(path).st_ino
        is_put(bench, "out", text)
        equal(oct(os.stat(path).st_mode & 0o7777), oct(mode), "permissions")
        equal(os.stat(path).st_ino != number, True, "a new file has the name")
        os.remove(path)


def put_leaves_hard_links(bench):
    text = proof_text(bench)
    bench.write("other", "old")
    os.link(os.path.join(bench.folder, "other"), os.path.join(bench.folder, "out"))
    is_put(bench, "out", text)
    equal(bench.file("other"), "old", "the file's other name")


def put_to_the_longest_name(bench):
    text = proof_text(bench)
    for length in (LONGEST_NAME, LONGEST_NAME - len(".tv-new")):
        name = "n" * length
        is_put(bench, name, text)
        bench.write(name, "old" + text)
        is_put(bench, name, text)
    is_not_put(bench, "n" * (LONGEST_NAME + 1))


def put_in_a_closed_folder(bench):
    """Permissions don't hold for root: a copy of tv then runs as nobody."""
    text = proof_text(bench)
    how = {}
    if os.geteuid() == 0:
        nobody = pwd.getpwnam("nobody")
        how = {"user": nobody.pw_uid, "group": nobody.pw_gid, "extra_groups": []}
    shutil.copy(bench.variables["TV"], os.path.join(bench.folder, "tv"))
    there = Bench(bench.folder, TV=os.path.join(bench.folder, "tv"))
    bench.write("out", "old" + text)
    bench.write("closed", "old")
    modes = {"A": 0o644, "B": 0o644, "tv": 0o755, "out": 0o666, "closed": 0o444}
    for name, mode in modes.items():
        os.chmod(os.path.join(bench.folder, name), mode)
    os.chmod(bench.folder, 0o555)
    try:
        is_put(there, "out", text, **how)
        is_not_put(there, "closed", **how)
        is_not_put(there, "new", **how)
        equal(bench.file("closed"), "old", "a file that can't be written")
    finally:
        os.chmod(bench.folder, 0o755)


# Modules at the limits of their size.

MOST_INSTRUCTIONS = 65536
NO_ROWS = "correct 0 incorrect 0 unknown 0 refused 0 signature 0 missing 0 extra 0\n"


def chain(instructions):
    """A function of this number of instructions, each over the one before."""
    last = instructions - 2
    lines = [f"  %r{number} = xor i1 %r{number - 1}, false\n" for number in range(1, last + 1)]
    head = "define i1 @f(i1 %x) {\n  %r0 = xor i1 %x, false\n"
    return f"{head}{''.join(lines)}  ret i1 %r{last}\n}}\n"


def answered(bench, *args):
    """Status and output of a run of tv."""
    done = subprocess.run([bench.variables["TV"], *args], cwd=bench.folder, text=True,
                          capture_output=True, timeout=300)
    return done.returncode, done.stdout


def longest_function(bench):
    bench.write("A", chain(MOST_INSTRUCTIONS))
    bench.write("longer", chain(MOST_INSTRUCTIONS + 1))
    for source, weight, status, row in (
            ("A", 131072, 0, "correct"), ("A", 131071, 2, "unknown weight"),
            ("longer", 131072, 3, "refused source Limit 65538:3")):
        found = answered(bench, "check", source, "A", "--turns", "0", "--weight", str(weight))
        kind = row.split()[0]
        wanted = (f"tv 2 turns 0 blocks 2 bytes 8 rounds 64 conflicts 0 weight {weight}\n@f {row}\n"
                  + NO_ROWS.replace(f"{kind} 0", f"{kind} 1", 1))
        equal(found, (status, wanted), f"answer for {source} at {weight}")


def most_functions(bench):
    wanted = ("tv 2 turns 4 blocks 2 bytes 8 rounds 64 conflicts 0 weight 100000\n"
              "make seed 1 functions 4096 insts 1\n"
              + NO_ROWS.replace("correct 0 incorrect 0", "correct 4013 incorrect 83"))
    for workers in ("1", "64"):
        found = answered(bench, "make", "--seed", "1", "--functions", "4096", "--insts", "1",
                         "--workers", workers)
        equal(found, (1, wanted), f"answer of {workers} workers")


EVERY = [check_two, check_first, check_src_and_tgt, check_forms, check_refusals, reduced_pair, opt_output_is_passed_on, opt_gate, opt_changed_names, opt_steps, tree_totals,
         vacuous_rows, pages]
REAL_ONLY = [proof_of_tv, check_bounds, check_layout, check_words, figures, trace_of_tv]
FAKE_ONLY = [names_are_no_words, help_is_one_screen, quick_without_rt, check_folders, check_front, check_before,
             check_limit, check_interrupted, check_first_and_slow, check_trace,
             check_terminal, reduced_with_arguments, opt_reads_standard_input, opt_failure_is_passed_on, opt_not_text,
             opt_judges_nothing, opt_same, opt_asks_once, opt_summary,
             opt_without_tv, opt_slow_pair, opt_whole_refusal, tree_by_lines, tree_resumes,
             tree_time_out, tree_stopped, tree_bad_folder, reduced, nothing_to_reduce, baseline,
             baseline_of_lines, lower_without_plugin, baseline_of_tree, proof_parts, first_format,
             wrong_logs, no_proof_files, wrong_lrat]
PUTS = [put_beside_a_file, put_beside_no_file, put_with_all_names_taken, put_to_a_pipe,
        put_to_a_device, put_through_a_link, put_keeps_permissions, put_leaves_hard_links,
        put_to_the_longest_name, put_in_a_closed_folder]
LARGE = [longest_function, most_functions]
LLVM = [llvm_tree, llvm_steps, llvm_bitcode, llvm_reads_printed]

# The oldest LLVM whose opt these tests are for: the first with opaque pointers alone.
OLDEST_LLVM = 17


def real_tv():
    built = os.path.join(os.path.dirname(TOOLS), "crates", "tv", "out", "tv")
    return os.environ.get("TV") or shutil.which(built) or shutil.which("tv")


def writes_proofs(tv):
    """Whether this tv knows --proof: an older one rejects the command line."""
    module = os.path.join(DATA, "loop_before.ll")
    command = [tv, "check", "--weight", "1", module, module, "--proof", os.devnull]
    return subprocess.run(command, capture_output=True).returncode != 4


def llvm_version(opt):
    """The version of the LLVM that an opt is of, 0 where it doesn't say."""
    said = subprocess.run([opt, "--version"], capture_output=True, text=True).stdout
    found = re.search(r"LLVM version (\d+)", said)
    return int(found.group(1)) if found else 0


def cases():
    """Name, test and environment of each case; says what is skipped."""
    fake = {"TV": os.path.join(DATA, "fake-tv"), "TV_TRACE": "false", "TV_OPT": os.path.join(DATA, "wrong-opt"),
            "TV_REDUCE": os.path.join(DATA, "fake-reduce"), "TV_LLVM_NONE": "1"}
    real = real_tv()
    opt = os.environ.get("TV_OPT") or shutil.which("opt-19") or shutil.which("opt")
    reduce = os.environ.get("TV_REDUCE") or shutil.which("llvm-reduce-19")
    reduce = reduce or shutil.which("llvm-reduce")
    for test in EVERY + FAKE_ONLY:
        yield f"fake tv, {test.__name__}", test, fake
    if real:
        for test in EVERY:
            yield f"tv, {test.__name__}", test, {**fake, "TV": os.path.abspath(real)}
    else:
        print("skipped: tv is not built (crates/tv/out/tv), nor named by TV")
    if real and writes_proofs(real):
        for test in [*REAL_ONLY, *PUTS, *LARGE]:
            yield f"tv, {test.__name__}", test, {**fake, "TV": os.path.abspath(real)}
    else:
        print("skipped: there is no tv that writes proof files")
    if any(map(shutil.which, SOLVERS)):
        yield "solvers, solvers_agree", solvers_agree, fake
    else:
        print(f"skipped: none of {', '.join(SOLVERS)} is installed")
    if opt and llvm_version(opt) >= OLDEST_LLVM:
        for test in LLVM:
            yield f"opt, {test.__name__}", test, {**fake, "TV_OPT": opt, "TV": real or fake["TV"]}
    elif opt:
        print(f"skipped: {opt} is older than LLVM {OLDEST_LLVM}")
    else:
        print("skipped: neither opt-19 nor opt is installed")
    if reduce and real:
        there = {**fake, "TV": os.path.abspath(real), "TV_REDUCE": reduce}
        yield "llvm-reduce, reduced", reduced, there
    else:
        print("skipped: llvm-reduce-19 or tv is not there")


def tried(case):
    """Runs one case in a folder of its own: whether it passed, and what there is to say of it."""
    name, test, variables = case
    with tempfile.TemporaryDirectory(prefix="test-tools-") as folder:
        begun = time.monotonic()
        try:
            test(Bench(folder, **variables))
        except (AssertionError, OSError, ValueError, LookupError,
                subprocess.TimeoutExpired) as error:
            return False, f"failed: {name}: {type(error).__name__}: {error}"
        return True, f"passed: {name} {time.monotonic() - begun:.1f} s"


def main():
    passed = failed = 0
    with concurrent.futures.ThreadPoolExecutor(AT_A_TIME) as pool:
        for good, line in pool.map(tried, cases()):
            passed, failed = passed + good, failed + (not good)
            if not good or "-v" in sys.argv[1:]:
                print(line, flush=True)
    print(f"{passed} passed, {failed} failed")
    return 1 if failed else 0


if __name__ == "__main__":
    sys.exit(main())
