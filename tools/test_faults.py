#!/usr/bin/env python3
"""Tests of what the scripts in this folder do where a program, a file or a stream misbehaves.

    tools/test_faults.py [-v] [NAME..]

The programs are `fake-tv` and `fake-opt` of testdata, which misbehave in each of the ways that they
name. Whatever they do, no script ends with 0, calls a function correct that tv didn't, or has a row
less. NAME picks cases. The last line counts; the status is 1 where a case failed.
"""
import contextlib
import importlib.machinery
import importlib.util
import json
import os
import re
import shutil
import signal
import stat
import subprocess
import sys
import tempfile
import time

import tvbounds
import tvir
import tvlib
import tvreport
import tvrun
from test_tools import Bench, equal, has, has_not

TOOLS = os.path.dirname(os.path.realpath(__file__))
DATA = os.path.join(TOOLS, "testdata")
SCRIPTS = ["tv-check", "opt-tv", "tv-tree", "tv-vacuous", "tv-reduce", "tv-html", "tv-baseline"]
SAME = "define i8 @same(i8 %x) {\n  ret i8 %x\n}\n"
GOOD = "define i8 @good(i8 %x) {\n  %r = add i8 %x, %x\n  ret i8 %r\n}\n"
BAD = "define i8 @bad(i8 %x, i8 %y) {\n  %r = add i8 %x, %y\n  ret i8 %r\n}\n"
PASSES = "-passes=double,wrong"
AFTER = {GOOD: GOOD.replace("add i8 %x, %x", "shl i8 %x, 1"), BAD: BAD.replace("add", "sub")}


def ways_of(name):
    """The ways in which a stand-in misbehaves."""
    loader = importlib.machinery.SourceFileLoader("stand_in", os.path.join(DATA, name))
    module = importlib.util.module_from_spec(importlib.util.spec_from_loader("stand_in", loader))
    loader.exec_module(module)
    return [way for way in module.WAYS if way != "well"]


# A tv that misbehaves.

def commands(name):
    """Each script on a.ll and b.ll, where the function of this name is the one that changed."""
    return [["tv-check", "a.ll", "b.ll", "--allow-marks", "--json=rows"],
            ["tv-vacuous", "a.ll", "b.ll"], ["tv-html", "a.ll", "b.ll"],
            ["tv-tree", "run", "a.ll", "-p", "double,wrong", "--out", "o"],
            ["opt-tv", "-S", PASSES, "a.ll", "-o", "/dev/stdout"],
            ["tv-reduce", "a.ll", "b.ll", "-f", name, "--row", "correct", "-o", "r.ll"]]


def tv_misbehaves(bench, way, scripts=SCRIPTS, on=None):
    """Tries a way with scripts, where the module has a function whose name begins with `on`: usually
    the one that changed, so that how far it reaches is answered well."""
    text = BAD if way == "lines that it lacks" else GOOD
    name = "bad" if text is BAD else "good"
    bench.write("a.ll", SAME + text)
    bench.write("b.ll", SAME + AFTER[text])
    for command in commands(name):
        if command[0] not in scripts:
            continue
        done = bench.run(*command, FAKE_TV=way, FAKE_TV_ON=on or name, TV_GATE="1",
                         TV_TIME="1" if way == "hangs" else "60")
        what = f"{way}: {' '.join(command)}: {done.stdout[-300:]}{done.stderr[-300:]}"
        equal(done.returncode in (2, 3), True, f"status {done.returncode} of {what}")
        found = re.search(rf"(?m)(^|<code>)@{name} (correct|same)", done.stdout)
        equal((found, "Traceback" in done.stderr), (None, False), f"a correct row of {what}")
        if command[0] == "tv-check":
            rows = re.findall(r"^@(\w+) \w+", done.stdout, re.M)
            equal(rows, ["same", name], f"rows of {what}")
            has(done.stdout.splitlines()[-1], "correct 0 ", " same 1")
            rows = [json.loads(line) for line in bench.file("rows").splitlines()]
            faults = done.stdout.count("\nfault ")
            equal([row["function"] for row in rows], ["same", name, *[""] * faults],
                  f"objects of {what}")
            has_not(["same", "correct"], rows[1]["kind"])
        if command[0] == "tv-tree":
            baseline = bench.run("tv-baseline", "none", "o/rows.csv")
            equal(baseline.returncode, 2, f"status of the baseline of {what}")
            shutil.rmtree(os.path.join(bench.folder, "o"))
        if command[0] == "opt-tv":
            equal(bench.run("opt-tv", "--summary").returncode, 2, f"status of --summary: {what}")


# One reader takes all reports: the ways that are tried with each script are one of each sort.
EACH = ["killed", "crashed", "hangs", "silent", "cut after the rows", "other name", "two rows",
        "wrong status", "lies in the last line", "text behind", "wrong bounds"]


def each_way_of_tv(bench):
    for way in EACH:
        tv_misbehaves(bench, way)


def more_ways_of_tv(bench):
    for way in ways_of("fake-tv"):
        if way not in EACH:
            tv_misbehaves(bench, way, ["tv-check"])


def no_answer_on_the_reach(bench):
    for way in EACH:
        tv_misbehaves(bench, way, ["tv-check"], "tv.")


# An opt that misbehaves.

def each_way_of_opt(bench):
    for way in ways_of("fake-opt"):
        opt_misbehaves(bench, way)


def opt_misbehaves(bench, way):
    bench.write("a.ll", SAME + GOOD)
    bench.write("b.ll", SAME.replace("same", "other"))
    for command in [["tv-check", "--opt", PASSES, "a.ll", "b.ll"],
                    ["tv-tree", "run", "a.ll", "b.ll", "-p", "double", "--out", "o"],
                    ["opt-tv", "-S", "-passes=double", "a.ll", "-o", "out.ll"],
                    ["opt-tv", "-S", "-passes=double", "a.ll"],
                    ["tv-reduce", "a.ll", "-f", "good", "-p", "double", "--row", "correct"]]:
        done = bench.run(*command, TV_OPT=os.path.join(DATA, "fake-opt"), FAKE_OPT=way,
                         FAKE_OPT_ON="@good", TV_GATE="1", TV_REDUCE="/bin/false", TV_TIME="60")
        what = f"{way}: {' '.join(command)}: {done.stdout[-400:]}{done.stderr[-400:]}"
        # opt-tv has the status of an opt that fails.
        allowed = 1 if command[0] == "opt-tv" and way.startswith("fails") else 2
        equal(done.returncode >= allowed, True, f"status {done.returncode} of {what}")
        has_not(done.stdout, "@good correct", "@good same")
        has_not(done.stderr, "Traceback")
        shutil.rmtree(os.path.join(bench.folder, "o"), ignore_errors=True)


def faults_in_each_form(bench):
    bench.write("a.ll", SAME + GOOD)
    bench.write("b.ll", SAME.replace("same", "other"))
    variables = {"TV_OPT": os.path.join(DATA, "fake-opt"), "FAKE_OPT": "crashed",
                 "FAKE_OPT_ON": "@good"}
    done = bench.run("tv-check", "--opt", "-passes=double", "a.ll", "b.ll", "--json=j", "--junit=u",
                     "--sarif=s", "--html=h", "--keep", "kept", **variables)
    equal(done.returncode, 2, "status")
    crash = 'signal 6: Running pass "double" on function "g1"; try: '
    has(done.stdout, "@other same\n", f"fault a.ll: opt -passes=double: {crash}",
        "fake-opt -S -passes=double a.ll")
    rows = [json.loads(line) for line in bench.file("j").splitlines()]
    equal([(row["file"], row["function"], row["kind"]) for row in rows],
          [("a.ll", "", "failed"), ("b.ll", "other", "same")], "objects")
    has(rows[0]["detail"], crash)
    has(bench.file("u"), 'errors="1"', 'name="fault"', "Running pass")
    results = json.loads(bench.file("s"))["runs"][0]["results"]
    equal([(each["ruleId"], each["level"]) for each in results], [("failed", "error")], "results")
    has(bench.file("h"), "Running pass")
    equal(bench.only("kept", ".failed.ll"), SAME + GOOD, "the module that is kept")
    bench.write("report", done.stdout)
    equal(bench.run("tv-baseline", "none", "report").returncode, 2, "status of the baseline")
    done = bench.run("opt-tv", "-S", "-passes=double", "a.ll", **variables)
    equal(done.returncode, 134, "status of an opt that crashed")
    has(done.stderr, f"opt-tv: opt crashed: {crash}", "tv-out/a.ll-", ".crash.ll")
    equal(bench.only("tv-out", ".crash.ll"), SAME + GOOD, "the module that is kept")


def nothing_is_no_pass(bench):
    os.mkdir(os.path.join(bench.folder, "empty"))
    bench.write("empty/readme", "")
    os.mkdir(os.path.join(bench.folder, "tv-out"))
    for command in [["tv-tree", "run", "empty", "-p", "double", "--out", "o"],
                    ["tv-tree", "table", "--out", "o"], ["tv-baseline", "base", "o/rows.csv"],
                    ["tv-check", "empty", "empty"], ["tv-check", "--opt", "-passes=double", "empty"],
                    ["opt-tv", "--summary"], ["tv-baseline", "base", "tv-out"],
                    ["tv-baseline", "base", "empty"]]:
        done = bench.run(*command)
        equal((done.returncode, "Traceback" in done.stderr), (3, False), f"status of {command}")


# Statuses.

def no_exception_is_0_or_1(bench):
    copy = os.path.join(bench.folder, "tools")
    shutil.copytree(TOOLS, copy, ignore=shutil.ignore_patterns("__pycache__", "testdata"))
    bench.write("a.ll", SAME)

    def statuses(command):
        done = bench.run(os.path.join(copy, command[0]), *command[1:], data=SAME)
        has(done.stderr, "Error")
        return done.returncode
    with open(os.path.join(copy, "tvir.py"), "a") as file:
        file.write("\ndef names_of(*_):\n    return {}['no such key']\n")
    for command in [["tv-check", "a.ll", "a.ll"], ["tv-vacuous", "a.ll", "a.ll"],
                    ["tv-html", "a.ll", "a.ll"], ["opt-tv", "-S", "-passes=double", "a.ll"]]:
        equal(statuses(command), 2, f"status of {command} with an exception")
    for damage in ("raise ValueError\n", None):
        path = os.path.join(copy, "tvlib.py")
        bench.write("tools/tvlib.py", damage) if damage else os.remove(path)
        for script in SCRIPTS:
            equal(statuses([script, "--help"]), 2, f"status of {script} with tvlib {damage}")


def output_that_fails(bench):
    bench.write("a.ll", SAME)
    for command in ("tv-check a.ll a.ll", "tv-vacuous a.ll a.ll", "tv-html a.ll a.ll",
                    "opt-tv -S -passes=double a.ll", "tv-tree list a.ll -p double",
                    "tv-check --help", "tv-check --version"):
        line = os.path.join(TOOLS, command)
        for into in (">/dev/full", ">&-"):
            done = bench.run("/bin/sh", "-c", f"{line} {into}")
            equal((done.returncode, "Traceback" in done.stderr), (7, False),
                  f"status of {command} {into}: {done.stderr}")
        done = bench.run("/bin/sh", "-c", f"({line}; echo $? >status) | true; sleep 0.3; cat status")
        equal(done.stdout, "7\n", f"status of {command} into a closed pipe")


def seconds_are_finite(bench):
    bench.write("a.ll", SAME)
    for value in ("inf", "nan", "-1", "0", "1e300", "x", ""):
        for command, variables in [(["tv-check", "a.ll", "a.ll", f"--seconds={value}"], {}),
                                   (["tv-vacuous", "a.ll", "a.ll"], {"TV_TIME": value})]:
            done = bench.run(*command, **variables)
            equal(done.returncode, 4, f"status of {command} {variables}: {done.stderr}")
            has(done.stderr, "takes a number of seconds above 0")
    done = bench.run("tv-check", "a.ll", "a.ll", TV_ARGS='"')
    equal(done.returncode, 4, "status of TV_ARGS with an open quote")


def marks_have_a_status(bench):
    Row = tvrun.Row
    marked = Row("f", "correct", doubts=["%p: noalias"], rules=["attributes"]).as_doubtful()
    alarm = Row("g", "incorrect", lines=["  source ub"], doubts=["@k"], rules=["global"]).as_doubtful()
    equal((marked.kind, alarm.kind), ("marked", "alarm"), "kinds")
    equal((marked.text(), alarm.text()),
          ("@f correct by attributes; fault may hide: %p: noalias",
           "@g incorrect by global; false alarm possible: @k"), "rows")
    rows = [Row("a", "correct"), marked, alarm]
    for found, allowed, status in [(rows, [], 10), (rows[:2], [], 10), (rows[:2], ["marked"], 0),
                                   (rows, ["marked"], 10), (rows[:1], [], 0), ([], [], 3),
                                   ([*rows, Row("b", "refused")], [], 3),
                                   ([*rows, Row("b", "failed")], [], 2),
                                   ([*rows, Row("b", "incorrect")], [], 1)]:
        equal(tvrun.status_of(found, allowed), status, f"status of {[row.kind for row in found]}")
    text = "".join(row.whole() for row in rows)
    report = f"tv-check 1 seconds 10\n{text}{tvrun.counts_line(rows)}\n"
    has(report, "correct 1 incorrect 0 ", " marked 1 alarm 1\n")
    back = [tvrun.row_of(line) for line in tvreport.rows_in(report)]
    equal([row.kind for row in back], ["correct", "marked", "alarm"], "kinds that are read")
    for row in (marked, alarm, Row("h", "correct", doubts=["x"]).as_doubtful(),
                Row("i", "bounded", "source load undefined 1:2", bounds={"blocks": 1}, rules=["r"])):
        line, = tvreport.rows_in(f"tv-check 1 seconds 10\n{row.whole()}{tvrun.counts_line([row])}\n")
        equal(tvrun.row_of(line), row, "a row that is written and read")
    bench.write("report", report)
    done = bench.run("tv-baseline", "base", "report", "--name", "r")
    equal(done.returncode, 10, "status of new rows with marks")
    has(done.stdout, "new: r @f marked %p: noalias\n", "new: r @g alarm @k\n")
    equal(bench.run("tv-baseline", "base", "report", "--name", "r", "--write").returncode, 0, "held")
    equal(bench.run("tv-baseline", "none", "report", "--allow", "marked").returncode, 10, "allowed")


# Reports.

def cut_reports(bench):
    """A report that is cut anywhere, or of which a line is lost, is no report."""
    rows = [tvrun.Row("f", "correct"), tvrun.Row("g", "refused", "source Limit 3:4"),
            tvrun.Row("h", "incorrect", lines=["  arg 0 = 1", "  source returns 0", "  target ub"])]
    head = "tv 2 " + " ".join(f"{name} {number}" for name, number in tvreport.LIMITS.items())
    text = f"{head}\n{''.join(row.whole() for row in rows)}{tvrun.counts_line(rows)}\n"
    names = ["f", "g", "h"]
    equal([row.kind for row in tvreport.report_of(text.encode(), 1, names, []).rows],
          ["correct", "refused", "incorrect"], "the whole report")
    lines = text.splitlines(True)
    # Of a counterexample the arguments alone can be lost unseen: their number isn't in the report.
    spoilt = [text[:at] for at in range(len(text))]
    spoilt += ["".join(lines[:at] + lines[at + 1:]) for at in range(len(lines)) if at != 4]
    spoilt += ["".join(lines[:at] + [lines[at]] + lines[at:]) for at in range(len(lines)) if at != 4]
    spoilt += [text + text, text + "\n", text + "more", "\n" + text, text.replace("\n", "\r\n")]
    for each in spoilt:
        with contextlib.suppress(tvreport.BadReport):
            tvreport.report_of(each.encode(), 1, names, [])
            raise AssertionError(f"taken as a report: {each!r}")
    for status, asked, words in [(0, names, []), (1, ["f", "g"], []), (1, ["g", "f", "h"], []),
                                 (1, [*names, "i"], []), (1, names, ["--turns", "5"]),
                                 (1, names, ["--bytes=9"]), (1, names, ["--first"]), (-6, names, [])]:
        with contextlib.suppress(tvreport.BadReport):
            tvreport.report_of(text.encode(), status, asked, words)
            raise AssertionError(f"taken as a report: status {status}, {asked}, {words}")
    check = text.replace(head, "tv-check 1 seconds 10").replace(
        "correct 1 incorrect 1", "refused 1, by what is there:\n      1 x\ncorrect 1 incorrect 1")
    equal(len(tvreport.checked(check, "")[0].rows), 3, "rows of a report of tv-check")
    end = check.rindex("\ncorrect 1")
    for each in [check[:at] for at in range(len(check))] + [
            check + "more\n", check.replace("@f correct\n", ""), check[:end] + check[end:].replace(
                "incorrect 1", "incorrect 0"), check.replace("refused 1,", "refused 2,")]:
        with contextlib.suppress(tvreport.BadReport):
            tvreport.checked(each, "")
            raise AssertionError(f"taken as a report: {each!r}")


def names_as_tv_prints_them(_):
    for name, wanted in [("f", "f"), ('"f"', "f"), ("1", "1"), ('"a b"', '"a b"'), ('"\\61"', "a"),
                         ('"\\22"', '"\\22"'), ('"\\5c"', '"\\5C"'), ('"1a"', '"1a"'),
                         ("a.b$-_", "a.b$-_"), ('"é"', '"\\C3\\A9"')]:
        equal(tvreport.printed(name), wanted, f"the name {name}")


# Modules: what was planted once and no test noticed.

def module(text):
    return tvir.Module(text)


def same_with_its_items(_):
    text = "@k = constant i8 {}\ndefine i8 @f() {{\n  %x = load i8, ptr @k\n  ret i8 %x\n}}\n"
    equal(tvir.is_same(module(text.format(7)), module(text.format(7)), "f"), True, "equal modules")
    equal(tvir.is_same(module(text.format(7)), module(text.format(8)), "f"), False,
          "a constant of another value")


def define_without_end(_):
    for text in (GOOD[:-2], SAME + GOOD[:-2], GOOD[:-2] + SAME):
        with contextlib.suppress(tvlib.Failure):
            equal("good" in module(text).functions, True, f"@good of {text!r}")


def bounds_of_both(_):
    far = "define i8 @f(ptr %p) {\n  %q = getelementptr i8, ptr %p, i64 20\n" \
          "  %x = load i8, ptr %q\n  ret i8 %x\n}\n"
    near = "define i8 @f(ptr %p) {\n  ret i8 0\n}\n"
    for one, other in ((far, near), (near, far)):
        found = tvbounds.fitted(module(one), module(other), "f", {})
        equal(found.get("bytes", 0) >= 21, True, f"bytes of {found}")


def comments_with_quotes(_):
    first = 'define i8 @f(i8 %x) { ; it\'s "\n  %r = add i8 %x, 1 ; a " {\n  ret i8 %r\n}\n'
    found = module(first + "@g = global i8 0\n" + SAME).functions
    equal([each.text for each in found.values()], [first, SAME], "functions")
    quoted = 'define i8 @f() {\n  %x = load i8, ptr @"k;1"\n  ret i8 %x\n}\n'
    for text, other in ((first, first.replace("%x, 1", "%x, 2")),
                        (quoted, quoted.replace("k;1", "k;2"))):
        equal(tvir.is_same(module(text), module(other), "f"), False, f"{text!r} and {other!r}")


# Files.

def outputs_where_they_are(bench):
    bench.write("a.ll", SAME)
    path = os.path.join(bench.folder, "j")
    check = ("tv-check", "a.ll", "a.ll")
    line = bench.run(*check, "--json").stdout
    bench.write("real", "old")
    os.chmod(os.path.join(bench.folder, "real"), 0o640)
    os.symlink("real", path)
    equal(bench.run(*check, "--json=j").returncode, 0, "status with a link")
    equal((os.path.islink(path), keep_seconds(bench.file("real"))), (True, keep_seconds(line)), "a link")
    equal(stat.S_IMODE(os.stat(path).st_mode), 0o640, "the mode of what was there")
    done = bench.run("/bin/sh", "-c", f"umask 027; {TOOLS}/tv-check a.ll a.ll --json=new")
    equal((done.returncode, stat.S_IMODE(os.stat(os.path.join(bench.folder, "new")).st_mode)),
          (0, 0o640), "the mode of a new file")
    done = bench.run("/bin/sh", "-c", f"{TOOLS}/tv-check a.ll a.ll --json=/dev/stdout > both; "
                                      f"{TOOLS}/tv-check a.ll a.ll --json=/dev/fd/5 5> five")
    has(bench.file("both"), "tv-check 1 ", '{"file": "a.ll"', "@same same")
    has(bench.file("five"), '{"file": "a.ll"')
    os.mkfifo(os.path.join(bench.folder, "pipe"))
    done = bench.run("/bin/sh", "-c", f"cat pipe > got & {TOOLS}/tv-check a.ll a.ll --json=pipe; wait")
    equal((done.returncode, bench.file("got").count("\n")), (0, 1), "a FIFO")
    equal(stat.S_ISFIFO(os.stat(os.path.join(bench.folder, "pipe")).st_mode), True, "a FIFO after it")
    for option in ("--json=/dev/full", "--html=/dev/full", "--sarif=.", "--junit=a.ll/x"):
        done = bench.run(*check, option)
        equal(done.returncode, 7, f"status of {option}: {done.stderr}")
        has(done.stderr, "tv-check: cannot write ")


def keep_seconds(line):
    return re.sub(r'"seconds": [0-9.]+', "", line)


def no_output_over_an_input(bench):
    bench.write("a.ll", SAME)
    os.symlink("a.ll", os.path.join(bench.folder, "l"))
    os.link(os.path.join(bench.folder, "a.ll"), os.path.join(bench.folder, "h"))
    for args in (["--json=a.ll"], ["--json=./a.ll"], ["--sarif=l"], ["--html=h"],
                 ["--json=x", "--junit=x"]):
        done = bench.run("tv-check", "a.ll", "a.ll", *args)
        equal((done.returncode, done.stdout), (4, ""), f"answer to {args}")
        has(done.stderr, "give the output another name")
    for command in (["tv-html", "a.ll", "a.ll", "-o", "l"], ["tv-baseline", "a.ll", "l", "--write"],
                    ["tv-reduce", "a.ll", "a.ll", "-f", "same", "-o", "h"]):
        equal(bench.run(*command).returncode, 4, f"status of {command}")
    equal(bench.file("a.ll"), SAME, "the input")


# Processes.

def nothing_outlives_a_kill(bench):
    temporary = os.path.join(bench.folder, "temporary")
    os.mkdir(temporary)
    bench.write("a.ll", GOOD)
    bench.write("b.ll", AFTER[GOOD])
    variables = {**bench.variables, "FAKE_TV": "hangs", "TMPDIR": temporary}
    child = subprocess.Popen([os.path.join(TOOLS, "tv-check"), "a.ll", "b.ll", "--seconds", "500"],
                             cwd=bench.folder, env=variables, stdout=subprocess.DEVNULL,
                             stderr=subprocess.DEVNULL)
    try:
        # The first process lists the functions, within a time of its own.
        wait_for(lambda: any(re.search(r"Max cpu time +502 +502 ", each)
                             for each in limits_of(processes_with(temporary))),
                 "a process that judges is begun, with its limit of processor time")
    finally:
        child.send_signal(signal.SIGKILL)
        child.wait()
    wait_for(lambda: not processes_with(temporary) and not os.listdir(temporary), "all is gone")


def processes_with(folder):
    """Processes that have a file of this folder among their arguments."""
    found = []
    for number in filter(str.isdigit, os.listdir("/proc")):
        with contextlib.suppress(OSError):
            with open(f"/proc/{number}/cmdline", "rb") as file:
                words = file.read().split(b"\0")
            if b"check" in words and any(word.startswith(folder.encode()) for word in words):
                found.append(number)
    return found


def limits_of(processes):
    found = []
    for number in processes:
        with contextlib.suppress(OSError), open(f"/proc/{number}/limits") as file:
            found.append(file.read())
    return found


def wait_for(condition, what):
    for _ in range(600):
        found = condition()
        if found:
            return found
        time.sleep(0.1)
    raise AssertionError(f"waited too long: {what}")


def nothing_is_left(bench):
    """No temporary file after an end of any kind."""
    temporary = os.path.join(bench.folder, "temporary")
    os.mkdir(temporary)
    bench.write("a.ll", GOOD)
    bench.write("b.ll", AFTER[GOOD])
    for command, variables in [(["tv-check", "a.ll", "b.ll"], {}),
                               (["tv-check", "a.ll", "none.ll"], {}),
                               (["tv-vacuous", "a.ll", "b.ll"], {"FAKE_TV": "hangs", "TV_TIME": "1"}),
                               (["tv-reduce", "a.ll", "b.ll", "-f", "good", "--row", "correct"], {})]:
        bench.run(*command, TMPDIR=temporary, **variables)
        equal(os.listdir(temporary), [], f"files after {command}")


CASES = [each_way_of_tv, more_ways_of_tv, no_answer_on_the_reach, each_way_of_opt, faults_in_each_form,
         nothing_is_no_pass, no_exception_is_0_or_1, output_that_fails, seconds_are_finite,
         marks_have_a_status, cut_reports, names_as_tv_prints_them, same_with_its_items,
         define_without_end, bounds_of_both, comments_with_quotes, outputs_where_they_are,
         no_output_over_an_input, nothing_outlives_a_kill, nothing_is_left]


def main():
    names = [word for word in sys.argv[1:] if word != "-v"]
    passed = failed = 0
    for test in CASES:
        if names and test.__name__ not in names:
            continue
        with tempfile.TemporaryDirectory(prefix="test-faults-") as folder:
            begun = time.monotonic()
            try:
                test(Bench(folder, TV=os.path.join(DATA, "fake-tv"),
                           TV_OPT=os.path.join(DATA, "wrong-opt")))
            except (AssertionError, OSError, ValueError, LookupError,
                    subprocess.TimeoutExpired, tvreport.BadReport, tvlib.Failure) as error:
                failed += 1
                print(f"failed: {test.__name__}: {type(error).__name__}: {error}", flush=True)
            else:
                passed += 1
                if "-v" in sys.argv[1:]:
                    print(f"passed: {test.__name__} {time.monotonic() - begun:.1f} s", flush=True)
    print(f"{passed} passed, {failed} failed")
    return 1 if failed else 0


if __name__ == "__main__":
    sys.exit(main())
