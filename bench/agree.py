#!/usr/bin/env python3
"""Whether the three ways to check a pass say the same of each function: tv-check --opt, tv-tree, and
opt with the plugin.

    bench/agree.py FOLDER.. -p PASS [--functions N] [--jobs N] [--tv PROGRAM] [--opt=ARGS]

The folders are walked for .ll files. Files are taken in an order that depends on their names alone
and mixes them, until N functions were compared (default: all), --jobs files at a time (1). ARGS are
more arguments for opt. A file on which opt alone fails is left out, and counted.

Each of the three gives the kind of each function's row: tools/tv-check --json, rows.csv of
tools/tv-tree, and the plugin's -tv-report with -tv-no-lower (docs/PLUGIN.md). All have the same
bounds on their work, those of TV_ARGS, else --weight 100000 --rounds 64, and --seconds N for each
question (10). `bounded` is `correct` for the plugin, which doesn't ask that. It has no row where the
others say `same`, `missing` or `extra`. A row that is `unknown time` or `unknown reach time` in one of the
three is counted as `time` and compared with nothing: time differs from run to run. Functions without a
name, which the plugin calls `unnamed`, are compared between the other two. PASS is one pass: a function
has one row of the plugin.

A line for each difference, and for each fault: one of the three that crashes, gives no whole report,
or says that a module is at fault, whose rows are then not compared. Then the counts by kind.

Status: 0 no difference, 1 a difference, 2 no difference but a fault, 3 no function was compared, 4
the command line, 127 a program is missing. Needed are opt-19, the plugin (TV_LLVM, else
llvm/build/tv-llvm.so), and tv-split beside it (TV_SPLIT).
"""
import argparse
import collections
import concurrent.futures
import csv
import dataclasses
import hashlib
import io
import json
import os
import re
import shlex
import sys
import tempfile
import threading
import time

HERE = os.path.dirname(os.path.realpath(__file__))
TOOLS = os.path.join(os.path.dirname(HERE), "tools")
sys.path.insert(0, TOOLS)
import tvir
import tvlib

USUAL = "--weight 100000 --rounds 64"
FRONTS = ["tv-check", "tv-tree", "plugin"]
# What a row of tv-check is where the plugin has none.
NO_ROW = {"same", "missing", "extra"}
# Of a pair, or of the question how far its source is defined.
TIME = ("unknown time", "unknown reach time")
UNNAMED = "unnamed"
# Statuses with which tv-check and tv-tree end after a whole report.
REPORTED = {0, 1, 2, 3, 10}
FRONT_SECONDS = 7200
OPT_SECONDS = 300
PAUSE = 30


class Fault(Exception):
    """Why one of the three has no whole report, in words."""


@dataclasses.dataclass
class Found:
    """What one of the three says of a module: the kind of each function's row, with its detail, and
    what it says is wrong with the module."""
    rows: dict = dataclasses.field(default_factory=dict)
    faults: list = dataclasses.field(default_factory=list)

    def add(self, name, kind, detail=""):
        if name in self.rows:
            raise Fault(f"two rows of @{name}")
        self.rows[name] = " ".join(filter(None, [kind, detail]))


# The three.

def ended(done, wanted):
    """Fails where a program didn't end as it does after a whole report."""
    if done.status in wanted:
        return
    how = f"ran longer than {FRONT_SECONDS} s" if done.status is None else \
        f"ended by signal {-done.status}" if done.status < 0 else f"ended with status {done.status}"
    lines = done.errors.decode("utf-8", "replace").strip().splitlines()
    raise Fault(f"{how}: {lines[-1] if lines else 'nothing on standard error'}")


def by_check(path, options, folder):
    """What tv-check says."""
    out = os.path.join(folder, "rows.json")
    done = tvlib.run([sys.executable, os.path.join(TOOLS, "tv-check"), "--jobs", "1", "--no-trace",
                      f"--seconds={options.seconds:g}", f"--json={out}",
                      f"--opt={options.arguments}", path], seconds=FRONT_SECONDS)
    ended(done, REPORTED)
    return of_check(tvlib.read_text(out))


def of_check(text):
    """The rows of tv-check's JSON."""
    found = Found()
    for line in text.splitlines():
        row = json.loads(line)
        if row["function"]:
            found.add(tvir.canonical(row["function"]), row["kind"], row["detail"])
        else:
            found.faults.append(row["detail"])
    return found


def by_tree(path, options, folder):
    """What tv-tree says."""
    out = os.path.join(folder, "tree")
    done = tvlib.run([sys.executable, os.path.join(TOOLS, "tv-tree"), "run", path, "-p",
                      options.passes, "--out", out, "--jobs", "1", f"--seconds={options.seconds:g}",
                      f"--opt={options.opt}"], seconds=FRONT_SECONDS)
    ended(done, REPORTED)
    return of_tree(tvlib.read_text(os.path.join(out, "rows.csv")))


def of_tree(text):
    """The rows of tv-tree's rows.csv."""
    found = Found()
    for row in csv.DictReader(io.StringIO(text)):
        if row["function"]:
            found.add(tvir.canonical(row["function"]), row["kind"], row["cause"])
        else:
            found.faults.append(f"{row['kind']}: {row['cause']}")
    return found


def by_plugin(path, options, folder):
    """What the plugin says."""
    out = os.path.join(folder, "plugin.jsonl")
    done = tvlib.run([tvlib.opt_program(), f"-load-pass-plugin={tvlib.plugin()}", "-tv", "-tv-quiet",
                      "-tv-no-lower", f"-tv-program={tvlib.tv_program()}",
                      f"-tv-seconds={options.seconds:g}", f"-tv-report={out}",
                      *shlex.split(options.arguments), "-S", "-o", os.devnull, path],
                     seconds=FRONT_SECONDS)
    ended(done, {0})
    return of_plugin(tvlib.read_text(out) if os.path.exists(out) else "")


def of_plugin(text):
    """The rows of the plugin's report, which is empty where it has none."""
    found = Found()
    lines = [json.loads(line) for line in text.splitlines()]
    if lines and (lines[-1]["kind"] != "end" or lines[-1]["rows"] != len(lines) - 1):
        raise Fault("a report without its end")
    for row in lines[:-1]:
        if row["function"] != UNNAMED or UNNAMED not in found.rows:
            found.add(spelled(row["function"]), row["kind"], row["detail"])
    return found


def spelled(name):
    """A name of LLVM's as tv prints it."""
    if tvir.PLAIN.fullmatch(name):
        return name
    data = name.encode("utf-8", "surrogateescape")
    return tvir.canonical('"' + "".join(f"\\{byte:02X}" for byte in data) + '"')


# The comparison.

def kind_of(row):
    return row.split(" ")[0]


def compared(check, tree, plugin):
    """The kind of each function that tv-check or tv-tree names, where all say the same, and a line for
    each difference; `time` where one was out of time. Each of the three is a map of names to rows."""
    kinds, lines = collections.Counter(), []
    nameless = {name for name in {*check, *tree} if name.isdigit()}
    # Which of them the plugin's row is about can't be said.
    hidden = nameless | {UNNAMED} if nameless else set()
    for name in dict.fromkeys([*check, *tree, *(each for each in plugin if each not in hidden)]):
        rows = [rows.get(name, "no row") for rows in (check, tree, plugin)]
        if name in hidden:
            rows.pop()
        if any(row.startswith(TIME) for row in rows):
            kinds["time"] += 1
        elif agree(*rows):
            kinds[kind_of(rows[0])] += 1
        else:
            kinds["different"] += 1
            lines.append(f"@{name}: " + ", ".join(f"{front} {row}"
                                                  for front, row in zip(FRONTS, rows)))
    return kinds, lines


def agree(check, tree, plugin=None):
    """Whether three rows of a function are of the same kind; without the plugin's, whether two are."""
    kinds = [kind_of(check), kind_of(tree)]
    if check == "no row" or kinds[0] != kinds[1]:
        return False
    if plugin is None:
        return True
    if plugin == "no row":
        return kinds[0] in NO_ROW
    return kind_of(plugin) == {"bounded": "correct"}.get(kinds[0], kinds[0])


# Files.

def walked(folders):
    """The .ll files of the folders, in an order that mixes them."""
    found = []
    for folder in folders:
        if not os.path.isdir(folder):
            raise tvlib.Failure(tvlib.UNREADABLE, f"{folder}: no such folder")
        for place, _, names in os.walk(folder):
            found += [(os.path.relpath(os.path.join(place, name), folder), os.path.join(place, name))
                      for name in names if name.endswith(".ll")]
    found.sort(key=lambda each: (hashlib.sha256(os.fsencode(each[0])).digest(), each))
    return [path for _, path in found]


@dataclasses.dataclass
class Answer:
    """What came out of a file: the counts, the lines of differences and of faults, or why opt alone
    fails on it."""
    kinds: collections.Counter = dataclasses.field(default_factory=collections.Counter)
    differences: list = dataclasses.field(default_factory=list)
    faults: list = dataclasses.field(default_factory=list)
    left_out: str = ""


def asked(path, options):
    """What the three say of a file."""
    done = tvlib.run([tvlib.opt_program(), *shlex.split(options.arguments), "-S", "-o", os.devnull,
                      path], seconds=OPT_SECONDS)
    if done.status != 0:
        return Answer(left_out=tvlib.why_failed(done, OPT_SECONDS))
    answer, founds = Answer(), []
    with tempfile.TemporaryDirectory(prefix="agree-") as folder:
        for front, ask in zip(FRONTS, (by_check, by_tree, by_plugin)):
            try:
                founds.append(ask(path, options, folder))
                answer.faults += [f"{front}: {fault}" for fault in founds[-1].faults]
            except (Fault, OSError, ValueError, LookupError) as fault:
                answer.faults.append(f"{front}: {fault or type(fault).__name__}")
            except tvlib.Failure as failure:
                if failure.status != tvlib.UNREADABLE:
                    raise
                answer.faults.append(f"{front}: {failure}")
    if not answer.faults:
        answer.kinds, answer.differences = compared(*(found.rows for found in founds))
    return answer


class Sums:
    """What is counted over all files, and printed as it comes."""

    def __init__(self, wanted):
        self.wanted, self.kinds = wanted, collections.Counter()
        self.files = self.left_out = self.faults = 0
        self.shown = time.monotonic()
        self.lock = threading.Lock()

    def functions(self):
        return sum(self.kinds.values())

    def are_enough(self):
        return self.wanted is not None and self.functions() >= self.wanted

    def add(self, path, answer):
        with self.lock:
            self.files += 1
            self.kinds += answer.kinds
            self.left_out += bool(answer.left_out)
            self.faults += len(answer.faults)
            for word, lines in (("difference", answer.differences), ("fault", answer.faults)):
                for line in lines:
                    print(f"{word} {path} {line}", flush=True)
            if answer.left_out:
                print(f"left out {path} opt fails: {answer.left_out}", flush=True)
            if time.monotonic() - self.shown >= PAUSE:
                self.shown = time.monotonic()
                tvlib.said(self.line())

    def line(self):
        return (f"files {self.files} left out {self.left_out} functions {self.functions()} "
                f"differences {self.kinds['different']} faults {self.faults}")

    def status(self):
        return 1 if self.kinds["different"] else tvlib.FAULT if self.faults \
            else 0 if self.functions() else tvlib.NOTHING


def parser_of():
    parser = tvlib.Parser(description=__doc__, allow_abbrev=False,
                          formatter_class=argparse.RawDescriptionHelpFormatter)
    parser.add_argument("folders", nargs="+", metavar="FOLDER")
    parser.add_argument("-p", "--passes", required=True, metavar="PASS")
    parser.add_argument("--functions", type=int, metavar="N")
    parser.add_argument("--jobs", type=int, default=1, metavar="N")
    parser.add_argument("--tv", metavar="PROGRAM")
    parser.add_argument("--opt", default="", metavar="ARGS")
    parser.add_argument("--seconds", type=tvlib.seconds_of, default=tvlib.time_limit(), metavar="N")
    return parser


def main():
    options = parser_of().parse_args()
    options.arguments = f"{options.opt} {shlex.quote('-passes=' + options.passes)}".strip()
    if options.tv:
        os.environ["TV"] = os.path.abspath(options.tv)
    os.environ.setdefault("TV_ARGS", USUAL)
    tvlib.tv_program(), tvlib.opt_program(), tvlib.plugin()
    files = walked(options.folders)
    sums = Sums(options.functions)

    def one(path):
        if not sums.are_enough():
            sums.add(path, asked(path, options))
    with concurrent.futures.ThreadPoolExecutor(max(1, options.jobs)) as pool:
        try:
            for done in concurrent.futures.as_completed([pool.submit(one, path) for path in files]):
                done.result()
        except BaseException:
            tvlib.stop_children()
            pool.shutdown(wait=False, cancel_futures=True)
            raise
    for kind, number in sums.kinds.most_common():
        print(f"{kind:10} {number:7}")
    print(sums.line())
    return sums.status()


if __name__ == "__main__":
    tvlib.start(main)
