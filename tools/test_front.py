#!/usr/bin/env python3
"""Tests of what a user meets first: words of the command line, man pages and completions, what
`correct` rests on, asking again, and the package.

    tools/test_front.py [-v] [CASE..]

Each case runs scripts in a folder of its own, with stand-ins for tv and opt. What isn't installed is
skipped, and said. The last line counts; the status is 1 where a case failed.
"""
import importlib.machinery
import importlib.util
import json
import os
import re
import shutil
import subprocess
import sys
import tarfile
import tempfile

sys.dont_write_bytecode = True

from test_tools import ARITH, DATA, TOOLS, Bench, equal, has, has_not

TOP = os.path.dirname(TOOLS)
PAGES = ["tv.1", "tv-check.1", "opt-tv.1", "tv-tree.1"]

# A tv that says of each function what the first line of the case's `answers` says from a weight on.
FAKE = """#!/usr/bin/env -S python3 -IS
import os, re, sys
words = sys.argv[1:]
weight = int(words[words.index("--weight") + 1]) if "--weight" in words else 100000
rounds = int(words[words.index("--rounds") + 1]) if "--rounds" in words else 64
with open(os.environ["FAKE_LOG"], "a") as log:
    log.write(f"{weight} {rounds}\\n")
names = re.findall(r"^define .*?@([\\w.$]+)\\(", open(words[-2]).read(), re.M)
vacuous = "unreachable" in open(words[-1]).read()
kind = "incorrect" if vacuous else os.environ["FAKE_KIND"]
if weight < int(os.environ.get("FAKE_WEIGHT", 0)):
    kind = "unknown weight"
elif rounds < int(os.environ.get("FAKE_ROUNDS", 0)):
    kind = "unknown rounds"
numbers = {"turns": 4, "blocks": 2, "bytes": 8, "rounds": 64, "conflicts": 0, "weight": 100000}
for name in numbers:
    if f"--{name}" in words:
        numbers[name] = words[words.index(f"--{name}") + 1]
print("tv 2 " + " ".join(f"{name} {number}" for name, number in numbers.items()))
below = "\\n  source returns 1\\n  target returns 2" if kind == "incorrect" else ""
print("".join(f"@{name} {kind}{below}\\n" for name in names), end="")
kinds = ["correct", "incorrect", "unknown", "refused", "signature", "missing", "extra"]
print(" ".join(f"{each} {len(names) if kind.startswith(each) else 0}" for each in kinds))
sys.exit({"correct": 0, "incorrect": 1}.get(kind, 2))
"""
PLAIN = "define i8 @f(i8 %x) {\n  %y = add i8 %x, %x\n  ret i8 %y\n}\n"


class Skipped(Exception):
    """A case that can't be run here, with what is missing."""


def loaded(name):
    """A script as a module."""
    loader = importlib.machinery.SourceFileLoader(name.replace("-", "_"), os.path.join(TOOLS, name))
    module = importlib.util.module_from_spec(importlib.util.spec_from_loader(loader.name, loader))
    loader.exec_module(module)
    return module


def program(bench, name, text):
    """Writes a program into the case's folder; its path."""
    bench.write(name, text)
    path = os.path.join(bench.folder, name)
    os.chmod(path, 0o755)
    return path


def told(words, **more):
    """Status and output of a command."""
    done = subprocess.run(words, stdin=subprocess.DEVNULL, capture_output=True, text=True,
                          timeout=300, **more)
    return done.returncode, done.stdout + done.stderr


def needed(name):
    """The path of a program that a case needs."""
    path = shutil.which(name)
    if not path:
        raise Skipped(f"{name} is not installed")
    return path


# The command line.

def words_point(bench):
    bench.write("a.ll", PLAIN)
    bench.write("b.ll", PLAIN)
    for args, wanted in [
            (["-passes=gvn", "a.ll"], '-passes is no option; opt\'s arguments go into --opt: --opt '
                                      '"-passes=gvn" FILE'),
            (["-O2", "a.ll"], '--opt "-O2" FILE'),
            (["a.ll", "-load-pass-plugin=./my.so"], '--opt "-load-pass-plugin=./my.so" FILE'),
            (["--tunrs", "3", "a.ll", "b.ll"], "--tunrs is no option; did you mean --turns?"),
            (["a.ll", "b.ll", "--function", "f", "c.ll"], "3 files: two are compared"),
            (["a.ll", "b.ll", "-f", "f", "--", "-c.ll"], "3 files: two are compared")]:
        done = bench.run("tv-check", *args)
        equal((done.returncode, done.stdout), (4, ""), f"status of {args}")
        has(done.stderr, "tv-check: ", wanted)
    done = bench.run("tv-check", "a.ll", "--function", "f", "b.ll")
    equal((done.returncode, done.stderr), (0, ""), "status with an option between two files")
    has(done.stdout, "@f same\n")


def binary_files(bench):
    for name in "ab":
        with open(os.path.join(bench.folder, name), "wb") as file:
            file.write(b"\x7fELF\0\1\2")
    for args in (["a", "b"], ["--opt", "-passes=double", "a"]):
        done = bench.run("tv-check", *args)
        equal((done.returncode, done.stdout), (9, ""), f"status of {args}")
        has(done.stderr, "tv-check: a:")
        done = bench.run("tv-check", *args, TV_LLVM_NONE="1")
        equal((done.returncode, done.stdout), (9, ""), f"status of {args} without LLVM")
        has(done.stderr, "tv-check: a: neither LLVM's text nor bitcode\n")


# What a row says.

LOOP = """define i8 @f(i8 %x) {
entry:
  br label %again
again:
  %y = add i8 %x, %x
  %c = icmp eq i8 %y, 0
  br i1 %c, label %again, label %end
end:
  ret i8 %y
}
"""
# A function with `add i8 %x, %x`, and what a correct row of it says.
RESTS = [
    ("numbers", PLAIN, "no bound"),
    ("a loop", LOOP, "[turns 4]"),
    ("a block that goes to an earlier one, and no cycle", """define i8 @f(i8 %x) {
  br label %b
a:
  ret i8 %y
b:
  %y = add i8 %x, %x
  br label %a
}
""", "[turns 4]"),
    ("a label in quotes", PLAIN.replace("  ret", '  br label %"to here"\n"to here":\n  ret'),
     "[turns 4]"),
    ("a pointer that isn't used", PLAIN.replace("(i8 %x)", "(i8 %x, ptr %p)"),
     "[blocks 1 bytes 8]"),
    ("a global", "@g = global i8 0\n"
     + PLAIN.replace("%x, %x\n", "%x, %x\n  store i8 0, ptr @g\n"),
     "[blocks 2 bytes 8]"),
    ("a local variable", PLAIN.replace("  ret", "  %p = alloca i8\n  store i8 %y, ptr %p\n"
                                                "  %z = load i8, ptr %p\n  ret"), "no bound"),
    ("a pointer that is loaded", PLAIN.replace("  ret", "  %p = alloca ptr\n  %q = load ptr, ptr %p\n"
                                                        "  ret"), "[blocks 2 bytes 8]"),
    ("both", LOOP.replace("(i8 %x)", "(i8 %x, ptr %p)"), "[turns 4 blocks 1 bytes 8]"),
    ("a comment and a string that look like it", PLAIN.replace(
        "  ret", "  ; label %x, load ptr, @g\n  ret"), "no bound")]


def correct_and_bounds(bench):
    fake = program(bench, "tv", FAKE)
    how = {"TV": fake, "FAKE_LOG": os.path.join(bench.folder, "log"), "FAKE_KIND": "correct"}
    for what, text, said in RESTS:
        bench.write("a.ll", text)
        bench.write("b.ll", text.replace("add i8 %x, %x", "shl i8 %x, 1"))
        done = bench.run("tv-check", "a.ll", "b.ll", "--json=rows", "--html=page", "--seconds",
                         "200", **how)
        equal(done.returncode, 0, f"status of {what}: {done.stdout}{done.stderr}")
        has(done.stdout, f"\n@f correct {said}\n")
        has(bench.file("page"), f"@f correct {said}")
        again = bench.run("tv-baseline", "none", "-", "--name", "f", data=done.stdout)
        has(again.stdout, "rows 1 incorrect 0 ")
        found = json.loads(bench.file("rows"))
        bounds = " ".join(f"{key} {number}" for key, number in found["bounds"].items())
        equal(f"[{bounds}]" if bounds else "no bound", said, f"bounds in JSON, {what}")
        equal("no bound leaves" in found["meaning"], said == "no bound", f"meaning, {what}")
    done = bench.run("tv-check", "a.ll", "b.ll", "--turns", "9", **how)
    has(done.stdout, "@f correct no bound\n")


def asks_again(bench):
    fake, log = program(bench, "tv", FAKE), os.path.join(bench.folder, "log")
    bench.write("a.ll", PLAIN)
    bench.write("b.ll", PLAIN.replace("add i8 %x, %x", "shl i8 %x, 1"))

    def row(*words, **more):
        with open(log, "w"):
            pass
        limit = () if "--seconds" in words else ("--seconds", "200")
        done = bench.run("tv-check", "a.ll", "b.ll", *limit, *words, TV=fake, FAKE_LOG=log, **more)
        # The first run lists the functions.
        asked = bench.file("log").splitlines()[1:]
        return done.stdout.splitlines()[1], asked
    once, more = "100000 64", "1000000 64"
    equal(row(FAKE_KIND="incorrect", FAKE_WEIGHT="500000"),
          ("@f incorrect [weight 1000000]", [once, more]), "a row that more weight decides")
    equal(row(FAKE_KIND="correct", FAKE_WEIGHT="500000"),
          ("@f correct no bound [weight 1000000]", [once, more, more]), "a correct one, and its reach")
    equal(row(FAKE_KIND="incorrect", FAKE_ROUNDS="1000"),
          ("@f incorrect [rounds 4096]", [once, "100000 640", "100000 4096"]), "rounds")
    equal(row(FAKE_KIND="incorrect", FAKE_WEIGHT="500000", FAKE_ROUNDS="100"),
          ("@f incorrect [weight 1000000 rounds 640]", [once, more, "1000000 640"]), "both")
    equal(row(FAKE_KIND="correct", FAKE_WEIGHT="9000000"), ("@f unknown weight", [once, more]),
          "a row that stays")
    equal(row("--weight", "200000", FAKE_KIND="correct", FAKE_WEIGHT="500000"),
          ("@f unknown weight", ["200000 64"]), "the user's weight")
    equal(row(FAKE_KIND="correct", FAKE_WEIGHT="500000", TV_ARGS="--weight 5"),
          ("@f unknown weight", ["5 64"]), "the weight of TV_ARGS")
    equal(row("--seconds", "0.000001", FAKE_KIND="correct", FAKE_WEIGHT="500000")[0],
          "@f unknown time", "no time")


def no_trace(bench):
    fake = program(bench, "tv", FAKE)
    bench.write("a.ll", PLAIN)
    bench.write("b.ll", PLAIN.replace("add i8 %x, %x", "shl i8 %x, 2"))
    how = {"TV": fake, "FAKE_LOG": os.devnull, "FAKE_KIND": "incorrect",
           "PATH": os.path.dirname(sys.executable) + ":/usr/bin:/bin"}
    there = os.path.join(TOP, "crates", "tv_trace", "out", "tv_trace")
    if not os.path.exists(there) and not shutil.which("tv_trace"):
        done = bench.run("tv-check", "a.ll", "b.ll", "--json=rows", TV_TRACE="", **how)
        has(done.stdout, "\n    | no trace: tv_trace was not found\n")
        equal(json.loads(bench.file("rows"))["trace"], ["no trace: tv_trace was not found"], "JSON")
    for text, said in (("#!/bin/sh\nexit 3\n", "ended with status 3"),
                       ("#!/bin/sh\nkill -9 $$\n", "ended with status -9"),
                       ("#!/bin/sh\nsleep 60\n", "ran longer than 8 s")):
        trace = program(bench, "trace", text)
        done = bench.run("tv-check", "a.ll", "b.ll", "--seconds", "8", TV_TRACE=trace, **how)
        equal(done.returncode, 1, "status")
        has(done.stdout, f"\n    | no trace: tv_trace {said}\n")
    done = bench.run("tv-check", "a.ll", "b.ll", "--no-trace", TV_TRACE=trace, **how)
    has_not(done.stdout, "no trace")


def tree_with_arguments(bench):
    log = os.path.join(bench.folder, "log")
    bench.write("my.so", "one")
    args = ["tv-tree", "run", ARITH, "-p", "double", "--out", "answers", "--opt",
            "-load-pass-plugin=./my.so -more"]

    def runs():
        with open(log, "w"):
            pass
        equal(bench.run(*args, WRONG_OPT_LOG=log).returncode in (0, 1, 2), True, "status")
        return [line for line in bench.file("log").splitlines() if "--version" not in line]
    wanted = [f"-load-pass-plugin=./my.so -more -S -passes={name} -" for name in ("verify", "double")]
    equal(runs(), wanted, "runs of opt")
    equal(runs(), [], "runs of opt where it was done")
    bench.write("my.so", "two")
    equal(runs(), wanted, "runs of opt with another build of the plugin")
    args[-1] = "-load-pass-plugin=./my.so"
    equal(len(runs()), 2, "runs of opt with other arguments")


# Man pages and completions.

def made_from_options(bench):
    done = bench.run("manuals.py")
    equal((done.returncode, done.stdout), (0, ""), "files that aren't up to date: tools/manuals.py")
    shown = bench.run("tv-check", "--help").stdout
    page = open(os.path.join(TOP, "docs", "tv-check.1")).read().replace("\\-", "-")
    words = open(os.path.join(TOOLS, "completions", "tv-check.bash")).read()
    for name in set(re.findall(r"^  (?:-\w, )?(--[a-z-]+)", shown, re.M)):
        has(page, name)
        has(words, name)


def stale_files_are_named(bench):
    for name in ("tools", "docs"):
        shutil.copytree(os.path.join(TOP, name), os.path.join(bench.folder, name),
                        ignore=shutil.ignore_patterns("__pycache__", "testdata"))
    script = os.path.join(bench.folder, "tools", "manuals.py")
    text = bench.file("tools", "tv-check")
    bench.write("tools/tv-check", text.replace('add("--first"', 'add("--foremost"'))
    status, said = told([sys.executable, script])
    equal(status, 1, "status")
    has(said, "not up to date: docs/tv-check.1\n", "not up to date: tools/completions/tv-check.fish\n")
    has_not(said, "tv-tree")
    equal(told([sys.executable, script, "--write"])[0], 0, "status of --write")
    equal(told([sys.executable, script]), (0, ""), "after it")
    equal(told([sys.executable, script, "--wirte"])[0], 4, "status of a wrong word")


def pages_in(tool, words):
    def case(bench):
        needed(tool)
        for page in PAGES:
            said = subprocess.run([*words, os.path.join(TOP, "docs", page)], capture_output=True,
                                  text=True, timeout=60, env={**os.environ, "MANWIDTH": "100"})
            equal((said.returncode, said.stderr), (0, ""), f"{tool} on {page}")
    case.__name__ = f"pages_in_{tool}"
    return case


def completions_of_bash(bench):
    script = ("compopt() { :; }; . \"$1\"; COMP_WORDS=(\"${@:3}\"); COMP_CWORD=$(($# - 3)); $2; "
              "echo \"${COMPREPLY[@]}\"")

    def completed(name, *words):
        path = os.path.join(TOOLS, "completions", f"{name}.bash")
        return told(["bash", "-c", script, "bash", path, "_" + name.replace("-", "_"), name, *words],
                    cwd=bench.folder)
    os.mkdir(os.path.join(bench.folder, "kept"))
    for name, words, wanted in [
            ("tv-check", ["--js"], "--json"), ("tv-check", ["--t"], "--turns"),
            ("tv-check", ["--keep", "k"], "kept"), ("tv-check", ["--turns", ""], ""),
            ("tv-check", ["--json", "="], ""), ("opt-tv", ["--al"], "--allow-none"),
            ("tv-tree", ["t"], "table"), ("tv-tree", ["do", "--o"], "--out --opt"),
            ("tv-tree", ["table", "--out", "=", "k"], "kept")]:
        status, said = completed(name, *words)
        equal((status, said.split()[:2]), (0, wanted.split()), f"{name} {words}")


def completions_of(shell):
    def case(bench):
        needed(shell)
        for name in ("tv-check", "opt-tv", "tv-tree"):
            path = os.path.join(TOOLS, "completions", f"{name}.{shell}")
            equal(told([shell, "-n", path]), (0, ""), f"{shell} reads {name}")
        if shell == "fish":
            for name, line, wanted in (("tv-check", "tv-check --js", "--json\t"),
                                       ("tv-tree", "tv-tree ta", "table\t"),
                                       ("tv-tree", "tv-tree do --o", "--out\t")):
                path = os.path.join(TOOLS, "completions", f"{name}.fish")
                has(told([shell, "-c", f"source {path}; complete -C '{line}'"],
                         env={**os.environ, "HOME": bench.folder})[1], wanted)
    case.__name__ = f"completions_of_{shell}"
    return case


# quick.

def both_in_one(bench):
    quick = loaded("quick")
    crate = quick.both(os.path.join(bench.folder, "tree"))
    equal(os.path.relpath(crate, bench.folder), "tree/crates/tv", "the crate")
    lines = bench.file("tree", "crates.txt").splitlines()
    line = next(line for line in lines if line.startswith("tv: "))
    equal({"tv_run", "trace_run", "tv_c"} <= set(line.split()), True, "what the crate uses")
    equal([each.split(":")[0] for each in lines if re.match(r"tv_c\b", each)], ["tv_c"],
          "the C library's crate is a plain one")
    text = bench.file("tree", "crates", "tv", "src", "main.rt")
    has(text, 'if is_called(&rt, "tv_trace") {\n        return tv_trace_main::main(rt);',
        'if is_called(&rt, "tv_c_exports") {\n        return calls_of_tv_c(&rt);', "tv_c::tv_version(")
    has(bench.file("tree", "crates", "tv", "src", "tv_trace_main.rt"), "pub fn main(rt: HostRuntime)")
    equal(len(re.findall(r"#!\[tactic", text)), 1, "lines of a root file")
    done = bench.run("quick", "tv_trace-x")
    equal(done.returncode in (4, 127), True, "status of a name that is tv_trace's")


MODULE = """source_filename = "tv"
define internal i32 @"tv_c::tv_check_into"(ptr noundef nonnull align 1 %0, i64 range(i64 0, 9) %1, ptr %2, \
i64 %3, ptr align 8 dereferenceable(48) %4, ptr %5, i64 %6, ptr %7) unnamed_addr #1 {
  %9 = call i64 @"tv_c::tv_version"(ptr %5, i64 %6)
  ret i32 0
}
define internal i64 @"tv_c::tv_version"(ptr %0, i64 %1) #1 {
  ret i64 1
}
define internal i64 @"tv_c::tv_version_more"(ptr %0) {
  ret i64 1
}
define i32 @main(i32 %0, ptr %1) {
  %3 = call i64 @"tv_c::tv_version"(ptr %1, i64 0)
  ret i32 0
}
"""


def exports_of_the_library(bench):
    quick = loaded("quick")
    text = quick.with_exports(MODULE)
    has(text, "\ndefine i32 @tv_check_into(ptr noundef nonnull align 1 %0,",
        "\ndefine i64 @tv_version(ptr %0, i64 %1)", '\ndefine internal i32 @"program main"(i32 %0,',
        "call i64 @tv_version(ptr %1, i64 0)", 'define internal i64 @"tv_c::tv_version_more"(ptr %0)')
    has_not(text, "@main(", '@"tv_c::tv_check_into"', '@"tv_c::tv_version"(')
    for old, new, said in (
            ("i64 %6, ptr %7)", "i64 %6, i64 %7)", "tv_check_into is i32 (ptr, i64, ptr, i64, ptr, ptr, i64,"
             " i64) in the module, and i32 (ptr, i64, ptr, i64, ptr, ptr, i64, ptr) in tv.h"),
            ("i64 %6, ptr %7)", "i64 %6)", "tv_check_into is "),
            ('i64 @"tv_c::tv_version"(ptr %0, i64 %1) #1', 'i32 @"tv_c::tv_version"(ptr %0, i64 %1) #1',
             "tv_version is i32 (ptr, i64) in the module"),
            ('internal i64 @"tv_c::tv_version"(', 'internal fastcc i64 @"tv_c::tv_version"(',
             "tv_version has fastcc"),
            ("(ptr %0, i64 %1) #1", "(ptr %0, i64 %1, ...) #1", "tv_version is "),
            ("(ptr %0, i64 %1) #1", "(ptr sret([2 x i64]) %0, i64 %1) #1", "tv_version has sret"),
            ('define internal i64 @"tv_c::tv_version"(', 'define internal i64 @"other"(',
             "tv_c::tv_version\" is defined 0 times"),
            ("define i32 @main(", "define i64 @main(", "main is define i64 @main(")):
        equal(old in MODULE, True, f"{old} is in the module")
        try:
            quick.with_exports(MODULE.replace(old, new, 1))
        except quick.tvlib.Failure as failure:
            equal(failure.status, 1, f"status of {new}")
            has(str(failure), said)
        else:
            raise AssertionError(f"{new} wasn't refused")
    for name, wanted in (("tv-quick", "libtv_c-quick.a"), ("tv", "libtv_c.a"), ("x", "libtv_c-x.a")):
        equal(quick.library_name(name), wanted, f"the library beside {name}")


# dist.

STUB = """#include <stddef.h>
#include <stdint.h>
#include <string.h>
extern void *rattle_alloc(void);
void *tv_uses(void) { return (void *)rattle_alloc; }
uint32_t tv_check_into(const char *a, size_t b, const char *c, size_t d, const void *e, char *report,
                       size_t room, size_t *length) {
    *length = 5;
    memcpy(report, "tv 2\\n", room < 5 ? room : 5);
    return b == d && memcmp(a, c, b) == 0 ? 0 : 1;
}
size_t tv_version(char *room, size_t length) { if (length) room[0] = '1'; return 1; }
"""
CALLER = """#include <stdio.h>
#include "tv.h"
int main(void) {
    tv_options options = TV_DEFAULT_OPTIONS;
    tv_report *report;
    uint32_t status = tv_check("a", 1, "a", 1, &options, &report);
    char text[64];
    fwrite(text, 1, tv_report_copy(report, text, sizeof text), stdout);
    tv_free(report);
    return (int)status;
}
"""


def tree_to_pack(bench):
    """A tree as a gate leaves it, but for the programs, which are made up; its folder, and a file
    that ends as the gate's does."""
    tree = os.path.join(bench.folder, "tree")
    for name in ("tools", "docs"):
        shutil.copytree(os.path.join(TOP, name), os.path.join(tree, name),
                        ignore=shutil.ignore_patterns("__pycache__", "testdata", "test_*"))
    for name in ("README.md", "CHANGELOG.md", "LICENSE-MIT", "LICENSE-APACHE", ".gitignore"):
        shutil.copy(os.path.join(TOP, name), tree)
    for name in ("tv", "tv_trace", "tv_c"):
        shutil.copytree(os.path.join(TOP, "crates", name), os.path.join(tree, "crates", name),
                        ignore=shutil.ignore_patterns("out"))
    git = ["git", "-C", tree, "-c", "user.name=a", "-c", "user.email=a"]
    for words in (["init", "-q"], ["add", "-A"], ["commit", "-qm", "a tree"]):
        equal(told([*git, *words])[0], 0, f"git {words[0]}")
    for name in ("tv", "tv_trace"):
        bench.write_at(f"tree/crates/{name}/out/{name}", f"#!/bin/sh\necho {name} of the gate\n")
        os.chmod(os.path.join(tree, "crates", name, "out", name), 0o755)
    bench.write_at("tree/crates/tv_c/out/libtv_c.a", "")
    bench.write("gate", "rt: ok\n7 passed, 0 failed (3 s)\n")
    return tree


class Folder(Bench):
    """A bench that makes the folders of what it writes."""

    def write_at(self, name, text):
        os.makedirs(os.path.dirname(os.path.join(self.folder, name)), exist_ok=True)
        self.write(name, text)


def packed(bench, tree, *words):
    return told([sys.executable, os.path.join(tree, "tools", "dist"), *words], cwd=bench.folder)


def dist_refuses(bench):
    needed("git")
    tree = tree_to_pack(bench)
    program_path = os.path.join(tree, "crates", "tv", "out", "tv")
    for text, said in (("", "no line `N passed, 0 failed`"), ("7 passed, 1 failed\n", "7 passed, 1"),
                       ("7 passed, 0 failed\n7 passed, 2 failed\n", "7 passed, 2 failed"),
                       ("x\n", "no line")):
        bench.write("bad", text)
        status, out = packed(bench, tree, "--gate", "bad")
        equal(status, 1, f"status of a gate that ended with {text!r}: {out}")
        has(out, "the gate didn't pass: ", said)
    equal(packed(bench, tree, "--gate", "nowhere")[0], 5, "status without a gate's file")
    equal(packed(bench, tree)[0], 4, "status without a gate")
    bench.write_at("tree/crates/tv/src/more.rt", "// more\n")
    has(packed(bench, tree, "--gate", "gate")[1], "the tree differs from its commit:\n", "more.rt")
    os.remove(os.path.join(tree, "crates", "tv", "src", "more.rt"))
    os.utime(program_path, (1, 1))
    has(packed(bench, tree, "--gate", "gate")[1], "out/tv is older than the sources")
    os.utime(program_path, (4e9, 4e9))
    has(packed(bench, tree, "--gate", "gate")[1], "out/tv is newer than gate: it isn't of that run")
    os.remove(program_path)
    status, out = packed(bench, tree, "--gate", "gate")
    equal(status, 1, "status without the program")
    has(out, "crates/tv/out/tv isn't there: rt ci makes it")
    has(packed(bench, tree, "--unproved", "nothing")[1], "nothing isn't there: tools/quick makes it")
    equal(os.path.exists(os.path.join(bench.folder, "dist")), False, "a package")


def kit_of(bench):
    """A folder laid out as the kit, with an `rt` on its path."""
    needed("cc")
    bench.write_at("kit/bin/rt", "#!/bin/sh\n")
    os.chmod(os.path.join(bench.folder, "kit", "bin", "rt"), 0o755)
    bench.write_at("kit/heap.c", "void *rattle_alloc(void) { return 0; }\n")
    os.makedirs(os.path.join(bench.folder, "kit", "c"))
    os.makedirs(os.path.join(bench.folder, "kit", "toolchain", "bin"))
    archiver = shutil.which("llvm-ar-19") or shutil.which("llvm-ar") or needed("llvm-ar-19")
    os.symlink(archiver, os.path.join(bench.folder, "kit", "toolchain", "bin", "llvm-ar"))
    for source, name in (("kit/heap.c", "kit/c/liblibc_c.a"), ("stub.c", "stub.a")):
        equal(told(["cc", "-c", source, "-o", source + ".o"], cwd=bench.folder), (0, ""), "cc")
        equal(told([archiver, "qc", name, source + ".o"], cwd=bench.folder)[0], 0, "ar")
    return os.path.join(bench.folder, "kit", "bin")


def dist_packs(bench):
    needed("git")
    bench.write("stub.c", STUB)
    there = kit_of(bench)
    tree = tree_to_pack(bench)
    shutil.copy(os.path.join(bench.folder, "stub.a"), os.path.join(tree, "crates/tv_c/out/libtv_c.a"))
    bench.write("gate", "rt: ok\n7 passed, 0 failed (3 s)\n")
    how = {"cwd": bench.folder,
           "env": {**os.environ, "PATH": there + os.pathsep + os.environ["PATH"]}}
    words = [sys.executable, os.path.join(tree, "tools", "dist"), "--gate", "gate"]
    status, out = told(words, **how)
    equal(status, 0, f"status: {out}")
    equal(out.splitlines()[-1], "7 passed, 0 failed (3 s)", "the last line")
    first = out.splitlines()[0]
    equal(re.fullmatch(r"dist/tv_0\.\d{8}\+[0-9a-f]{8}_amd64\.tar\.gz", first) is not None, True, first)
    with open(os.path.join(bench.folder, first), "rb") as file:
        before = file.read()
    told(words, **how)
    with open(os.path.join(bench.folder, first), "rb") as file:
        equal(file.read() == before, True, "two tarballs of one tree are the same")
    unpacked_runs(bench, first)


def unpacked_runs(bench, tarball):
    """What is in a tarball runs from where it is unpacked."""
    with tarfile.open(os.path.join(bench.folder, tarball)) as tar:
        tar.extractall(os.path.join(bench.folder, "there"))
    top = os.path.join(bench.folder, "there", os.listdir(os.path.join(bench.folder, "there"))[0])
    plain = {"PATH": os.environ["PATH"]}
    status, said = told([os.path.join(top, "bin", "tv-check"), "--version"], env=plain)
    equal(status, 0, "status of the installed tv-check")
    has(said, f"tv {top}/lib/tv/crates/tv/out/tv sha256 ")
    equal(told([os.path.join(top, "bin", "tv_trace")]), (0, "tv_trace of the gate\n"), "tv_trace")
    for name in ("opt-tv", "tv-tree", "tv-baseline", "tv-html", "tv-proof", "tv-reduce", "tv-vacuous"):
        equal(told([os.path.join(top, "bin", name), "--help"], env=plain)[0], 0, f"{name} --help")
    notes = open(os.path.join(top, "share/doc/tv/RELEASE.md")).read()
    has(notes, "7 passed, 0 failed (3 s)", "rattle-kit-", "## What is proved", "## What is only tested")
    bench.write("caller.c", CALLER)
    status, said = told(["cc", "-Wall", "-Werror", "caller.c", f"-I{top}/include", f"-L{top}/lib",
                         "-ltv_c", "-o", "caller"], cwd=bench.folder)
    equal(status, 0, f"linking with the library: {said}")
    equal(told([os.path.join(bench.folder, "caller")]), (0, "tv 2\n"), "a program in C")


def dist_of_unproved(bench):
    needed("git")
    tree = tree_to_pack(bench)
    for name in ("tv-quick", "tv_trace-quick"):
        program(bench, name, "#!/bin/sh\necho quick\n")
    status, out = packed(bench, tree, "--unproved", "tv-quick", "--out", "o")
    equal((status, out.splitlines()[-1]), (0, "NOTHING OF IT IS PROVED"), f"answer: {out}")
    names = sorted(os.listdir(os.path.join(bench.folder, "o")))
    equal(all(name.startswith("tv-unproved_") for name in names), True, f"names {names}")
    with tarfile.open(os.path.join(bench.folder, out.splitlines()[0])) as tar:
        members = tar.getmembers()
        name = next(each for each in members if each.name.endswith("/RELEASE.md"))
        has(tar.extractfile(name).read().decode(), "**Nothing of this is proved.**")
        equal([each.name for each in members if "libtv_c" in each.name], [], "a library")
    if shutil.which("dpkg-deb"):
        deb = os.path.join(bench.folder, "o", next(name for name in names if name.endswith(".deb")))
        fields = told(["dpkg-deb", "-f", deb])[1]
        has(fields, "Package: tv-unproved\n", "Depends: python3 (>= 3.9), libc6", "(NOT PROVED)",
            "Recommends: llvm-19")
        has(told(["dpkg-deb", "-c", deb])[1], "./usr/bin/tv-check -> ../lib/tv/tools/tv-check",
            "root/root")


CASES = [words_point, binary_files, correct_and_bounds, asks_again, no_trace, tree_with_arguments,
         made_from_options, stale_files_are_named, pages_in("groff", ["groff", "-man", "-ww", "-z"]),
         pages_in("mandoc", ["mandoc", "-T", "lint", "-W", "warning"]),
         pages_in("man", ["man", "--warnings", "-l"]), completions_of_bash, completions_of("zsh"),
         completions_of("fish"), both_in_one, exports_of_the_library, dist_refuses, dist_packs,
         dist_of_unproved]


def main():
    passed = failed = 0
    how = {"TV": os.path.join(DATA, "fake-tv"), "TV_TRACE": "false",
           "TV_OPT": os.path.join(DATA, "wrong-opt")}
    names = [word for word in sys.argv[1:] if not word.startswith("-")]
    for case in CASES:
        if names and case.__name__ not in names:
            continue
        with tempfile.TemporaryDirectory(prefix="test-front-") as folder:
            try:
                case(Folder(folder, **how))
            except Skipped as reason:
                print(f"skipped: {case.__name__}: {reason}")
                continue
            except (AssertionError, OSError, ValueError, LookupError,
                    subprocess.TimeoutExpired) as error:
                failed += 1
                print(f"failed: {case.__name__}: {type(error).__name__}: {error}", flush=True)
                continue
        passed += 1
        if "-v" in sys.argv[1:]:
            print(f"passed: {case.__name__}", flush=True)
    print(f"the front: {passed} passed, {failed} failed")
    return 1 if failed else 0


if __name__ == "__main__":
    sys.exit(main())
