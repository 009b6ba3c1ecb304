#!/usr/bin/env python3
"""Tests of how modules are read: by LLVM's own parser (tv-split), by the cut of texts without LLVM,
and of what the scripts say where tv-split or tv crashes, stops halfway or lies.

    tools/test_split.py [-v]

A case is two texts that LLVM tells apart, or a folder of files, and what tv-check has to answer,
with LLVM and without. Where tv-split isn't there (TV_SPLIT, llvm/build/tv-split) or tv isn't (TV,
crates/tv/out/tv), its cases are skipped, and said. The last line counts; the status is 1 where a
case failed.
"""
import json
import os
import shutil
import stat
import sys

from test_tools import TOOLS, Bench, equal, has, real_tv, tried

FUNCTION = "define i8 @f(i8 %x) {\n  %r = add i8 %x, %x\n  ret i8 %r\n}\n"
RIGHT = FUNCTION.replace("add i8 %x, %x", "shl i8 %x, 1")
WRONG = FUNCTION.replace("add i8 %x, %x", "sub i8 %x, 1")
RANGE = FUNCTION + """define i8 @g(ptr %p) {
  %r = load i8, ptr %p, !range !0
  ret i8 %r
}
!0 = !{i8 0, i8 9}
"""
LOAD = FUNCTION + """@k = constant
  i8 7
define i8 @g() {
  %r = load i8, ptr @k
  ret i8 %r
}
"""
LONG_NAME = FUNCTION + FUNCTION.replace("@f", '@"a\n;b"')
DEEP = FUNCTION + """@a = global ptr @b
@b = global i8 1
define ptr @g() {
  ret ptr @a
}
"""
SWAPPED = """@0 = internal global i8 0
@1 = internal global i8 0
define ptr @f() {
  ret ptr @0
}
define ptr @g() {
  ret ptr @1
}
"""
PREFIX = FUNCTION.replace(") {", ") prefix { i8, i8 } { i8 1, i8 2 } {") + RIGHT.replace("@f", "@g")
LAYOUT = '  target  datalayout = "E"\n' + FUNCTION

# What is compared, the statuses with LLVM and without, and the rows that both have.
LOADED = """define i8 @f(ptr %p) #0 {
  %r = load i8, ptr %p, align 1
  ret i8 %r
}
attributes #0 = { null_pointer_is_valid }
"""
APART = [
    ("a metadata node is narrowed", RANGE, RANGE.replace("i8 9", "i8 3"), 3, 3,
     ["@f ", "@g refused source"]),
    ("a tab after define", FUNCTION + RIGHT.replace("@f", "@g").replace("define ", "define\t"),
     FUNCTION + WRONG.replace("@f", "@g").replace("define ", "define\t"), 1, 1, ["@g incorrect"]),
    ("a value on its own line", LOAD, LOAD.replace("i8 7", "i8 8"), 3, 3, ["@g refused source"]),
    ("an initial value of what an initial value names", DEEP, DEEP.replace("i8 1", "i8 2"), 3, 3,
     ["@g refused source"]),
    ("two variables without a name change places", SWAPPED, SWAPPED.replace("ret ptr @0", "ret ptr @2")
     .replace("ret ptr @1", "ret ptr @0").replace("ret ptr @2", "ret ptr @1"), 3, 3,
     ["@f refused", "@g refused"]),
    ("a name over two lines with a semicolon", LONG_NAME,
     LONG_NAME.replace("%x, %x\n  ret i8 %r\n}\n", "%x, 1\n  ret i8 %r\n}\n"), 1, 1, []),
    ("a header over two lines", "define { i8 }\n@f() {\n  ret { i8 } { i8 1 }\n}\n",
     "define { i8 }\n@f() {\n  ret { i8 } { i8 2 }\n}\n", 3, 3, ["@f refused source"]),
    ("an indented data layout", LAYOUT, LAYOUT.replace("add i8 %x, %x", "shl i8 %x, 1"), 3, 3,
     ["@f refused source data-layout"]),
    ("a data layout of one side", FUNCTION, LAYOUT, 3, 3, ["@f refused target data-layout"]),
    ("a target triple", 'target triple = "x86_64-pc-linux-gnu"\n' + FUNCTION,
     'target triple = "i386-pc-linux-gnu"\n' + FUNCTION, 0, 0, ["@f correct"]),
    ("a flag of the module", FUNCTION + '!llvm.module.flags = !{!0}\n!0 = !{i32 1, !"a", i32 1}\n',
     FUNCTION + '!llvm.module.flags = !{!0}\n!0 = !{i32 1, !"a", i32 2}\n', 0, 0, ["@f correct"]),
    ("rubbish outside functions", FUNCTION, FUNCTION + "rubbish\n", 9, 9, []),
    ("two functions on a line", FUNCTION + RIGHT.replace("@f", "@g"),
     FUNCTION.rstrip() + WRONG.replace("@f", "@g"), 1, 1, ["@g incorrect"]),
    ("a function behind another item", FUNCTION + "@k = global i8 1 " + RIGHT.replace("@f", "@g"),
     FUNCTION + "@k = global i8 1 " + WRONG.replace("@f", "@g"), 1, 2, []),
    ("a function in a comment is none", FUNCTION + "; " + FUNCTION.replace("\n", "\n; ") + "\n",
     FUNCTION, 0, 0, ["@f "]),
    ("a label of the name define", FUNCTION.replace("{\n", "{\ndefine:\n"),
     RIGHT.replace("{\n", "{\ndefine:\n"), 0, 0, ["@f correct"]),
    ("a function without a name", FUNCTION.replace("@f", "@0"), WRONG.replace("@f", "@0"), 1, 1,
     ["@0 incorrect"]),
    ("a name in quotes", FUNCTION.replace("@f", '@"a(b"'), WRONG.replace("@f", '@"a(b"'), 1, 1,
     ['@"a(b" incorrect']),
    ("an address that may be null", LOADED, LOADED.replace("ptr %p)", "ptr nonnull %p)"), 3, 3,
     ["@f refused source Unsupported", "null_pointer_is_valid"]),
    ("a prefix that is a struct", PREFIX, PREFIX.replace("i8 2 }", "i8 3 }"), 3, 9, []),
]
SAME = [
    ("comments", FUNCTION, "; a comment\n" + FUNCTION.replace("\n", " ; another\n")),
    ("numbers of attribute groups", FUNCTION.replace(") {", ") #0 {") + "attributes #0 = { nounwind }\n",
     "define void @h() #0 {\n  ret void\n}\n" + FUNCTION.replace(") {", ") #1 {")
     + "attributes #0 = { noinline }\nattributes #1 = { nounwind }\n"),
    ("numbers of metadata", RANGE, RANGE.replace("!0", "!7")),
    ("debug information", FUNCTION, FUNCTION.replace("%x\n", "%x, !dbg !5\n").replace(
        ") {", ") !dbg !3 {") + """!llvm.dbg.cu = !{!0}
!0 = distinct !DICompileUnit(language: DW_LANG_C, file: !1, emissionKind: FullDebug)
!1 = !DIFile(filename: "a.c", directory: "")
!2 = !DISubroutineType(types: !{})
!3 = distinct !DISubprogram(name: "f", file: !1, line: 1, type: !2, unit: !0)
!5 = !DILocation(line: 1, scope: !3)
"""),
]


NAMES = [r'"a\22b"', r'"\01f"', '"\u00e9"', r'"a\5Cb"', r'"a\\\\"', "-x", '"0"', r'"x\0Ay"', "$x.1", '"tv.0"']


def names(bench):
    """Names that LLVM and tv print in different ways."""
    text = "".join(FUNCTION.replace("@f", f"@{name}") for name in NAMES)
    done = pair(bench, text, text.replace("add i8 %x, %x", "shl i8 %x, 1"))
    equal((done.returncode, done.stdout.count(" correct no bound\n")), (0, len(NAMES)), "rows of all names")


def pair(bench, before, after, *args, **variables):
    bench.write("a.ll", before)
    bench.write("b.ll", after)
    return bench.run("tv-check", "a.ll", "b.ll", *args, **variables)


def apart(bench, row, without):
    what, before, after, *statuses, rows = row
    done = pair(bench, before, after)
    equal(done.returncode, statuses[without], f"status of {what}: {done.stdout}{done.stderr}")
    has(done.stdout, *rows)


def apart_with_llvm(bench):
    for row in APART:
        apart(bench, row, False)


def apart_without_llvm(bench):
    for row in APART:
        apart(bench, row, True)


def same_for_llvm(bench):
    for what, before, after in SAME:
        done = pair(bench, before, after)
        has(done.stdout, "@f same\n")
        has(pair(bench, before, before).stdout, "@f same\n")


def same_without_llvm(bench):
    for what, before, after in SAME:
        has(pair(bench, before, before).stdout, "@f same\n")
        done = pair(bench, before, after)
        equal("@f same\n" in done.stdout, False, f"{what}, without LLVM")


PAIRS = "".join(FUNCTION.replace("@f", f"@{name}") for name in ("src", "src1", "srcadd", '"src 1"')) \
    + "".join(WRONG.replace("@f", f"@{name}") for name in ("tgt", "tgtadd", '"tgt 1"', "tgt2"))


def src_and_tgt(bench):
    bench.write("pair.ll", PAIRS)
    done = bench.run("tv-check", "pair.ll")
    equal(done.returncode, 1, f"status: {done.stderr}")
    has(done.stdout, "@src incorrect\n", "@src1 missing\n", "@srcadd incorrect\n",
        '@"src 1" incorrect\n', "@tgt2 extra\n")
    bench.write("pair.ll", FUNCTION.replace("@f", "@src") + FUNCTION.replace("@f", "@tgt")
                + FUNCTION.replace("@f", "@tgt1"))
    done = bench.run("tv-check", "pair.ll")
    equal(done.returncode, 3, f"status of one without a partner: {done.stdout}")
    has(done.stdout, "@src same\n", "@tgt1 extra\n")


def folders(bench):
    for name in ("a", "b", "away"):
        os.mkdir(os.path.join(bench.folder, name))
    bench.write("a/one.ll", FUNCTION)
    bench.write("b/one.ll", FUNCTION)
    bench.write("away/X.LL", FUNCTION)
    equal(bench.run("tv-check", "a", "b").returncode, 0, "status of equal folders")
    bench.write("b/two.ll", FUNCTION)
    done = bench.run("tv-check", "a", "b")
    equal(done.returncode, 3, "status with a file in the second alone")
    has(done.stdout, "fault b/two.ll: no file a/two.ll\n")
    os.remove(os.path.join(bench.folder, "b", "two.ll"))
    for side in "a", "b":
        os.symlink("../away", os.path.join(bench.folder, side, "link"))
        os.symlink("..", os.path.join(bench.folder, side, "up"))
    done = bench.run("tv-check", "a", "b")
    has(done.stdout, "module a/link/X.LL\n@f same\n", "module a/one.ll\n@f same\n")
    bench.write("b/one.ll", "rubbish\n")
    done = bench.run("tv-check", "a", "b")
    equal(done.returncode, 2, "status where one of two files is no module")
    has(done.stdout, "fault a/one.ll: b/one.ll:1:1: ", "@f same\n")


def empty_folder(bench):
    os.mkdir(os.path.join(bench.folder, "a"))
    for args in (["a", "a"], ["a"], ["--opt=-passes=verify", "a"]):
        equal(bench.run("tv-check", *args).returncode, 3, f"status of {args}")


# Only with LLVM.

def positions(bench):
    done = pair(bench, RANGE, RANGE.replace("i8 9", "i8 3"))
    has(done.stdout, "@g refused source Unsupported 7:34 metadata !range\n"
                     "  | %r = load i8, ptr %p, align 1, !range !0\n")
    row = json.loads(pair(bench, RANGE, RANGE.replace("i8 9", "i8 3"), "--json", "-f", "g").stdout)
    equal((row["line"], row["first_line"]), (7, 5), "a line of the print, and one of the file")


def llvm_says(bench):
    done = pair(bench, FUNCTION, FUNCTION.replace("%r\n}", "%s\n}"))
    equal((done.returncode, done.stdout), (9, ""), "status")
    has(done.stderr, "tv-check: b.ll:3:10: use of undefined value '%s'\n")
    done = pair(bench, FUNCTION.replace("ret i8", "ret i16"), FUNCTION)
    equal(done.returncode, 9, "status")
    has(done.stderr, "tv-check: a.ll:3:11: ")


def blocks_of_others(bench):
    text = """define void @f(ptr %p) {
  indirectbr ptr %p, [label %a]
a:
  ret void
}
define ptr @g() {
  ret ptr blockaddress(@f, %a)
}
"""
    has(pair(bench, text, text).stdout, "@g same\n")
    done = pair(bench, text, FUNCTION.replace("@f", "@h") + text)
    equal(done.returncode, 3, "status")
    has(done.stdout, "@g refused source ")


# Programs that misbehave. Each is written into the folder of the case.

def program(bench, name, text):
    bench.write(name, text)
    path = os.path.join(bench.folder, name)
    os.chmod(path, os.stat(path).st_mode | stat.S_IXUSR)
    return path


SPLIT = """#!{python}
import json, subprocess, sys
done = subprocess.run([{real!r}, *sys.argv[1:]], capture_output=True, text=True)
document = json.loads(done.stdout)
{lie}
json.dump(document, sys.stdout)
"""
EACH = "for module in document['modules']:\n    for each in module['functions']:\n        "
LIES = [
    ("drops a function", "for module in document['modules']: del module['functions'][0]"),
    ("drops a function of one side", "del document['modules'][1]['functions'][0]"),
    ("says same of all", EACH + "each['same'] = True; each.pop('alone', None)"),
    ("gives one text for both", "document['modules'][1] = document['modules'][0]"),
    ("has no end", "del document['end']"),
    ("ends early", "document['end'] = False"),
    ("has one module", "del document['modules'][1]"),
    ("moves the lines", EACH + "each['first'] += 1"),
    ("has other names", EACH + "each['name'] += 'x'"),
    ("has a function twice", "document['modules'][0]['functions'] *= 2"),
    ("has no functions", "for module in document['modules']: module['functions'] = []"),
    ("has words for lines", EACH + "each['first'] = 'one'"),
    ("is of another kind", "document = [document]"),
    ("is empty", "document = {{}}".format()),
]


def split_that_lies(bench):
    for what, lie in LIES:
        path = program(bench, "split", SPLIT.format(
            python=sys.executable, real=os.path.abspath(bench.variables["TV_SPLIT"]), lie=lie))
        done = pair(bench, FUNCTION + RIGHT.replace("@f", "@g"), FUNCTION + WRONG.replace("@f", "@g"),
                    TV_SPLIT=path)
        equal(done.returncode in (1, 2, 9), True, f"status where tv-split {what}: {done.returncode} "
                                               f"{done.stdout}{done.stderr}")


SCRIPTS = [("crashes", "kill -SEGV $$"), ("is killed", "kill -KILL $$"), ("is silent", "exit 0"),
           ("fails", "exit 3"), ("fails on the first", "exit 1"), ("says rubbish", "echo '{'"),
           ("is cut", '{real} "$@" | head -c 200'),
           ("is cut and fails", '{real} "$@" | head -c 200; exit 1')]


def split_that_fails(bench):
    for what, script in SCRIPTS:
        real = os.path.abspath(bench.variables["TV_SPLIT"])
        path = program(bench, "split", "#!/bin/sh\n" + script.replace("{real}", real) + "\n")
        done = pair(bench, FUNCTION, FUNCTION, TV_SPLIT=path)
        equal(done.returncode in (2, 9), True, f"status where tv-split {what}: {done.returncode}")
        for tool, *args in (["opt-tv", "-S", "-passes=verify", "a.ll"], ["tv-vacuous", "a.ll", "b.ll"],
                            ["tv-tree", "run", "a.ll", "-p", "verify", "--out", "out"]):
            done = bench.run(tool, *args, TV_SPLIT=path, TV_GATE="1")
            equal(done.returncode != 0, True, f"status of {tool} where {what}")


def split_is_missing(bench):
    done = pair(bench, FUNCTION, FUNCTION, TV_SPLIT="/none")
    equal(done.returncode, 127, "status without the tv-split that TV_SPLIT names")


# A tv that lists other functions than there are.
TVS = [("crashes", "kill -SEGV $$"), ("is silent", "exit 0"), ("drops a row", "{real} \"$@\" | grep -v @g"),
       ("has a row more", "{real} \"$@\"; echo '@h correct'"), ("fails", "exit 9"),
       ("is killed", "kill -KILL $$"), ("calls one missing", "{real} \"$@\" | sed 's/@g .*/@g missing/'")]


def tv_that_lies(bench):
    for what, script in TVS:
        path = program(bench, "tv", "#!/bin/sh\n" + script.replace("{real}", bench.variables["TV"]) + "\n")
        done = pair(bench, FUNCTION + FUNCTION.replace("@f", "@g"), FUNCTION + FUNCTION.replace("@f", "@g"),
                    TV=path)
        equal(done.returncode, 2, f"status where tv {what}: {done.stdout}{done.stderr}")


ALWAYS = [names, src_and_tgt, folders, empty_folder, tv_that_lies]
WITHOUT = [apart_without_llvm, same_without_llvm, *ALWAYS]
WITH = [apart_with_llvm, same_for_llvm, positions, llvm_says, blocks_of_others, split_that_lies,
        split_that_fails, split_is_missing, *ALWAYS]


def cases():
    tv = real_tv()
    split = os.environ.get("TV_SPLIT") or shutil.which(
        os.path.join(os.path.dirname(TOOLS), "llvm", "build", "tv-split"))
    opt = os.environ.get("TV_OPT") or shutil.which("opt-19") or shutil.which("opt")
    if not tv:
        print("skipped: tv is not built (crates/tv/out/tv), nor named by TV")
        return
    there = {"TV": os.path.abspath(tv), "TV_TRACE": "false",
             "TV_OPT": opt or os.path.join(TOOLS, "testdata", "wrong-opt")}
    for test in WITHOUT:
        yield f"without LLVM, {test.__name__}", test, {**there, "TV_LLVM_NONE": "1"}
    if not split:
        print("skipped: tv-split is not built (llvm/build/tv-split), nor named by TV_SPLIT")
        return
    for test in WITH:
        yield f"LLVM, {test.__name__}", test, {**there, "TV_SPLIT": os.path.abspath(split)}


def main():
    passed = failed = 0
    for good, line in map(tried, cases()):
        passed, failed = passed + good, failed + (not good)
        if not good or "-v" in sys.argv[1:]:
            print(line, flush=True)
    print(f"{passed} passed, {failed} failed")
    return 1 if failed else 0


if __name__ == "__main__":
    sys.exit(main())
