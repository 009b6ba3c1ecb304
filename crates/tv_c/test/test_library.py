#!/usr/bin/env python3
"""Tests of the C library: builds calls.c and memory.c with cc, and runs them, calls.c also under valgrind
where that is installed.

    crates/tv_c/test/test_library.py [-v]

Needs cc, the kit's rt on the PATH, and the library, crates/tv_c/out/libtv_c.a, which `rt lib` in crates/tv_c
builds. The variable TV_C_LIBRARY names another one, as that of tools/quick. Where something isn't there, a
line says so and the tests are skipped. The last line counts; the status is 1 where a case failed, or where
there is no file of the name that TV_C_LIBRARY gives.
"""
import os
import shutil
import subprocess
import sys
import tempfile

HERE = os.path.dirname(os.path.realpath(__file__))
CRATE = os.path.dirname(HERE)
NAMED = os.environ.get("TV_C_LIBRARY")
LIBRARY = os.path.abspath(NAMED or os.path.join(CRATE, "out", "libtv_c.a"))
FLAGS = ["-std=c99", "-O1", "-g", "-Wall", "-Wextra", "-Werror", "-pthread"]
VALGRIND = ["valgrind", "-q", "--leak-check=full", "--show-leak-kinds=all", "--error-exitcode=99"]
WRAPPED = ["-Wl,--wrap=malloc,--wrap=realloc"]
SECONDS = 600
TESTS = 3


def run(words, folder):
    """The status of a command, and what it wrote."""
    done = subprocess.run(words, cwd=folder, capture_output=True, text=True, timeout=SECONDS)
    return done.returncode, done.stdout + done.stderr


def kit_library():
    """The kit's C library, or None."""
    rt = shutil.which("rt")
    if not rt:
        return None
    kit = os.path.dirname(os.path.dirname(os.path.realpath(rt)))
    path = os.path.join(kit, "c", "liblibc_c.a")
    return path if os.path.exists(path) else None


def missing():
    """What keeps the tests from being run, or None."""
    if not shutil.which("cc"):
        return "cc is not installed"
    if not kit_library():
        return "the kit's C library was not found"
    if os.path.exists(LIBRARY):
        return None
    return "crates/tv_c/out/libtv_c.a is not built (rt lib in crates/tv_c)"


def compiled(source, more, folder):
    """The program of a file, or None and why there is none."""
    out = os.path.join(folder, source.replace(".", "-"))
    words = ["cc", *FLAGS, *more, "-I", os.path.join(CRATE, "include"), os.path.join(HERE, source),
             LIBRARY, kit_library(), "-lm", "-o", out]
    status, said = run(words, folder)
    return (out, "") if status == 0 else (None, said)


def cases():
    """Name, file, flags of the linker, and what the program is run under, of each case."""
    yield "called from C", "calls.c", [], []
    yield "each allocation fails in turn", "memory.c", WRAPPED, []
    if shutil.which("valgrind"):
        yield "called from C, under valgrind", "calls.c", [], VALGRIND
    else:
        print("skipped: valgrind is not installed")


def wrong_with(source, more, before, folder):
    """What is wrong with a case, or None."""
    program, said = compiled(source, more, folder)
    if program is None:
        return said
    status, said = run([*before, program], folder)
    return None if status == 0 else f"status {status}\n{said}"


def main():
    if NAMED and not os.path.exists(LIBRARY):
        print(f"FAILED: TV_C_LIBRARY={NAMED}: no such file")
        return 1
    why = missing()
    if why:
        print(f"skipped: {TESTS} tests of the C library: {why}")
        return 0
    failed, count = 0, 0
    with tempfile.TemporaryDirectory(prefix="tv-library-") as folder:
        for name, source, more, before in cases():
            count += 1
            wrong = wrong_with(source, more, before, folder)
            if wrong is not None:
                failed += 1
                print(f"FAILED {name}: {wrong.strip()}")
            elif "-v" in sys.argv[1:]:
                print(f"passed {name}")
    print(f"the C library: {count - failed} passed, {failed} failed")
    return 1 if failed else 0


if __name__ == "__main__":
    sys.exit(main())
