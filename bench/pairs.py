#!/usr/bin/env python3
"""How many small pairs `tv` decides, and how quickly.

    bench/pairs.py [PATH OF tv] [SECONDS A PAIR] [WORKERS] [OPTIONS]   (defaults: crates/tv/out/tv, 10, 2)

    --modules FOLDER   pairs that are written down: NAME-before.ll and NAME-after.ll, as in bench/modules
    --pointers N       only the pairs whose function has at least N pointers as parameters
    --widths           only the pairs of bench/widths.ll
    --rows FILE        writes a line for each pair: name, row, milliseconds, with tabs between them

Without --modules, clang 19 makes a module of bench/pairs.c without its passes; opt 19 runs sroa and mem2reg on it,
which take its variables out of memory, and each of several function passes on what sroa leaves. On bench/widths.ll,
which has integers of odd widths in memory, it runs sroa, instcombine and gvn. Each function that a pass changed is a
pair. Without clang-19 and opt-19 it then prints nothing. With --modules, each function of NAME-before.ll is a pair with
the function of that name in NAME-after.ll; one that is named wrong_ is no refinement.

A pair is two modules of its own. Seconds are processor time, and so are all times that are printed. `tv` gets what
TV_ARGS has, as in TV_ARGS="--bytes 16 --blocks 3". It prints the pairs decided within the time as a percentage, and of
the rest how many there are of each kind, with their names. No test rests on these figures.
"""
import argparse
import collections
import concurrent.futures
import glob
import math
import os
import re
import shlex
import shutil
import signal
import subprocess
import tempfile

MEMORY_PASSES = ["sroa", "mem2reg"]
WIDTH_PASSES = ["sroa", "instcombine<no-verify-fixpoint>", "gvn", "sroa,instcombine<no-verify-fixpoint>,gvn"]
PASSES = ["instcombine", "simplifycfg", "gvn", "early-cse", "reassociate", "sccp", "dse", "loop-mssa(licm)",
          "aggressive-instcombine,instcombine", "simplifycfg,instcombine,gvn"]
FUNCTION = re.compile(r"^define .*?^}\n", re.M | re.S)
NAME = re.compile(r"@([-\w.$]+)\(")


def functions(text):
    """The text of each function, by its name, without what names items that aren't there."""
    return {NAME.search(body).group(1): re.sub(r" #\d+| dso_local", "", body) for body in FUNCTION.findall(text)}


def opt(folder, source, passes):
    target = os.path.join(folder, re.sub(r"\W", "_", passes) + ".ll")
    subprocess.run(["opt-19", "-S", f"-passes={passes}", source, "-o", target], check=True)
    with open(target) as file:
        return functions(file.read())


def changed_pairs(folder, source, every):
    """The functions of a module that a pass changes, before and after it."""
    with open(source) as file:
        before = functions(file.read())
    for passes in every:
        after = opt(folder, source, f"function({passes})")
        for name, body in before.items():
            if after[name] != body:
                yield passes, name, body, after[name]


def width_pairs(folder):
    here = os.path.dirname(os.path.abspath(__file__))
    start = os.path.join(folder, "widths.ll")
    subprocess.run(["opt-19", "-S", "-passes=", os.path.join(here, "widths.ll"), "-o", start], check=True)
    yield from changed_pairs(folder, start, WIDTH_PASSES)


def made_pairs(folder):
    here = os.path.dirname(os.path.abspath(__file__))
    raw, start = os.path.join(folder, "raw.ll"), os.path.join(folder, "start.ll")
    clang = ["clang-19", "-S", "-emit-llvm", "-O0", "-Xclang", "-disable-O0-optnone", "-fno-discard-value-names"]
    subprocess.run([*clang, os.path.join(here, "pairs.c"), "-o", raw], check=True)
    subprocess.run(["opt-19", "-S", "-passes=function(sroa)", raw, "-o", start], check=True)
    yield from changed_pairs(folder, raw, MEMORY_PASSES)
    yield from changed_pairs(folder, start, PASSES)
    yield from width_pairs(folder)


def written_pairs(folder):
    """The pairs of a folder's modules."""
    for path in sorted(glob.glob(os.path.join(glob.escape(folder), "*-before.ll"))):
        sides = []
        for side in ("before", "after"):
            with open(path.removesuffix("before.ll") + side + ".ll") as file:
                sides.append(functions(file.read()))
        before, after = sides
        for name, body in before.items():
            if name in after:
                yield os.path.basename(path).removesuffix("-before.ll"), name, body, after[name]


def pointers(body):
    """How many pointers a function has as parameters."""
    return len(re.findall(r"\bptr\b[^,]*%", body.split("\n", 1)[0].split("(", 1)[1]))


def judged(tv, seconds, folder, number, pair):
    """The row of a pair, and the processor seconds that it took."""
    names = [os.path.join(folder, f"{number}.{side}.ll") for side in ("before", "after")]
    for name, text in zip(names, pair[2:]):
        with open(name, "w") as file:
            file.write(text)
    command = [tv, "check", *shlex.split(os.environ.get("TV_ARGS", "")), *names]
    with tempfile.TemporaryFile() as report:
        child = subprocess.Popen(["sh", "-c", f'ulimit -t {math.ceil(seconds)}; exec "$@"', "sh", *command],
                                 stdout=report, stderr=subprocess.DEVNULL)
        _, status, used = os.wait4(child.pid, 0)
        child.returncode = os.waitstatus_to_exitcode(status)
        report.seek(0)
        lines = report.read().decode().split("\n")
    took = used.ru_utime + used.ru_stime
    if -child.returncode in (signal.SIGXCPU, signal.SIGKILL) and took > seconds / 2:
        return "time", took
    if 0 <= child.returncode < 4:
        return lines[1].split(" ", 1)[-1], took
    return f"status {child.returncode}", took


def noted(path, pairs, answers):
    """The answers, each of which is a line of the file as soon as it is there."""
    known = []
    with open(path, "w", buffering=1) as file:
        for (module, name, _, _), (row, took) in zip(pairs, answers):
            file.write(f"{module}/{name}\t{row}\t{took * 1000:.0f}\n")
            known.append((row, took))
    return known


def summary(pairs, answers):
    """Prints what became of the pairs."""
    kinds, times = collections.defaultdict(list), []
    for (module, name, _, _), (row, took) in zip(pairs, answers):
        kind = re.sub(r"(refused \w+ \w+).*", r"\1", row)
        if kind == "correct" and name.startswith("wrong_"):
            kind = "correct, but is wrong"
        kinds[kind].append(f"{name} ({module})")
        if kind in ("correct", "incorrect"):
            times.append(took)
    decided = len(times)
    read = sum(len(names) for kind, names in kinds.items() if not kind.startswith("refused"))
    print(f"{len(pairs)} pairs; decided {decided}: {100 * decided / max(len(pairs), 1):.1f}% of all, {100 * decided / max(read, 1):.1f}% of those that were read")
    times.sort()
    if times:
        quick = sum(took <= 0.1 for took in times)
        print(f"of the decided: half within {times[len(times) // 2] * 1000:.0f} ms, nine of ten within {times[len(times) * 9 // 10] * 1000:.0f} ms, the slowest {times[-1]:.1f} s")
        print(f"decided within 100 ms: {quick}, {100 * quick / max(read, 1):.1f}% of those that were read")
    for kind, names in sorted(kinds.items()):
        print(f"  {kind}: {len(names)}" + ("" if kind == "correct" else ": " + ", ".join(names)))


def main():
    words = argparse.ArgumentParser()
    words.add_argument("tv", nargs="?", default="crates/tv/out/tv")
    words.add_argument("seconds", nargs="?", type=float, default=10.0)
    words.add_argument("workers", nargs="?", type=int, default=2)
    words.add_argument("--modules")
    words.add_argument("--widths", action="store_true")
    words.add_argument("--pointers", type=int, default=0)
    words.add_argument("--rows")
    given = words.parse_args()
    if not given.modules and not (shutil.which("clang-19") and shutil.which("opt-19")):
        return
    with tempfile.TemporaryDirectory() as folder:
        if given.modules:
            made = written_pairs(given.modules)
        else:
            made = width_pairs(folder) if given.widths else made_pairs(folder)
        pairs = [pair for pair in made if pointers(pair[2]) >= given.pointers]
        with concurrent.futures.ThreadPoolExecutor(given.workers) as pool:
            answers = pool.map(lambda p: judged(given.tv, given.seconds, folder, *p), enumerate(pairs))
            summary(pairs, noted(given.rows or os.devnull, pairs, answers))


if __name__ == "__main__":
    main()
