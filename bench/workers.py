#!/usr/bin/env python3
"""How much faster many workers judge the pairs of one module than one worker does, and how soon they
stop with `--first`.

    bench/workers.py [PATH OF tv]        (default: crates/tv/out/tv)

Modules that are judged with 1, 2 and 4 workers; the reports have to be the same. In the first, 256
pairs cost about the same: the ratio of the times is the gain. In the last, one heavy pair comes first,
and 255 light ones after it: with more workers the whole should take little longer than the heavy pair
alone.

Then 1,000 pairs that cost about the same, of which the one at index 10 is incorrect, with 4 workers,
without `--first` and with it; the rows with it have to begin those without. How many pairs were begun
cannot be seen from outside. So the processor time is given in pairs as well, that of the run without
`--first` being 1,000: with it, 10 pairs, at most 4 more that a worker had begun when the incorrect one
was known, and what it takes to read the modules.

Run it on an idle machine, for some three minutes. No test depends on these figures.
"""
import collections
import contextlib
import os
import resource
import subprocess
import sys
import tempfile
import time

PAIRS = 256
RUNS = 1
MANY = 1000
INCORRECT = 10
WORKERS = 4
# Pairs that no rule of terms decides: they take a search.
XOR_TIMES = (
    "  %a = xor i{0} %x, %y\n  %b = mul i{0} %a, %x\n  ret i{0} %b",
    "  %o = or i{0} %x, %y\n  %n = and i{0} %x, %y\n  %a = sub i{0} %o, %n\n  %b = mul i{0} %a, %x\n  ret i{0} %b",
)
OR_TIMES = "  %a = or i{0} %x, %y\n  %b = mul i{0} %a, %x\n  ret i{0} %b"
PRODUCT = (
    "  %a = mul i{0} %x, %y\n  ret i{0} %a",
    "  %a = and i{0} %x, %y\n  %o = or i{0} %x, %y\n  %m = mul i{0} %a, %o\n"
    "  %n = xor i{0} %a, %x\n  %p = xor i{0} %a, %y\n  %q = mul i{0} %n, %p\n"
    "  %b = add i{0} %m, %q\n  ret i{0} %b",
)
SUM = (
    "  %a = add i{0} %x, %y\n  %b = add i{0} %a, %x\n  ret i{0} %b",
    "  %a = add i{0} %x, %x\n  %b = add i{0} %a, %y\n  ret i{0} %b",
)
NO_BLOCKS = ("--blocks", "0")
Run = collections.namedtuple("Run", "seconds processor status report")


def pair(width, sides):
    """The width, and both sides of a pair at it."""
    return width, *(side.format(width) for side in sides)


EQUAL, HEAVY, LIGHT = pair(10, XOR_TIMES), pair(7, PRODUCT), pair(8, SUM)
WRONG = pair(10, (XOR_TIMES[0], OR_TIMES))


def module(pairs, side):
    return "".join(
        f"define i{one[0]} @f{k}(i{one[0]} %x, i{one[0]} %y) {{\n{one[side]}\n}}\n"
        for k, one in enumerate(pairs)
    )


@contextlib.contextmanager
def files(pairs):
    """The names of two files with the modules of these pairs."""
    with tempfile.TemporaryDirectory() as folder:
        names = [os.path.join(folder, name) for name in ("before.ll", "after.ll")]
        for side, name in enumerate(names, 1):
            with open(name, "w") as file:
                file.write(module(pairs, side))
        yield names


def run(tv, names, workers, *options):
    """A run of `tv check`: its time by the clock and of the processors, its status and its report."""
    begun, before = time.perf_counter(), resource.getrusage(resource.RUSAGE_CHILDREN)
    done = subprocess.run([tv, "check", *options, "--workers", str(workers), *names], capture_output=True, text=True)
    seconds, after = time.perf_counter() - begun, resource.getrusage(resource.RUSAGE_CHILDREN)
    processor = after.ru_utime - before.ru_utime + after.ru_stime - before.ru_stime
    return Run(seconds, processor, done.returncode, done.stdout)


def measured(tv, pairs, options):
    """The best time of a few runs for each number of workers, and whether all reports were one."""
    with files(pairs) as names:
        best, reports = {}, set()
        for workers in (1, 2, 4):
            for _ in range(RUNS):
                done = run(tv, names, workers, *options)
                best[workers] = min(done.seconds, best.get(workers, done.seconds))
                reports.add((done.status, done.report))
        return best, len(reports) == 1


def stopped(tv):
    """Many pairs of which one near the start is incorrect: the run without `--first`, the run with it."""
    pairs = [EQUAL] * MANY
    pairs[INCORRECT] = WRONG
    with files(pairs) as names:
        return [run(tv, names, WORKERS, *NO_BLOCKS, *more) for more in ((), ("--first",))]


def rows_begin(first, whole):
    """Whether the rows of a report, without its first line and its counts, begin those of another."""
    rows = first.report.splitlines()[1:-1]
    return first.status == whole.status == 1 and whole.report.splitlines()[1:][:len(rows)] == rows


def main():
    tv = sys.argv[1] if len(sys.argv) > 1 else "crates/tv/out/tv"
    for title, pairs, options in (
        (f"{PAIRS} equal pairs", [EQUAL] * PAIRS, NO_BLOCKS),
        ("one heavy pair", [HEAVY], NO_BLOCKS),
        (f"one heavy pair, {PAIRS - 1} light ones", [HEAVY] + [LIGHT] * (PAIRS - 1), NO_BLOCKS),
    ):
        best, same = measured(tv, pairs, options)
        times = "  ".join(f"{workers}: {seconds:6.2f} s" for workers, seconds in best.items())
        print(f"{title:>32}  {times}  1 to 4: {best[1] / best[4]:4.2f} times  {'one report' if same else 'REPORTS DIFFER'}")
    whole, first = stopped(tv)
    print(f"{MANY} equal pairs, the one at index {INCORRECT} incorrect, {WORKERS} workers")
    for title, done in (("all", whole), ("--first", first)):
        worth = done.processor / whole.processor * MANY
        print(f"{title:>32}  {done.seconds:6.2f} s  processor {done.processor:6.2f} s, {worth:6.1f} pairs")
    same = "one report's rows begin the other's" if rows_begin(first, whole) else "REPORTS DIFFER"
    print(f"{'':>32}  --first: {whole.seconds / first.seconds:.1f} times as fast  {same}")


if __name__ == "__main__":
    main()
