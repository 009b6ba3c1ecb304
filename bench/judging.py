#!/usr/bin/env python3
"""How long `tv` takes for small pairs, each by itself, from start to end.

    bench/judging.py [PATH OF tv]        (default: crates/tv/out/tv)

Pairs of one or a few instructions at the usual bounds: sums, products, shifts, divisions, comparisons,
choices, a loop. Each line is the best of a few runs, with the row that the report has. The last two
lines are the same questions under a limit on learned clauses. No test rests on these figures.
"""
import os
import subprocess
import sys
import tempfile
import time

RUNS = 5
LOOP = "entry:\n  br label %loop\nloop:\n  %i = phi i8 [ 0, %entry ], [ %j, %loop ]\n  %j = add i8 %i, 1\n  %c = icmp ult i8 %j, %n\n  br i1 %c, label %loop, label %done\ndone:\n"
PAIRS = [
    ("x + x, x << 1", "i8 @f(i8 %x)", "  %r = add i8 %x, %x\n  ret i8 %r", "  %r = shl i8 %x, 1\n  ret i8 %r", []),
    ("x + 1, with nsw", "i8 @f(i8 %x)", "  %r = add i8 %x, 1\n  ret i8 %r", "  %r = add nsw i8 %x, 1\n  ret i8 %r", []),
    ("a choice, 3", "i4 @f()", "  %a = freeze i4 poison\n  ret i4 %a", "  ret i4 3", []),
    ("7, a choice", "i8 @f()", "  ret i8 7", "  %a = freeze i8 poison\n  ret i8 %a", []),
    ("a choice less itself, 0", "i8 @f()", "  %a = freeze i8 poison\n  %b = sub i8 %a, %a\n  ret i8 %b", "  ret i8 0", []),
    ("x / x, 1", "i8 @f(i8 %x)", "  %r = udiv i8 %x, %x\n  ret i8 %r", "  ret i8 1", []),
    ("a loop but for 4, 2 turns", "i8 @f(i8 %n)", LOOP + "  ret i8 %j", LOOP + "  %e = icmp eq i8 %j, 4\n  %r = select i1 %e, i8 0, i8 %j\n  ret i8 %r", ["--turns", "2"]),
    ("a loop but for 4, 3 turns", "i8 @f(i8 %n)", LOOP + "  ret i8 %j", LOOP + "  %e = icmp eq i8 %j, 4\n  %r = select i1 %e, i8 0, i8 %j\n  ret i8 %r", ["--turns", "3"]),
    ("x * 2, x << 1 at i64", "i64 @f(i64 %x)", "  %r = mul i64 %x, 2\n  ret i64 %r", "  %r = shl i64 %x, 1\n  ret i64 %r", []),
    ("and, select", "i1 @f(i1 %a, i1 %b)", "  %r = and i1 %a, %b\n  ret i1 %r", "  %r = select i1 %a, i1 %b, i1 false\n  ret i1 %r", []),
    ("x / -1, 0 - x", "i8 @f(i8 %x)", "  %r = sdiv i8 %x, -1\n  ret i8 %r", "  %r = sub i8 0, %x\n  ret i8 %r", []),
    ("undef, 5", "i8 @f()", "  ret i8 undef", "  ret i8 5", []),
    ("x << 1, x + x at i32", "i32 @f(i32 %x)", "  %r = shl nsw i32 %x, 1\n  ret i32 %r", "  %r = add nsw i32 %x, %x\n  ret i32 %r", []),
    ("x plus a choice, 0: 15 rounds", "i4 @f(i4 %x)", "  %a = freeze i4 poison\n  %r = add i4 %x, %a\n  ret i4 %r", "  ret i4 0", ["--rounds", "15"]),
    ("(x + y) - y, x at i8", "i8 @f(i8 %x, i8 %y)", "  %a = add i8 %x, %y\n  %r = sub i8 %a, %y\n  ret i8 %r", "  ret i8 %x", []),
    ("(x + y) + z, x + (y + z) at i8", "i8 @f(i8 %x, i8 %y, i8 %z)", "  %a = add i8 %x, %y\n  %r = add i8 %a, %z\n  ret i8 %r", "  %a = add i8 %y, %z\n  %r = add i8 %x, %a\n  ret i8 %r", []),
    ("7, 8, 1 clause", "i8 @f()", "  ret i8 7", "  ret i8 8", ["--blocks", "0", "--conflicts", "1"]),
    ("x, x at i64, 100000 clauses", "i64 @f(i64 %x)", "  ret i64 %x", "  ret i64 %x", ["--blocks", "0", "--conflicts", "100000"]),
]


def main():
    tv = sys.argv[1] if len(sys.argv) > 1 else "crates/tv/out/tv"
    with tempfile.TemporaryDirectory() as folder:
        names = [os.path.join(folder, name) for name in ("before.ll", "after.ll")]
        for title, header, source, target, options in PAIRS:
            for name, body in zip(names, (source, target)):
                with open(name, "w") as file:
                    file.write(f"define {header} {{\n{body}\n}}\n")
            times = []
            for _ in range(RUNS):
                start = time.perf_counter()
                done = subprocess.run([tv, "check", *options, *names], capture_output=True, text=True)
                times.append(time.perf_counter() - start)
            print(f"  {title:>32} {min(times) * 1000:8.1f} ms  {done.stdout.splitlines()[1]}")


if __name__ == "__main__":
    main()
