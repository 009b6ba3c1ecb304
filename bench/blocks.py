#!/usr/bin/env python3
"""How long `tv` takes for functions of many blocks.

    bench/blocks.py [PATH OF tv]        (default: crates/tv/out/tv)

Two shapes at 1,250 to 10,000 blocks, each function against itself: a ladder of diamonds, whose joins
have a phi of two entries, and fans, whose joins have a phi of 200. The pair is too heavy for the budget
and isn't judged: what is measured is reading, with the tests of names, types, edges and assignment on
every path. The last lines judge ladders over one i8. No test rests on these figures.
"""
import os
import subprocess
import sys
import tempfile
import time

RUNS = 3
BLOCKS = (1250, 2500, 5000, 10000)
CASES = 199


def ladder(blocks, width):
    """Diamonds of four blocks, one after the other."""
    lines = [f"define i{width} @f(i{width} %v0) {{", "entry:", "  br label %h1"]
    count = blocks // 4
    for k in range(1, count + 1):
        last = "entry" if k == 1 else f"j{k - 1}"
        lines += [
            f"h{k}:",
            f"  %u{k} = phi i{width} [ %v{k - 1}, %{last} ]",
            f"  %c{k} = icmp ult i{width} %u{k}, 7",
            f"  br i1 %c{k}, label %a{k}, label %b{k}",
            f"a{k}:",
            f"  %x{k} = add i{width} %u{k}, 1",
            f"  br label %j{k}",
            f"b{k}:",
            f"  %y{k} = xor i{width} %u{k}, %v0",
            f"  br label %j{k}",
            f"j{k}:",
            f"  %v{k} = phi i{width} [ %x{k}, %a{k} ], [ %y{k}, %b{k} ]",
            f"  br label %h{k + 1}",
        ]
    lines += [f"h{count + 1}:", f"  ret i{width} %v{count}", "}"]
    return "\n".join(lines) + "\n"


def fans(blocks, width):
    """Switches of many blocks that come together again, one after the other."""
    lines = [f"define i{width} @f(i{width} %v0) {{", "entry:", "  br label %s1"]
    count = max(1, blocks // (CASES + 3))
    for k in range(1, count + 1):
        cases = " ".join(f"i{width} {n}, label %f{k}.{n}" for n in range(CASES))
        lines += [f"s{k}:", f"  switch i{width} %v{k - 1}, label %d{k} [ {cases} ]"]
        entries = [f"[ 7, %d{k} ]"]
        for n in range(CASES):
            lines += [f"f{k}.{n}:", f"  br label %j{k}"]
            entries.append(f"[ {n}, %f{k}.{n} ]")
        lines += [f"d{k}:", f"  br label %j{k}", f"j{k}:"]
        lines += [f"  %v{k} = phi i{width} {', '.join(entries)}", f"  br label %s{k + 1}"]
    lines += [f"s{count + 1}:", f"  ret i{width} %v{count}", "}"]
    return "\n".join(lines) + "\n"


def seconds(tv, text, weight, row):
    """The best time of a few runs; the report must have the row."""
    with tempfile.TemporaryDirectory() as folder:
        name = os.path.join(folder, "module.ll")
        with open(name, "w") as file:
            file.write(text)
        words = [tv, "check", "--turns", "0", "--weight", weight, name, name]
        best = None
        for _ in range(RUNS):
            start = time.perf_counter()
            done = subprocess.run(words, capture_output=True, text=True)
            took = time.perf_counter() - start
            if row not in done.stdout:
                sys.exit(f"not {row}: {done.stdout[:300]}")
            best = took if best is None else min(best, took)
        return best


def print_sizes(tv, title, shape, sizes, width, weight, row, ending):
    """A line for each size, with how many times as long it took as the one before."""
    before = None
    for blocks in sizes:
        took = seconds(tv, shape(blocks, width), weight, row)
        times = "" if before is None else f"  {took / before:4.1f} times for twice as many"
        print(f"  {title:>7} of {blocks:>6} blocks  {took * 1000:8.1f} ms{ending}{times}")
        before = took


def main():
    tv = sys.argv[1] if len(sys.argv) > 1 else "crates/tv/out/tv"
    for title, shape in (("ladder", ladder), ("fans", fans)):
        print_sizes(tv, title, shape, BLOCKS, 64, "1", "@f unknown weight", "")
    print_sizes(tv, "ladder", ladder, BLOCKS, 8, "10000000", "@f correct", ", judged")


if __name__ == "__main__":
    main()
