#!/usr/bin/env python3
"""How long `tv` takes to read a text, against the text's length, and beside `opt`.

    bench/reading.py [PATH OF tv]        (default: crates/tv/out/tv)

Two series, each doubling: modules of many functions up to the limit of a text, and modules of one
function up to the limit of its instructions. A ratio near 2 from one line to the next says that
reading is linear. Beside each is the time of `opt -passes=verify -disable-output` on the same
text (`apt-get install llvm-19`; left out where it isn't there). A third series is of texts of the
greatest size that are no modules, or hardly. The target is an empty text, so nothing is judged. No
test rests on these figures.
"""
import os
import resource
import shutil
import subprocess
import sys
import tempfile
import time

TEXT_LIMIT = 16_777_216
INSTRUCTION_LIMIT = 65_536
FUNCTION_LIMIT = 4_096
RUNS = 5


def function(name, instructions):
    lines = [f"define i8 @{name}(i8 %x) {{", "  %r0 = add i8 %x, 1"]
    lines += [f"  %r{k} = xor i8 %r{k - 1}, %x" for k in range(1, instructions - 1)]
    lines += [f"  ret i8 %r{instructions - 2}", "}", ""]
    return "\n".join(lines)


def many_functions(size):
    one = function("f0000", 128)
    count = min(size // (len(one) + 1), FUNCTION_LIMIT)
    text = "".join(function(f"f{k:04}", 128) for k in range(count))
    return (text + " " * (size - len(text)))[:size]


OPT = shutil.which("opt-19") or shutil.which("opt")

# texts that are no modules, or only just
HOSTILE = {
    "opening marks": "(",
    "numbers and signs": "1-",
    "one long name": "a",
    "quotes": '"',
    "comments": ";\n",
    "closing marks": "declare void @f() )",
    "heads": "@g = global i8 0\n",
    "line feeds": "\n",
}


def best_of(command, statuses):
    best = None
    for _ in range(RUNS):
        start = time.perf_counter()
        done = subprocess.run(command, stdout=subprocess.DEVNULL, stderr=subprocess.DEVNULL)
        seconds = time.perf_counter() - start
        if done.returncode not in statuses:
            sys.exit(f"status {done.returncode} of {command[0]}")
        best = seconds if best is None else min(best, seconds)
    return best


def best_seconds(tv, text, statuses=(3,)):
    """The best times of tv and of opt; of opt none where it isn't there or isn't asked."""
    with tempfile.TemporaryDirectory() as folder:
        source, target = os.path.join(folder, "source.ll"), os.path.join(folder, "target.ll")
        with open(source, "w") as file:
            file.write(text)
        open(target, "w").close()
        ours = best_of([tv, "check", source, target], statuses)
        if OPT is None or statuses != (3,):
            return ours, None
        return ours, best_of([OPT, "-passes=verify", "-disable-output", source], (0,))


def series(tv, title, texts):
    print(title)
    before = None
    for label, text in texts:
        seconds, theirs = best_seconds(tv, text)
        ratio = "" if before is None else f"{seconds / before:6.2f} times the line above"
        beside = "" if theirs is None else f"   opt {theirs * 1000:9.1f} ms, ours {seconds / theirs:5.2f} times"
        print(f"  {label:>20} {seconds * 1000:9.1f} ms {len(text) / seconds / 1e6:8.1f} MB/s{beside} {ratio}")
        before = seconds


def hostile_series(tv):
    print(f"texts of {TEXT_LIMIT} bytes that are no modules, or hardly")
    for label, piece in HOSTILE.items():
        text = (piece * (TEXT_LIMIT // len(piece) + 1))[:TEXT_LIMIT]
        seconds, _ = best_seconds(tv, text, (0, 3, 9))
        print(f"  {label:>20} {seconds * 1000:9.1f} ms {len(text) / seconds / 1e6:8.1f} MB/s")


def main():
    tv = sys.argv[1] if len(sys.argv) > 1 else "crates/tv/out/tv"
    sizes = [TEXT_LIMIT // 16, TEXT_LIMIT // 8, TEXT_LIMIT // 4, TEXT_LIMIT // 2, TEXT_LIMIT]
    series(tv, "modules of many functions", ((f"{size} bytes", many_functions(size)) for size in sizes))
    counts = [INSTRUCTION_LIMIT // 8, INSTRUCTION_LIMIT // 4, INSTRUCTION_LIMIT // 2, INSTRUCTION_LIMIT]
    series(tv, "one function", ((f"{count} instructions", function("f", count)) for count in counts))
    hostile_series(tv)
    peak = resource.getrusage(resource.RUSAGE_CHILDREN).ru_maxrss
    print(f"greatest memory of a run: {peak / 1024:.0f} MiB, {peak * 1024 / TEXT_LIMIT:.1f} times the longest text")


if __name__ == "__main__":
    main()
