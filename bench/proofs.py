#!/usr/bin/env python3
"""How long `tv log` takes to check a large proof file, on one processor and on more.

    bench/proofs.py [PATH OF tv] [MEGABYTES]      (defaults: crates/tv/out/tv, 200)

`tv check --proof` writes the proof file of a pair that takes a search, its parts are repeated until the file is so
large, and `tv log` checks it on 1, 2, 4, .. of the processors that there are. It prints the time, the bytes a second
and the greatest memory as a multiple of the file. No test rests on these figures.
"""
import os
import resource
import subprocess
import sys
import tempfile
import time

SOURCE = "define i10 @f(i10 %x, i10 %y) {\n  %m = urem i10 %x, %y\n  %r = urem i10 %m, %y\n  ret i10 %r\n}\n"
TARGET = "define i10 @f(i10 %x, i10 %y) {\n  %m = urem i10 %x, %y\n  ret i10 %m\n}\n"


def made(tv, folder, size):
    names = [os.path.join(folder, name) for name in ("before.ll", "after.ll", "proof")]
    for name, text in zip(names, (SOURCE, TARGET)):
        with open(name, "w") as file:
            file.write(text)
    subprocess.run([tv, "check", names[0], names[1], "--proof", names[2]], check=True, stdout=subprocess.DEVNULL)
    with open(names[2]) as file:
        text = file.read()
    head, part = text[:text.index("row @")], text[text.index("row @"):]
    with open(names[2], "w") as file:
        file.write(head)
        for _ in range(max(1, size // len(part))):
            file.write(part)
    return names[2]


def main():
    here = os.path.dirname(os.path.abspath(__file__))
    tv = sys.argv[1] if len(sys.argv) > 1 else os.path.join(here, "..", "crates", "tv", "out", "tv")
    size = int(float(sys.argv[2]) * 1e6) if len(sys.argv) > 2 else 200_000_000
    processors = sorted(os.sched_getaffinity(0))
    with tempfile.TemporaryDirectory() as folder:
        proof = made(tv, folder, size)
        held = os.path.getsize(proof)
        count = 1
        while count <= len(processors):
            start = time.perf_counter()
            done = subprocess.run([tv, "log", proof], capture_output=True, text=True,
                                  preexec_fn=lambda: os.sched_setaffinity(0, processors[:count]))
            took = time.perf_counter() - start
            print(f"{count} processors: {held / 1e6:.0f} MB in {took:.2f} s, {held / took / 1e6:.0f} MB a second; "
                  f"{done.stdout.splitlines()[-1]}")
            count *= 2
        most = resource.getrusage(resource.RUSAGE_CHILDREN).ru_maxrss * 1024
        print(f"memory at most {most / held:.1f} times the file")


if __name__ == "__main__":
    main()
