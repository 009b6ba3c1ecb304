#!/usr/bin/env python3
"""How long tv takes for a pair of functions, beside SAT solvers on the clauses of the same pair.

    bench/solving.py [TV] [PAIRS A PASS]    (defaults: crates/tv/out/tv, 12)

Two kinds of pairs:

- identities: judged without given blocks;
- passes: functions that a pass of opt 19 changed, out of bench/pairs.c, where clang 19 is there.

The clauses are those of the pair's part in the proof file that `tv check --proof` writes: the last question, which
has no answer. tv's time is that of the whole program, with all questions of the pair, without the proof file.
minisat and cadical (`apt-get install minisat cadical`) get the clauses alone; a column is left out where its solver
isn't there. The last lines say of how many pairs whose clauses minisat decides within 8 s tv decides how many within
8 s, and the median of the ratios of the times; and the same of those that take one of the two 20 ms or more, where
times under 20 ms count as 20: most pairs of a pass are decided while the terms are made, and the time is that of a
program's start. No test rests on these figures.
"""
import os
import shutil
import statistics
import subprocess
import sys
import tempfile
import time

import pairs

LIMIT = 8
FLOOR = 0.02
QUIET = {"minisat": ["-verb=0"], "cadical": ["-q"]}
IDENTITIES = [
    ("(x + y) * 11, x * 11 + y * 11", 16, "%s = add T %x, %y\n%r = mul T %s, 11", "%a = mul T %x, 11\n%b = mul T %y, 11\n%r = add T %a, %b"),
    ("(x + y) * 11, x * 11 + y * 11", 32, "%s = add T %x, %y\n%r = mul T %s, 11", "%a = mul T %x, 11\n%b = mul T %y, 11\n%r = add T %a, %b"),
    ("x * y, y * x", 32, "%r = mul T %x, %y", "%r = mul T %y, %x"),
    ("x & y ^ x, x & ~y", 64, "%a = and T %x, %y\n%r = xor T %a, %x", "%n = xor T %y, -1\n%r = and T %x, %n"),
    ("x - (x & y), x & ~y", 32, "%a = and T %x, %y\n%r = sub T %x, %a", "%n = xor T %y, -1\n%r = and T %x, %n"),
    ("x * 3 / 3 nuw, x", 12, "%a = mul nuw T %x, 3\n%r = udiv T %a, 3", "%z = and T %y, 0\n%r = or T %x, %z"),
    ("x / y * y + x % y, x", 8, "%q = udiv T %x, %y\n%p = mul T %q, %y\n%m = urem T %x, %y\n%r = add T %p, %m", "%z = and T %y, 0\n%r = or T %x, %z"),
    ("x % y % y, x % y", 10, "%m = urem T %x, %y\n%r = urem T %m, %y", "%r = urem T %x, %y"),
    ("x << 3 << y, x << y << 3", 32, "%a = shl T %x, 3\n%r = shl T %a, %y", "%a = shl T %x, %y\n%r = shl T %a, 3"),
    ("average", 32, "%a = and T %x, %y\n%e = xor T %x, %y\n%h = lshr T %e, 1\n%r = add T %a, %h", "%o = or T %x, %y\n%e = xor T %x, %y\n%h = lshr T %e, 1\n%r = sub T %o, %h"),
]


def timed(command):
    """The seconds that a command takes, none where it takes more than the limit."""
    start = time.perf_counter()
    try:
        done = subprocess.run(command, capture_output=True, text=True, timeout=LIMIT)
    except subprocess.TimeoutExpired:
        return None
    if done.returncode < 0:
        sys.exit(f"{command[0]} was ended by signal {-done.returncode}")
    return time.perf_counter() - start


def function(width, body):
    lines = "\n".join("  " + line.replace("T", f"i{width}") for line in body.split("\n"))
    return f"define i{width} @f(i{width} %x, i{width} %y) {{\n{lines}\n  ret i{width} %r\n}}\n"


def clauses_in(proof):
    """The clauses of a proof file's last part in the DIMACS format, none where it has no part."""
    start = proof.rfind("\np cnf ")
    end = proof.find("\nlog ", start)
    if start < 0:
        return None
    if end < 0:
        sys.exit("a part of the proof file has no log")
    return proof[start + 1 : end + 1]


def clauses_of(program, folder, options):
    """The clauses of the last question of the pair in the folder, none where it isn't decided or needs no question."""
    name = os.path.join(folder, "pair.tvproof")
    if os.path.exists(name):
        os.remove(name)
    try:
        done = subprocess.run([program, "check", *options, "--proof", name, *names_in(folder)], capture_output=True, text=True, timeout=60)
    except subprocess.TimeoutExpired:
        return None
    if done.returncode not in (0, 1, 2, 3):
        sys.exit(f"{program} ended with {done.returncode}: {done.stderr.strip()}")
    with open(name) as file:
        return clauses_in(file.read())


def names_in(folder):
    return [os.path.join(folder, name) for name in ("before.ll", "after.ll")]


def questions(folder, most):
    """For each pair, which stands in the folder then: its title and the options that it is judged with."""
    for title, width, source, target in IDENTITIES:
        put(folder, function(width, source), function(width, target))
        yield f"{title} i{width}", ["--blocks", "0"]
    if not (shutil.which("clang-19") and shutil.which("opt-19")):
        return
    seen = {}
    for passes, name, before, after in pairs.made_pairs(folder):
        seen[passes] = seen.get(passes, 0) + 1
        if seen[passes] <= most:
            put(folder, before, after)
            yield f"{name} by {passes}", []


def put(folder, source, target):
    for name, text in zip(names_in(folder), (source, target)):
        with open(name, "w") as file:
            file.write(text)


def shown(seconds):
    return f"over {LIMIT} s  " if seconds is None else f"{1000 * seconds:7.0f} ms"


class Tally:
    """What was decided, and the ratios of the times to minisat's."""

    def __init__(self):
        self.decided, self.ratios, self.hard = [], [], []

    def note(self, title, ours, minisat):
        self.decided.append(ours is not None)
        self.ratios += [ours / minisat] if ours is not None else []
        ours = LIMIT if ours is None else ours
        if max(ours, minisat) >= FLOOR:
            self.hard.append((max(ours, FLOOR) / max(minisat, FLOOR), title))

    def print(self):
        if self.decided:
            share = 100 * sum(self.decided) / len(self.decided)
            middle = f"{statistics.median(self.ratios):.2f}" if self.ratios else "none"
            print(f"of {len(self.decided)} questions that minisat decides in {LIMIT} s tv decides {sum(self.decided)}, {share:.0f}%; median of the ratios of times {middle}")
        if self.hard:
            ratios = [ratio for ratio, _ in self.hard]
            over = ", ".join(f"{title} ({ratio:.1f})" for ratio, title in sorted(self.hard, reverse=True) if ratio > 3)
            print(f"{len(ratios)} take 20 ms or more: median of the ratios {statistics.median(ratios):.2f}, geometric mean {statistics.geometric_mean(ratios):.2f}, over 3: {over or 'none'}")


def main():
    program = sys.argv[1] if len(sys.argv) > 1 else "crates/tv/out/tv"
    most = int(sys.argv[2]) if len(sys.argv) > 2 else 12
    peers = [name for name in QUIET if shutil.which(name)]
    tally = Tally()
    with tempfile.TemporaryDirectory() as folder:
        for title, options in questions(folder, most):
            text = clauses_of(program, folder, options)
            if text is None:
                continue
            name = os.path.join(folder, "question.cnf")
            with open(name, "w") as file:
                file.write(text)
            ours = timed([program, "check", *options, *names_in(folder)])
            others = {peer: timed([peer, *QUIET[peer], name]) for peer in peers}
            columns = "".join(f"  {peer} {shown(seconds)}" for peer, seconds in others.items())
            print(f"{title:>44} {text.splitlines()[0]:<18} tv {shown(ours)}{columns}", flush=True)
            if others.get("minisat") is not None:
                tally.note(title, ours, others["minisat"])
    tally.print()


if __name__ == "__main__":
    main()
