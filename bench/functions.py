#!/usr/bin/env python3
"""Where the processor time of one crate's check goes: function by function, and file of proofs by file.

    bench/functions.py NAME [--test] [--all]
    bench/functions.py --dear [NAME ..]

Checks the crate from nothing by `rt check`, after the libraries below it where they aren't built, and looks ten times a
second at the processor time of the check and at the files that it leaves in `out/incremental`. A file that it has
finished gets the time since the one before it, so short ones next to each other may be mixed up. The lines are seconds of
one processor, the dearest first: of the steps that the check makes of a function's code (`code`), of its goals, those that
no answer closes above all (`goals`), of its written answers (`answers`), of what ties both to its contract (`ties`), of files
below `proofs/` (`proofs`), of definitions and contracts (`specs`), and of libraries below it (`below`); those under half a
second are left out, unless `--all` is there. What comes before the first file is reading the
sources and what lies below. With `--test` it is the check of the crate's tests. The machine may have other work: it is the
time of the check's own processes. Linux alone.

`--dear` checks nothing: it lists places of the sources, of all crates or of those named, that break a rule of
CONTRIBUTING on what a check costs, and how many break each.
"""
import collections
import os
import pathlib
import re
import shutil
import subprocess
import sys
import time

from gate import TICK, below

CRATES = pathlib.Path(__file__).resolve().parent.parent / "crates"
LEAST = 0.5
KINDS = ("code", "goals", "answers", "ties", "proofs", "specs", "below")
# What the parts of a function are that have a kind of their own; the others are its ties.
KIND_OF = {"Lts": "code", "Proof": "goals", "Answers": "answers"}
# Places that break a rule on what a check costs, by the rule.
LAST_CALL = re.compile(r"let (\w+) = [^;{}]*\?;\s*Ok\(\1\)\s*\n\s*\}|\?;\s*Ok\(\(\)\)\s*\n\s*\}")
GOOD_CASE = re.compile(r"-> Result<(?:(?!\bfn\b)[^;])*?\n\s+ensures (?:\w+ )?\{ Keeps ")
DERIVES = re.compile(r"#\[derive\([^)]*\bDebug\b")
FUNCTION = re.compile(r"^( *)(?:pub(?:\(crate\))? )?fn (\w+).*?^\1\}", re.M | re.S)
MANY = 8
# Where the name of a module that a check makes for a function goes on after the function's own.
PART = re.compile(r"\.(Answers|Carried|Code|Given|Goals|Invariants|Key|Kinds|Laws|Layout|Lts|Met|Named|Proof|Reads|Statement|Symbol|The[A-Z]\w*|Tie)\b")


def spent(root):
    """The processor seconds so far of a process, of those below it and of children that have ended."""
    return sum(sum(map(int, stat[11:15])) for stat in below(root).values()) / TICK


def named(file, crate):
    """The kind and the name of what a file of a check is for."""
    name = re.sub(r"(\.decls)?\.oantt$", "", file).removeprefix("Rattle-")
    if not re.match(rf"{crate}\b", name):
        return "below", re.split(r"[-.]", name)[0]
    if not re.match(rf"{crate}[-.]proofs\.", name):
        return "specs", crate
    name = name[len(f"{crate}-proofs.") :]
    part = PART.search(name)
    if not part and (CRATES / crate / "proofs" / (name.replace(".", "/") + ".antt")).exists():
        return "proofs", name
    return KIND_OF.get(part[1], "ties") if part else "ties", name[: part.start()] if part else name


def finished(folder, known):
    """The files of a check that are not known yet, the earliest first, with the time when each was written."""
    found = []
    for at, _, names in os.walk(folder):
        for name in names:
            path = os.path.join(at, name)
            if name.endswith(".oantt") and path not in known:
                try:
                    found.append((os.stat(path).st_mtime, name))
                    known.add(path)
                except OSError:
                    continue
    return sorted(found)


def at_time(looks, when):
    """The processor seconds at a moment, between the looks before and after it."""
    before = (looks[0][0], looks[0][1])
    for moment, seconds in looks:
        if moment >= when:
            share = (when - before[0]) / max(moment - before[0], 1e-9)
            return before[1] + (seconds - before[1]) * min(max(share, 0), 1)
        before = (moment, seconds)
    return looks[-1][1]


def watched(command, crate_folder, folder):
    """Runs a check: its status, the looks at its processor time, and the files that it wrote with their times."""
    check = subprocess.Popen(command, cwd=crate_folder, stdout=subprocess.DEVNULL)
    looks, known, files = [(time.time(), 0.0)], set(), []
    while check.poll() is None:
        looks.append((time.time(), spent(check.pid)))
        if len(looks) % 20 == 0:
            files += finished(folder, known)
        time.sleep(0.1)
    return check.returncode, looks, sorted(files + finished(folder, known))


def seconds_of(looks, files, crate):
    """The seconds of each thing that files are for, and those before the first file."""
    if not files:
        return collections.Counter(), looks[-1][1]
    last = first = at_time(looks, files[0][0])
    seconds = collections.Counter()
    for moment, name in files:
        now = max(at_time(looks, moment), last)
        seconds[named(name, crate)] += now - last
        last = now
    return seconds, first


def line_at(text, place):
    return text.count("\n", 0, place) + 1


def broken(text):
    """The rules that a source file breaks: each with the line and what stands there."""
    for found in LAST_CALL.finditer(text):
        yield "the last call is the result", line_at(text, found.end()) - 1, "Ok(..) of a call's own answer"
    for found in GOOD_CASE.finditer(text):
        yield "what only the good case needs stands under OnOk", line_at(text, found.end()), "Keeps"
    if "{:?}" not in text and "assert_eq!" not in text:
        for found in DERIVES.finditer(text):
            yield "no derive that nothing calls", line_at(text, found.start()), "Debug"
    for found in FUNCTION.finditer(text):
        count = len(re.findall(r"\?[;.)]", found[0]))
        if count >= MANY:
            yield f"a function has fewer than {MANY} `?`", line_at(text, found.start()), f"{found[2]}: {count}"


def print_broken(names):
    """Prints the places that break a rule, and how many break each."""
    crates = names or sorted(path.name for path in CRATES.iterdir() if (path / "src").is_dir())
    counts = collections.Counter()
    for crate in crates:
        for path in sorted((CRATES / crate / "src").rglob("*.rt")):
            for rule, line, what in broken(path.read_text()):
                counts[rule] += 1
                print(f"{path.relative_to(CRATES)}:{line}: {rule}: {what}")
    for rule, count in counts.most_common():
        print(f"{count:6}  {rule}")


def main():
    words = [word for word in sys.argv[1:] if not word.startswith("--")]
    unknown = [word for word in words if not (CRATES / word).is_dir()]
    if unknown:
        sys.exit(f"no crate: {unknown[0]}")
    if "--dear" in sys.argv:
        return print_broken(words)
    if len(words) != 1 or not (CRATES / words[0]).is_dir():
        sys.exit(__doc__)
    crate, tests = words[0], ["--test"] if "--test" in sys.argv else []
    folder = CRATES / crate / "out/incremental"
    shutil.rmtree(folder, ignore_errors=True)
    status, looks, files = watched(["rt", "check", "--jobs", "1", *tests], CRATES / crate, folder)
    seconds, first = seconds_of(looks, files, crate)
    print(f"{crate}: {looks[-1][1]:.0f} seconds, {first:.0f} of them before the first file")
    for kind in KINDS:
        print(f"{sum(found for of, found in seconds.items() if of[0] == kind):8.1f}  {kind}")
    least = 0.0 if "--all" in sys.argv else LEAST
    for (kind, name), found in seconds.most_common():
        if found >= least:
            print(f"{found:8.1f}  {kind:6}  {name}")
    sys.exit(status)


if __name__ == "__main__":
    main()
