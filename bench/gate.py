#!/usr/bin/env python3
"""Where the gate's processor time goes: proofs, tests and edits, crate by crate.

    bench/gate.py [COMMAND ..]        (default: rt ci)

Runs the command, looks twice a second at it and the processes below it, and prints the processor minutes of the checks of
crates by kind and by crate, and of what else was run (clang, the tests and programs themselves). A program that lives for
less than half a second is missed. The status is that of the command. Linux alone.
"""
import collections
import os
import subprocess
import sys
import time

TICK = os.sysconf("SC_CLK_TCK")
KINDS = ("proof", "test", "edit", "other")


def fields(pid):
    """The fields of a process after its name: state, parent, .."""
    with open(f"/proc/{pid}/stat") as file:
        return file.read().rsplit(")", 1)[1].split()


def below(root):
    """A process and those below it, with their fields."""
    found, children = {}, collections.defaultdict(list)
    for pid in filter(str.isdigit, os.listdir("/proc")):
        try:
            found[pid] = fields(pid)
        except OSError:
            continue
        children[found[pid][1]].append(pid)
    mine = [str(root)]
    for pid in mine:
        mine += children[pid]
    return {pid: found[pid] for pid in mine if pid in found}


def named(pid):
    """The kind of a process and the crate that it checks, or its program; nothing of one that has ended."""
    with open(f"/proc/{pid}/cmdline") as file:
        words = file.read().split("\0")
    if not words[0]:
        return None
    if os.path.basename(words[0]) != "rattle" or "--crate-name" not in words:
        return "other", os.path.basename(words[0])
    crate = words[words.index("--crate-name") + 1]
    if "/rt-edit" in os.readlink(f"/proc/{pid}/cwd"):
        return "edit", crate
    return "test" if "--test" in words else "proof", crate


class Seen:
    """A process: its kind and name, its parent, and the processor minutes so far of itself and of children that it has
    waited for."""

    def __init__(self, parent):
        self.name, self.parent = ("other", ""), parent
        self.own = self.waited = 0.0

    def is_check(self):
        return self.name[0] != "other"

    def is_copy(self):
        """Whether it is a copy that a check made of itself."""
        return self.is_check() and self.parent is not None and self.parent.name == self.name


def look(root, seen):
    """Notes the processor time so far of the root and of each process below it, parents first."""
    now = {}
    for pid, stat in below(root).items():
        try:
            name = named(pid)
        except OSError:
            name = None
        one = seen.setdefault((pid, stat[19]), Seen(now.get(stat[1])))
        one.name = name or one.name
        one.own, one.waited = (sum(map(int, ticks)) / TICK / 60 for ticks in (stat[11:13], stat[13:15]))
        now[pid] = one


def minutes_of(seen):
    """The name and the minutes of each process that is no copy. A check's are with those of its copies, also of the ones
    that no look has met, and without those of the programs that it ran."""
    copies, programs = collections.Counter(), collections.Counter()
    for one in reversed(list(seen.values())):
        minutes = one.own
        if one.is_check():
            minutes += max(one.waited - programs[one], copies[one])
        if one.is_copy():
            copies[one.parent] += minutes
            programs[one.parent] += programs[one]
        else:
            programs[one.parent] += minutes + programs[one]
            yield one.name, minutes


def show(seen):
    kinds, crates = collections.Counter(), collections.defaultdict(collections.Counter)
    for (kind, name), minutes in minutes_of(seen):
        kinds[kind] += minutes
        crates[name][kind] += minutes
    print("processor minutes: " + ", ".join(f"{kind} {kinds[kind]:.1f}" for kind in KINDS) + f", together {sum(kinds.values()):.1f}")
    for name, own in sorted(crates.items(), key=lambda row: -sum(row[1].values())):
        if sum(own.values()) >= 0.05:
            print(f"  {name:20} " + "  ".join(f"{kind} {own[kind]:6.2f}" for kind in KINDS))


def main():
    seen = {}
    gate = subprocess.Popen(sys.argv[1:] or ["rt", "ci"])
    while gate.poll() is None:
        look(gate.pid, seen)
        time.sleep(0.5)
    show(seen)
    sys.exit(gate.returncode)


if __name__ == "__main__":
    main()
