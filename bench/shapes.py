#!/usr/bin/env python3
"""Large inputs of many shapes: whether `tv` survives them, how long it takes, and with how much memory.

    bench/shapes.py [PATH OF tv] [WORD ..]      (default: crates/tv/out/tv, all shapes)

With words only the shapes are run whose names have one of them. Each shape is run at a size and at
twice that size, which is its limit where it has one, under a stack of 256 KiB (`ulimit -s 256`) and
8 GiB of memory. A line of the table has

  - the shape and the bytes of its text,
  - the least processor time of five runs, in seconds, and how many times that of half the size,
  - the greatest memory of a run as a multiple of the text (`small` where it isn't above that of
    Python itself, some 18 MB, from which the program is started and which is counted with it),
  - the status, and `!` with a reason where the status or the line of the report is another than the
    shape's, where the run ended by a signal, or where twice the size took more than 2.2 times as
    long (times under 0.1 s are not compared).

After the table comes the greatest memory of `opt-19 -passes=verify -disable-output` on a module of
4,000 functions of 170 instructions, where it is installed, beside that of `tv check` of this module
against itself. The last line counts. The status is 1 where a run ended by a signal, or with another
status or line than the shape's. No test rests on the times.
"""
import os
import re
import resource
import shutil
import subprocess
import sys
import tempfile
import time

TEXT = 16_777_216
PROOF = 268_435_456
STACK = 256 << 10
MEMORY = 8 << 30
RUNS = 5
LONG = 10.0
MOST = 2.2
SHORTEST = 0.1


# Texts. Each is of `n` bytes, or of `n` of what the name says.

def repeated(piece, head="", end=""):
    """Texts of n bytes: a head, a piece again and again, an end."""
    def made(n):
        count = (n - len(head) - len(end)) // len(piece)
        return head + piece * count + end
    return made


def name_twice(n):
    name = "%" + "a" * ((n - 33) // 2)
    return f"define i8 @f(i8 {name}) {{ ret i8 {name} }}\n"


def one_line(n):
    functions = " ".join(f"define i8 @f{k}(i8 %x) {{ ret i8 %x }}" for k in range(4096))
    return functions + " " * (n - len(functions))


def nested(n):
    return "@g = " + "(" * (n // 2 - 4) + ")" * (n // 2 - 4) + "\n"


def chain(n):
    lines = ["define i1 @f(i1 %x) {", "  %r0 = xor i1 %x, false"]
    lines += [f"  %r{k} = xor i1 %r{k - 1}, false" for k in range(1, n - 1)]
    return "\n".join(lines + [f"  ret i1 %r{n - 2}", "}", ""])


def functions(n):
    return "".join(f"define i8 @f{k}(i8 %x) {{ ret i8 %x }}\n" for k in range(n))


def cases(n):
    listed = " ".join(f"i16 {k}, label %e" for k in range(n))
    return f"define i8 @f(i16 %x) {{\n  switch i16 %x, label %e [ {listed} ]\ne:\n  ret i8 0\n}}\n"


def entries(n):
    """A phi of n entries, from as many blocks, to which switches of 64 cases lead."""
    switches, last = n // 64, ["define i8 @f(i16 %x) {"]
    first = " ".join(f"i16 {i}, label %s{i}" for i in range(switches))
    last.append(f"  switch i16 %x, label %e [ {first} ]")
    for i in range(switches):
        listed = " ".join(f"i16 {k}, label %t{i}.{k}" for k in range(64))
        last += [f"s{i}:", f"  switch i16 %x, label %e [ {listed} ]"]
    names = [f"t{i}.{k}" for i in range(switches) for k in range(64)]
    for name in names:
        last += [f"{name}:", "  br label %j"]
    taken = ", ".join(f"[ {at % 200}, %{name} ]" for at, name in enumerate(names))
    return "\n".join(last + ["j:", f"  %r = phi i8 {taken}", "  ret i8 %r", "e:", "  ret i8 0", "}", ""])


def blocks(n):
    """n blocks without instructions, one after the other."""
    lines = ["define i8 @f(i8 %x) {", "  br label %b1"]
    for k in range(1, n - 1):
        lines += [f"b{k}:", f"  br label %b{k + 1}"]
    return "\n".join(lines + [f"b{n - 1}:", "  ret i8 %x", "}", ""])


def waves(n):
    """A row of n blocks, each of which assigns a name, with a way from each to a last row of 4 n
    blocks that is the longer, the earlier it leaves: so the names that every path assigns before the
    last row become fewer n times."""
    lines = ["define i8 @f(i8 %x, i1 %c) {", "  br label %a1"]
    for k in range(1, n + 1):
        lines += [f"a{k}:", f"  %v{k} = add i8 %x, 1", f"  br i1 %c, label %a{k + 1}, label %d{2 * k}"]
    lines += [f"a{n + 1}:", "  br label %z0"]
    for k in range(2, 2 * n + 2):
        lines += [f"d{k}:", f"  br label %d{k + 1}"]
    lines += [f"d{2 * n + 2}:", "  br label %z0"]
    for k in range(4 * n):
        lines += [f"z{k}:", f"  br label %z{k + 1}"]
    return "\n".join(lines + [f"z{4 * n}:", "  ret i8 %x", "}", ""])


def loop(n):
    return ("define i8 @f(i8 %n) {\nentry:\n  br label %head\nhead:\n"
            "  %i = phi i8 [ 0, %entry ], [ %i1, %body ]\n  %s = phi i8 [ 1, %entry ], [ %s1, %body ]\n"
            "  %c = icmp ult i8 %i, %n\n  br i1 %c, label %body, label %exit\nbody:\n"
            "  %s1 = mul i8 %s, 3\n  %i1 = add i8 %i, 1\n  br label %head\nexit:\n  ret i8 %s\n}\n")


# Proof texts of n bytes.

PART = "tvproof 1\nrow @f correct\n"


def long_clause(n):
    literals, left = [], (n - 200) // 2
    while left > 0:
        literals.append(str(len(literals) + 1))
        left -= len(literals[-1]) + 1
    literals.pop()
    whole, rest = " ".join(literals), " ".join(literals[1:])
    return f"{PART}p cnf {len(literals)} 3\n{whole} 0\n-1 0\n1 0\nlog 2\n1 2 0 {rest} 0\n3 2 0 0\n"


def long_chain(n):
    return (f"{PART}p cnf 2 4\n1 0\n-1 2 0\n1 -2 0\n-1 0\nlog 1\n1 " + "2 3 " * ((n - 100) // 4)
            + "4 0 0\n")


def many_clauses(n):
    count = (n - 100) // 2
    return f"{PART}p cnf 1 {count}\n" + "0\n" * count + "log 1\n1 0 0\n"


def many_steps(n):
    count = (n - 100) // 10
    return f"{PART}p cnf 2 3\n1 0\n-1 2 0\n-1 0\nlog {count + 1}\n" + "1 2 0 2 0\n" * count + "1 3 0 0\n"


def many_parts(n):
    part = "row @f correct\np cnf 1 2\n1 0\n-1 0\nlog 1\n1 2 0 0\n"
    return "tvproof 1\n" + part * ((n - 10) // len(part))


# Shapes: name, text, half size and size, words before the files, whether the target is the same text
# (otherwise it is empty), the status, and a line that the output begins with or has as a whole.

ONE_ROW = "correct 0 incorrect 0 unknown 0 refused 0 signature 0 missing 1 extra 0"
NO_ROWS = ONE_ROW.replace("missing 1", "missing 0")
HALVES = (TEXT // 2, TEXT)
READ = ["--weight", "1"]

CHECKED = [
    ("opening brackets", repeated("("), HALVES, [], False, 9, "A:1:1: no item"),
    ("!{", repeated("!{"), HALVES, [], False, 9, "A:1:1: no item"),
    ("quote not closed", repeated("a", '"'), HALVES, [], False, 9, "A:1:1: no token"),
    ("quotes", repeated('"'), HALVES, [], False, 9, "A:1:1: no item"),
    ("one token", repeated("a"), HALVES, [], False, 9, "A:1:1: no item"),
    ("one line of functions", one_line, HALVES, [], False, 3, ONE_ROW.replace(" 1 ", " 4096 ")),
    ("line feeds", repeated("\n"), HALVES, [], False, 0, NO_ROWS),
    ("one comment", repeated("a", ";"), HALVES, [], False, 0, NO_ROWS),
    ("comments", repeated(";\n"), HALVES, [], False, 0, NO_ROWS),
    ("one function's name", repeated("a", "define i8 @", "() { ret i8 0 }\n"), HALVES, [], False, 3, ONE_ROW),
    ("one local name", name_twice, HALVES, [], False, 3, ONE_ROW),
    ("one quoted name", repeated("\\41", 'define i8 @"', '"() { ret i8 0 }\n'), HALVES, [], False, 3, ONE_ROW),
    ("one name of digits", repeated("1", "define i8 @", "() { ret i8 0 }\n"), HALVES, [], False, 3, ONE_ROW),
    ("one literal", repeated("0", "define i8 @f() { ret i8 ", " }\n"), HALVES, [], False, 3, ONE_ROW),
    ("one width", repeated("0", "define i", "8 @f() { ret i8 0 }\n"), HALVES, [], False, 3, ONE_ROW),
    ("one string", repeated("a", 'source_filename = "', '"\n'), HALVES, [], False, 0, NO_ROWS),
    ("one layout", repeated("p:064-", 'target datalayout = "', 'e"\n'), HALVES, [], False, 0, NO_ROWS),
    ("closed brackets", nested, HALVES, [], False, 0, NO_ROWS),
    ("brackets never closed", repeated("[", "@g = "), HALVES, [], False, 9, f"A:1:{TEXT + 1}: text ends"),
    ("globals", repeated("@g=\n"), HALVES, [], False, 0, NO_ROWS),
    ("labels", repeated("a:", "define i8 @f() {\n", "ret i8 0 }\n"), HALVES, [], True, 3,
     "@f refused source Syntax 2:3"),
    ("parameters", repeated(",i8", "define i8 @f(i8", ") {ret i8 0}"), HALVES, [], True, 3,
     "@f refused source Limit 1:62"),
    ("words before a type", repeated("private ", "define ", "i8 @f() {ret i8 0}"), HALVES, READ, True, 2,
     "@f unknown weight"),
    ("attachments", repeated(",!dbg!1", "define i8 @f() {ret i8 0", "}"), HALVES, READ, True, 2,
     "@f unknown weight"),
    ("a record", repeated("!1,", "define i8 @f() {\n#dbg_value(", "!1)\nret i8 0}"), HALVES, READ, True, 2,
     "@f unknown weight"),
    ("entries of one block", repeated(",[1,%e]", "define i8 @f() {e: br label %j j:%r=phi i8 [1,%e]",
                                      " ret i8 %r}"), HALVES, READ, True, 2, "@f unknown weight"),
    ("indices", repeated(",i8%y", "define ptr @f(ptr %x,i8%y) {%r=getelementptr i8,ptr %x,i8%y", " ret ptr %r}"),
     HALVES, [], True, 3, "@f refused source TypeClash 1:63"),
    ("chain, judged", chain, (32_768, 65_536), ["--turns", "0", "--weight", "131072"], True, 0, "@f correct"),
    ("chain, too heavy", chain, (65_536,), ["--turns", "0", "--weight", "131071"], True, 2, "@f unknown weight"),
    ("chain, one more", chain, (65_537,), ["--turns", "0", "--weight", "131072"], True, 3,
     "@f refused source Limit 65538:3"),
    ("functions", functions, (2_048, 4_096), [], True, 0, "@f2047 correct"),
    ("functions, one more", functions, (4_097,), [], True, 9, "A:4097:1: too many functions"),
    ("cases", cases, (128, 256), [], True, 0, "@f correct"),
    ("cases, one more", cases, (257,), [], True, 3, "@f refused source Limit 2:4527"),
    ("entries, read", entries, (8_192, 16_384), READ, True, 2, "@f unknown weight"),
    ("entries, judged", entries, (1_024, 2_048), ["--turns", "0", "--weight", "10000000"], True, 0, "@f correct"),
    ("blocks, read", blocks, (32_768, 65_536), READ, True, 2, "@f unknown weight"),
    ("blocks in waves, read", waves, (1_000, 2_000), READ, True, 2, "@f unknown weight"),
    ("blocks, judged", blocks, (4_096, 8_192), ["--turns", "0"], True, 0, "@f correct"),
    ("loop, 32 and 64 turns", loop, (32, 64), ["--turns", "N"], True, 0, "@f correct"),
]

LOGGED = [
    ("proof: long clause", long_clause, (PROOF // 2, PROOF), 0, "verified 1 bad 0"),
    ("proof: long chain", long_chain, (PROOF // 2, PROOF), 0, "verified 1 bad 0"),
    ("proof: empty clauses", many_clauses, (PROOF // 32, PROOF // 16), 0, "verified 1 bad 0"),
    ("proof: steps", many_steps, (PROOF // 32, PROOF // 16), 0, "verified 1 bad 0"),
    ("proof: parts", many_parts, (PROOF // 32, PROOF // 16), 0, "@f correct verified"),
    ("proof: line feeds", repeated("\n", "tvproof 1\n"), (PROOF // 2, PROOF), 9, "A:2: proof text"),
]


# Runs.

def own_memory():
    with open("/proc/self/statm") as file:
        return int(file.read().split()[1]) * resource.getpagesize()


def limits():
    resource.setrlimit(resource.RLIMIT_STACK, (STACK, resource.getrlimit(resource.RLIMIT_STACK)[1]))
    resource.setrlimit(resource.RLIMIT_AS, (MEMORY, MEMORY))


def run(words, folder):
    """Status (below 0: the signal), the first bytes of the output and its last, processor time,
    bytes of memory."""
    with tempfile.TemporaryFile() as out:
        child = subprocess.Popen(words, cwd=folder, stdout=out, stderr=subprocess.DEVNULL, preexec_fn=limits)
        _, code, used = os.wait4(child.pid, 0)
        child.returncode = -os.WTERMSIG(code) if os.WIFSIGNALED(code) else os.WEXITSTATUS(code)
        size = os.fstat(out.fileno()).st_size
        ends = os.pread(out.fileno(), 200_000, 0) + b"\n" + os.pread(out.fileno(), 300, max(0, size - 300))
    return child.returncode, ends.decode("latin-1"), used.ru_utime + used.ru_stime, used.ru_maxrss * 1024


def best_run(words, folder):
    status, ends, seconds, memory = run(words, folder)
    for _ in range(RUNS - 1):
        if seconds < LONG:
            again = run(words, folder)
            seconds, memory = min(seconds, again[2]), max(memory, again[3])
    return status, ends, seconds, memory


def write(folder, name, text):
    with open(os.path.join(folder, name), "w", encoding="latin-1") as file:
        file.write(text)
    return len(text)


class Table:
    def __init__(self, tv):
        self.tv, self.runs, self.signals, self.others, self.slow = tv, 0, 0, 0, 0

    def shape(self, folder, name, text, sizes, words, files, status, line):
        before = None
        for n in sizes:
            size = write(folder, "A", text(n))
            given = [str(n) if word == "N" else word for word in words]
            got, ends, seconds, memory = best_run([self.tv, *given, *files], folder)
            wrong = self.wrong(got, ends, status, line if n == sizes[-1] else "", seconds, before)
            ratio = f"{seconds / before:5.2f}" if before else ""
            times = f"{memory / size:.1f}" if memory > 1.1 * own_memory() else "small"
            print(f"{name:<24} {size:>11,} {seconds:8.3f} {ratio:>5} {times:>9} {got:>3} {wrong}".rstrip(),
                  flush=True)
            before = seconds

    def wrong(self, got, ends, status, line, seconds, before):
        self.runs += 1
        if got < 0:
            self.signals += 1
            return f"! signal {-got}"
        if got != status or not (line == "" or re.search(rf"^{re.escape(line)}", ends, re.M)):
            self.others += 1
            return f"! not {status} {line}: {ends[:100]!r}"
        if before and before >= SHORTEST and seconds > MOST * before:
            self.slow += 1
            return f"! more than {MOST} times"
        return ""


def module(functions_count, instructions):
    """Functions of so many instructions, with short names."""
    body = "".join(f"  %{k} = or i8 %{k - 1}, 1\n" for k in range(3, instructions + 1))
    body = f"  %2 = or i8 %0, 1\n{body}  ret i8 %{instructions}\n}}\n"
    return "".join(f"define i8 @f{k}(i8 %0) {{\n{body}" for k in range(functions_count))


def beside_opt(tv, folder):
    size = write(folder, "A", module(4_000, 170))
    runs = [("tv check, both sides", [tv, "check", "A", "A"]),
            ("tv check --weight 1", [tv, "check", "--weight", "1", "A", "A"]),
            ("tv check, empty target", [tv, "check", "A", "B"])]
    if shutil.which("opt-19"):
        runs.append(("opt-19", ["opt-19", "-passes=verify", "-disable-output", "A"]))
    print(f"\n4,000 functions of 170 instructions, {size:,} bytes")
    for name, words in runs:
        started = time.perf_counter()
        child = subprocess.Popen(words, cwd=folder, stdout=subprocess.DEVNULL, stderr=subprocess.DEVNULL,
                                 preexec_fn=lambda: None)
        _, _, used = os.wait4(child.pid, 0)
        child.returncode = 0
        took, memory = time.perf_counter() - started, used.ru_maxrss * 1024
        print(f"  {name:<24} {took:6.2f} s {memory / 1e6:7.0f} MB {memory / size:6.1f} times the text")


def main():
    here = os.path.dirname(os.path.abspath(__file__))
    tv = os.path.abspath(sys.argv[1] if len(sys.argv) > 1 else os.path.join(here, "..", "crates/tv/out/tv"))
    wanted = sys.argv[2:]
    table = Table(tv)
    print(f"{'shape':<24} {'bytes':>11} {'seconds':>8} {'ratio':>5} {'mem/bytes':>9} status")
    with tempfile.TemporaryDirectory() as folder:
        write(folder, "B", "")
        for name, text, sizes, words, same, status, line in CHECKED:
            if not wanted or any(word in name for word in wanted):
                files = ["A", "A" if same else "B"]
                table.shape(folder, name, text, sizes, ["check", *words], files, status, line)
        for name, text, sizes, status, line in LOGGED:
            if not wanted or any(word in name for word in wanted):
                table.shape(folder, name, text, sizes, ["log"], ["A"], status, line)
        if not wanted or "opt" in wanted:
            beside_opt(tv, folder)
    print(f"{table.runs} sizes of shapes, {table.signals} ended by a signal, {table.others} with another answer, "
          f"{table.slow} above {MOST} times")
    return 1 if table.signals or table.others else 0


if __name__ == "__main__":
    sys.exit(main())
