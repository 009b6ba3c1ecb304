#!/usr/bin/env python3
"""Damages modules and gives them to `tv check`, until it is stopped or something is wrong.

    tools/mutate.py [--tv PATH] [--seed N] [--texts N] [--minutes M] [--every S] [--keep FOLDER]
                    [--first BATCH] [--conflicts N] [--go-on] [MODULE ..]

The texts are the modules of this repository, what clang-19 and opt-19 make of bench/pairs.c and of
the C functions below where both are installed, and the modules that are named. A damaged text is a
function or a module of which bytes were changed, deleted, put in or doubled, tokens exchanged,
replaced, deleted or doubled, names, types or numbers changed, lines moved, deleted or doubled,
that was cut at a byte, or whose rest is that of another. Each is compared with a whole text, on
one side or the other, and one in eight with itself. Damaged functions whose brackets and quotes
still close stand in one module, 24 together; all others are modules of their own. Each run of
tv has small bounds, a stack of 256 KiB and 2 GiB of memory, and may learn --conflicts clauses for
a question (default 1000; 0 is no limit): some sums of eight numbers would take minutes.

A line of counts comes every S seconds (default 60) and at the end: damaged texts, runs, texts a
second, and runs by status. At the end come the rows and the faults by kind, and the damages. It
ends at Ctrl-C, after so many texts or minutes, or with status 1 at the first run that

  - ends by a signal, or takes more than 10 s,
  - has another status than 0, 1, 2, 3 or 9 (no command line here is wrong, no text too long),
  - writes to standard error, or a report whose rows, counts and status don't agree,
  - finds a function `incorrect`, `signature`, `missing` or `extra` against itself.

Both files of that run are then in FOLDER (default mutate-kept), with what was wrong. With --go-on
it keeps them and goes on, and the status is 1 at the end. From the seed (default 1), the number of
a batch and the texts follow all of a batch's runs: `--seed N --first BATCH --texts 1` repeats one.
"""
import argparse
import collections
import os
import random
import re
import resource
import shutil
import signal
import subprocess
import sys
import tempfile
import threading
import time

import tvir
import tvlib
import tvreport

BOUNDS = ["--turns", "1", "--blocks", "1", "--bytes", "2", "--weight", "2000", "--workers", "1"]
CONFLICTS = 1000
SECONDS = 10
STACK = 256 << 10
MEMORY = 2 << 30
TOGETHER = 24
BATCH = 48
STATUSES = {0, 1, 2, 3, 9}
LONGEST = 6000

# Small C functions: memory, loops, and much that isn't read.
SMALL_C = r"""
struct point { int x; short y; char *name; };
struct list { struct list *next; int value; };
static int total; extern int table[8]; const char letters[] = "abc\"\\\n";
union both { float f; unsigned u; };
int printf(const char *, ...);
int sum(const int *p, unsigned n) { int s = 0; for (unsigned i = 0; i < n; i++) s += p[i]; return s; }
void copy(char *to, const char *from) { while ((*to++ = *from++)) ; }
void swap(int *a, int *b) { int t = *a; *a = *b; *b = t; }
char first(const char *s) { return s ? s[0] : 0; }
int local(int i) { char a[4] = {1, 2, 3, 4}; return a[i & 3]; }
int grid(int i, int j) { short g[3][4]; g[i % 3][j & 3] = 7; return g[0][1]; }
int field(struct point *p) { p->x++; return p->x + p->y; }
int length(const struct list *l) { int n = 0; while (l) { n++; l = l->next; } return n; }
int count(void) { return ++total; }
int look(unsigned i) { return i < 8 ? table[i] : letters[i % 3]; }
float scale(float x, double y) { return x * (float)y + 1.5f; }
unsigned bits(float x) { union both b; b.f = x; return b.u; }
int say(int n) { return printf("%d\n", n); }
int fib(int n) { return n < 2 ? n : fib(n - 1) + fib(n - 2); }
long power(long b, unsigned e) { long r = 1; while (e) { if (e & 1) r *= b; b *= b; e >>= 1; } return r; }
int pick(int n) { switch (n) { case -1: return 5; case 0: case 1: return n; case 1000: return 2; } return n * 3; }
_Bool both(_Bool a, _Bool b) { return a && !b; }
__int128 wide(long a, long b) { return (__int128)a * b; }
void *same(void *p) { return p; }
int many(int a, int b, int c, int d, int e, int f, int g, int h) { return a - b + c - d + e - f + g - h; }
unsigned char last(unsigned char *p) { p[1] = 3; p[0] = 4; return p[1]; }
"""
FLAGS = ["-S", "-emit-llvm", "-Xclang", "-disable-O0-optnone", "-w"]
PASSES = ["sroa", "mem2reg,instcombine<no-verify-fixpoint>,simplifycfg", "sroa,early-cse,gvn",
          "sroa,loop-rotate,licm,dse"]

ODD_TOKENS = """
call float double half fp128 <4 x i8> i65 i0 i08 i00 i16777216 i99999999999999999999 @g !tbaa
!dbg !1 !{} !{!0} !"a" align 0x1F 0xK1F 1.5 -1.5e+3 undef poison null true false zeroinitializer
void ptr label token metadata opaque i8 i4 i64 i128 %x %0 %1 %"a" %"" @"f" $c #0 #dbg_value ^1 ( )
[ ] { } < > , = * ... | : ! b1: 0: -5: "a b": entry: "s" c"s" "" nuw nsw exact inbounds nusw
disjoint samesign nneg noundef nonnull zeroext signext noalias sret(i8) byval(i8) dereferenceable(4)
range(i8 define declare ret br switch phi select freeze unreachable add sub mul udiv srem shl ashr
icmp fcmp eq slt load store alloca getelementptr extractvalue insertelement ptrtoint inttoptr
bitcast addrspacecast invoke landingpad resume fence atomicrmw cmpxchg va_arg tail volatile atomic
addrspace(1) x to comdat splat blockaddress dso_local_equivalent global constant asm target
datalayout triple source_filename attributes module uselistorder vscale ; " % @ $ # ^ - + . \\ & ' `
"""
NUMBERS = ["0", "1", "-1", "2", "7", "8", "9", "15", "16", "17", "31", "32", "63", "64", "65", "-128",
           "-129", "127", "128", "255", "256", "4096", "4097", "8192", "65535", "65536", "1048576",
           "2147483647", "2147483648", "-2147483648", "4294967295", "4294967296",
           "9223372036854775807", "9223372036854775808", "-9223372036854775808",
           "-9223372036854775809", "18446744073709551615", "18446744073709551616", "-0", "00", "007",
           "1" * 40, "-" + "9" * 400]
TYPES = ["i1", "i2", "i7", "i8", "i16", "i32", "i33", "i64", "i65", "i0", "i128", "ptr", "void",
         "float", "label", "[ 2 x i8 ]", "[ 0 x i16 ]", "[ 3 x [ 2 x ptr ] ]", "{ i8, i8 }",
         "<2 x i8>", "[ 64 x i8 ]", "[ 65 x i8 ]", "[ 18446744073709551615 x i64 ]",
         "[ 1 x [ 1 x [ 1 x [ 1 x [ 1 x [ 1 x [ 1 x [ 1 x [ 1 x i8 ] ] ] ] ] ] ] ] ]"]
BYTES = "%@!#$^(){}[]<>,=*:|;\"\\-+._ \n\t\r0189aifx\0\x01\x7f\x80\xc3\xff&'`~?/"

TOKEN = re.compile(r"\s+|[%@$]\"[^\"]*\"|\"[^\"]*\"|[%@!#$^]?-?[A-Za-z0-9_.$-]+:?|.", re.S)
LOCAL = re.compile(r"%[A-Za-z0-9_.]+")
NUMBER = re.compile(r"(?<![\w.%@!#$-])-?\d+\b")
TYPE = re.compile(r"\bi\d+\b|\bptr\b")
# what most functions that tv doesn't read have; the others are taken more often
UNREAD = re.compile(r"\bcall |float|double|i128|%struct|%union|!tbaa|range\(|@(?!NAME\()|readonly|returned")


# Damages: each makes a text of a text. `others` are texts whose parts may be taken.

def byte_changed(rng, text, others):
    at = rng.randrange(len(text))
    new = rng.choice(BYTES) if rng.random() < 0.7 else chr(rng.randrange(256))
    return text[:at] + new + text[at + 1:]


def byte_put_in(rng, text, others):
    at = rng.randrange(len(text) + 1)
    return text[:at] + rng.choice(BYTES) + text[at:]


def bytes_deleted(rng, text, others):
    at = rng.randrange(len(text))
    return text[:at] + text[at + rng.choice((1, 1, 2, 3, 8)):]


def bytes_doubled(rng, text, others):
    at = rng.randrange(len(text))
    end = at + rng.choice((1, 1, 2, 5, 16, 40))
    return text[:end] + text[at:end] * rng.choice((1, 1, 1, 2, 30)) + text[end:]


def tokens_exchanged(rng, text, others):
    tokens = TOKEN.findall(text)
    k, j = rng.randrange(len(tokens)), rng.randrange(len(tokens))
    tokens[k], tokens[j] = tokens[j], tokens[k]
    return "".join(tokens)


def token_replaced(rng, text, others):
    tokens = TOKEN.findall(text)
    k = rng.randrange(len(tokens))
    space = " " if rng.random() < 0.3 else ""
    tokens[k] = space + rng.choice(others.tokens) + space
    return "".join(tokens)


def token_deleted(rng, text, others):
    tokens = TOKEN.findall(text)
    del tokens[rng.randrange(len(tokens))]
    return "".join(tokens)


def token_doubled(rng, text, others):
    tokens = TOKEN.findall(text)
    k = rng.randrange(len(tokens))
    tokens[k] += rng.choice((" ", "", ", ")) + tokens[k]
    return "".join(tokens)


def match_changed(rng, text, pattern, new):
    """The text with one match of a pattern, if it has one, replaced."""
    places = [m.span() for m in pattern.finditer(text)]
    if not places:
        return text
    begin, end = rng.choice(places)
    return text[:begin] + new + text[end:]


def name_changed(rng, text, others):
    names = LOCAL.findall(text)
    return match_changed(rng, text, LOCAL, rng.choice(names)) if names else text


def number_changed(rng, text, others):
    return match_changed(rng, text, NUMBER, rng.choice(NUMBERS))


def type_changed(rng, text, others):
    return match_changed(rng, text, TYPE, rng.choice(TYPES))


def line_moved(rng, text, others):
    lines = text.split("\n")
    line = lines.pop(rng.randrange(len(lines)))
    lines.insert(rng.randrange(len(lines) + 1), line)
    return "\n".join(lines)


def line_deleted(rng, text, others):
    lines = text.split("\n")
    del lines[rng.randrange(len(lines))]
    return "\n".join(lines)


def line_doubled(rng, text, others):
    lines = text.split("\n")
    lines.insert(rng.randrange(len(lines) + 1), rng.choice(lines))
    return "\n".join(lines)


def line_of_another(rng, text, others):
    lines, more = text.split("\n"), rng.choice(others.functions).split("\n")
    lines.insert(rng.randrange(len(lines) + 1), rng.choice(more))
    return "\n".join(lines)


def cut(rng, text, others):
    return text[:rng.randrange(len(text))]


def spliced(rng, text, others):
    """The front of a text, and the rest of another, both cut anywhere or both at a line's end."""
    other = rng.choice(others.functions)
    if rng.random() < 0.6:
        lines, more = text.split("\n"), other.split("\n")
        front = lines[:rng.randrange(1, len(lines) + 1)]
        return "\n".join(front + more[rng.randrange(len(more)):])
    return text[:rng.randrange(len(text))] + other[rng.randrange(len(other)):]


DAMAGES = [byte_changed, byte_changed, byte_put_in, bytes_deleted, bytes_doubled, tokens_exchanged,
           tokens_exchanged, token_replaced, token_replaced, token_replaced, token_deleted,
           token_doubled, name_changed, name_changed, number_changed, number_changed, type_changed,
           type_changed, line_moved, line_deleted, line_doubled, line_of_another, cut, spliced]
QUOTED = re.compile(r'"[^"]*"|;[^\n]*')
NO_BRACKET = re.compile(r"[^][(){}]+")
NO_BYTE = re.compile(r'[^-\w\s$.%@!#^(){}\[\]<>,=*:|+"\\]', re.A)
PAIR = re.compile(r"\(\)|\[\]|\{\}")


def closes(text):
    """Whether all quotes and brackets of a function seem to close, and nothing else seems to keep
    it from standing in a module."""
    quiet = QUOTED.sub("", text)
    if '"' in quiet or NO_BYTE.search(quiet):
        return False
    marks, before = NO_BRACKET.sub("", quiet), None
    while marks != before:
        marks, before = PAIR.sub("", marks), marks
    return not marks and text.startswith("define ") and text.endswith("}\n")


# The texts.

class Texts:
    """Modules as lists of functions by name, in several versions, and whole small modules."""

    def __init__(self, families, modules):
        self.families = families
        self.modules = modules
        self.functions = [text for family in families for text in family]
        plain = ([text for text in family if not UNREAD.search(text)] for family in families)
        self.plain = [family for family in plain if family]
        words = {token for text in self.functions for token in TOKEN.findall(text)}
        odd = ODD_TOKENS.split() * 3 + [" ", "\n", "\0", "\x80"]
        self.tokens = sorted(words - {" "}) + odd


def cut_up(versions):
    """Families of functions of one name, from versions of one module; none is very long."""
    families = collections.defaultdict(list)
    for text in versions:
        for function in tvir.functions_of(text):
            if len(function.text) <= LONGEST:
                families[function.name].append(tvir.DEFINE.sub("@NAME(", function.text, 1))
    return [sorted(set(family)) for _, family in sorted(families.items())]


def latin(path):
    with open(path, "rb") as file:
        return file.read().decode("latin-1")


def repository():
    """The modules of this repository, with those together that are versions of one."""
    root = os.path.dirname(tvlib.HERE)
    found = collections.defaultdict(list)
    for top in ("crates", "examples", "tools"):
        for folder, names, files in os.walk(os.path.join(root, top)):
            names[:] = sorted(name for name in names if name != "out")
            for name in sorted(files):
                if name.endswith(".ll"):
                    family = re.sub(r"_?(before|after)", "", name)
                    found[folder, family].append(latin(os.path.join(folder, name)))
    return [found[key] for key in sorted(found)]


def compiled(folder):
    """Versions of the modules that clang-19 and opt-19 make of C texts; none without them."""
    if not (shutil.which("clang-19") and shutil.which("opt-19")):
        return []
    small = os.path.join(folder, "small.c")
    with open(small, "w") as file:
        file.write(SMALL_C)
    pairs = os.path.join(os.path.dirname(tvlib.HERE), "bench", "pairs.c")
    found = []
    for source, flags in ((pairs, ["-O0"]), (small, ["-O0"]), (small, ["-O0", "-g"]), (small, ["-O2"])):
        raw = os.path.join(folder, "raw.ll")
        subprocess.run(["clang-19", *flags, *FLAGS, source, "-o", raw], check=True, cwd=folder)
        versions = [latin(raw)]
        for passes in PASSES:
            target = os.path.join(folder, "passed.ll")
            words = ["opt-19", "-S", f"-passes=function({passes})", raw, "-o", target]
            words[2] = words[2].replace("licm", "loop-mssa(licm)").replace("loop-rotate", "loop(loop-rotate)")
            subprocess.run(words, check=True)
            versions.append(latin(target))
        found.append(versions)
    return found


def made_texts(folder, named):
    versions = repository() + compiled(folder) + [[latin(name)] for name in named]
    families = [family for module in versions for family in cut_up(module)]
    whole = [text for module in versions for text in module if text.strip()]
    return Texts(families, whole)


# Runs.

class Wrong(Exception):
    """What is wrong with a run."""


class Stopped(Exception):
    """The first run with something wrong was kept."""


class Runner:
    """Runs tv on two texts, one run after the other; `watch` ends one that takes too long."""

    def __init__(self, tv, folder, conflicts):
        self.names = [os.path.join(folder, name) for name in ("before.ll", "after.ll")]
        self.options = [*BOUNDS, "--conflicts", str(conflicts)]
        self.words = [tv, "check", *self.options, *self.names]
        self.streams = [os.open(os.path.join(folder, name), os.O_RDWR | os.O_CREAT)
                        for name in ("out", "err")]
        self.child, self.begun, self.ended = None, 0.0, False

    def run(self, texts):
        """Status, output and seconds; `Wrong` where it ended by a signal or took too long."""
        for name, text in zip(self.names, texts):
            with open(name, "wb") as file:
                file.write(text.encode("latin-1"))
        for stream in self.streams:
            os.ftruncate(stream, 0)
            os.lseek(stream, 0, os.SEEK_SET)
        actions = [(os.POSIX_SPAWN_DUP2, stream, at + 1) for at, stream in enumerate(self.streams)]
        self.ended, self.begun = False, time.monotonic()
        self.child = os.posix_spawn(self.words[0], self.words, {}, file_actions=actions)
        _, code = os.waitpid(self.child, 0)
        self.child = None
        took = time.monotonic() - self.begun
        if self.ended:
            raise Wrong(f"more than {SECONDS} s")
        if os.WIFSIGNALED(code):
            raise Wrong(f"signal {os.WTERMSIG(code)}")
        output, errors = (os.pread(stream, os.fstat(stream).st_size, 0) for stream in self.streams)
        if errors:
            raise Wrong(f"standard error: {errors[:200]}")
        return os.WEXITSTATUS(code), output.decode("latin-1"), took

    def watch(self):
        child = self.child
        if child is not None and time.monotonic() - self.begun > SECONDS:
            self.ended = True
            try:
                os.kill(child, signal.SIGKILL)
            except ProcessLookupError:
                pass


FAULT = re.compile(r"^.*/(before|after)\.ll:(\d+):\d+: ([a-z ]+)\n$", re.S)
POSITION = re.compile(r"(source|target) (\w+) \d+:\d+$")
DIFFERENT = {"incorrect", "signature", "missing", "extra"}


def rows_of(status, output):
    """The rows of a report: name, kind, and both with a reason; `Wrong` where its rows, counts and
    status don't agree."""
    try:
        report = tvreport.report_in(output)
    except tvreport.BadReport as bad:
        raise Wrong(f"no report: {bad.why}") from None
    if report.limits["turns"] != 1 or status != tvreport.status_of(report.rows):
        raise Wrong(f"status {status}, turns {report.limits['turns']}: {output[:200]!r}")
    rows = []
    for row in report.rows:
        reason = POSITION.sub(r"\2", row.detail)
        rows.append((row.name, row.kind, f"{row.kind} {reason}".strip()))
    return rows


class Counts:
    def __init__(self):
        self.begun = time.monotonic()
        self.texts = self.runs = self.wrong = 0
        self.slowest = 0.0
        self.statuses, self.rows, self.faults, self.damages = (collections.Counter() for _ in range(4))

    def line(self):
        took = time.monotonic() - self.begun
        statuses = " ".join(f"{status}: {count}" for status, count in sorted(self.statuses.items()))
        return (f"{self.texts} texts, {self.runs} runs, {took:.0f} s, {self.texts / took:.0f} texts "
                f"a second, slowest {self.slowest:.2f} s, wrong {self.wrong}; statuses {statuses}")

    def whole(self):
        for title, counts in (("rows", self.rows), ("faults", self.faults), ("damages", self.damages)):
            yield title + ": " + ", ".join(f"{name} {count}" for name, count in sorted(counts.items()))


class Loop:
    """Batches of damaged texts, until `stop` is set."""

    def __init__(self, options, runner, texts):
        self.options, self.runner, self.texts = options, runner, texts
        self.counts, self.stop, self.batch = Counts(), threading.Event(), options.first
        self.failure = None

    def damaged(self, rng, text):
        for _ in range(rng.choice((1, 1, 1, 2, 3))):
            damage = rng.choice(DAMAGES)
            self.counts.damages[damage.__name__] += 1
            text = damage(rng, text, self.texts) or "\n"
        return text

    def sides(self, rng, text, whole):
        """A damaged text and a whole one as source and target; or the damaged one twice."""
        side = rng.randrange(8)
        if side == 0:
            return text, text
        return (text, whole) if side < 5 else (whole, text)

    def one_batch(self, number):
        rng = random.Random(f"{self.options.seed}:{number}")
        together = []
        for k in range(BATCH):
            family = rng.choice(self.texts.plain if rng.random() < 0.75 else self.texts.families)
            source, target = (rng.choice(family).replace("@NAME", f"@f{k}") for _ in range(2))
            damaged = self.damaged(rng, source)
            pair = (*self.sides(rng, damaged, target), f"f{k}")
            if closes(damaged) and f" @f{k}(" in damaged:
                together.append(pair)
            else:
                self.judged([pair])
        for at in range(0, len(together), TOGETHER):
            self.judged(together[at:at + TOGETHER])
        for _ in range(2):
            whole = self.window(rng, rng.choice(self.texts.modules))
            self.judged([(*self.sides(rng, self.damaged(rng, whole), whole), None)])

    def window(self, rng, module):
        """A part of a long module, from one function on."""
        if len(module) <= LONGEST:
            return module
        at = module.find("\ndefine ", rng.randrange(len(module)))
        at = max(at, 0)
        return module[at:at + LONGEST]

    def judged(self, pairs):
        """Runs pairs, each two texts and their function's name, as two modules; where one is
        refused as a whole, again without that pair."""
        while pairs:
            texts = ["".join(pair[side] for pair in pairs) for side in (0, 1)]
            same = {name for source, target, name in pairs if source == target}
            try:
                culprit = self.one_run(texts, len(pairs), same)
            except Wrong as wrong:
                self.kept(texts, wrong)
                return
            if culprit is None:
                return
            del pairs[min(culprit, len(pairs) - 1)]

    def one_run(self, texts, count, same):
        """Counts a run of so many pairs, of which some functions are the same on both sides. Where
        a module is refused as a whole, the number of the pair at which."""
        counts = self.counts
        counts.runs += 1
        status, output, took = self.runner.run(texts)
        counts.slowest = max(counts.slowest, took)
        counts.statuses[status] += 1
        if status not in STATUSES:
            raise Wrong(f"status {status}: {output[:200]!r}")
        if status != 9:
            rows = rows_of(status, output)
            for name, kind, reason in rows:
                if kind in DIFFERENT and (name in same or texts[0] == texts[1]):
                    raise Wrong(f"a function against itself: @{name} {reason}")
                counts.rows[reason] += 1
            counts.texts += count
            return None
        fault = FAULT.match(output)
        if not fault:
            raise Wrong(f"no fault: {output[:200]!r}")
        counts.faults[fault.group(3)] += 1
        counts.texts += 1
        text, line = texts[fault.group(1) == "after"], int(fault.group(2))
        before = "\n".join(text.split("\n")[:line])
        return max(before.count("define ") - 1, 0) if count > 1 else 0

    def kept(self, texts, wrong):
        self.counts.wrong += 1
        os.makedirs(self.options.keep, exist_ok=True)
        name = os.path.join(self.options.keep,
                            f"seed{self.options.seed}-batch{self.batch}-run{self.counts.runs}")
        for text, ending in zip(texts, ("before.ll", "after.ll")):
            tvlib.write_out(f"{name}.{ending}", text.encode("latin-1"))
        words = " ".join(["tv check", *self.runner.options, f"{name}.before.ll", f"{name}.after.ll"])
        tvlib.write_out(f"{name}.txt", f"{wrong}\n{words}\n")
        print(f"{wrong}: {name}.before.ll and {name}.after.ll", flush=True)
        if not self.options.go_on:
            raise Stopped

    def work(self):
        try:
            while not self.stop.is_set():
                self.one_batch(self.batch)
                self.batch += 1
                if self.options.texts and self.counts.texts >= self.options.texts:
                    return
        except Stopped:
            return
        except BaseException as failure:
            self.failure = failure


def limit():
    """Memory and stack of the children. This script's own work is in a thread, which has a stack
    of its own."""
    threading.stack_size(16 << 20)
    for which, most in ((resource.RLIMIT_AS, MEMORY), (resource.RLIMIT_STACK, STACK)):
        _, hard = resource.getrlimit(which)
        resource.setrlimit(which, (most, hard))


def watched(loop, options):
    """Starts the loop, prints its counts, and stops it in time."""
    worker = threading.Thread(target=loop.work, daemon=True)
    limit()
    worker.start()
    shown = end = time.monotonic()
    end += options.minutes * 60 if options.minutes else float("inf")
    while worker.is_alive():
        worker.join(0.2)
        loop.runner.watch()
        now = time.monotonic()
        if now >= end:
            loop.stop.set()
        if now - shown >= options.every:
            shown = now
            print(f"batch {loop.batch}: {loop.counts.line()}", flush=True)
    if loop.failure:
        raise loop.failure


def main():
    parser = argparse.ArgumentParser(description=__doc__,
                                     formatter_class=argparse.RawDescriptionHelpFormatter)
    parser.add_argument("--tv", help="the program (default: TV, crates/tv/out/tv, tv)")
    parser.add_argument("--seed", type=int, default=1)
    parser.add_argument("--first", type=int, default=0, metavar="BATCH")
    parser.add_argument("--texts", type=int, default=0)
    parser.add_argument("--minutes", type=float, default=0)
    parser.add_argument("--every", type=float, default=60, metavar="SECONDS")
    parser.add_argument("--conflicts", type=int, default=CONFLICTS, metavar="N")
    parser.add_argument("--keep", default="mutate-kept", metavar="FOLDER")
    parser.add_argument("--go-on", action="store_true")
    parser.add_argument("modules", nargs="*", metavar="MODULE")
    options = parser.parse_args()
    tv = os.path.abspath(shutil.which(options.tv or tvlib.tv_program()) or options.tv)
    with tempfile.TemporaryDirectory(prefix="tv-") as folder:
        texts = made_texts(folder, options.modules)
        print(f"seed {options.seed}: {len(texts.families)} functions in {len(texts.functions)} "
              f"versions, {len(texts.modules)} modules", flush=True)
        loop = Loop(options, Runner(tv, folder, options.conflicts), texts)
        for number in (signal.SIGINT, signal.SIGTERM):
            signal.signal(number, lambda *_: loop.stop.set())
        watched(loop, options)
        print(f"batches {options.first} to {loop.batch}: {loop.counts.line()}")
        for line in loop.counts.whole():
            print(line)
    return 1 if loop.counts.wrong else 0


if __name__ == "__main__":
    tvlib.start(main)
