#!/usr/bin/env python3
"""Runs of the program in which one request fails: for memory, or of a read, a write, an open or a rename.

    tools/failing.py [PATH OF tv] [--at-most N] [--copies N]

The default is `TV`, else crates/tv/out/tv, 1,000, and all copies.

A small library that is loaded before the C library (`LD_PRELOAD`; it is built with `cc`) counts the
requests of a run and lets the Nth one fail. The jobs are an incorrect pair, a pair over memory, six pairs on
1, 2 and 64 workers, a proof file that is written, and one that is checked.

A job on one worker is run once, and each of its requests for memory fails in a copy of the process (`fork`)
that is made at the request and goes on from there; with `--copies N` in at most N of them, evenly spread. Requests
on several workers, and calls of the system, fail in a run for each N, or in at most N runs, evenly spread.

  - memory: each run has to end with status 8 and write nothing, or with the answer that the job has
    where nothing fails. A proof file may have been written by then.
  - input and output: 5 and `cannot read NAME`; 7 and `cannot write NAME`, or a prefix of the report; or the
    job's own answer. Where standard output failed while another line was written, that status with a
    prefix of the line.
  - short reads and writes, of one byte and of seven: the job's own answer.
  - interrupted ones (EINTR): as where they fail, since `tv` does not try them again.

A line for each job says how many requests it has, how many copies or runs there were, and how many ended with
each status. The status is 1 where one ended otherwise. Where there is no `cc` or no `tv`, a line counts what is
skipped.
"""
import argparse
import collections
import concurrent.futures
import os
import shutil
import subprocess
import sys
import tempfile

BUILT = os.path.join(os.path.dirname(os.path.dirname(os.path.realpath(__file__))), "crates", "tv", "out", "tv")
LIBRARY = r"""
#define _GNU_SOURCE
#include <dlfcn.h>
#include <errno.h>
#include <fcntl.h>
#include <stdarg.h>
#include <stdatomic.h>
#include <stdio.h>
#include <stdlib.h>
#include <string.h>
#include <sys/mman.h>
#include <sys/syscall.h>
#include <sys/wait.h>
#include <unistd.h>

static atomic_long memory, calls, reads;
static long memory_fails, call_fails, most, interrupted, every = 1;
static const char *counts;
static int told = -1, taken;

__attribute__((constructor)) static void begin(void) {
    const char *text;
    if ((text = getenv("MEMORY_FAILS"))) memory_fails = atol(text);
    if ((text = getenv("CALL_FAILS"))) call_fails = atol(text);
    if ((text = getenv("MOST"))) most = atol(text);
    if ((text = getenv("INTERRUPTED"))) interrupted = atol(text);
    if ((text = getenv("EVERY"))) every = atol(text);
    counts = getenv("COUNTS");
    if ((text = getenv("EACH"))) {
        told = open(text, O_WRONLY | O_CREAT | O_TRUNC, 0600);
        taken = memfd_create("output", 0);
    }
    memory = calls = 0;
}

/* The program ends by _exit. */
void _exit(int status) {
    long asked = memory, done = calls;
    FILE *file = counts ? fopen(counts, "w") : 0;
    if (file) { fprintf(file, "%ld %ld\n", asked, done); fclose(file); }
    for (;;) syscall(SYS_exit_group, status);
}

/* A copy of the process in which this request fails; what it ended with is written down. */
static int fails_in_a_copy(long n) {
    syscall(SYS_ftruncate, taken, 0);
    syscall(SYS_lseek, taken, 0, SEEK_SET);
    long copy = syscall(SYS_fork);
    if (copy == 0) {
        told = -1;
        counts = 0;
        dup2(taken, 1);
        return 1;
    }
    int status = 0;
    waitpid(copy, &status, 0);
    int ended = WIFEXITED(status) ? WEXITSTATUS(status) : -WTERMSIG(status);
    char line[4096];
    long size = syscall(SYS_lseek, taken, 0, SEEK_END);
    int len = snprintf(line, 64, "%ld %d %ld ", n, ended, size);
    syscall(SYS_write, told, line, len);
    syscall(SYS_lseek, taken, 0, SEEK_SET);
    while ((len = syscall(SYS_read, taken, line, sizeof line)) > 0) syscall(SYS_write, told, line, len);
    syscall(SYS_write, told, "\n", 1);
    return 0;
}

static int no_memory(void) {
    long n = ++memory;
    return told >= 0 ? n % every == 0 && fails_in_a_copy(n) : n == memory_fails;
}
static int fails(void) { return ++calls == call_fails; }

#define NEXT(name) static __typeof__(name) *next; if (!next) next = (__typeof__(name) *)dlsym(RTLD_NEXT, #name)

extern void *__libc_malloc(size_t), *__libc_calloc(size_t, size_t), *__libc_realloc(void *, size_t);
extern void *__libc_memalign(size_t, size_t);

void *malloc(size_t n) { if (no_memory()) { errno = ENOMEM; return 0; } return __libc_malloc(n); }
void *calloc(size_t n, size_t m) { if (no_memory()) { errno = ENOMEM; return 0; } return __libc_calloc(n, m); }
void *realloc(void *p, size_t n) { if (no_memory()) { errno = ENOMEM; return 0; } return __libc_realloc(p, n); }
void *aligned_alloc(size_t a, size_t n) { if (no_memory()) { errno = ENOMEM; return 0; } return __libc_memalign(a, n); }
int posix_memalign(void **p, size_t a, size_t n) {
    if (no_memory()) return ENOMEM;
    return (*p = __libc_memalign(a, n)) ? 0 : ENOMEM;
}

static size_t cut(size_t n) { return most && n > (size_t)most ? (size_t)most : n; }
static int stops(void) { return interrupted && ++reads % interrupted == 0; }

ssize_t read(int fd, void *p, size_t n) {
    NEXT(read);
    if (fails()) { errno = EIO; return -1; }
    if (stops()) { errno = EINTR; return -1; }
    return next(fd, p, cut(n));
}
ssize_t write(int fd, const void *p, size_t n) {
    NEXT(write);
    if (fails()) { errno = EIO; return -1; }
    if (stops()) { errno = EINTR; return -1; }
    return next(fd, p, cut(n));
}
#define OPEN(name) \
    int name(const char *path, int flags, ...) { \
        NEXT(name); va_list list; va_start(list, flags); int mode = va_arg(list, int); va_end(list); \
        if (fails()) { errno = EIO; return -1; } \
        return next(path, flags, mode); \
    }
OPEN(open) OPEN(open64)
#define OPENAT(name) \
    int name(int at, const char *path, int flags, ...) { \
        NEXT(name); va_list list; va_start(list, flags); int mode = va_arg(list, int); va_end(list); \
        if (fails()) { errno = EIO; return -1; } \
        return next(at, path, flags, mode); \
    }
OPENAT(openat) OPENAT(openat64)
int rename(const char *a, const char *b) { NEXT(rename); if (fails()) { errno = EIO; return -1; } return next(a, b); }
"""


def function(header, *lines):
    return "\n".join([f"define {header} {{", *(f"  {line}" for line in lines), "}", ""])


def six(side):
    """Six pairs: correct and incorrect ones, two of them with choices."""
    rows = [
        ("i8 @r2(i8 %x)", ("%r = add i8 %x, %x", "ret i8 %r"), ("%r = shl i8 %x, 1", "ret i8 %r")),
        ("i8 @r3(i8 %x)", ("%r = add i8 %x, 1", "ret i8 %r"), ("%r = add nsw i8 %x, 1", "ret i8 %r")),
        ("i4 @r4()", ("%a = freeze i4 poison", "ret i4 %a"), ("ret i4 3",)),
        ("i8 @r5()", ("ret i8 7",), ("%a = freeze i8 poison", "ret i8 %a")),
        ("i8 @r6(i8 %x)", ("%r = udiv i8 %x, %x", "ret i8 %r"), ("ret i8 1",)),
        ("i1 @r15(i1 %a, i1 %b)", ("%r = and i1 %a, %b", "ret i1 %r"),
         ("%r = select i1 %a, i1 %b, i1 false", "ret i1 %r")),
    ]
    return "".join(function(row[0], *row[side]) for row in rows)


FILES = {
    "three_before.ll": function("i8 @f(i8 %x)", "%r = add i8 %x, 1", "ret i8 %r"),
    "three_after.ll": function("i8 @f(i8 %x)", "%r = add nsw i8 %x, 1", "ret i8 %r"),
    "nine_before.ll": function("void @f(ptr %p)", "store i8 5, ptr %p", "ret void"),
    "nine_after.ll": function("void @f(ptr %p)", "ret void"),
    "six_before.ll": six(1),
    "six_after.ll": six(2),
    "proof": "tvproof 1\nrow @f correct\np cnf 1 2\n1 0\n-1 0\nlog 1\n1 2 0 0\n",
}
JOBS = {
    "an incorrect pair": ["check", "three_before.ll", "three_after.ll", "--workers", "1"],
    "a pair over memory": ["check", "nine_before.ll", "nine_after.ll", "--workers", "1"],
    "six pairs, 1 worker": ["check", "six_before.ll", "six_after.ll", "--workers", "1"],
    "six pairs, 2 workers": ["check", "six_before.ll", "six_after.ll", "--workers", "2"],
    "six pairs, 64 workers": ["check", "six_before.ll", "six_after.ll", "--workers", "64"],
    "a proof file is written": ["check", "three_before.ll", "three_after.ll", "--proof", "put", "--workers", "1"],
    "a proof file is checked": ["log", "proof"],
}


class Runner:
    """Runs the program in folders of their own, with the library before the C library."""

    def __init__(self, tv, folder):
        self.tv, self.folder = os.path.abspath(tv), folder
        self.library = os.path.join(folder, "fails.so")
        source = os.path.join(folder, "fails.c")
        with open(source, "w") as file:
            file.write(LIBRARY)
        subprocess.run(["cc", "-O1", "-shared", "-fPIC", "-w", source, "-o", self.library, "-ldl"], check=True)

    def run(self, words, **settings):
        with tempfile.TemporaryDirectory(dir=self.folder) as here:
            for name, text in FILES.items():
                with open(os.path.join(here, name), "w") as file:
                    file.write(text)
            variables = {**os.environ, "LD_PRELOAD": self.library, **{k: str(v) for k, v in settings.items()}}
            done = subprocess.run([self.tv, *words], cwd=here, env=variables, capture_output=True, timeout=3600)
            return done.returncode, done.stdout

    def copies(self, words, every):
        """For each request for memory, or one in so many, its number and what the copy of the process in which it
        failed ended with."""
        told = os.path.join(self.folder, "told")
        self.run(words, EACH=told, EVERY=every)
        with open(told, "rb") as file:
            left = file.read()
        answers = []
        while left:
            number, status, size, left = left.split(b" ", 3)
            answers.append((int(number), (int(status), left[:int(size)])))
            left = left[int(size) + 1:]
        return answers

    def counted(self, words):
        """The answer where nothing fails, and the numbers of requests for memory and of other calls."""
        counts = os.path.join(self.folder, "counts")
        answer = self.run(words, COUNTS=counts)
        with open(counts) as file:
            memory, calls = map(int, file.read().split())
        return answer, memory, calls


def is_right_without_memory(answer, own):
    return answer in (own, (8, b""))


def is_right_without_call(answer, own, words):
    status, output = answer
    if answer == own:
        return True
    if status == 5:
        return any(f"cannot read {name}\n".encode().startswith(output) for name in words)
    if status == 7:
        return own[1].startswith(output) or output == b"cannot write put\n"
    return status == own[0] and own[0] > 3 and own[1].startswith(output)


def statuses(answers):
    counts = collections.Counter(status for status, _ in answers)
    return " ".join(f"{status}: {n}" for status, n in sorted(counts.items()))


def looked_at(runner, pool, name, words, most, copies):
    """A job with each request failing in turn: the number of runs that ended otherwise."""
    own, memory, calls = runner.counted(words)
    wrong = 0
    has_threads = words[0] == "check" and words[-1] != "1"
    for kind, setting, count in (("memory", "MEMORY_FAILS", memory), ("calls", "CALL_FAILS", calls)):
        if kind == "memory" and not has_threads:
            numbered = runner.copies(words, -(-count // copies) if copies else 1)
            numbers, answers = [n for n, _ in numbered], [answer for _, answer in numbered]
            if not numbers:
                wrong += 1
                print(f"{name}: no request for memory failed", flush=True)
        else:
            # The threads of a run may ask in another order, so a few further numbers are tried.
            numbers = range(1, count + 4, -(-(count + 3) // most))
            answers = list(pool.map(lambda n: runner.run(words, **{setting: n}), numbers))
        for n, answer in zip(numbers, answers):
            right = (is_right_without_memory(answer, own) if kind == "memory"
                     else is_right_without_call(answer, own, words))
            if not right:
                wrong += 1
                print(f"{name}: {kind} {n}: {answer[0]} {answer[1][:80]!r}", flush=True)
        print(f"{name:<26} {kind:<7} {count:>7} requests, {len(numbers):>7} runs; {statuses(answers)}", flush=True)
    for settings in ({"MOST": 1}, {"MOST": 7}, {"INTERRUPTED": 2}, {"INTERRUPTED": 3, "MOST": 5}):
        answer = runner.run(words, **settings)
        fits = is_right_without_call(answer, own, words) if "INTERRUPTED" in settings else answer == own
        if not fits:
            wrong += 1
            print(f"{name}: {settings}: {answer[0]} {answer[1][:80]!r}", flush=True)
    return wrong


def main():
    parser = argparse.ArgumentParser(add_help=True)
    parser.add_argument("tv", nargs="?", default=os.environ.get("TV") or BUILT)
    parser.add_argument("--at-most", type=int, default=1_000)
    parser.add_argument("--copies", type=int, default=0)
    given = parser.parse_args()
    missing = "cc is not installed" if not shutil.which("cc") else f"{given.tv} is not built"
    if not shutil.which("cc") or not os.path.exists(given.tv):
        print(f"skipped: {len(JOBS)} jobs in which a request fails: {missing}")
        return 0
    with tempfile.TemporaryDirectory() as folder, concurrent.futures.ThreadPoolExecutor(2) as pool:
        runner = Runner(given.tv, folder)
        wrong = sum(looked_at(runner, pool, name, words, given.at_most, given.copies)
                    for name, words in JOBS.items())
    print(f"wrong: {wrong}")
    return 1 if wrong else 0


if __name__ == "__main__":
    sys.exit(main())
