#!/usr/bin/env python3
"""Each limit of docs/LANGUAGE.md and of the options: its last good value, and one past it.

    bench/limits.py [PATH OF tv]        (default: crates/tv/out/tv)

A line for each limit: its name, the last good value with the answer, the one past it with the answer,
and `ok`, or what came instead. The answers are written by hand from docs/LANGUAGE.md: a row, a
fault or a line of refused words, with the status; where a function or a module is refused, the
text has `¬` before the token at which, so the answer's line and column are those of the mark. What is
past a limit is given as source and as target. The status is 1 where an answer is another.
"""
import os
import subprocess
import sys
import tempfile

MARK = "¬"
TEXT = 16_777_216
PROOF = 268_435_456
FUNCTIONS = 4_096
INSTRUCTIONS = 65_536
CASES = 256
NO_ROWS = "correct 0 incorrect 0 unknown 0 refused 0 signature 0 missing 0 extra 0"


def place(text):
    """Line and column of the mark, and the text without it."""
    at = text.index(MARK)
    line = text.count("\n", 0, at) + 1
    return f"{line}:{at - text.rfind(chr(10), 0, at)}", text.replace(MARK, "", 1)


def file_of(folder, name, text):
    with open(os.path.join(folder, name), "w", encoding="latin-1") as file:
        file.write(text)


class Table:
    def __init__(self, tv, folder):
        self.tv, self.folder, self.lines, self.wrong = tv, folder, 0, 0

    def answer(self, words):
        done = subprocess.run([self.tv, *words], cwd=self.folder, capture_output=True)
        lines = done.stdout.decode("latin-1").split("\n")
        return done.returncode, lines

    def holds(self, words, status, line):
        """Nothing where the status comes with the line, otherwise what came."""
        got, lines = self.answer(words)
        if got == status and line in lines:
            return ""
        return f"not {status} `{line}`: {got} `{' | '.join(lines)[:120]}`"

    def show(self, limit, good, good_answer, past, past_answer, faults):
        self.lines += 1
        self.wrong += any(faults)
        ending = "; ".join(filter(None, faults)) or "ok"
        print(f"{limit:<34} {good:<26} {good_answer:<22} {past:<26} {past_answer:<34} {ending}", flush=True)

    def function(self, limit, good, good_text, past, past_text, words=(), row="@f correct", status=0,
                 reason="Limit"):
        """A limit of a function: the texts of its last good and its first bad form."""
        where, bad = place(past_text)
        for name, text in (("G", good_text), ("P", bad)):
            file_of(self.folder, name, text)
        faults = [self.holds(["check", *words, "G", "G"], status, row),
                  self.holds(["check", *words, "P", "P"], 3, f"@f refused source {reason} {where}"),
                  self.holds(["check", *words, "P", "G"], 3, f"@f refused source {reason} {where}"),
                  self.holds(["check", *words, "G", "P"], 3, f"@f refused target {reason} {where}")]
        self.show(limit, good, f"{status} {row}", past, f"3 refused {reason} {where}", faults)

    def module(self, limit, good, good_text, good_line, past, past_text, past_status, past_line):
        """A limit of a module; NAME in the line is the file's."""
        for name, text in (("G", good_text), ("P", past_text)):
            file_of(self.folder, name, text)
        line = past_line.replace("NAME", "P")
        faults = [self.holds(["check", "--weight", "1", "G", "G"], *good_line),
                  self.holds(["check", "--weight", "1", "P", "G"], past_status, line),
                  self.holds(["check", "--weight", "1", "G", "P"], past_status, line)]
        self.show(limit, good, str(good_line[0]), past, f"{past_status} {line}", faults)

    def option(self, name, least, most, least_answer=(0, "@f correct"), in_head=True):
        """An option's range: both ends are taken, and come in the report's first line; one below and
        one above are rejected."""
        file_of(self.folder, "G", "define i1 @f() {\n  ret i1 true\n}\n")
        faults = []
        for value, answer in ((least, least_answer), (most, (0, "@f correct"))):
            for words in ([f"--{name}", str(value)], [f"--{name}={value}"]):
                faults.append(self.holds(["check", *words, "G", "G"], *answer))
                head = self.answer(["check", *words, "G", "G"])[1][0]
                faults.append("" if not in_head or f" {name} {value}" in head else f"first line {head}")
        for value in (least - 1, most + 1):
            for words in ([f"--{name}", str(value)], [f"--{name}={value}"]):
                faults.append(self.holds(["check", *words, "G", "G"], 4, "words refused"))
        self.show(f"--{name}", f"{least} and {most}", f"{least_answer[0]} {least_answer[1]}",
                  f"{least - 1} and {most + 1}", "4 words refused", faults)


# Texts.

def parameters(count, mark=False):
    names = [f"i8 %p{k}" for k in range(count)]
    if mark:
        names[-1] = MARK + names[-1]
    return f"define i8 @f({', '.join(names)}) {{\n  ret i8 1\n}}\n"


def chain(count, mark=""):
    """So many instructions with the last, which returns."""
    lines = ["define i1 @f(i1 %x) {", "  %r0 = xor i1 %x, false"]
    lines += [f"  %r{k} = xor i1 %r{k - 1}, false" for k in range(1, count - 1)]
    return "\n".join(lines + [f"  {mark}ret i1 %r{count - 2}", "}", ""])


def blocks(count, mark=""):
    """So many terminators; the last block has the last one."""
    lines = ["define i8 @f(i8 %x) {", "  br label %b1"]
    for k in range(1, count - 1):
        lines += [f"b{k}:", f"  br label %b{k + 1}"]
    return "\n".join(lines + [f"b{count - 1}:", f"  {mark}ret i8 %x", "}", ""])


def phis(count, mark=""):
    """So many phis, with the two terminators."""
    lines = ["define i8 @f(i8 %x) {", "e:", "  br label %j", "j:"]
    lines += [f"  %p{k} = phi i8 [ %x, %e ]" for k in range(count - 2)]
    return "\n".join(lines + [f"  {mark}ret i8 %x", "}", ""])


def cases(count, mark=""):
    listed = [f"i16 {k}, label %e" for k in range(count)]
    listed[-1] = mark + listed[-1]
    return f"define i8 @f(i16 %x) {{\n  switch i16 %x, label %e [ {' '.join(listed)} ]\ne:\n  ret i8 0\n}}\n"


def functions(count):
    return "".join(f"define i8 @f{k}() {{ ret i8 0 }}\n" for k in range(count))


def alloca(of_type):
    return f"define i8 @f() {{\n  %a = alloca {of_type}\n  ret i8 0\n}}\n"


def gep(of_type, indices="i64 0"):
    return f"define ptr @f(ptr %p) {{\n  %a = getelementptr {of_type}, ptr %p, {indices}\n  ret ptr %a\n}}\n"


def load(ending):
    return f"define i8 @f(ptr %p) {{\n  %a = load i8, ptr %p{ending}\n  ret i8 %a\n}}\n"


def store(ending):
    return f"define void @f(ptr %p) {{\n  store i8 1, ptr %p{ending}\n  ret void\n}}\n"


def returns(of_type, value, name="%x"):
    return f"define {of_type} @f({of_type} {name}) {{\n  ret {of_type} {value}\n}}\n"


def width(bits, mark=""):
    return f"define {mark}i{bits} @f(i{bits} %x) {{\n  ret i{bits} %x\n}}\n"


def case(bits, value):
    return (f"define i8 @f(i{bits} %x) {{\n  switch i{bits} %x, label %e [ i{bits} {value}, label %e ]\n"
            "e:\n  ret i8 0\n}\n")


# The table.

def functions_table(t):
    t.function("parameters", "16", parameters(16), "17", parameters(17, True))
    t.function("instructions", "65,536", chain(INSTRUCTIONS), "65,537", chain(INSTRUCTIONS + 1, MARK),
               ["--turns", "0", "--weight", "131072"])
    t.function("terminators", "65,536", blocks(INSTRUCTIONS), "65,537", blocks(INSTRUCTIONS + 1, MARK),
               ["--weight", "1"], "@f unknown weight", 2)
    t.function("phis with two terminators", "65,536", phis(INSTRUCTIONS), "65,537", phis(INSTRUCTIONS + 1, MARK),
               ["--weight", "1"], "@f unknown weight", 2)
    t.function("cases of a switch", "256", cases(CASES), "257", cases(CASES + 1, MARK))


def types_table(t):
    t.function("width", "i1", width(1), "i0", width(0, MARK))
    t.function("width", "i64", width(64), "i65", width(65, MARK))
    t.function("width with a zero", "i064", width("064"), "i065", width("065", MARK))
    t.function("bytes of an alloca", "[ 64 x i8 ]", alloca("[ 64 x i8 ]"), "[ 65 x i8 ]", alloca("[ 65 x ¬i8 ]"))
    t.function("bytes of an alloca", "[ 8 x ptr ]", alloca("[ 8 x ptr ]"), "[ 9 x ptr ]", alloca("[ 9 x ¬ptr ]"))
    t.function("bytes of an alloca", "[ 4 x [ 16 x i8 ] ]", alloca("[ 4 x [ 16 x i8 ] ]"),
               "[ 4 x [ 17 x i8 ] ]", alloca("[ 4 x [ 17 x ¬i8 ] ]"))
    t.function("bytes of an array", "[ 1048576 x i8 ]", gep("[ 1048576 x i8 ]"),
               "[ 1048577 x i8 ]", gep("[ 1048577 x ¬i8 ]"))
    t.function("bytes of an array", "[ 131072 x i64 ]", gep("[ 131072 x i64 ]"),
               "[ 131073 x i64 ]", gep("[ 131073 x ¬i64 ]"))
    t.function("bytes of an inner array", "[ 0 x [ 1048576 x i8 ] ]", gep("[ 0 x [ 1048576 x i8 ] ]"),
               "[ 0 x [ 1048577 x i8 ] ]", gep("[ 0 x [ 1048577 x ¬i8 ] ]"))
    t.function("length of an array", "2^64 - 1, of 0 bytes", gep("[ 18446744073709551615 x [ 0 x i8 ] ]"),
               "2^64", gep("[ ¬18446744073709551616 x [ 0 x i8 ] ]"))
    t.function("arrays within one another", "8", gep("[ 1 x " * 8 + "i8" + " ]" * 8),
               "9", gep("[ 1 x " * 8 + MARK + "[ 1 x i8" + " ]" * 9))
    t.function("indices, an element", "1", gep("i8", "i64 0"), "2", gep("i8", "i64 0, i64 ¬0"), reason="TypeClash")
    t.function("indices, an array", "2", gep("[ 2 x i8 ]", "i64 0, i64 0"),
               "3", gep("[ 2 x i8 ]", "i64 0, i64 0, i64 ¬0"), reason="TypeClash")


def numbers_table(t):
    for name, text in (("load", load), ("store", store)):
        t.function(f"alignment of a {name}", "1", text(", align 1"), "0", text(", align ¬0"))
        t.function(f"alignment of a {name}", "4,096", text(", align 4096"), "8,192", text(", align ¬8192"))
    t.function("alignment, powers of two", "2", load(", align 2"), "3", load(", align ¬3"))
    t.function("alignment of an alloca", "4,096", alloca("i8, align 4096"), "4,097", alloca("i8, align ¬4097"))
    for bits in (1, 8, 33, 64):
        least, most = -(1 << (bits - 1)), (1 << bits) - 1
        t.function(f"literal of i{bits}", str(least), returns(f"i{bits}", least),
                   str(least - 1), returns(f"i{bits}", f"{MARK}{least - 1}"))
        t.function(f"literal of i{bits}", str(most), returns(f"i{bits}", most),
                   str(most + 1), returns(f"i{bits}", f"{MARK}{most + 1}"))
    t.function("literal of 400 digits", "zeros", returns("i8", "0" * 400), "nines", returns("i8", MARK + "9" * 400))
    t.function("literal of a case, i8", "255", case(8, 255), "256", case(8, f"{MARK}256"))
    t.function("literal of a case, i8", "-128", case(8, -128), "-129", case(8, f"{MARK}-129"))
    t.function("true and false", "i1 true", returns("i1", "true"), "i8 true", returns("i8", f"{MARK}true"),
               reason="Unsupported")


def files_table(t):
    t.module("bytes of a module", f"{TEXT:,}", " " * TEXT, (0, NO_ROWS), f"{TEXT + 1:,}", " " * (TEXT + 1), 6,
             "too long NAME")
    more = functions(FUNCTIONS + 1)
    rows = NO_ROWS.replace("unknown 0", f"unknown {FUNCTIONS}")
    t.module("functions", f"{FUNCTIONS:,}", functions(FUNCTIONS), (2, rows), f"{FUNCTIONS + 1:,}", more, 9,
             f"NAME:{FUNCTIONS + 1}:1: too many functions")
    file_of(t.folder, "G", "tvproof 1\n" + "\n" * (PROOF - 10))
    file_of(t.folder, "P", "tvproof 1\n" + "\n" * (PROOF - 9))
    t.show("bytes of a proof file", f"{PROOF:,}", "9 G:2: proof text", f"{PROOF + 1:,}", "6 too long P",
           [t.holds(["log", "G"], 9, "G:2: proof text"), t.holds(["log", "P"], 6, "too long P")])
    shortest = len("[1,%e],")
    print(f"{'entries of a phi':<34} 16,777,216 cannot be reached: an entry has at least {shortest} bytes, so a "
          f"text has at most {TEXT // shortest:,}")


def options_table(t):
    t.option("turns", 0, 64)
    t.option("blocks", 0, 4)
    t.option("bytes", 0, 32)
    t.option("rounds", 0, 4096)
    t.option("conflicts", 0, (1 << 63) - 1)
    t.option("weight", 1, 10_000_000, (2, "@f unknown weight"))
    t.option("workers", 1, 64, in_head=False)


def main():
    here = os.path.dirname(os.path.abspath(__file__))
    tv = os.path.abspath(sys.argv[1] if len(sys.argv) > 1 else os.path.join(here, "..", "crates/tv/out/tv"))
    with tempfile.TemporaryDirectory() as folder:
        table = Table(tv, folder)
        for part in (functions_table, types_table, numbers_table, files_table, options_table):
            part(table)
    print(f"{table.lines} limits, {table.wrong} with another answer")
    return 1 if table.wrong else 0


if __name__ == "__main__":
    sys.exit(main())
