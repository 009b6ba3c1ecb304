"""Forms of a report: text, JSON, JUnit, SARIF. tvpage.py has the page."""
import collections
import json
import os
import re

import tvbounds
import tvir
import tvlib
import tvrun
import tvwhy

COLOURS = {"correct": "32", "same": "32", "incorrect": "1;31", "unknown": "33", "vacuous": "33",
           "bounded": "33", "failed": "31", "marked": "33", "alarm": "33"}
FAINT = "2"
MEANINGS = {
    "correct": "the target refines the source within the bounds",
    "same": "the function is the same on both sides",
    "incorrect": "a miscompilation: the target does what the source never does",
    "unknown": "not decided: a budget or the time ran out",
    "vacuous": "nothing was asked: the source is undefined for every input within the bounds",
    "bounded": "a part was not asked: no input within the bounds gets past an access",
    "refused": "not judged: tv does not read this",
    "signature": "not judged: the types of parameters or of the return differ",
    "missing": "not judged: the target does not define it",
    "extra": "not judged: the source does not define it",
    "failed": "not judged: a program ended without a whole report",
    "marked": "the target refines the source within the bounds, but a fault may hide",
    "alarm": "incorrect, but it may be a false alarm",
}
UNBOUNDED = "the target refines the source, and no bound leaves a run out"


def meaning_of(row):
    """What a row says, in words."""
    return UNBOUNDED if row.kind == "correct" and row.detail == tvrun.NO_BOUND else MEANINGS[row.kind]


def painted(text, colour, colours):
    return f"\033[{colour}m{text}\033[0m" if colours and colour else text


# A counterexample.

NUMBER = re.compile(r"(\d+)$")


def widths_of(function):
    """The widths of a function's parameters and of its return; None where one isn't iN."""
    def width(text):
        found = re.match(r"i(\d+)\b", text)
        return int(found.group(1)) if found else None
    return [width(part) for part in function.parameters], width(function.result_type())


def readings(value, width):
    """A number as a signed number and in hexadecimal, where that looks different; else ''."""
    if not value.isdigit() or not width or int(value) < 10 and int(value) < 1 << (width - 1):
        return ""
    number = int(value)
    signed = number - (1 << width) if number >> (width - 1) else number
    return f"{signed}, 0x{number:x}" if signed != number else f"0x{number:x}"


def points(lines, function):
    """The lines below an incorrect row as what, name, value, and other forms of the value."""
    params, result = widths_of(function) if function else ([], None)
    names = function.argument_names if function else []
    found = []
    for line in lines:
        what, equals, value = line.strip().partition(" = ")
        name, width = "", None
        if not equals:
            what, _, value = line.strip().partition(" ")
            width = result
        elif re.fullmatch(r"arg \d+", what) and int(what[4:]) < len(names):
            name, width = names[int(what[4:])], params[int(what[4:])]
        number = value[len("returns "):] if value.startswith("returns ") else value
        found.append((what, name, value, readings(number, width)))
    return found


def point_lines(lines, function):
    """The same lines with the parameters' names, and the other forms of numbers in brackets."""
    found = []
    for line, (what, name, value, other) in zip(lines, points(lines, function)):
        head, equals, _ = line.partition(" = ")
        text = f"{head} {name} = {value}" if equals and name else line
        found.append(f"{text} ({other})" if other else text)
    return found


# Text.

def row_lines(row, function, colours=False):
    """A row as the text report has it, with the trace of a counterexample."""
    return [*plain_lines(row, function, colours), *(tvrun.TRACED + line for line in row.trace)]


def plain_lines(row, function, colours=False):
    """A row as the text report has it, without a trace."""
    kind = painted(row.word(), COLOURS.get(row.kind, FAINT), colours)
    rest = row.text()[len(f"@{row.name} {row.word()}"):]
    return [f"@{row.name} {kind}{rest}", *row.shown_lines(), *point_lines(row.lines, function)]


def refusals(rows):
    """The table of what was refused: how often, what, and what to do."""
    counts = collections.Counter((tvwhy.kind_of(row.what), row.advice) for row in rows
                                 if row.kind == "refused")
    if not counts:
        return []
    wide = max(len(what) for what, _ in counts)
    lines = [f"refused {sum(counts.values())}, by what is there:"]
    shown = set()
    for (what, advice), number in counts.most_common():
        said = "" if advice in shown else f"  {tvwhy.ADVICE.get(advice, '')}"
        lines.append(f"{number:7} {what:{wide}}{said}".rstrip())
        shown.add(advice)
    return lines


# One object a row.

def with_faults(pairs, results):
    """The rows with one for each fault, of a function without a name, where its pair stands."""
    rows = {id(pair): [] for pair in pairs}
    for pair, row in results:
        rows[id(pair)].append((pair, row))
    return [each for pair in pairs for each in [
        *rows[id(pair)], *([(pair, fault_row(pair))] if pair.fault else [])]]


def fault_row(pair):
    """A row for what is wrong with a whole pair: a file that stands on one side alone isn't judged,
    all else has failed."""
    kind = "failed" if pair.status != tvlib.NOTHING else "missing"
    return tvrun.Row("", kind, pair.fault)


def function_of(pair, row):
    """The source's function of a row, None where there is none."""
    return pair.source.functions.get(row.name) if pair.source else None


def object_of(pair, row):
    """A row for JSON; docs/TOOLS.md has the fields."""
    function = function_of(pair, row)
    path, line = pair.place(row.name)
    position = row.position() or (None, None, None)
    return {
        "file": pair.path, "against": pair.other, "function": row.name, "kind": row.kind,
        "detail": row.detail, "meaning": meaning_of(row), "path": path, "first_line": line,
        "side": position[0], "line": position[1], "column": position[2],
        "what": row.what, "advice": tvwhy.ADVICE.get(row.advice, ""),
        "bounds": row.bounds if row.kind == "correct" else {**tvbounds.DEFAULTS, **row.bounds},
        "seconds": row.seconds,
        "counterexample": [dict(zip(("what", "name", "value", "forms"), point))
                           for point in points(row.lines, function)],
        "trace": row.trace,
        "rules": row.rules, "mark": row.mark(), "marked_by": row.doubts,
    }


def json_of(results):
    return "".join(json.dumps(object_of(pair, row)) + "\n" for pair, row in results)


# JUnit.

ESCAPES = {"&": "&amp;", "<": "&lt;", ">": "&gt;", '"': "&quot;", "\t": "&#9;", "\n": "&#10;"}


def escaped(text):
    """A text for XML. (The library's own functions for it cost a third of this script's start.)"""
    clean = "".join(char if char in "\t\n" or char >= " " else "?" for char in text)
    clean = clean.encode("utf-8", "surrogateescape").decode("utf-8", "replace")
    return re.sub('[&<>"]', lambda found: ESCAPES[found.group()], clean)


def quoted(text):
    """A text as the value of an attribute, in quotes."""
    return '"' + re.sub("[\t\n]", lambda found: ESCAPES[found.group()], escaped(text)) + '"'


def case_of(pair, row):
    """A function as a test case: incorrect fails, failed is an error, what isn't decided or
    judged is skipped. A fault of a module is a case too."""
    head = (f'<testcase classname={quoted(pair.path)} '
            f'name={quoted("@" + row.name if row.name else "fault")} time="{row.seconds:.3f}"')
    if row.kind in ("correct", "same"):
        return head + "/>"
    lines = row_lines(row, function_of(pair, row)) if row.name else [row.detail]
    body = "\n".join(lines + ([row.what] if row.what else []))
    tag = {"incorrect": "failure", "failed": "error"}.get(row.kind, "skipped")
    said = quoted(f"{row.kind}: {MEANINGS[row.kind]}")
    return f"{head}><{tag} message={said}>{escaped(body)}</{tag}></testcase>"


def junit_of(results):
    suites = collections.OrderedDict()
    for pair, row in results:
        suites.setdefault((pair.path, pair.other), []).append((pair, row))
    parts = []
    for (path, other), found in suites.items():
        rows = [row for _, row in found]
        wrong = sum(row.kind == "incorrect" for row in rows)
        failed = sum(row.kind == "failed" for row in rows)
        good = sum(row.kind in ("correct", "same") for row in rows)
        seconds = sum(row.seconds for row in rows)
        cases = "\n".join(case_of(pair, row) for pair, row in found)
        parts.append(f'<testsuite name={quoted(f"{path} to {other}")} tests="{len(rows)}" '
                     f'failures="{wrong}" errors="{failed}" '
                     f'skipped="{len(rows) - wrong - failed - good}" time="{seconds:.3f}">\n'
                     f"{cases}\n</testsuite>")
    return '<?xml version="1.0" encoding="UTF-8"?>\n<testsuites>\n' + "\n".join(parts) + \
        "\n</testsuites>\n"


# SARIF 2.1.0.

SCHEMA = "https://json.schemastore.org/sarif-2.1.0.json"
LEVELS = {"incorrect": "error", "unknown": "warning", "vacuous": "warning", "bounded": "warning",
          "failed": "error", "marked": "warning", "alarm": "warning"}


def result_of(pair, row):
    """A row as a SARIF result, at the function's line, or at the position of an access or a
    refusal where the same line is in the file."""
    path, line = pair.place(row.name)
    region = {"startLine": max(1, line)}
    position = None if row.shown else row.position()
    if position and position[0] == "source" and pair.original is pair.source:
        region = {"startLine": position[1], "startColumn": position[2]}
    if position and position[0] == "target" and os.path.isfile(pair.other):
        path, region = pair.other, {"startLine": position[1], "startColumn": position[2]}
    lines = plain_lines(row, function_of(pair, row)) if row.name else [row.detail]
    text = "\n".join([f"{lines[0]}: {MEANINGS[row.kind]}", *lines[1:],
                      *filter(None, [row.what, tvwhy.ADVICE.get(row.advice, "")])])
    return {"ruleId": row.kind, "level": LEVELS.get(row.kind, "note"),
            "message": {"text": text.encode("utf-8", "replace").decode()},
            "locations": [{"physicalLocation": {
                "artifactLocation": {"uri": path.replace(os.sep, "/")}, "region": region}}],
            "partialFingerprints": {"function/v1": f"{pair.path} @{row.name} {row.cause()}"}}


def sarif_of(results, version):
    rules = [{"id": kind, "shortDescription": {"text": text},
              "defaultConfiguration": {"level": LEVELS.get(kind, "note")}}
             for kind, text in MEANINGS.items() if kind not in ("correct", "same")]
    found = [result_of(pair, row) for pair, row in results
             if row.kind not in ("correct", "same")]
    driver = {"name": "tv-check", "version": version, "rules": rules}
    return json.dumps({"$schema": SCHEMA, "version": "2.1.0",
                       "runs": [{"tool": {"driver": driver}, "results": found,
                                 "columnKind": "unicodeCodePoints"}]}, indent=1) + "\n"


# A whole report.

def report_lines(head, groups, colours=False):
    """A report as text: the first line, the rows of each pair, what was refused, the counts.
    `groups` has each pair with its rows; the pairs are named where there are several."""
    lines, rows = [head], []
    for pair, found in groups:
        if len(groups) > 1:
            lines.append(f"module {pair.path}")
        if pair.fault:
            lines.append(f"fault {pair.fault}")
        for row in found:
            lines += row_lines(row, function_of(pair, row), colours)
        rows += found
    return [*lines, *refusals(rows), tvrun.counts_line(rows)]

