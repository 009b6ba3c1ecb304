"""Reads reports, of `tv check` and of `tv-check`, and takes none that isn't whole.

A report of tv counts where its first line has the bounds and budgets that were asked for, its rows
are those of the functions that were asked about, each with the lines that its kind has, its last
line counts these rows, nothing is behind it, and the program's status is that of the rows
(docs/REPORT.md). Whatever else a program writes is a `BadReport`, with what is wrong in words. A
report of tv-check (docs/TOOLS.md) is held to its form and its counts.
"""
import collections
import dataclasses
import itertools
import re

KINDS = ["correct", "incorrect", "unknown", "refused", "signature", "missing", "extra"]
OWN_KINDS = ["same", "vacuous", "bounded", "failed", "marked", "alarm"]
# The status of tv for a row of each kind; the lowest but 0 is that of a report.
STATUSES = {"correct": 0, "incorrect": 1, "unknown": 2, "refused": 3, "signature": 3, "missing": 3,
            "extra": 3}
LIMITS = {"turns": 4, "blocks": 2, "bytes": 8, "rounds": 64, "conflicts": 0, "weight": 100000}
TRACED = "    | "
SHOWN = "  | "
NAME = r'"[^"]*"|[-\w.$]+'
COUNT = re.compile(r"([a-z]+) (\d+)")

HEAD = re.compile(r"tv 2((?: [a-z]+ \d+)+)( first)?")
ROW = re.compile(rf"@({NAME}) (?:(correct|signature|missing|extra|incorrect)"
                 r"|(unknown) (weight|rounds|conflicts)"
                 r"|(refused) ((?:source|target) [A-Z][A-Za-z]+ \d+:\d+))")
VALUE = r"(?:\d+|poison|dead|(?:null|given\d+)\+\d+)"
BYTE = rf"(?:[0-9a-f]{{2}}(?:~[0-9a-f]{{2}})?|--|{VALUE}/\d)"
BLOCK = rf"block \d+ = {BYTE}(?: {BYTE})*\n"
OUTCOME = rf"(?:returns (?:void|{VALUE})|ub|beyond)\n"
POINT = re.compile(rf"(?:  arg \d+ = {VALUE}\n)*(?:  {BLOCK})*(?:  choice \d+ = \d+\n)*"
                   rf"  source {OUTCOME}(?:  source {BLOCK})*"
                   rf"  target {OUTCOME}(?:  target {BLOCK})*")


class BadReport(Exception):
    """What is wrong with a report, in words."""

    def __init__(self, why):
        super().__init__(why)
        self.why = why


@dataclasses.dataclass
class Line:
    """A row as it is written: name, kind, what follows, the lines below it, those of a trace, and the
    module's line that it is about."""
    name: str
    kind: str
    detail: str = ""
    lines: list = dataclasses.field(default_factory=list)
    trace: list = dataclasses.field(default_factory=list)
    shown: str = ""


@dataclasses.dataclass
class Report:
    """The first line's numbers, whether it ends with `first`, and the rows."""
    limits: dict
    first: bool
    rows: list


@dataclasses.dataclass
class Part:
    """The rows of one module of a report of tv-check, and what went wrong with it."""
    path: str
    rows: list = dataclasses.field(default_factory=list)
    faults: list = dataclasses.field(default_factory=list)


# tv check.

def report_of(output, status, names, words):
    """The report of a run of `tv check`: its output and status, the names of the functions that were
    asked about, in the order of their rows, and the arguments that it had."""
    report = report_in(output.decode("utf-8", "surrogateescape"))
    asked, first = limits_in(words), "--first" in words
    for name, number in asked.items():
        if report.limits[name] != number:
            raise BadReport(f"the first line says {name} {report.limits[name]}, not {number}")
    if report.first != first:
        raise BadReport(f"the first line {'has' if report.first else 'lacks'} `first`")
    found, wanted = [row.name for row in report.rows], [printed(name) for name in names]
    for row, name in itertools.zip_longest(found, wanted):
        if row != name:
            raise BadReport(f"a row of @{row} where @{name} was asked" if row and name
                            else f"no row of @{name}" if name else f"a row of @{row} too many")
    if status != status_of(report.rows):
        raise BadReport(f"status {status}, of these rows it is {status_of(report.rows)}")
    return report


def report_in(text):
    """The report in a text: whole, and with counts that are those of its rows."""
    lines = whole_lines(text)
    head = HEAD.fullmatch(lines[0])
    if not head:
        raise BadReport(f"the first line is {clipped(lines[0])}")
    pairs = COUNT.findall(head.group(1))
    if [name for name, _ in pairs] != list(LIMITS):
        raise BadReport(f"the first line is {clipped(lines[0])}")
    rows = [row_in(group) for group in grouped(lines[1:-1])]
    held_to(lines[-1], rows)
    return Report({name: int(number) for name, number in pairs}, bool(head.group(2)), rows)


def whole_lines(text):
    """The lines of a text that ends with its last line."""
    if not text:
        raise BadReport("no output")
    if not text.endswith("\n"):
        raise BadReport(f"the output is cut in {clipped(text.split(chr(10))[-1])}")
    lines = text[:-1].split("\n")
    if len(lines) < 2:
        raise BadReport(f"one line alone: {clipped(lines[0])}")
    return lines


def grouped(lines):
    """Each row with the lines below it."""
    groups = []
    for line in lines:
        if not line.startswith("  "):
            groups.append([line])
        elif not groups:
            raise BadReport(f"no row above {clipped(line)}")
        else:
            groups[-1].append(line)
    return groups


def row_in(group):
    """A row of tv, and the lines below it."""
    found = ROW.fullmatch(group[0])
    if not found:
        raise BadReport(f"no row: {clipped(group[0])}")
    name, *rest = found.groups("")
    kind, detail = rest[0] or rest[1] or rest[3], rest[2] or rest[4]
    below = "".join(line + "\n" for line in group[1:])
    if not (POINT.fullmatch(below) if kind == "incorrect" else not below):
        raise BadReport(f"the lines below @{name} {kind} are none of such a row")
    return Line(name, kind, detail, group[1:])


def held_to(last, rows, own=False):
    """Holds the last line to the rows: it has all kinds of tv, and of tv-check those that occur."""
    counts = COUNT.findall(last)
    kinds = [kind for kind, _ in counts]
    others = [kind for kind in OWN_KINDS if own and kind in kinds]
    if kinds != KINDS + others or last != " ".join(map(" ".join, counts)):
        raise BadReport(f"the last line is {clipped(last)}")
    found = collections.Counter(row.kind for row in rows)
    for kind, number in {**dict.fromkeys(OWN_KINDS, 0), **dict(counts)}.items():
        if int(number) != found[kind]:
            raise BadReport(f"the last line counts {number} rows {kind}, there are {found[kind]}")


def status_of(rows):
    """The status of tv with these rows."""
    return min((STATUSES[row.kind] for row in rows if row.kind != "correct"), default=0)


def limits_in(words):
    """The bounds and budgets of a run with these arguments."""
    found, rest = dict(LIMITS), list(words)
    while rest:
        name, equals, value = rest.pop(0).partition("=")
        if name.startswith("--") and name[2:] in LIMITS and (equals or rest):
            value = value if equals else rest.pop(0)
            found[name[2:]] = int(value) if re.fullmatch(r"\+?\d+", value) else value
    return found


def printed(name):
    """A name of LLVM's as tv prints it: in quotes where it is no number and no word, with \\HH. A
    number in quotes is another name than the number."""
    if name.startswith('"'):
        data = re.sub(rb"\\([0-9a-fA-F]{2})", lambda found: bytes([int(found.group(1), 16)]),
                      name[1:-1].encode("utf-8", "surrogateescape"))
    else:
        data = name.encode("utf-8", "surrogateescape")
    number = not name.startswith('"') and data.isdigit()
    if number or re.fullmatch(rb"[-a-zA-Z$._][-a-zA-Z$._\d]*", data):
        return data.decode()
    return '"' + "".join(chr(byte) if 0x20 <= byte <= 0x7e and byte not in b'"\\'
                         else f"\\{byte:02X}" for byte in data) + '"'


def clipped(text):
    """A text for a message: one line of printable characters, not too long."""
    plain = re.sub(r"[^\x20-\x7e]", "?", text)
    return f"'{plain[:60]}{'..' if len(plain) > 60 else ''}'"


# tv-check.

CHECK_HEAD = re.compile(r"tv-check 1 .*")
CHECK_ROW = re.compile(rf"@({NAME}) ({'|'.join([*KINDS, *OWN_KINDS[:4]])})(?:(?: |(?=[,;]))(.*))?")
REFUSED = re.compile(r"refused (\d+), by what is there:")
MARKED = re.compile(r".*; (fault may hide|false alarm possible): .+")
MARKED_KINDS = {"correct": "marked", "incorrect": "alarm"}


def checked(text, where):
    """The parts of a report of tv-check. `where` is the path of the only module of one that names
    none. What is behind the counts is a fault."""
    parts, rest = checked_before(text, where)
    if rest:
        raise BadReport(f"behind the last line: {clipped(rest[0])}")
    return parts


def checked_before(text, where):
    """The parts of a report of tv-check, and the lines behind it."""
    lines = whole_lines(text)
    if not CHECK_HEAD.fullmatch(lines[0]):
        raise BadReport(f"the first line is {clipped(lines[0])}")
    end = next((at for at, line in enumerate(lines) if line.startswith("correct ")), None)
    if end is None:
        raise BadReport("the report is cut: it has no counts")
    parts, refused = [Part(where)], 0
    for group in grouped(lines[1:end]):
        table = REFUSED.fullmatch(group[0])
        if table:
            refused = int(table.group(1))
        elif len(group) == 1 and group[0].startswith("module "):
            parts.append(Part(group[0][len("module "):]))
        elif len(group) == 1 and group[0].startswith("fault "):
            parts[-1].faults.append(group[0][len("fault "):])
        else:
            parts[-1].rows.append(check_row_in(group))
    for part in parts:
        for name, number in collections.Counter(row.name for row in part.rows).items():
            if number > 1:
                raise BadReport(f"{number} rows of @{name}")
    rows = [row for part in parts for row in part.rows]
    held_to(lines[end], rows, own=True)
    number = sum(row.kind == "refused" for row in rows)
    if refused != number:
        raise BadReport(f"the table counts {refused} refused rows, there are {number}")
    return parts, lines[end + 1:]


def check_row_in(group):
    """A row of tv-check; with a mark its kind is `marked` or `alarm`."""
    found = CHECK_ROW.fullmatch(group[0])
    if not found:
        raise BadReport(f"no row: {clipped(group[0])}")
    name, kind, detail = found.groups("")
    if MARKED.fullmatch(detail):
        kind = MARKED_KINDS.get(kind, kind)
    below = [line for line in group[1:] if not line.startswith((TRACED, SHOWN))]
    trace = [line[len(TRACED):] for line in group[1:] if line.startswith(TRACED)]
    shown = [line[len(SHOWN):] for line in group[1:] if line.startswith(SHOWN)]
    if len(shown) > (kind in ("refused", "bounded", "vacuous")):
        raise BadReport(f"the lines below @{name} {kind} are none of such a row")
    if bool(below) != (kind in ("incorrect", "alarm")):
        raise BadReport(f"the lines below @{name} {kind} are none of such a row")
    return Line(name, kind, detail, below, trace, "".join(shown))


def rows_in(text):
    """The rows of a report of one pair, of tv or of tv-check."""
    if text.startswith("tv-check "):
        return [row for part in checked(text, "") for row in part.rows]
    return report_in(text).rows


# opt-tv.

OPT_HEAD = "opt-tv: "
NOT_JUDGED = "not judged: "
NO_MODULE = "opt wrote no module"
NO_STEPS = "no steps: no passes were given"
STEPS = re.compile(rf"{NO_STEPS}|steps \d+, those that changed a function:")
LAST_STEP = re.compile(rf"{NO_STEPS}|no function went wrong at a step|@.* incorrect at step \d+: .*")


def opt_report(text):
    """What a report of opt-tv is from (opt's arguments, without folders), and its part: rows, or why
    nothing was judged as a fault; neither where opt wrote no module."""
    first, _, rest = text.partition("\n")
    if not first.startswith(OPT_HEAD):
        raise BadReport(f"the first line is {clipped(first)}")
    words = [word.rsplit("/", 1)[-1] or word for word in first[len(OPT_HEAD):].split(" ")]
    where = " ".join(words)
    if rest.startswith(NOT_JUDGED):
        lines = [line for line in [*rest.split("\n")][:-1] if line != NOT_JUDGED + NO_MODULE]
        if not rest.endswith("\n") or len(lines) > 1:
            raise BadReport("it isn't whole")
        return Part(where, faults=[f"{where} {line}" for line in lines])
    parts, more = checked_before(rest, where)
    if more and not (STEPS.fullmatch(more[0]) and LAST_STEP.fullmatch(more[-1])):
        raise BadReport(f"behind the counts: {clipped(more[0])}")
    return Part(where, parts[0].rows, [f"{where} {fault}" for fault in parts[0].faults])
