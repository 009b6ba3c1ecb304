#!/usr/bin/env python3
"""Says which goal refuses each must-fail edit: the table in docs/EDITS.md.

    python3 tools/edits.py LOG ..           prints the table of what these logs say
    python3 tools/edits.py --write LOG ..   puts it into docs/EDITS.md; an edit that no log has keeps its line there
    python3 tools/edits.py --check [LOG ..] says where docs/EDITS.md differs from the tree's edits and from these logs

A log is what `rt ci` or `rt must-fail` writes of the tree as it is; `-` is standard input. Of each edit it has the
first goal that is refused. An edit that is not refused, not tried, or refused only because a name is gone is a fault
and gets no line, and so is one that is not in the tree, or that changes a contract or a definition: it shows nothing.

Status: 0 no fault and no difference, 1 there are some, each on a line of standard error, 4 the command line, 5 a
file can't be read, 7 docs/EDITS.md can't be written.
"""
import collections
import pathlib
import re
import sys

ROOT = pathlib.Path(__file__).resolve().parent.parent
PAGE = ROOT / "docs/EDITS.md"
BEGIN, END = "<!-- tools/edits.py -->\n", "<!-- end -->\n"
HEAD = ["| crate | edit | function | refused at |", "|---|---|---|---|"]

TRIED = re.compile(r"rt: must-fail (\w+)/(\w+)\.edit: (.*)")
REFUSED = re.compile(r"refused, as it must be(?: \((only [^)]*)\))?(?:: (.*))?$")
SOURCE = re.compile(r"(?:note: )?(?:\./)?(src/[\w/]+\.rt):(\d+):\d+: (.*)")
PROOF = re.compile(r"(?:note: )?(?:\./)?proofs/([\w/+]+)\.antt:\d+:\d+: (.*)")
GOAL = re.compile(r"\(`([^`]+)`?|error: `([^`]+)`?")
CONTRACT = re.compile(r"\s*(ghost|ensures|requires)\b")

# An edit of the tree by crate and name; what a log says of it: the function, and what refuses it.
Edit = collections.namedtuple("Edit", "crate name")
Row = collections.namedtuple("Row", "function refused")


class Fault(Exception):
    """What ends the script, with its status."""

    def __init__(self, status, text):
        super().__init__(text)
        self.status = status


def read(path):
    try:
        return path.read_text()
    except (OSError, UnicodeDecodeError) as error:
        raise Fault(5, f"cannot read {path}: {error}") from error


def edits():
    """The edits of the tree, in order."""
    paths = sorted(ROOT.glob("crates/*/must-fail/*.edit"))
    return [Edit(path.parent.parent.name, path.stem) for path in paths]


def definition_fault(edit):
    """What is wrong with an edit that changes no code, or None."""
    folder = ROOT / "crates" / edit.crate
    lines = read(folder / "must-fail" / f"{edit.name}.edit").splitlines()
    named = [line[len("file: "):].strip() for line in lines if line.startswith("file: ")]
    if len(named) != 1 or not named[0].startswith("src/"):
        return "it changes no file of src/"
    source = read(folder / named[0]).splitlines()
    olds = [line[len("old: "):] for line in lines if line.startswith("old: ")]
    for old in olds:
        if any(old in line and CONTRACT.match(line) for line in source):
            return "it changes a contract or a definition"
    return None


# ---- where a goal is


def exported(crate):
    """The names that a crate exports: those of its `pub use` lines, and the public functions of its root."""
    root = ROOT / "crates" / crate / "src" / "lib.rt"
    text = read(root) if root.exists() else ""
    names = set(re.findall(r"^pub fn (\w+)", text, re.M))
    for listed in re.findall(r"^pub use ([^;]+);", text, re.M):
        names.update(re.findall(r"\w+", listed[listed.find("{"):] if "{" in listed else listed.split("::")[-1]))
    return names


def functions(path):
    """The functions of a file: line, name, the type whose it is or None, and whether it is public."""
    owner, trait = None, False
    for number, line in enumerate(read(path).splitlines(), 1):
        block = re.match(r"(?:impl|trait|pub trait)\b(?:<[^{]*?>)? ?(.*?)\{?$", line)
        if block:
            owner = re.match(r"\w*", block.group(1).split(" for ")[-1]).group()
            trait = " for " in block.group(1) or "trait" in line.split()[:2]
        elif line.startswith("}"):
            owner, trait = None, False
        found = re.match(r"\s*(pub(?:\(crate\))? )?fn (\w+)", line)
        if found:
            yield number, found.group(2), owner, trait or found.group(1) == "pub "


def said(crate, name, owner, public):
    """A function as the table has it."""
    names = exported(crate)
    is_public = public and (owner or name) in names
    return f"`{owner + '::' if owner else ''}{name}`" + (", public" if is_public else "")


def function_at(crate, file, line):
    """The function that a line of a source belongs to."""
    last = None
    for number, name, owner, public in functions(ROOT / "crates" / crate / file):
        if number > line and last:
            break
        last = (name, owner, public)
    return said(crate, *last) if last else f"`{file}`"


def function_proved(crate, path):
    """The function that a file of proofs belongs to, by its path below proofs/: module, type, function, file."""
    *above, name = path.split("/")[:-1] or [""]
    for module in (above, above[:-1]):
        file = (ROOT / "crates" / crate / "src").joinpath(*module or ["lib"]).with_suffix(".rt")
        for _, found, owner, public in functions(file) if file.exists() else ():
            if found == name and (owner is None or owner in above):
                return said(crate, name, owner, public)
    return f"`proofs/{path}.antt`"


# ---- what a goal is


def goal_said(goal):
    """A goal in words, by the names that the check gives to goals."""
    clause = re.search(r"-clause-(\w+)$", goal)
    if goal.startswith("returns"):
        return f"clause `{clause.group(1)}`" if clause else "its clause"
    called = re.match(r"(?:.*\+)?([\w+]+?)(?:-[\w+-]*)?-requires", goal)
    if called:
        return f"what `{called.group(1)}` requires" + (f": `{clause.group(1)}`" if clause else "")
    loop = re.match(r"([\w+-]+?)-(preserved|init|smaller)", goal)
    if loop:
        return ("measure" if loop.group(2) == "smaller" else "invariant") + f" of the loop `{loop.group(1)}`"
    return "goal"


def row_of(crate, text):
    """The row of a refusal, or None where the line says no goal."""
    source, proof = SOURCE.match(text or ""), PROOF.match(text or "")
    if not source and not proof:
        return None
    rest = source.group(3) if source else proof.group(2)
    found = GOAL.search(rest)
    goal = (found.group(1) or found.group(2)) if found else ""
    if source:
        function = function_at(crate, source.group(1), int(source.group(2)))
    else:
        function = function_proved(crate, proof.group(1))
    if not goal:
        return Row(function, rest.split(";")[0].replace("|", "/"))
    return Row(function, f"{goal_said(goal)} (`{goal}`)" + (", in a written proof" if proof else ""))


def read_log(lines):
    """What a log says: rows by edit, and faults."""
    rows, faults = {}, []
    there = set(edits())
    for line in lines:
        tried = TRIED.search(line)
        if not tried:
            continue
        edit, text = Edit(tried.group(1), tried.group(2)), tried.group(3)
        if edit not in there:
            faults.append(f"{edit.crate}/{edit.name}: a log has it, and there is no such edit")
            continue
        refused = REFUSED.match(text)
        row = row_of(edit.crate, refused.group(2)) if refused and not refused.group(1) else None
        if row:
            rows[edit] = row
        else:
            faults.append(f"{edit.crate}/{edit.name}: {text}")
    return rows, faults


def read_logs(names):
    """What logs say together; of an edit that several have the last one counts."""
    rows, faults = {}, []
    for name in names:
        text = sys.stdin.read() if name == "-" else read(pathlib.Path(name))
        found, wrong = read_log(text.splitlines())
        if not found and not wrong:
            faults.append(f"{name}: no must-fail edit was tried in it")
        rows.update(found)
        faults += wrong
    return rows, faults


# ---- the page


def line_of(edit, row):
    return f"| `{edit.crate}` | {edit.name.replace('_', ' ')} | {row.function} | {row.refused} |"


def page_parts():
    text = read(PAGE)
    if text.count(BEGIN) != 1 or text.count(END) != 1:
        raise Fault(5, f"{PAGE}: no place for the table")
    first, last = text.index(BEGIN) + len(BEGIN), text.index(END)
    return text[:first], text[first:last], text[last:]


def rows_of(table):
    """The rows of the page's table."""
    rows = {}
    for line in table.splitlines()[len(HEAD):]:
        cells = [cell.strip() for cell in line.strip().strip("|").split(" | ")]
        if len(cells) == 4:
            rows[Edit(cells[0].strip("`"), cells[1].replace(" ", "_"))] = Row(cells[2], cells[3])
    return rows


def table_of(rows):
    return "\n".join([*HEAD, *(line_of(edit, rows[edit]) for edit in sorted(rows))]) + "\n"


def differences(rows, written, there):
    """Where the page differs from the tree and from what logs say."""
    for edit in there:
        fault = definition_fault(edit)
        if fault:
            yield f"{edit.crate}/{edit.name}: {fault}"
        if edit not in written:
            yield f"{edit.crate}/{edit.name}: docs/EDITS.md has no line for it"
    for edit in sorted(set(written) - set(there)):
        yield f"{edit.crate}/{edit.name}: docs/EDITS.md has a line for it, and there is no such edit"
    for edit, row in sorted(rows.items()):
        if edit in written and written[edit] != row:
            yield f"{edit.crate}/{edit.name}: docs/EDITS.md has another line than {line_of(edit, row)}"


def main(words):
    how = words[0] if words and words[0].startswith("--") else ""
    logs = words[1:] if how else words
    is_known = how in ("", "--write", "--check") and not any(word.startswith("--") for word in logs)
    if not is_known or (not logs and how != "--check"):
        raise Fault(4, __doc__)
    rows, faults = read_logs(logs)
    there = edits()
    if how == "--check":
        faults += differences(rows, rows_of(page_parts()[1]), there)
    elif how == "--write":
        before, table, after = page_parts()
        known = {**rows_of(table), **rows}
        try:
            PAGE.write_text(before + table_of({edit: known[edit] for edit in there if edit in known}) + after)
        except OSError as error:
            raise Fault(7, f"cannot write {PAGE}: {error}") from error
        faults += [f"{edit.crate}/{edit.name}: no log has it" for edit in there if edit not in known]
    else:
        sys.stdout.write(table_of(rows))
    for fault in faults:
        print(f"edits: {fault}", file=sys.stderr)
    return 1 if faults else 0


if __name__ == "__main__":
    try:
        sys.exit(main(sys.argv[1:]))
    except Fault as fault:
        print(f"edits: {fault}", file=sys.stderr)
        sys.exit(fault.status)
