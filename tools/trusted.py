#!/usr/bin/env python3
"""Prints the definitions that the contract of `tv_run::run` reaches, by question and by file.

It reads the contract in crates/tv_run/src/top.rt and follows each name in it to its definition in
crates/*/specs, and so on through the names in that definition. Lines of imports, of comments and blank
lines aren't counted. Types that are declared in .rt files (`specs.declared`) are no definitions here.

    python3 tools/trusted.py            the list, as docs/TRUSTED.md has it
    python3 tools/trusted.py --names    the list with the names of the definitions
    python3 tools/trusted.py --check    status 1 if the list in docs/TRUSTED.md is another one
    python3 tools/trusted.py --write    puts the list into docs/TRUSTED.md
"""
import collections
import pathlib
import re
import sys

ROOT = pathlib.Path(__file__).resolve().parent.parent
TOP = ROOT / "crates/tv_run/src/top.rt"
PAGE = ROOT / "docs/TRUSTED.md"
BEGIN, END = "<!-- tools/trusted.py -->\n", "<!-- end -->\n"

# The questions in the order of reading: a title, and the definitions that it begins with. A definition
# is listed under the first question that reaches it.
QUESTIONS = [
    ("What `correct` and `incorrect` mean", ["verdicts/Laws/Holds", "verdicts/Laws/IsCounterexample"]),
    ("Which rows two modules have", ["report/Rows/AreRows"]),
    ("How rows are printed, and the exit status", ["report/Text/report_text", "report/Status/status_of"]),
    ("What the command line asks for", ["tv_cli/Words/job_of"]),
    ("Which module a text is, or which fault it has", ["ir_reader/Module/IsModule", "ir_reader/Module/IsFault"]),
    ("Which verdict the search must reach", ["verdicts/Trail/IsVerdict"]),
    ("What a certificate shows", ["pair_judge/Answers/IsAnswer"]),
]
REST = "What `run` writes and returns"

DEFINITION = re.compile(r"(?:abbrev|unfoldable) (?:pub )?(\S+)\s*:|(?:pub )?(?:record|data) (\S+)")
IMPORT = re.compile(r"use Rattle\.(\w+)\.specs\.([\w.]+)\.\{([^}]*)\}")
NAME = re.compile(r"[^\W\d][\w']*(?:-[\w']+)*|>>=")


def names_in(text):
    """The words of a piece of a spec or a contract, without its comments."""
    found = set()
    for line in text.splitlines():
        line = re.sub(r"(--|//).*", "", line)
        found.update("◌>>=◌" if word == ">>=" else word for word in NAME.findall(line))
    return found


def imports_in(text):
    """Each imported name with the definition that it is: crate, module, name."""
    found = {}
    for crate, module, listed in IMPORT.findall(text):
        for item in listed.split(","):
            parts = item.split(" as ")
            found[parts[-1].strip()] = (crate, module, parts[0].strip())
    return found


def read_specs():
    """All definitions: (crate, module, name) to its lines; and the imports of each module."""
    definitions, imports = {}, {}
    for path in sorted(ROOT.glob("crates/*/specs/**/*.antt")):
        crate = path.relative_to(ROOT).parts[1]
        module = ".".join(path.relative_to(ROOT / "crates" / crate / "specs").with_suffix("").parts)
        if path.name == "Lib.antt":
            continue
        text = path.read_text()
        imports[(crate, module)] = imports_in(text)
        current = None
        for line in text.splitlines():
            match = DEFINITION.match(line)
            if match:
                current = (crate, module, match.group(1) or match.group(2))
                definitions[current] = [line]
            elif current and line.strip() and not re.match(r"\s*--|use |infix|pub mod ", line):
                definitions[current].append(line)
    return definitions, imports


def reached(start, definitions, imports):
    """The definitions that these reach, themselves with them."""
    seen, todo = set(), [key for key in start if key in definitions]
    while todo:
        key = todo.pop()
        if key in seen:
            continue
        seen.add(key)
        for name in names_in("\n".join(definitions[key])):
            for next_key in ((key[0], key[1], name), imports[key[:2]].get(name)):
                if next_key in definitions:
                    todo.append(next_key)
                    break
    return seen


def contract_of_run():
    """The definitions that the clauses of `run` name."""
    text = TOP.read_text()
    begin = text.index("pub fn run")
    clauses = text[begin : text.index("\n{", begin)]
    known = imports_in(text)
    return [known[name] for name in names_in(clauses) if name in known]


def table(keys, definitions, order, with_names):
    """A line for each file: how many definitions, how many lines."""
    by_file = collections.defaultdict(list)
    for key in keys:
        by_file[key[:2]].append(key)
    lines = ["| file | definitions | lines |", "|---|---|---|"]
    for crate, module in sorted(by_file, key=lambda file: (order.get(file[0], 99), file)):
        found = by_file[(crate, module)]
        path = f"crates/{crate}/specs/{module.replace('.', '/')}.antt"
        count = sum(len(definitions[key]) for key in found)
        lines.append(f"| `{path}` | {len(found)} | {count} |")
        if with_names:
            lines.append("|   " + " ".join(sorted(key[2] for key in found)) + " | | |")
    return lines


def listing(with_names):
    definitions, imports = read_specs()
    crates = [line.split(":")[0] for line in (ROOT / "crates.txt").read_text().splitlines() if ":" in line]
    order = {crate: place for place, crate in enumerate(c for c in crates if not c.startswith("#"))}
    starts = {title: [tuple(name.split("/")) for name in names] for title, names in QUESTIONS}
    for key in sum(starts.values(), []):
        if key not in definitions:
            sys.exit("no such definition: " + "/".join(key))
    meaning = starts[QUESTIONS[0][0]]
    whole = reached(contract_of_run() + meaning, definitions, imports)
    sizes = lambda keys: (len(keys), sum(len(definitions[k]) for k in keys), len({k[:2] for k in keys}))
    lines = ["{} definitions, {} lines, in {} files.".format(*sizes(whole))]
    left = set(whole)
    for title in list(starts) + [REST]:
        part = left if title == REST else reached(starts[title], definitions, imports) & left
        left = left - part
        if part:
            lines += ["", "### {}".format(title), "", "{} definitions, {} lines.".format(*sizes(part)[:2]), ""]
            lines += table(part, definitions, order, with_names)
    return "\n".join(lines) + "\n"


def main():
    options = sys.argv[1:]
    if options not in ([], ["--names"], ["--check"], ["--write"]):
        sys.exit(__doc__)
    text = listing(options == ["--names"])
    if options in ([], ["--names"]):
        sys.stdout.write(text)
        return
    page = PAGE.read_text()
    first, last = page.index(BEGIN) + len(BEGIN), page.index(END)
    if options == ["--write"]:
        PAGE.write_text(page[:first] + text + page[last:])
    elif page[first:last] != text:
        sys.exit("docs/TRUSTED.md has another list than tools/trusted.py prints: run it with --write")


if __name__ == "__main__":
    main()
