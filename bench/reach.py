#!/usr/bin/env python3
"""How much of real code `tv` reads, how much of that it judges, and what keeps it from the rest.

    bench/reach.py [--level O0|O1|O2 ..] [--only NAMES] [--sources FOLDER] [--fetch]
                   [--rows FILE] [--causes] [--jobs N] [--seconds S] [--no-judging]
    bench/reach.py FOLDER.. [--flags FLAGS] ..
    bench/reach.py --from FILE.. [--causes]

The libraries are those of bench/libraries.txt, in the folder SOURCES (reach-sources); --fetch has
apt-get bring the source packages that aren't there, in the version that the list names (a line
`deb-src` is needed). Instead, folders can be named, of which all .c and .ll files are taken. Levels
are those of clang-19 (O1): O0 is -O0 and then sroa. Of each function is asked

- whether `tv` reads it, as clang leaves it and after the plugin's pass tv-lower wrote it out;
- whether a promise was dropped by that;
- of one that is read: whether it has a run within the bounds, so that a wrong target could be found.
  The target is `unreachable`: where that is `incorrect` there is such a run;
- of one that is read: whether it is decided in S seconds (10) against what opt makes of it by PASSES
  (instcombine,gvn,simplifycfg), which is often the same function;
- of one that isn't: all causes, by the plugin's pass tv-causes. Where tv refuses a function that has no
  cause, or reads one that has, it `differs`.

--causes prints the causes of the functions that aren't read after the write-out: how many have each,
how many that one alone, and in which order the causes would bring most if one were taken away after
another. --no-judging asks what is read, alone. --rows keeps a JSON line for each function, which --from counts again.

The status is 0 only where each file was compiled, each run of clang, opt and tv ended by itself, and
no function differs. What failed is named on standard error, and counted.
"""
import argparse
import collections
import concurrent.futures
import dataclasses
import fnmatch
import glob
import json
import os
import re
import shlex
import subprocess
import sys
import time

HERE = os.path.dirname(os.path.realpath(__file__))
sys.path.insert(0, os.path.join(os.path.dirname(HERE), "tools"))
import tvbounds
import tvir
import tvlib
import tvreport
import tvrun

CLANG = "clang-19"
SECONDS = 300
LIST = os.path.join(HERE, "libraries.txt")
PASSES = "instcombine<no-verify-fixpoint>,gvn,simplifycfg"
LEVELS = {"O0": ["-O0", "-Xclang", "-disable-O0-optnone"], "O1": ["-O1"], "O2": ["-O2"]}
# How much tv is asked to read at a time: it takes 16 MiB and 4,096 functions.
MOST_BYTES, MOST_FUNCTIONS = 4_000_000, 500
# A table of causes has as many lines.
LINES = 30
# Of what clang says, the first error says most.
ERROR = re.compile(rb"^.*\berror: .*$", re.M)


class Fault(Exception):
    """Why a file, or a function, could not be measured."""


@dataclasses.dataclass
class Library:
    name: str
    folder: str
    files: list
    flags: list


# Sources.

def listed(options):
    """The libraries of the list that were asked for, fetched where that is wanted."""
    found = []
    for line in tvlib.read_text(options.libraries).splitlines():
        if not line.strip() or line.startswith("#"):
            continue
        name, package, prepare, pattern, flags = (part.strip() for part in line.split("|"))
        if options.only and not any(fnmatch.fnmatch(name, each) for each in options.only.split(",")):
            continue
        folder = os.path.join(options.sources, name)
        if not os.path.isdir(folder):
            if not options.fetch:
                raise tvlib.Failure(tvlib.UNREADABLE, f"no folder {folder}; --fetch brings it")
            fetch(package, prepare, folder, options.sources)
        files = sorted(glob.glob(os.path.join(folder, pattern)))
        if not files:
            raise tvlib.Failure(tvlib.UNREADABLE, f"{folder} has no {pattern}")
        found.append(Library(name, folder, files, shlex.split(flags)))
    return found


def fetch(package, prepare, folder, sources):
    """Unpacks a source package as its authors made it, and prepares it."""
    archives = os.path.join(os.path.abspath(sources), "archives")
    os.makedirs(archives, exist_ok=True)
    name, _, version = package.partition("=")
    upstream = version.rpartition(":")[2].rpartition("-")[0]
    command(["apt-get", "source", "-qq", "--download-only", package], archives)
    found = glob.glob(os.path.join(archives, f"{name}_{upstream}.orig.tar.*[!c]"))
    if len(found) != 1:
        raise tvlib.Failure(tvlib.UNREADABLE, f"{package}: {len(found)} archives in {archives}")
    part = folder + ".part"
    os.makedirs(part)
    command(["tar", "-x", "-f", found[0], "-C", part, "--strip-components=1"], ".")
    if prepare:
        command(["sh", "-c", prepare], part)
    os.rename(part, folder)


def command(words, folder):
    done = subprocess.run(words, cwd=folder, stdout=sys.stderr, check=False)
    if done.returncode != 0:
        raise tvlib.Failure(tvlib.FAULT, f"{shlex.join(words)}: status {done.returncode}")


def of_folder(path, options):
    """A folder's files as a library."""
    files = [os.path.join(place, name) for place, _, names in sorted(os.walk(path))
             for name in sorted(names) if name.endswith((".ll", ".c"))]
    return Library(os.path.basename(os.path.normpath(path)), path, files, shlex.split(options.flags))


# A file.

def ran(what, words, data=b""):
    """The output of a child; a Fault where it failed."""
    done = tvlib.run(words, data, SECONDS)
    if done.status != 0:
        errors = [] if tvlib.is_crash(done) else ERROR.findall(done.errors)
        why = errors[0].decode("utf-8", "replace") if errors else tvlib.why_failed(done, SECONDS)
        raise Fault(f"{what}: {why}")
    return done.output


def opt(what, passes, data, *more):
    return ran(f"opt {what}", [tvlib.opt_program(), f"-load-pass-plugin={tvlib.plugin()}", *more, "-S",
                               f"-passes={passes}", "-o", "-", "-"], data)


def compiled(path, library, level):
    """A file's module, as text."""
    if path.endswith(".ll"):
        return ran("opt verify", [tvlib.opt_program(), "-S", "-passes=verify", "-o", "-", path])
    here = [os.path.join(library.folder, each[2:]) if each.startswith("-I") else each
            for each in library.flags]
    here = ["-I" + each if os.path.isdir(each) else each for each in here]
    text = ran("clang", [CLANG, *LEVELS[level], "-w", *here, "-S", "-emit-llvm", "-o", "-", path])
    return opt("sroa", "sroa", text) if level == "O0" else text


def written_out(text, other, folder, name):
    """A module's text written out, beside its pair, with what keeps tv from each function."""
    beside = os.path.join(folder, name)
    with open(beside, "wb") as file:
        file.write(other)
    return opt("tv-lower", "tv-lower,function(tv-causes)", text, f"-tv-pair={beside}")


def refused(module):
    """Whether tv refuses each function of a module: names to the row's detail, or an empty text."""
    found, batch, size = {}, [], 0
    for name in [*module.functions, None]:
        text = module.functions[name].text if name is not None else ""
        if batch and (name is None or size + len(text) > MOST_BYTES or len(batch) >= MOST_FUNCTIONS):
            found.update(asked(module, batch))
            batch, size = [], 0
        batch.append(name)
        size += len(text)
    return found


def asked(module, names):
    """The same for some of its functions."""
    layout = "".join(line + "\n" for line in module.lines if line.startswith("target datalayout"))
    functions = [module.functions[name] for name in names]
    text = layout + "".join(function.renamed(f"tv.{number}")
                            for number, function in enumerate(functions))
    words = ["--workers", "1", "--weight", "1", "--rounds", "0"]
    done = tvlib.run([tvlib.tv_program(), "check", *words, *tvrun.files_of(text, text)],
                     seconds=SECONDS)
    try:
        if done.status is None:
            raise Fault(f"tv check: over {SECONDS} s")
        report = tvreport.report_of(done.output, done.status,
                                    [f"tv.{number}" for number in range(len(names))], words)
    except tvreport.BadReport as bad:
        said = done.output.decode("utf-8", "replace").strip().splitlines()
        raise Fault(f"tv check: status {done.status}: {said[-1][:80] if said else bad.why}") from None
    return {name: row.detail if row.kind == "refused" else ""
            for name, row in zip(names, report.rows)}


def judged(source, target, name, seconds):
    """What tv says of a run of the source within the bounds (`run`, `none`, or why it doesn't say),
    and of the pair."""
    how = tvrun.How(seconds)
    bounds = tvbounds.fitted(source, target, name, {})
    sides = {"source": source.alone(name), "target": target.alone(name)}
    reach = tvbounds.Reach(source, name)
    kinds, why = tvrun.asked(reach, [tvbounds.VACUOUS], how, bounds)
    run = why or "failed" if kinds is None else "run" if kinds[0] == "incorrect" else "none"
    begun = time.monotonic()
    row = how.rows(sides["source"].text, sides["target"].text, bounds, [sides["source"].name])[0]
    if row.kind == "unknown":
        row, _ = tvrun.asked_again(row, sides, how, bounds, begun)
    return run, " ".join(filter(None, [row.kind, row.detail]))


def measured(path, library, level, options):
    """The rows of a file's functions, and what failed."""
    folder = os.path.dirname(tvrun.file_of("beside.ll", ""))
    faults = []
    text = opt("tv-causes", "function(tv-causes)", compiled(path, library, level))
    later = opt(options.passes, f"function({options.passes})", text)
    raw, = tvir.modules_by_llvm([text], [path])
    lowered, target = tvir.modules_by_llvm([written_out(text, later, folder, "later.ll"),
                                            written_out(later, text, folder, "text.ll")],
                                           [path, path + " later"])
    before, after, there = refused(raw), refused(lowered), refused(target)
    rows = []
    for name in raw.functions:
        if name not in lowered.functions:
            faults.append(f"@{name}: not in what tv-lower wrote")
            continue
        row = {"library": library.name, "level": level, "file": os.path.basename(path), "name": name,
               "raw": not before[name], "after": not after[name], "refused": after[name],
               "raw causes": words_of(raw, name), "causes": words_of(lowered, name),
               "rules": words_of(lowered, name, "tv-rules"),
               "dropped": words_of(lowered, name, "tv-dropped")}
        row["differs"] = row["raw"] == bool(row["raw causes"]) or row["after"] == bool(row["causes"])
        if row["after"] and not options.no_judging:
            other = target if not there.get(name, "no function") else lowered
            row["run"], row["verdict"] = judged(lowered, other, name, options.seconds)
            if "failed" in (row["run"], row["verdict"].split()[0]):
                faults.append(f"@{name}: {row['run']}, {row['verdict']}")
        rows.append(row)
    return rows, faults


def words_of(module, name, key="tv-causes"):
    return module.functions[name].notes.get(key, "").split()


def attempted(path, library, level, options):
    try:
        return measured(path, library, level, options)
    except (Fault, tvlib.Failure) as fault:
        if isinstance(fault, tvlib.Failure) and fault.status in (tvlib.NOT_FOUND, tvlib.INTERRUPTED):
            raise
        return [], [str(fault)]


# Tables.

def percent(part, whole):
    return f"{100 * part / whole:.1f}" if whole else "-"


HEADS = ["library", "level", "functions", "read", "after write-out", "dropped", "with a run", "no run",
         "decided", "differ"]


SHARES = {"read", "after write-out", "with a run"}


def shown_count(head, number, whole):
    """A number of a table, `-` where it wasn't asked for."""
    if number is None:
        return "-"
    return f"{number:,} ({percent(number, whole)})" if head in SHARES else f"{number:,}"


def counts_of(rows):
    """The numbers of HEADS from `functions` on; None for what wasn't asked of each."""
    after = [row for row in rows if row["after"]]
    judged_rows = [row for row in after if "run" in row]
    answers = [sum(row["run"] == "run" for row in judged_rows),
               sum(row["run"] == "none" for row in judged_rows),
               sum(row["verdict"].startswith(("correct", "incorrect")) for row in judged_rows)]
    if len(judged_rows) < len(after):
        answers = [None] * len(answers)
    return [len(rows), sum(row["raw"] for row in rows), len(after),
            sum(bool(row["dropped"]) for row in after), *answers,
            sum(row["differs"] for row in rows)]


def table(rows):
    """A line for each library and level, and one for each level that has several libraries."""
    lines = ["| " + " | ".join(HEADS) + " |", "|---" * len(HEADS) + "|"]
    groups = collections.defaultdict(list)
    for row in rows:
        groups[row["level"], row["library"]].append(row)
    for level in dict.fromkeys(level for level, _ in groups):
        of_level = [(library, each) for (at, library), each in groups.items() if at == level]
        if len(of_level) > 1:
            of_level.append(("all", [row for _, each in of_level for row in each]))
        for library, each in of_level:
            counts = counts_of(each)
            shown = [shown_count(head, number, counts[0]) for head, number in zip(HEADS[2:], counts)]
            lines.append(f"| {library} | {level} | {' | '.join(shown)} |")
    return lines


def order_of(rows):
    """The causes in the order in which they bring most, each with how many functions are read when it
    and those before it are gone. Where none brings one the commonest comes next."""
    left = [frozenset(row["causes"]) for row in rows if row["causes"]]
    read, order = len(rows) - len(left), []
    while left:
        alone = collections.Counter(next(iter(each)) for each in left if len(each) == 1)
        every = collections.Counter(cause for each in left for cause in each)
        best = max(every, key=lambda cause: (alone[cause], every[cause], cause))
        left = [each - {best} for each in left]
        read += sum(not each for each in left)
        left = [each for each in left if each]
        order.append((best, read))
    return order


def causes_table(rows):
    refused_rows = [row for row in rows if row["causes"]]
    every = collections.Counter(cause for row in refused_rows for cause in row["causes"])
    alone = collections.Counter(row["causes"][0] for row in refused_rows if len(row["causes"]) == 1)
    lines = ["| cause | functions | the only one |", "|---|---|---|"]
    for cause, number in every.most_common(LINES):
        lines.append(f"| `{cause}` | {number} ({percent(number, len(rows))}) | {alone[cause]} "
                     f"({percent(alone[cause], len(rows))}) |")
    lines += ["", "| taken away, one after another | read, percent |", "|---|---|"]
    return lines + [f"| `{cause}` | {percent(read, len(rows))} |"
                    for cause, read in order_of(rows)[:LINES]]


def printed(rows, causes):
    print("\n".join(table(rows)))
    if causes:
        for level in dict.fromkeys(row["level"] for row in rows):
            print(f"\n{level}:\n")
            print("\n".join(causes_table([row for row in rows if row["level"] == level])))
    for row in rows:
        if row["differs"]:
            tvlib.said(f"{row['library']} {row['level']} {row['file']} @{row['name']} differs: tv "
                       f"{'reads' if row['after'] else 'refuses ' + row['refused']}, causes "
                       f"{' '.join(row['causes']) or 'none'} (as it was: "
                       f"{'read' if row['raw'] else 'refused'}, {' '.join(row['raw causes'])})")


def rows_in(paths):
    rows = []
    for path in paths:
        try:
            rows += [json.loads(line) for line in tvlib.read_text(path).splitlines()]
        except ValueError as error:
            raise tvlib.Failure(tvlib.UNREADABLE, f"{path}: no lines of JSON: {error}") from None
    return rows


def all_rows(libraries, options):
    """The rows of all files, which are kept as they come, and the number of faults."""
    jobs = [(path, library, level) for level in options.level or ["O1"] for library in libraries
            for path in library.files]
    rows, failed = [], 0
    kept = open(options.rows, "w") if options.rows else None
    with concurrent.futures.ThreadPoolExecutor(options.jobs) as pool:
        done = pool.map(lambda job: attempted(*job, options), jobs)
        for (path, library, level), (found, faults) in zip(jobs, done):
            rows += found
            failed += len(faults)
            for fault in faults:
                tvlib.said(f"{path} at {level}: {fault}")
            if kept:
                kept.writelines(json.dumps(row) + "\n" for row in found)
                kept.flush()
    if kept:
        kept.close()
    return rows, failed


def main():
    parser = tvlib.Parser(description=__doc__, formatter_class=argparse.RawDescriptionHelpFormatter)
    parser.add_argument("folders", nargs="*")
    parser.add_argument("--level", action="append", choices=list(LEVELS))
    parser.add_argument("--only")
    parser.add_argument("--libraries", default=LIST)
    parser.add_argument("--sources", default="reach-sources")
    parser.add_argument("--fetch", action="store_true")
    parser.add_argument("--flags", default="")
    parser.add_argument("--passes", default=PASSES)
    parser.add_argument("--rows")
    parser.add_argument("--from", dest="read", nargs="+")
    parser.add_argument("--causes", action="store_true")
    parser.add_argument("--no-judging", action="store_true")
    parser.add_argument("--jobs", type=int, default=1)
    parser.add_argument("--seconds", type=tvlib.seconds_of, default=10.0)
    options = parser.parse_args()
    failed = 0
    if options.read:
        rows = rows_in(options.read)
    else:
        if not tvir.split_program():
            raise tvlib.Failure(tvlib.NOT_FOUND, "there is no tv-split (docs/PLUGIN.md)")
        libraries = [of_folder(path, options) for path in options.folders] or listed(options)
        rows, failed = all_rows(libraries, options)
    printed(rows, options.causes)
    if failed:
        tvlib.said(f"{failed} failed")
    if failed or any(row["differs"] for row in rows):
        return tvlib.FAULT
    return 0 if rows else tvlib.NOTHING


if __name__ == "__main__":
    tvlib.start(main)
