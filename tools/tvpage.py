"""Static pages: functions side by side, counterexamples, counts. No scripts, light and dark."""
import collections
import difflib
import html
import re

import tvout
import tvrun
import tvwhy

COLOURS = {"correct": "good", "same": "same", "incorrect": "bad", "unknown": "open",
           "vacuous": "open", "bounded": "open", "failed": "open", "marked": "open",
           "alarm": "open", "refused": "grey",
           "signature": "grey", "missing": "grey", "extra": "grey"}

STYLE = """
:root { --page:#fff; --ink:#1c1e21; --faint:#5c6470; --edge:#d5d9df; --code:#f6f7f9; --old:#ffe3e0;
  --new:#d9f5df; --mark:#ffd54a; --good:#2e7d43; --same:#8fb89a; --bad:#c62828; --open:#b26a00;
  --grey:#7a828c; color-scheme:light dark }
@media (prefers-color-scheme:dark) { :root { --page:#15171a; --ink:#e6e8eb; --faint:#9aa3ae;
  --edge:#343a42; --code:#1e2126; --old:#4a2321; --new:#1d3d27; --mark:#8a6d00; --good:#57b36e;
  --same:#3f6b4b; --bad:#f0655f; --open:#e0a030; --grey:#8a939e } }
* { box-sizing:border-box }
body { margin:0 auto; max-width:76rem; padding:1rem; background:var(--page); color:var(--ink);
  font:16px/1.45 system-ui,sans-serif; overflow-wrap:anywhere }
h1 { font-size:1.35rem } h2 { font-size:1.1rem; margin-top:2rem }
a { color:inherit } .faint { color:var(--faint); font-size:.875rem }
code,.code,td.value { font-family:ui-monospace,"DejaVu Sans Mono",monospace; font-size:.8125rem }
.bar { display:flex; height:1.1rem; border-radius:.3rem; overflow:hidden; gap:2px; margin:.75rem 0 }
.bar span { min-width:3px } .legend { display:flex; flex-wrap:wrap; gap:.25rem 1.1rem; padding:0;
  margin:0; list-style:none } .dot { display:inline-block; width:.7rem; height:.7rem;
  border-radius:50%; margin-right:.35rem }
.good { background:var(--good) } .bad { background:var(--bad) }
.open { background:var(--open) } .grey { background:var(--grey) } .same { background:var(--same) }
.scroll { overflow-x:auto } table { border-collapse:collapse; margin:.5rem 0 }
th,td { text-align:left; padding:.2rem .9rem .2rem 0; border-bottom:1px solid var(--edge);
  vertical-align:top; overflow-wrap:normal } td code { white-space:nowrap } td.number,th.number { text-align:right }
details { border:1px solid var(--edge); border-radius:.4rem; margin:.6rem 0; padding:.5rem .75rem }
summary { cursor:pointer }
.pair { display:grid; grid-template-columns:minmax(0,1fr) minmax(0,1fr); gap:.75rem }
.side { font-weight:600; font-size:.875rem; margin:.5rem 0 .25rem }
.code { background:var(--code); border:1px solid var(--edge); border-radius:.3rem; overflow-x:auto;
  padding:.35rem 0 } .code div { width:max-content; min-width:100%; white-space:pre;
  padding-right:.5rem; min-height:1.2rem } .no { display:inline-block; width:3.2rem;
  padding-right:.6rem; text-align:right; color:var(--faint); user-select:none }
.old { background:var(--old) } .new { background:var(--new) }
mark { background:var(--mark); color:inherit; outline:1px solid var(--open) }
@media (max-width:46rem) { .pair { grid-template-columns:minmax(0,1fr) } .gap { display:none }
  body { padding:.75rem } }
"""


def escaped(text):
    return html.escape(text.encode("utf-8", "surrogateescape").decode("utf-8", "replace"))


def page(title, body):
    return (f'<!doctype html>\n<html lang="en"><head><meta charset="utf-8">'
            f'<meta name="viewport" content="width=device-width,initial-scale=1">'
            f"<title>{escaped(title)}</title><style>{STYLE}</style></head>\n"
            f"<body>\n<h1>{escaped(title)}</h1>\n{body}\n</body></html>\n")


def dot(kind):
    return f'<span class="dot {COLOURS.get(kind, "grey")}"></span>'


def bar(counts):
    """The counts as one bar with a legend; `counts` maps each kind to its number."""
    some = {kind: number for kind, number in counts.items() if number}
    parts = "".join(f'<span class="{COLOURS.get(kind, "grey")}" style="flex:{number}" '
                    f'title="{kind} {number}"></span>' for kind, number in some.items())
    legend = "".join(f"<li>{dot(kind)}{kind} <strong>{number}</strong></li>"
                     for kind, number in some.items())
    return f'<div class="bar">{parts}</div><ul class="legend">{legend or "<li>no rows</li>"}</ul>'


def table(heads, rows, numbers=()):
    """A table; the columns in `numbers` are right-aligned. Cells are HTML."""
    right = ' class="number"'

    def cells(tag, row):
        return "".join(f'<{tag}{right if at in numbers else ""}>{cell}</{tag}>'
                       for at, cell in enumerate(row))
    body = "".join(f"<tr>{cells('td', row)}</tr>\n" for row in rows)
    return f'<div class="scroll"><table><tr>{cells("th", heads)}</tr>\n{body}</table></div>'


# A counterexample.

def counterexample(lines, function):
    """The lines below an incorrect row as a table."""
    rows = [[escaped(what if name or " " in what else what + "’s run"),
             f"<code>{escaped(name)}</code>" if name else "", f"<code>{escaped(value)}</code>",
             escaped(forms)] for what, name, value, forms in tvout.points(lines, function)]
    return table(["", "name", "value", "signed, hexadecimal"], rows)


def trace(lines):
    """Both runs of a counterexample, step by step, to be opened."""
    shown = "".join(f"<div>{escaped(line) or ' '}</div>" for line in lines)
    return (f'<details><summary>both runs, step by step</summary>'
            f'<div class="code">{shown}</div></details>')


# Two functions side by side.

def plain(line):
    """A line without what differs without meaning: debug locations, numbers of attribute groups."""
    return re.sub(r",? !dbg !\d+|#\d+", "", line).rstrip()


def aligned(before, after):
    """Pairs of line indexes, None where a side has no line, and whether the pair differs."""
    old, new = ([plain(line) for line in text.splitlines()] for text in (before, after))
    rows = []
    for tag, i, j, k, n in difflib.SequenceMatcher(None, old, new, autojunk=False).get_opcodes():
        for step in range(max(j - i, n - k)):
            rows.append((i + step if i + step < j else None, k + step if k + step < n else None,
                         tag != "equal"))
    return rows


def marked(line, column):
    """A line with the token at a column (in bytes, from 1) marked."""
    data = line.encode("utf-8", "surrogateescape")
    start = data[:column - 1].decode("utf-8", "replace")
    rest = data[column - 1:].decode("utf-8", "replace")
    token = re.match(r'[%@#!]?[-\w.$]+|"[^"]*"?|.?', rest).group()
    return f"{escaped(start)}<mark>{escaped(token) or ' '}</mark>{escaped(rest[len(token):])}"


def column_of(side, text, first, order, mark):
    """One side: its lines with their numbers in the module, filled up to keep step."""
    lines, out = text.splitlines(), []
    style = ' class="old"' if side == "source" else ' class="new"'
    for at, changed in order:
        if at is None:
            out.append('<div class="gap"></div>')
            continue
        number = first + at
        here = mark and mark[0] == side and mark[1] == number
        shown = marked(lines[at], mark[2]) if here else escaped(lines[at])
        gutter = f'{"-+"[side == "target"] if changed else ""} {number}'
        out.append(f'<div{style if changed else ""}><span class="no">{gutter}</span>'
                   f"{shown}</div>")
    return f'<div><div class="side">{side}</div><div class="code">{"".join(out)}</div></div>'


def pair(before, after, first=(1, 1), mark=None):
    """Two functions side by side, changed lines marked, and the position of a refusal."""
    if not (before and after):
        side, text, start = ("source", before, first[0]) if before else ("target", after, first[1])
        order = [(at, False) for at in range(len(text.splitlines()))]
        return f'<div>{column_of(side, text, start, order, mark)}</div>'
    rows = aligned(before, after)
    left = column_of("source", before, first[0], [(row[0], row[2]) for row in rows], mark)
    right = column_of("target", after, first[1], [(row[1], row[2]) for row in rows], mark)
    return f'<div class="pair">{left}{right}</div>'


def section(row, source, target, note=""):
    """A function of a report: row, counterexample, both texts; open where it is incorrect.
    `source` and `target` are the functions, None where a side has none."""
    opened = " open" if row.kind in ("incorrect", "alarm") else ""
    body = counterexample(row.lines, source) if row.lines else ""
    advice = tvwhy.ADVICE.get(row.advice, "")
    body += f'<p class="faint">{escaped(advice)}</p>' if advice else ""
    body += trace(row.trace) if row.trace else ""
    texts = [function.text if function else "" for function in (source, target)]
    first = [function.first if function else 1 for function in (source, target)]
    code = pair(*texts, first, row.position()) if any(texts) else ""
    return (f'<details id="f-{escaped(row.name)}"{opened}><summary>{dot(row.kind)}<code>'
            f"{escaped(row.text())}</code>{note}</summary>{body}{code}</details>\n")


# A whole report.

FIRST = ["incorrect", "failed", "alarm", "vacuous", "bounded", "unknown", "marked", "refused",
         "signature", "missing", "extra", "correct", "same"]


def report_page(heads, pairs, rows):
    """The page of a report: `heads` are lines on versions and options, `pairs` what was compared,
    `rows` pairs with their rows. Incorrect functions come first, `same` ones last."""
    title = " → ".join(dict.fromkeys([pairs[0].path, pairs[0].other])) if len(pairs) == 1 \
        else f"{len(pairs)} modules"
    counts = tvrun.counts_of([row for _, row in rows])
    lines = [escaped(line) for head in heads for line in head.splitlines()]
    parts = [f'<p class="faint">{"<br>".join(lines)}</p>']
    parts.append(bar({kind: counts[kind] for kind in FIRST}))
    parts += [f"<p>{escaped(each.path)}: {escaped(each.fault)}</p>"
              for each in pairs if each.fault]
    if not rows:
        parts.append("<p>The report has no rows.</p>")
    refused = [row for _, row in rows if row.kind == "refused" and row.what]
    for each, row in sorted(rows, key=lambda found: FIRST.index(found[1].kind)):
        if row.kind == "refused" and refused:
            parts += refused_table(refused)
            refused = []
        both = [module.functions.get(row.name) for module in (each.source, each.target)]
        where = f' <span class="faint">{escaped(each.path)}</span>' if len(pairs) > 1 else ""
        parts.append(section(row, *both, note=where))
    return page(title, "\n".join(parts))


def refused_table(refused):
    """What was refused: how often, what is there, what to do."""
    counts = collections.Counter((tvwhy.kind_of(row.what), row.advice) for row in refused)
    rows = [[number, f"<code>{escaped(what)}</code>", escaped(tvwhy.ADVICE.get(advice, ""))]
            for (what, advice), number in counts.most_common()]
    return ["<h2>Refused</h2>", table(["rows", "what is there", "what to do"], rows, {0})]
