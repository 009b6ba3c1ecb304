#!/usr/bin/env python3
"""Checks the links of the repository's .md files.

    tools/links.py      names each relative link that leads nowhere

A relative link has to lead to a file or a folder of the repository, and where it names an anchor, to a
heading or an `id` of a .md file, or to a line (`#L12`) of another. Links to other sites aren't asked for.
What is written as code is no link.

Status: 0 each link leads somewhere, 1 some don't, 2 there is no .md file, 4 the command line, 5 a file
can't be read.
"""
import os
import re
import sys
import urllib.parse

import tvlib

ROOT = os.path.dirname(tvlib.HERE)
PASSED_OVER = {"out", "build", "target", "node_modules"}
FENCE = re.compile(r"^ {0,3}(```+|~~~+)[^\n]*\n.*?(?:^ {0,3}\1[`~]*[ \t]*$|\Z)", re.S | re.M)
CODE = re.compile(r"(?<!`)(`+)(?!`)(.+?)(?<!`)\1(?!`)", re.S)
COMMENT = re.compile(r"<!--.*?-->", re.S)
HEADING = re.compile(r"^ {0,3}#{1,6}[ \t]+(.+?)[ \t]*#*[ \t]*$", re.M)
INLINE = re.compile(r"\]\(\s*(?:<([^>\n]*)>|([^\s()]*(?:\([^\s()]*\)[^\s()]*)*))(?:\s+(?:\"[^\"]*\"|'[^']*'))?\s*\)")
DEFINED = re.compile(r"^ {0,3}\[([^\]\n]+)\]:[ \t]*<?([^\s>]+)>?", re.M)
BY_NAME = re.compile(r"\]\[([^\]\n]*)\]")
IN_HTML = re.compile(r"<(?:a|img)\b[^>]*?\b(?:href|src)\s*=\s*[\"']([^\"']*)[\"']", re.I)
ID = re.compile(r"<[a-z]\w*\b[^>]*?\b(?:id|name)\s*=\s*[\"']([^\"']+)[\"']", re.I)


def blanked(found):
    """The same number of lines and characters, blank."""
    return re.sub(r"[^\n]", " ", found[0])


def pages():
    """The paths of the .md files in the repository."""
    found = []
    for folder, folders, files in os.walk(ROOT):
        folders[:] = sorted(name for name in folders if not name.startswith(".") and name not in PASSED_OVER)
        found += [os.path.relpath(os.path.join(folder, name), ROOT)
                  for name in sorted(files) if name.endswith(".md")]
    return found


def slug(heading):
    """The anchor that a heading has, as GitHub makes it."""
    heading = re.sub(r"!?\[([^\]]*)\]\([^)]*\)", r"\1", heading)
    return re.sub(r"[^\w\- ]", "", heading.strip().lower()).replace(" ", "-")


def anchors(text):
    """The anchors of a page."""
    text = COMMENT.sub(blanked, FENCE.sub(blanked, text))
    found, counts = set(ID.findall(CODE.sub(blanked, text))), {}
    for heading in HEADING.findall(text):
        name = slug(heading)
        count = counts.get(name, 0)
        counts[name] = count + 1
        found.add(f"{name}-{count}" if count else name)
    return found


def targets(text):
    """The targets of the links of a page, each with its line; None where a link has no target."""
    text = CODE.sub(blanked, COMMENT.sub(blanked, FENCE.sub(blanked, text)))
    line = lambda found: text.count("\n", 0, found.start()) + 1
    defined = {found[1].lower(): found for found in DEFINED.finditer(text)}
    links = [(line(found), found[2]) for found in defined.values()]
    whole = {found.start(): found for found in INLINE.finditer(text)}
    for found in re.finditer(r"\]\(", text):
        link = whole.get(found.start())
        links.append((line(found), None if link is None else link[1] or link[2]))
    links += [(line(found), None) for found in BY_NAME.finditer(text)
              if found[1] and found[1].lower() not in defined]
    links += [(line(found), found[1]) for found in IN_HTML.finditer(text)]
    return sorted(links, key=lambda link: link[0])


def fault(page, target, read):
    """What is wrong with a link of a page, None where nothing is."""
    if target is None:
        return "a link that isn't understood"
    if re.match(r"[a-z][a-z0-9+.-]*:|//", target, re.I):
        return None
    path, _, anchor = target.partition("#")
    path = urllib.parse.unquote(path)
    file = os.path.normpath(os.path.join(os.path.dirname(page), path)) if path else page
    if path.startswith("/") or file.startswith(".."):
        return f"{target}: leads out of the repository"
    if not os.path.exists(os.path.join(ROOT, file)):
        return f"{target}: no such file"
    if "#" in target and not is_anchor(file, urllib.parse.unquote(anchor), read):
        return f"{target}: no such anchor"
    return None


def is_anchor(file, anchor, read):
    """Whether a file has an anchor."""
    if os.path.isdir(os.path.join(ROOT, file)):
        return False
    if file.endswith(".md"):
        return anchor in anchors(read(file))
    lines = re.fullmatch(r"L(\d+)(?:-L(\d+))?", anchor)
    return bool(lines) and 0 < int(lines[1]) <= int(lines[2] or lines[1]) <= len(read(file).splitlines())


def main():
    if sys.argv[1:]:
        print(__doc__.strip())
        return 0 if sys.argv[1:] in (["--help"], ["-h"]) else tvlib.WORDS
    found = pages()
    if not found:
        raise tvlib.Failure(tvlib.FAULT, "there is no .md file")
    texts = {}

    def read(file):
        if file not in texts:
            texts[file] = tvlib.read_text(os.path.join(ROOT, file))
        return texts[file]

    count, faults = 0, []
    for page in found:
        for line, target in targets(read(page)):
            count += 1
            wrong = fault(page, target, read)
            faults += [f"{page}:{line}: {wrong}"] if wrong else []
    print("".join(each + "\n" for each in faults), end="")
    print(f"links: {count} in {len(found)} files, {len(faults)} lead nowhere")
    return 1 if faults else 0


if __name__ == "__main__":
    tvlib.start(main)
