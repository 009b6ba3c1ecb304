#!/usr/bin/env python3
"""Checks docs/INSTRUCTIONS.md against the tree.

Each section of that page has a line `Names: ..` and tables of files. Each of the section's names has to
occur as a word in each file of its tables; where the last column of a row lists names, those have to. It
also looks for files of the product that have all names of a section and are in none of its tables, but for
those that pass imports on (`Common.antt`).

    python3 tools/instructions.py      status 1, with the missing pairs named, if the page is wrong
"""
import pathlib
import re
import sys

ROOT = pathlib.Path(__file__).resolve().parent.parent
PAGE = ROOT / "docs/INSTRUCTIONS.md"


def quoted(text):
    return re.findall(r"`([^`]+)`", text)


def sections(page):
    """Each section with names: its title, its names, and a file with its names for each row."""
    for part in re.split(r"^## ", page, flags=re.M)[1:]:
        title = part.splitlines()[0]
        match = re.search(r"^Names: (.*?)\n\n", part, flags=re.M | re.S)
        if match:
            names = quoted(match.group(1))
            rows = []
            for line in part.splitlines():
                cells = [cell.strip() for cell in line.strip("|").split("|")]
                if line.startswith("|") and len(cells) > 2 and quoted(cells[1]):
                    rows.append((quoted(cells[1])[0], quoted(cells[-1]) or names))
            yield title, names, rows


def occurs(name, text):
    return re.search(r"(?<!\w)" + re.escape(name) + r"(?!\w)", text) is not None


def product_files():
    """The .rt and .antt files of the crates under the layers of the product in crates.txt."""
    layer = ""
    for line in (ROOT / "crates.txt").read_text().splitlines():
        if line.startswith("#"):
            layer = line.lstrip("# ").strip()
        elif ":" in line and layer not in ("tests", "bench"):
            folder = ROOT / "crates" / line.split(":")[0]
            for kind in ("src", "specs", "proofs"):
                for path in sorted((folder / kind).rglob("*")):
                    if path.suffix in (".rt", ".antt") and path.name != "Common.antt":
                        yield path


def main():
    wrong = []
    found = list(sections(PAGE.read_text()))
    if not found or not all(names and rows for _, names, rows in found):
        sys.exit("docs/INSTRUCTIONS.md: no section with names, or one without files")
    for title, names, rows in found:
        listed = {file for file, _ in rows}
        for file, wanted in rows:
            path = ROOT / file
            if not path.is_file():
                wrong.append(f"{title}: {file}: no such file")
                continue
            text = path.read_text()
            wrong += [f"{title}: {file}: {name}" for name in wanted if not occurs(name, text)]
        for path in product_files():
            file = str(path.relative_to(ROOT))
            if file not in listed and all(occurs(name, path.read_text()) for name in names):
                wrong.append(f"{title}: {file}: has all names and is in no table")
        print(f"{title}: {len(names)} names, {len(rows)} files")
    for line in wrong:
        print(line)
    sys.exit(1 if wrong else 0)


if __name__ == "__main__":
    main()
