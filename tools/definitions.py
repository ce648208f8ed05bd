#!/usr/bin/env python3
"""Prints the table of the files of definitions: for each its lines, and its first comment.

With --check it compares the table with the one at the end of docs/DEFINITIONS.md, and the status is 1 where they differ;
with --write it puts the table there.
"""
import pathlib
import sys

ROOT = pathlib.Path(__file__).parent.parent
PAGE = ROOT / "docs" / "DEFINITIONS.md"
HEADING = "| File in `crates` | Lines | It begins with |\n|---|---|---|\n"


def first_comment(lines):
    """The first comment of a file, as one line."""
    begin = next((i for i, line in enumerate(lines) if line.startswith("-- ")), len(lines))
    comment = []
    for line in lines[begin:]:
        if not line.startswith("-- "):
            break
        comment.append(line[3:].strip())
    text = " ".join(comment)
    return text[:1].upper() + text[1:]


def table():
    """The rows by crate, the crates in the order of crates.txt."""
    names = [line.split(":")[0] for line in (ROOT / "crates.txt").read_text().splitlines() if line and line[0] != "#"]
    rows = []
    for name in names:
        for path in sorted((ROOT / "crates" / name / "specs").glob("*.antt")):
            if path.name != "Lib.antt":
                lines = path.read_text().splitlines()
                rows.append(f"| `{name}/specs/{path.name}` | {len(lines)} | {first_comment(lines)} |\n")
    return HEADING + "".join(rows)


def main():
    if sys.argv[1:] == []:
        print(table(), end="")
        return 0
    page = PAGE.read_text()
    before = page[: page.index(HEADING)]
    if sys.argv[1:] == ["--write"]:
        PAGE.write_text(before + table())
        return 0
    if page == before + table():
        return 0
    print("docs/DEFINITIONS.md has another table: tools/definitions.py --write puts this one there")
    return 1


if __name__ == "__main__":
    sys.exit(main())
