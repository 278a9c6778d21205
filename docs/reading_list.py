#!/usr/bin/env python3
"""Lists the files of specs/ that a reader must believe, part by part and in the order of crates.txt, with the lines of each.

    docs/reading_list.py                  prints the tables
    docs/reading_list.py docs/PROOFS.md   puts them into that file, in place of those behind the line with MARK

A file whose name ends in Laws has nothing but consequences, which the checker has proved, and one whose first comment has the words of
UNCITED is no part of what is promised; neither is listed. Lines are those with something on them, imports left out.
"""
import re
import sys
from pathlib import Path

ROOT = Path(__file__).resolve().parent.parent
MARK = "<!-- listed by docs/reading_list.py -->"
END = "<!-- end of the list -->"
UNCITED = "no public contract cites"
IMPORT = re.compile(r"(abbrev |unfoldable )?(pub )?(use|mod) ")
PARTS = {
    "The listing program": ("listing",),
    "The doors for C and Python": ("doors", "bench"),
}


def crates():
    return re.findall(r"^(\w+)(?: staticlib)?:", (ROOT / "crates.txt").read_text(), re.MULTILINE)


def part_of(crate):
    """The part that a crate belongs to, by its prefix."""
    prefixes = {prefix: part for part, names in PARTS.items() for prefix in names}
    return prefixes.get(crate.split("_")[0], "The reader and the three demands")


def lines_of(text):
    return [line for line in text.splitlines() if line.strip() and not IMPORT.match(line)]


def heading_of(lines):
    """The comment that a file begins with, as one line."""
    comment = []
    for line in lines:
        if not line.startswith("--"):
            break
        comment.append(line[2:].strip())
    return " ".join(comment)


def files():
    """For each file that must be believed: its part, its path, its lines, and the first sentence of its heading."""
    for crate in crates():
        for path in sorted((ROOT / "crates" / crate / "specs").glob("*.antt")):
            lines = lines_of(path.read_text())
            heading = heading_of(lines)
            if path.stem == "Lib" or path.stem.endswith("Laws") or UNCITED in heading.lower():
                continue
            yield part_of(crate), f"{crate}/{path.stem}", len(lines), re.split(r"(?<=[a-z0-9)])\. ", heading)[0].rstrip(".")


def tables():
    """The tables, a part each, with the lines of each file and of all."""
    listed = list(files())
    text = ""
    for part in dict.fromkeys(part for part, *_ in listed):
        rows = [row[1:] for row in listed if row[0] == part]
        text += f"**{part}**, {sum(lines for _, lines, _ in rows):,} lines:\n\n| file | lines | what it says |\n|---|---|---|\n"
        text += "".join(f"| `{path}` | {lines} | {says} |\n" for path, lines, says in rows) + "\n"
    return text


def main():
    if len(sys.argv) == 1:
        print(tables(), end="")
        return
    page = Path(sys.argv[1])
    before, rest = page.read_text().split(MARK + "\n")
    page.write_text(f"{before}{MARK}\n\n{tables()}{END}\n\n{rest.split(END)[1].lstrip()}")


if __name__ == "__main__":
    main()
