#!/usr/bin/env python3
"""Lists the functions of the crates whose bodies have one shape: names, numbers and texts left out.

    tools/twins.py [ROOT [WORDS]]

ROOT is a checkout (this one). Bodies of fewer than WORDS words and signs (8) are left out. A line has how many functions there are, and which.
"""
import collections
import re
import sys
from pathlib import Path
from typing import Iterator

WORDS = set(
    "if else while for in loop match return let mut fn pub impl struct enum as break continue true false self Self where const".split()
)
FUNCTION = re.compile(r'^( *)(?:pub(?:\(crate\))? )?(?:extern "C" )?fn (\w+)', re.MULTILINE)
OPENS = re.compile(r"\{$", re.MULTILINE)
TOKEN = re.compile(r"""b?"(?:\\.|[^"\\])*"|b?'[^']'|\w+|::|->|=>|[^\s\w]""")


def bodies_of(text: str) -> Iterator[tuple[str, str]]:
    """Each function's name and body: from the first brace that ends a line to the one that stands alone in the function's column."""
    for found in FUNCTION.finditer(text):
        column = found.group(1)
        begins = OPENS.search(text, found.end())
        ends = begins and re.compile(rf"^{column}\}}$", re.MULTILINE).search(text, begins.end())
        if begins and ends:
            yield found.group(2), text[begins.end() : ends.start()]


def shape_of(body: str) -> list[str]:
    """The words and signs of a body, a name as `i` and a number or text as `n`."""
    shape = []
    for token in TOKEN.findall(re.sub(r"//[^\n]*", "", body)):
        if token in WORDS or not re.match(r"[\w\"']", token):
            shape.append(token)
        else:
            shape.append("n" if re.match(r"b?[\"']|\d", token) else "i")
    return shape


def twins_of(root: Path, least: int) -> list[list[str]]:
    groups = collections.defaultdict(list)
    for path in sorted(root.glob("crates/*/src/*.rt")):
        for name, body in bodies_of(path.read_text()):
            shape = shape_of(body)
            if len(shape) >= least:
                groups[" ".join(shape)].append(f"{path.relative_to(root / 'crates')}: {name}")
    return sorted((group for group in groups.values() if len(group) > 1), key=len, reverse=True)


def main() -> None:
    root = Path(sys.argv[1]) if len(sys.argv) > 1 else Path(__file__).resolve().parent.parent
    for group in twins_of(root, int(sys.argv[2]) if len(sys.argv) > 2 else 8):
        print(len(group), "; ".join(group))


if __name__ == "__main__":
    main()
