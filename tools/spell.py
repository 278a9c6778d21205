#!/usr/bin/env python3
"""Gives the definitions and lemmas of this repository the spelling of today's Rattle: words in snake case, facts in camel case.

usage: python3 tools/spell.py       at the top of the repository, once, after the kit's port.py

tools/spelling.txt has a line for each name that changes: the name as it was, and as it is. A name is changed where it stands as a whole
word of a definition, a lemma, a clause, a proof or a must-fail edit, and in comments and pages between backticks. Names of the code are
in no line.
"""

import re
from pathlib import Path

WORD = re.compile(r"[^\s(){}\[\].,;:«»\"`|]+")
QUOTED = re.compile(r"`[^`\n]*`")
COMMENT = re.compile(r"(?:--|//|^#) .*$", re.MULTILINE)
KINDS = ("crates/*/src/**/*.rt", "crates/*/specs/**/*.antt", "crates/*/proofs/**/*.antt", "crates/*/must-fail/*.edit", "docs/**/*.md", "README.md")


def spellings(path: Path) -> dict[str, str]:
    """The names that change, each with its new form."""
    return dict(line.split() for line in path.read_text(encoding="utf-8").splitlines())


def respelled(text: str, names: dict[str, str]) -> str:
    """The text with each of the names in its new form."""
    return WORD.sub(lambda word: names.get(word[0], word[0]), text)


def prose(text: str, names: dict[str, str]) -> str:
    """The same for a text in which names stand between backticks."""
    return QUOTED.sub(lambda part: respelled(part[0], names), text)


def code(text: str, names: dict[str, str]) -> str:
    """The same for code with comments."""
    parts, at = [], 0
    for comment in COMMENT.finditer(text):
        parts += [respelled(text[at : comment.start()], names), prose(comment[0], names)]
        at = comment.end()
    return "".join(parts) + respelled(text[at:], names)


def main() -> None:
    top = Path(__file__).resolve().parent.parent
    names = spellings(top / "tools" / "spelling.txt")
    changed = 0
    for kind in KINDS:
        for path in sorted(top.glob(kind)):
            old = path.read_text(encoding="utf-8")
            new = (prose if path.suffix == ".md" else code)(old, names)
            if new != old:
                path.write_text(new, encoding="utf-8")
                changed += 1
    print(f"{changed} files respelled")


if __name__ == "__main__":
    main()
