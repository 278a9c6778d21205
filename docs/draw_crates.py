#!/usr/bin/env python3
"""Draws the crates, layer by layer, from crates.txt: each comment there begins a layer, and its first words are the layer's title.

    docs/draw_crates.py              prints the drawing
    docs/draw_crates.py README.md    puts it into that file, in place of the block behind the line with MARK

A line runs down from each layer to those that use it. What a layer has through another one that it uses is not drawn again.
"""
import re
import sys
import textwrap
from pathlib import Path

CRATES = Path(__file__).resolve().parent.parent / "crates.txt"
MARK = "<!-- drawn by docs/draw_crates.py -->"
NAMES_WIDTH = 48


def layers_of(text):
    """The layers, in their order: the title, and for each crate those that it uses."""
    layers = []
    for line in filter(None, map(str.strip, text.splitlines())):
        if line.startswith("#"):
            layers.append((re.split("[:;,.]", line[1:])[0].strip(), {}))
        else:
            name, used = line.split(":")
            layers[-1][1][name.removesuffix(" staticlib")] = used.split()
    return layers


def uses_of(layers):
    """For each layer the numbers of those that it uses, without those that it has through another. The toolchain's crates are in none."""
    home = {name: number for number, (_, crates) in enumerate(layers) for name in crates}
    all_uses, uses = [], []
    for number, (_, crates) in enumerate(layers):
        direct = {home[name] for used in crates.values() for name in used if name in home} - {number}
        through = set().union(*(all_uses[other] for other in direct))
        all_uses.append(direct | through)
        uses.append(direct - through)
    return uses


def free_column(columns, after):
    """The first column behind `after` in which no line runs; a new one if there is none."""
    for column in range(after + 1, len(columns)):
        if columns[column] is None:
            return column
    columns.append(None)
    return len(columns) - 1


def rails_of(uses):
    """For each layer its row of lines, and what of them runs on below it: a character for each column."""
    users = [sum(number in used for used in uses) for number in range(len(uses))]
    columns = []  # the layer whose line runs in a column, or None
    for number, used in enumerate(uses):
        joined = sorted(columns.index(layer) for layer in used)
        own = free_column(columns, max(joined, default=-1)) if users[number] else None
        row = running(columns)
        for column in joined:
            users[columns[column]] -= 1
            ends = users[columns[column]] == 0
            row[column] = ("└" if ends else "├") if column == joined[0] else ("┴" if ends else "┼")
            columns[column] = None if ends else columns[column]
        if own is not None:
            row[own] = "┬" if joined else "┌"
            columns[own] = number
        yield row, running(columns)


def running(columns):
    return [" " if layer is None else "│" for layer in columns]


def joined_up(row, width):
    """A row with its line drawn through, from where it starts on."""
    start = min((column for column, mark in enumerate(row) if mark not in " │"), default=width)
    fills = [" " if column < start else "─" for column in range(width)]
    return "".join((fill if mark == " " else mark) + fill for mark, fill in zip(padded(row, width), fills))


def padded(row, width):
    return row + [" "] * (width - len(row))


def drawing(text):
    """The drawing of what crates.txt says, as lines."""
    layers = layers_of(text)
    rails = list(rails_of(uses_of(layers)))
    width = max(len(row) for row, _ in rails)
    lines = []
    for (title, crates), (row, below) in zip(layers, rails):
        first, *others = textwrap.wrap(" ".join(crates), NAMES_WIDTH)
        lines.append(f"{joined_up(row, width)} {first:{NAMES_WIDTH}}  {title}")
        lines += [f"{' '.join(padded(below, width))}  {names}" for names in others]
    return lines


def put_into(path, lines):
    """Puts the lines into the file as the block behind the mark, which goes on to the first line that ends a block."""
    before, mark, rest = path.read_text().partition(f"{MARK}\n```\n")
    _, end, after = rest.partition("\n```\n")
    if not mark or not end:
        sys.exit(f"{path} has no line {MARK} with a block behind it")
    path.write_text(before + mark + "\n".join(lines) + end + after)


def main(words):
    lines = drawing(CRATES.read_text())
    if len(words) > 1:
        sys.exit(__doc__)
    if words:
        put_into(Path(words[0]), lines)
    else:
        print("\n".join(lines))


if __name__ == "__main__":
    main(sys.argv[1:])
