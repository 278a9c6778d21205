"""Case lines, and what the Rust answers to them. README.md describes both; port.py gives the answers of the module."""
import subprocess
import sys
import tempfile
from pathlib import Path

HERE = Path(__file__).resolve().parent
TARGET = HERE.parent / "target"
DRIVER = TARGET / "differential/driver"
DATA = HERE.parent / "python/tests/data"  # the stored cases and answers

# The first words of lines that set something up and have no answer, and of those that forget what was set up before.
SETS_UP = {"recording", "bytes", "repeat", "validator", "triggers", "first", "second", "again", "settings", "state", "links", "fees"}
FORGETS = {"recording", "validator", "triggers"}


def build(folder):
    """Builds the Rust from a folder, with its driver."""
    subprocess.run([HERE / "build", folder], check=True)


def made(kind, *words):
    """Lines that make_cases.py makes."""
    command = [sys.executable, HERE / "make_cases.py", kind, *map(str, words)]
    return subprocess.run(command, stdout=subprocess.PIPE, check=True).stdout.decode().splitlines()


def cases(lines):
    """Each line that has an answer, and before it the lines that it builds on and that have not come with an earlier case."""
    set_up = []
    for line in lines:
        word = line.split(" ")[0]
        if word in SETS_UP:
            set_up.append(line)
        elif line and word[0] != "#":
            yield set_up, line
            set_up = []


def rust_answers(lines):
    """The lines of each answer of the Rust, without the '.' that ends it."""
    with tempfile.TemporaryFile() as out:
        subprocess.run([DRIVER], input="".join(f"{line}\n" for line in lines).encode(), stdout=out, check=True)
        out.seek(0)
        yield from parted(line.decode(errors="backslashreplace").rstrip("\n") for line in out)


def parted(lines):
    """The lines of each answer among the lines of many."""
    answer = []
    for line in lines:
        if line == ".":
            yield answer
            answer = []
        else:
            answer.append(line)
    if answer:
        yield answer
