#!/usr/bin/env python3
"""Compares the listing program and the Python module's listing with the Rust's, on the recordings that make_recordings.py makes.

    compare_listings.py FIRST LAST          for the seeds FIRST to LAST

The two listings of a recording must be the same bytes. Where ours ends with a refusal that is added (3, 4 or 6), the lines before the
counts must be the first ones of the Rust's, which goes on. The program reads each recording three times: as a file, through a pipe in
pieces of random lengths, and, if it is short, through a pipe that gives a byte at a time. The module reads it as a file, and its trigger
counts behind a whole listing must be those of the Rust's scan. The last line is 'N passed, M failed'.
"""
import random
import subprocess
import sys
import tempfile
from pathlib import Path

HERE = Path(__file__).resolve().parent.parent
sys.path.insert(0, str(HERE / "python"))
from answers import rust_answers
from kesarimbu import Listing
from make_recordings import every

LISTING = HERE / "target/bin/listing"
DRIVER = HERE / "target/differential/driver"
SHORT = 4096
LAST_LINES = 4


def from_file(path):
    with path.open("rb") as file:
        return subprocess.run([LISTING], stdin=file, capture_output=True, check=True).stdout


def from_pipe(recording, sizes):
    """The listing of a recording that comes in pieces of these sizes, each written by itself."""
    with tempfile.TemporaryFile() as out:
        program = subprocess.Popen([LISTING], stdin=subprocess.PIPE, stdout=out, bufsize=0)
        try:
            place = 0
            while place < len(recording):
                place += program.stdin.write(recording[place:place + next(sizes)])
            program.stdin.close()
        except BrokenPipeError:
            pass  # a refusal ended the listing before the recording did
        if program.wait() != 0:
            sys.exit(f"the listing program ended with {program.returncode}")
        out.seek(0)
        return out.read()


def from_module(path):
    """The listing, and the trigger counts behind it."""
    with Listing(path) as listing:
        return b"".join(listing), tuple(listing.triggers)


def rust_triggers(recording):
    """The trigger counts of the Rust's scan of all headers."""
    [answer] = rust_answers(["recording", f"bytes {recording.hex() or '-'}", "scan stats=1"])
    return tuple(map(int, answer[-1].removeprefix("triggers ").split(" ")))


def readings(path, recording, rng):
    """How it was read, the listing, and the trigger counts, which the program does not tell."""
    yield "module", *from_module(path)
    yield "file", from_file(path), None
    yield "pipe", from_pipe(recording, iter(lambda: rng.choice([1, 7, 63, 64, 65, 1000, 4096, 70000]), None)), None
    if len(recording) <= SHORT:
        yield "bytes", from_pipe(recording, iter(lambda: 1, None)), None


def agree(ours, rust):
    """Whether the listings are the same, and whether a refusal that is added ended ours."""
    number = ours.rsplit(b" ", 1)[-1].strip()
    if number in (b"3", b"4", b"6"):
        lines = ours.splitlines(keepends=True)[:-LAST_LINES]
        return rust.startswith(b"".join(lines)), True
    return ours == rust, False


def main(words):
    if len(words) != 2:
        sys.exit(__doc__)
    passed, failed, added = 0, 0, 0
    with tempfile.TemporaryDirectory() as folder:
        path = Path(folder) / "recording.raw"
        for seed in range(int(words[0]), int(words[1]) + 1):
            rng = random.Random(seed)
            for name, recording in every(seed):
                path.write_bytes(recording)
                rust = subprocess.run([DRIVER, "list", path], capture_output=True, check=True).stdout
                for how, ours, triggers in readings(path, recording, rng):
                    same, stopped = agree(ours, rust)
                    if triggers is not None and not stopped:
                        same = same and triggers == rust_triggers(recording)
                    passed, failed, added = passed + same, failed + (not same), added + stopped
                    if not same:
                        print(f"seed {seed} {name} by {how}: the listings differ, or the trigger counts")
    print(f"{added} ended with a refusal that is added, and were compared up to it")
    print(f"{passed} passed, {failed} failed")
    sys.exit(failed != 0)


if __name__ == "__main__":
    main(sys.argv[1:])
