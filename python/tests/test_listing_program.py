"""The listing program as it runs: files, pipes and outputs that fail, held to what `load`, `row` and the verdict say on one window."""
import contextlib
import functools
import os
import random
import socket
import subprocess
import threading
import unittest

import kesarimbu
from kesarimbu import Kept, Packet, Settings, Validator, row
from .differential import ROOT
from .sources import file_with, pipe_with
from make_recordings import header, packet

PROGRAM = ROOT / "target/bin/listing"
SAMPLE = ROOT / "samples/staves.raw"
DATA = ROOT / "python/tests/data"
PLACES = 4096
# The window is 65,536 bytes long.
PIECES = (1, 63, 64, 65537)


def long_recording():
    """More than 200 KiB: packets of every length up to the longest, some of them not sound, and at the end a payload that is cut."""
    rng = random.Random("long")
    sizes = [64, 65, 127, 512, 8128, 10064, 40000, 65534, 65535]
    chain = [packet(rng, size, offset=min(size, 10064)) for size in sizes for _ in range(2)]
    chain += [packet(rng, rng.choice(sizes[:4]), bc_reserved=rng.choice([0, 0xDEC]), fee_id=rng.choice([6, 0x6030])) for _ in range(300)]
    rng.shuffle(chain)
    return b"".join(chain) + packet(rng, 5000)[:-1]


def sources(count):
    """A header for each of so many FEE ids."""
    return b"".join(header(fee_id=n) for n in range(count))


FEW = header() + header(bc_reserved=0xDEC) + packet(random.Random("few"), 100)
RECORDINGS = {
    "long": long_recording(),
    "sample": SAMPLE.read_bytes(),
    "ends with 2": FEW + header(offset=63) + FEW,
    "ends with 3": FEW + header(memory=63) + FEW,
    "ends with 4": sources(PLACES + 1) + FEW,
    "fills the FEE ids": sources(PLACES) + FEW,
    "empty": b"",
    "63 bytes": header()[:63],
    "a payload that is cut": FEW[:-1],
}
ENDS = {"sample": 2, "ends with 2": 2, "ends with 3": 3, "ends with 4": 4, "fills the FEE ids": 4}


@functools.cache
def defined(recording):
    """The listing by the definition: one load after the other on a window with the whole recording, each packet with row and verdict."""
    kept, validator, lines = Kept(fee_ids=[0] * PLACES), Validator(), []
    while True:
        reply = kesarimbu.load(Settings(), kept, recording, 0, True)
        kept, found = reply.kept, reply.answer
        if not isinstance(found, Packet):
            break
        lines.append(f"0x{found.own:X}: {row(found.header)}")
        verdict = validator.check(found.header)
        if not verdict.sound:
            lines.append(f"0x{found.own:X}: {verdict.text}")
    lines += [f"seen {kept.seen}", f"filtered {kept.filtered}", f"payload {kept.payload}", f"end {found.number}"]
    return "".join(line + "\n" for line in lines).encode()


def run(stdin, **how):
    """Exit status, output and errors of the program."""
    done = subprocess.run([PROGRAM], stdin=stdin, stdout=how.pop("stdout", subprocess.PIPE), stderr=subprocess.PIPE, timeout=60, **how)
    return done.returncode, done.stdout, done.stderr


def in_pieces(recording, size):
    return (recording[i:i + size] for i in range(0, len(recording), size))


class Lists(unittest.TestCase):
    def setUp(self):
        self.assertTrue(PROGRAM.exists(), f"{PROGRAM} is not there: `doors/test` builds it")

    def test_what_the_recordings_are(self):
        self.assertGreater(len(RECORDINGS["long"]), 200 << 10)
        for name, recording in RECORDINGS.items():
            self.assertTrue(defined(recording).endswith(b"\nend %d\n" % ENDS.get(name, 1)), name)
        told = defined(RECORDINGS["long"])
        self.assertGreater(told.count(b"[E10]"), 100)
        self.assertGreater(len(told), 1 << 15)

    def test_files(self):
        for name, recording in RECORDINGS.items():
            with self.subTest(name), file_with(recording) as path, open(path, "rb") as file:
                self.assertEqual(run(file), (0, defined(recording), b""))

    def test_the_sample_is_listed_as_the_rust_lists_it(self):
        with open(SAMPLE, "rb") as file:
            self.assertEqual(run(file)[1], (DATA / "rust_listing.txt").read_bytes())

    def test_pipes(self):
        for name, recording in RECORDINGS.items():
            for size in PIECES:
                with self.subTest(name, size=size), pipe_with(in_pieces(recording, size)) as pipe:
                    self.assertEqual(run(pipe), (0, defined(recording), b""))

    def test_one_byte_for_each_read(self):
        """A socket that keeps its messages apart gives one of them to a read, so that nothing is held but what was read byte by byte."""
        for name in ("sample", "ends with 3", "a payload that is cut", "63 bytes"):
            with self.subTest(name):
                self.assertEqual(self.by_messages(RECORDINGS[name]), (0, defined(RECORDINGS[name]), b""))

    def by_messages(self, recording):
        here, there = socket.socketpair(socket.AF_UNIX, socket.SOCK_SEQPACKET)

        def send():
            with here:
                # A refusal may end the listing before the recording ends.
                with contextlib.suppress(ConnectionError):
                    for piece in in_pieces(recording, 1):
                        here.send(piece)

        sender = threading.Thread(target=send)
        sender.start()
        try:
            return run(there)
        finally:
            there.close()
            sender.join()

    def test_a_file_that_is_read_from_where_it_stands(self):
        with file_with(b"in front" + FEW) as path, open(path, "rb", buffering=0) as file:
            file.seek(8)
            self.assertEqual(run(file), (0, defined(FEW), b""))


class BreaksOff(unittest.TestCase):
    """A listing that breaks off says why on standard error, in one line, and has no line `end`; the exit status says nothing."""

    def hold(self, done, said):
        status, output, errors = done
        self.assertEqual((status, errors), (0, said))
        self.assertNotIn(b"\nend ", b"\n" + (output or b""))
        return output

    @unittest.skipUnless(os.path.exists("/dev/full"), "there is no /dev/full")
    def test_an_output_that_is_full(self):
        for name in ("empty", "sample", "fills the FEE ids"):
            with file_with(RECORDINGS[name]) as path, open(path, "rb") as file, open("/dev/full", "wb") as full:
                self.hold(run(file, stdout=full), b"standard output: No space left on device\n")

    def test_an_output_that_is_closed(self):
        """The program says why, whether its caller has that signal ignored or not: the toolchain's start has it ignored."""
        for restored in (True, False):
            reading, writing = os.pipe()
            os.close(reading)
            with file_with(RECORDINGS["long"]) as path, open(path, "rb") as file, open(writing, "wb") as closed:
                status, _, errors = run(file, stdout=closed, restore_signals=restored)
            self.assertEqual((status, errors), (0, b"standard output: Broken pipe\n"))

    def test_an_input_that_cannot_be_read(self):
        folder = os.open(ROOT, os.O_RDONLY)
        try:
            self.assertEqual(self.hold(run(folder), b"standard input: Is a directory\n"), b"")
        finally:
            os.close(folder)

    def test_an_input_that_fails_in_the_middle(self):
        """The lines up to there are written."""
        here, there = socket.socketpair(socket.AF_UNIX, socket.SOCK_STREAM)
        with here, there:
            there.setblocking(False)
            here.sendall(FEW[:150])
            output = self.hold(run(there), b"standard input: Resource temporarily unavailable\n")
        self.assertEqual(output, defined(FEW)[:len(output)])
        self.assertEqual(output.count(b"\n"), 3)


if __name__ == "__main__":
    unittest.main()
