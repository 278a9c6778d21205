"""The window on an input that is read as the scan goes on (`listing_window`), by the loads of the crate `bench`: files and pipes, of which
what is skipped is read and dropped. As many packets must be found as by loads on one window with all of it, and the same triggers counted."""
import ctypes
import itertools
import random
import unittest

from kesarimbu import Settings, structs
from .differential import ROOT
from .sources import file_with, pipe_with
from .test_packets import exact
from make_recordings import every, packet

LIBRARY = ROOT / "target/doors/libbench.so"
PLACES = 4096
# The longest packet fits into this window, so that payload can be read through it. Where payload is skipped, 64 bytes are enough.
LONGEST = 65536
WINDOWS = (64, 65, 127, 1000, 8192, LONGEST)
PIECES = (1, 63, 64, 65537)


def long_recording():
    """Packets of lengths below and above every window, and at the end a payload that is cut."""
    rng = random.Random("windows")
    chain = [packet(rng, size, offset=min(size, 10064)) for size in (64, 65, 500, 1064, 8128, 10064, 65535) for _ in range(4)]
    rng.shuffle(chain)
    return b"".join(chain) + packet(rng, 10064)[:-5000]


def far_recording():
    """Packets whose offset is their length, as skipping goes by it; the last is cut behind its header."""
    rng = random.Random("far")
    return b"".join(packet(rng, rng.choice([64, 65, 100, 1064, 10064])) for _ in range(60)) + packet(rng, 10064)[:64]


def bytes_read():
    """How many bytes this thread has got from reads so far."""
    with open("/proc/thread-self/io") as told:
        return int(told.readline().removeprefix("rchar: "))


class Windows(unittest.TestCase):
    @classmethod
    def setUpClass(cls):
        if not LIBRARY.exists():
            raise AssertionError(f"{LIBRARY} is not there: doors/test builds it")
        cls.load_all = ctypes.CDLL(str(LIBRARY)).kesarimbu_load_all
        bytes_lent, counts_lent, places_lent = map(ctypes.POINTER, (ctypes.c_uint8, ctypes.c_uint32, ctypes.c_uint16))
        cls.load_all.argtypes = [ctypes.c_int, bytes_lent, ctypes.c_size_t, ctypes.c_bool, counts_lent, places_lent, ctypes.c_size_t,
                                 ctypes.c_bool, ctypes.c_bool]
        cls.load_all.restype = ctypes.c_uint64

    def count(self, fd, buffer, whole, skip):
        """How many packets are found, and the trigger counts of the headers seen."""
        lent = (ctypes.c_uint8 * len(buffer)).from_buffer(buffer)
        triggers = (ctypes.c_uint32 * structs.TRIGGERS)()
        return self.load_all(fd, lent, len(buffer), whole, triggers, (ctypes.c_uint16 * PLACES)(), PLACES, skip, True), tuple(triggers)

    def hold(self, recording, skip, windows, sizes):
        found, last = exact(recording, Settings(skip_payload=skip), PLACES)
        expected = len(found), last.kept.triggers
        self.assertEqual(self.count(-1, bytearray(recording), True, skip), expected)
        with file_with(recording) as path:
            for window in windows:
                with self.subTest(window=window, skip=skip), open(path, "rb", buffering=0) as file:
                    self.assertEqual(self.count(file.fileno(), bytearray(window), False, skip), expected)
        for window, size in itertools.product(windows, sizes):
            pieces = (recording[i:i + size] for i in range(0, len(recording), size))
            with self.subTest(window=window, skip=skip, pieces=size), pipe_with(pieces) as pipe:
                self.assertEqual(self.count(pipe.fileno(), bytearray(window), False, skip), expected)

    def test_long_packets(self):
        self.hold(long_recording(), False, [LONGEST, LONGEST + 1], PIECES[1:])
        self.hold(long_recording(), True, WINDOWS, PIECES[3:])

    def test_packets_that_are_skipped(self):
        self.hold(far_recording(), True, WINDOWS, PIECES[1:])
        self.hold(far_recording()[:20000], True, WINDOWS, PIECES[:1])

    def test_what_is_skipped_is_read(self):
        """A descriptor cannot be sought by `std`, so that a file is read as a pipe is. What can be sought is: `listing_window` tries it."""
        rng = random.Random("sought")
        recording = b"".join(packet(rng, 10064) for _ in range(100))
        with file_with(recording) as path, open(path, "rb", buffering=0) as file:
            self.assertGreaterEqual(self.read_by(file), len(recording))
        with pipe_with([recording]) as pipe:
            self.assertGreaterEqual(self.read_by(pipe), len(recording))

    def read_by(self, file):
        """How many bytes 100 loads that skip payload read, through a window of 64 bytes."""
        before = bytes_read()
        self.assertEqual(self.count(file.fileno(), bytearray(64), False, True)[0], 100)
        return bytes_read() - before

    def test_recordings_of_every_kind(self):
        for name, recording in itertools.islice(every(8), 0, None, 3):
            with self.subTest(name):
                self.hold(recording, False, [LONGEST], [64])
                self.hold(recording, True, [64, 777], [63])

    def test_an_input_that_cannot_be_read(self):
        self.assertEqual(self.count(-1, bytearray(LONGEST), False, False), (0, (0,) * structs.TRIGGERS))


if __name__ == "__main__":
    unittest.main()
