"""The listing through the module: held to rows and verdicts of the exact layer, whatever window and buffer it has."""
import _thread
import errno
import gc
import io
import itertools
import time
import unittest

from kesarimbu import Listing, Refused, TriggerCounts, Validator, packets, row
from kesarimbu.ahead import SLACK, ReadAhead
from .sources import Pieces, file_with
from make_recordings import every, header

SOUND = header(counter=1)
UNSOUND = header(bc_reserved=0xDEC)


def composed(recording, version=None, its=False, **settings):
    """The listing, put together from packets, rows and verdicts; how many of them are not sound; and the trigger counts."""
    validator, lines, unsound = Validator(version, its), [], 0
    found = packets(io.BytesIO(recording), **settings)
    for packet in found:
        verdict = validator.check(packet.header)
        lines.append(f"0x{packet.own:X}: {row(packet.header)}")
        if not verdict.sound:
            lines.append(f"0x{packet.own:X}: {verdict.text}")
            unsound += 1
    end = found.end
    lines += [f"seen {end.seen}", f"filtered {end.filtered}", f"payload {end.payload}", f"end {end.refusal.number}"]
    return "".join(line + "\n" for line in lines).encode(), end.refusal, unsound, end.triggers


def threads_left():
    """How many threads there are beside this one, once there are none, or after ten seconds: one ends a moment after it was told to."""
    deadline = time.monotonic() + 10
    while _thread._count() and time.monotonic() < deadline:
        time.sleep(0.001)
    return _thread._count()


def listed(source, **settings):
    with Listing(source, **settings) as listing:
        return b"".join(listing), listing.refusal, listing.unsound, listing.triggers


class Listings(unittest.TestCase):
    def test_recordings_of_every_kind(self):
        settings = [{}, {"skip_payload": True}, {"link": 1}, {"stave": "L5_42", "its": True}, {"version": 6}, {"fee": 6, "stats": False}]
        shapes = [(64, 1024), (777, 1500), (1 << 18, 1 << 18), (100, 4096)]
        turns = zip(itertools.cycle(settings), itertools.cycle(shapes))
        for (name, recording), (asked, (window, room)) in zip(every(4), turns):
            with self.subTest(name, window=window, room=room, **asked):
                self.assertEqual(listed(io.BytesIO(recording), window=window, room=room, **asked), composed(recording, **asked))

    def test_a_source_in_pieces(self):
        for name, recording in itertools.islice(every(5), 0, None, 5):
            with self.subTest(name):
                self.assertEqual(listed(Pieces(recording), window=200), composed(recording))

    def test_packets_that_are_not_sound_are_counted_over_all_calls(self):
        recording = (SOUND + UNSOUND) * 50
        with Listing(io.BytesIO(recording), room=1024, window=64) as listing:
            list(listing)
        self.assertEqual((listing.refusal, listing.unsound, listing.place), (Refused(1), 50, len(recording)))

    def test_the_trigger_counts_so_far(self):
        listing = Listing(io.BytesIO(b"".join(header(trigger=word) for word in (1, 2, 3, 0x80000000))), window=64, room=1024)
        self.assertEqual(listing.triggers, TriggerCounts())
        told = [listing.triggers for _ in listing]
        self.assertEqual(told[:4], [TriggerCounts(1), TriggerCounts(1, 1), TriggerCounts(2, 2), TriggerCounts(2, 2, tof=1)])
        self.assertEqual((told[-1], listing.triggers), (told[3], told[3]))

    def test_lines_do_not_wait_for_more_bytes(self):
        class Waiting(Pieces):
            def readinto(self, buffer):
                if not self.left:
                    raise TimeoutError("asked for more than is there")
                return super().readinto(buffer)

        listing = Listing(Waiting(SOUND))
        chunks = iter(listing)
        self.assertTrue(next(chunks).startswith(b"0x0: 7 "))
        self.assertIsNone(listing.refusal)
        self.assertRaises(TimeoutError, next, chunks)

    def test_a_source_that_only_reads(self):
        class Reads:
            def __init__(self, data):
                self.read = io.BytesIO(data).read

        self.assertEqual(listed(Reads(SOUND * 9), window=100), composed(SOUND * 9))
        self.assertRaises(TypeError, list, Listing(io.StringIO("text")))

    def test_a_packet_longer_than_the_window(self):
        recording = header(offset=10064, memory=65535) + bytes(65471) + SOUND
        self.assertEqual(listed(io.BytesIO(recording), window=64), composed(recording))

    def test_a_buffer_that_is_too_short(self):
        with self.assertRaises(Refused) as caught:
            list(Listing(io.BytesIO(SOUND), room=1023))
        self.assertEqual(caught.exception, Refused(7, (1024,)))

    def test_a_file_that_was_opened_here_is_closed(self):
        with file_with(SOUND) as path:
            listing = Listing(path)
            list(listing)
            self.assertTrue(listing._windows._file.closed)
            self.assertEqual(list(listing), [])

    def test_settings_that_are_none(self):
        self.assertRaises(OverflowError, Listing, io.BytesIO(), version=256)
        self.assertRaises(Refused, Listing, io.BytesIO(), stave="L5")


class Failing(io.RawIOBase):
    """A source that gives 64 bytes, and then fails."""

    def __init__(self):
        self.reads = 0

    def readable(self):
        return True

    def readinto(self, buffer):
        self.reads += 1
        if self.reads > 1:
            raise OSError(errno.EIO, "a worn disk")
        buffer[:64] = SOUND
        return 64


class ReadsAhead(unittest.TestCase):
    """A file that is longer than a window is read by a second thread."""

    def test_recordings_of_every_kind(self):
        settings = [{}, {"link": 1}, {"stave": "L5_42"}, {"fee": 6, "stats": False}]
        turns = zip(itertools.cycle(settings), itertools.cycle([64, 65, 777, 5000]))
        for (name, recording), (asked, window) in zip(every(9), turns):
            with self.subTest(name, window=window, **asked), file_with(recording) as path:
                self.assertEqual(listed(path, window=window, **asked), composed(recording, **asked))

    def test_windows_that_start_anywhere(self):
        """Also behind all that was read, far behind, and with more bytes than two buffers have room for."""
        recording = bytes(range(256)) * 1024
        for places in ([0, 10, 200, 4000, 4000], [5, 100_000, 250_000], [262_000, 262_144, 300_000], [70, 70_000, 262_143]):
            for size in (1, 100, SLACK, 3 * SLACK):
                windows = ReadAhead(io.BytesIO(recording), 777)
                for place in places:
                    windows.move(place, size)
                    self.assertLessEqual(windows.first, place)
                    self.assertEqual(bytes(windows.window[:size]), recording[place:place + size])
                    self.assertTrue(windows.last or len(windows.window) >= size)
                windows.close()

    def test_a_read_that_fails_is_told_where_its_bytes_are_wanted(self):
        windows = ReadAhead(Failing(), 64)
        windows.move(0, 64)
        self.assertEqual(bytes(windows.window), SOUND)
        for _ in range(2):
            with self.assertRaises(OSError) as raised:
                windows.move(64, 64)
            self.assertEqual(raised.exception.errno, errno.EIO)
        windows.close()

    def test_the_thread_ends(self):
        before = threads_left()
        with file_with(SOUND * 100) as path:
            with Listing(path, window=640, room=1024) as closed:
                next(iter(closed))
            whole = Listing(path, window=640)
            list(whole)
            forgotten = Listing(path, window=640, room=1024)
            next(iter(forgotten))
            del forgotten
            gc.collect()
        self.assertEqual(threads_left(), before)


if __name__ == "__main__":
    unittest.main()
