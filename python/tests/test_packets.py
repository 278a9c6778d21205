"""The friendly layer: `packets` over files and pipes, held to the exact layer and to recordings made by hand."""
import io
import itertools
import os
import unittest

import kesarimbu
from kesarimbu import End, Initial, Kept, Marks, Packet, Passed, Refused, Settings, TriggerCounts, packets
from .differential import ROOT
from .sources import Noting, Pieces, file_with, pipe_with
from make_recordings import every, header

FIRST = header(fee_id=0x502A, link=2, offset=68, memory=68) + b"data"
SECOND = header(fee_id=0x0006, link=3, offset=64, memory=64, orbit=9, trigger=0x80000003)
THIRD = header(fee_id=0x522A, link=4, offset=67, memory=67) + b"end"
RECORDING = FIRST + SECOND + THIRD
TRIGGERS = TriggerCounts(orbit=3, hb=3, pht=2, tf=2, rs=2, tof=1)  # of all three
NO_TRIGGERS = TriggerCounts()
INITIAL = Initial(trigger_type=0x4813, data_format=2, system_id=32)


def exact(recording, settings, places=4096):
    """The packets of a recording and the last reply, by one `load` after the other on one window that holds it all."""
    kept, found = Kept(fee_ids=[0] * places), []
    while True:
        reply = kesarimbu.load(settings, kept, recording, 0, True)
        kept = reply.kept
        if not isinstance(reply.answer, Packet):
            return found, reply
        found.append(reply.answer)


def read(source, **settings):
    """All packets of a source, and the end."""
    with packets(source, **settings) as found:
        return list(found), found.end


def told(found):
    """What a test compares of packets: where their loads started, where they stand, and what they are."""
    return [(packet.position, packet.own, packet.header.link_id, bytes(packet.payload)) for packet in found]


class ByHand(unittest.TestCase):
    def test_a_recording(self):
        found, end = read(io.BytesIO(RECORDING))
        self.assertEqual(told(found), [(0, 0, 2, b"data"), (68, 68, 3, b""), (132, 132, 4, b"end")])
        self.assertEqual([packet.header.orbit for packet in found], [0, 9, 0])
        self.assertEqual(end, End(Refused(1), 3, 0, 7, TRIGGERS, (2, 3, 4), (0x502A, 0x0006, 0x522A), Marks(INITIAL)))

    def test_nothing_and_next_to_nothing(self):
        for length in (0, 1, 63):
            found, end = read(io.BytesIO(FIRST[:length]))
            self.assertEqual((found, end), ([], End(Refused(1), 0, 0, 0, NO_TRIGGERS, (), (), Marks())))

    def test_a_payload_that_is_cut_is_empty_and_marked(self):
        found, end = read(io.BytesIO(FIRST[:-1]))
        self.assertEqual(told(found), [(0, 0, 2, b"")])
        self.assertEqual((end.refusal, end.payload, end.marks), (Refused(1), 4, Marks(INITIAL, e100=True)))

    def test_a_payload_that_is_skipped_is_not_cut(self):
        found, end = read(io.BytesIO(FIRST[:-1]), skip_payload=True)
        self.assertEqual((told(found), end.marks), ([(0, 0, 2, b"")], Marks(INITIAL)))

    def test_a_link(self):
        found, end = read(io.BytesIO(RECORDING), link=3)
        self.assertEqual((told(found), end.seen, end.filtered), ([(0, 68, 3, b"")], 3, 1))
        self.assertEqual(end.triggers, TRIGGERS)

    def test_a_fee_id(self):
        found, _ = read(io.BytesIO(RECORDING), fee=0x522A)
        self.assertEqual(told(found), [(0, 132, 4, b"end")])

    def test_a_stave_by_name_or_fee_id(self):
        for stave in ("L5_42", b"L5_42", 0x502A, 0x512A):
            found, end = read(io.BytesIO(RECORDING), stave=stave)
            self.assertEqual((told(found), end.filtered), ([(0, 0, 2, b"data"), (68, 132, 4, b"end")], 2))

    def test_without_statistics(self):
        found, end = read(io.BytesIO(RECORDING), stats=False)
        self.assertEqual((len(found), end), (3, End(Refused(1), 0, 0, 0, NO_TRIGGERS, (), (), Marks())))

    def test_a_header_that_cannot_be_followed(self):
        found, end = read(io.BytesIO(SECOND + header(offset=63) + SECOND))
        self.assertEqual((len(found), end.refusal, end.seen), (1, Refused(2, (-1, 64)), 2))

    def test_a_memory_size_below_64(self):
        self.assertEqual(read(io.BytesIO(header(memory=63)))[1].refusal, Refused(3))

    def test_no_place_for_a_fee_id(self):
        found, end = read(io.BytesIO(RECORDING), places=1)
        self.assertEqual((len(found), end.refusal, end.fee_ids), (1, Refused(4), (0x502A,)))
        self.assertEqual(read(io.BytesIO(RECORDING), places=0)[1].refusal, Refused(4))

    def test_the_sample(self):
        found, end = read(ROOT / "samples/staves.raw")
        self.assertEqual((len(found), end.refusal), (54, Refused(2, (-64, 15280))))
        self.assertEqual((end.seen, end.links, len(end.fee_ids)), (55, tuple(range(9)), 10))
        self.assertEqual(end.triggers, TriggerCounts(orbit=55, hb=55, pht=55, tf=55, rs=55))


class Misuse(unittest.TestCase):
    def test_settings_that_are_none(self):
        self.assertRaises(OverflowError, packets, io.BytesIO(), link=256)
        self.assertRaises(OverflowError, packets, io.BytesIO(), fee=-1)
        self.assertRaises(TypeError, packets, io.BytesIO(), fee=1.5)
        with self.assertRaises(Refused) as caught:
            packets(io.BytesIO(), stave="L9_70")
        self.assertEqual(caught.exception, Refused(8))

    def test_no_such_file(self):
        self.assertRaises(FileNotFoundError, packets, "no/such/file.raw")

    def test_a_file_that_is_open_as_text(self):
        with self.assertRaisesRegex(TypeError, "binary"):
            list(packets(io.StringIO("text")))

    def test_a_pipe_that_does_not_wait(self):
        reading, writing = os.pipe()
        os.set_blocking(reading, False)
        with open(reading, "rb", buffering=0) as end, open(writing, "wb"):
            self.assertRaises(BlockingIOError, list, packets(end))


class Sources(unittest.TestCase):
    def test_a_file_that_was_opened_here_is_closed_at_the_end(self):
        with file_with(RECORDING) as path:
            found = packets(path)
            list(found)
            self.assertTrue(found._windows._file.closed)
            self.assertEqual(list(found), [])

    def test_a_file_that_was_opened_here_is_closed_behind_with(self):
        with file_with(RECORDING) as path:
            with packets(path) as found:
                next(found)
            self.assertTrue(found._windows._file.closed)
            self.assertIsNone(found.end)

    def test_an_open_file_is_read_from_where_it_stands_and_not_closed(self):
        with file_with(b"in front" + RECORDING) as path, open(path, "rb") as file:
            file.seek(8)
            for settings in ({}, {"skip_payload": True}):
                file.seek(8)
                found, _ = read(file, window=64, **settings)
                self.assertEqual([packet.position for packet in found], [0, 68, 132])
            self.assertFalse(file.closed)

    def test_payload_is_a_part_of_the_window_and_stays_good(self):
        found, _ = read(io.BytesIO(RECORDING), window=64)
        self.assertIsInstance(found[0].payload, memoryview)
        self.assertIsInstance(found[0].payload.obj, bytes)
        self.assertTrue(found[0].payload.readonly)
        self.assertEqual([bytes(packet.payload) for packet in found], [b"data", b"", b"end"])

    def test_a_packet_comes_before_the_pipe_is_closed(self):
        reading, writing = os.pipe()
        with open(reading, "rb") as end, open(writing, "wb", buffering=0) as start:
            start.write(FIRST + SECOND[:10])
            found = packets(end)
            self.assertEqual(bytes(next(found).payload), b"data")
            start.write(SECOND[10:])
            self.assertEqual(next(found).header.orbit, 9)

    def test_skipped_payload_is_not_read_from_a_file_that_can_seek(self):
        chain = b"".join(header(offset=8064, memory=8064, counter=i) + bytes(8000) for i in range(9))
        source = Noting(chain)
        found, end = read(source, skip_payload=True, window=64)
        self.assertEqual([packet.header.packet_counter for packet in found], list(range(9)))
        self.assertEqual((len(source.seeks), source.bytes_read, end.payload), (9, 9 * 64, 9 * 8000))

    def test_a_skip_beyond_the_end(self):
        for source in (io.BytesIO(FIRST + SECOND[:-1]), io.BytesIO(header(offset=500)), Pieces(header(offset=500))):
            found, end = read(source, skip_payload=True, window=64)
            self.assertEqual((len(found), end.refusal), (1, Refused(1)))


def passed_offsets(recording, settings):
    """For each packet of a recording, the offsets of the headers that are passed on the way to it: by one examination after the other."""
    kept, offsets, found = Kept(fee_ids=[0] * 4096), [], []
    while True:
        place = kept.place
        answer, _, kept = kesarimbu.examine(settings, kept, recording, 0, True)
        if isinstance(answer, Passed):
            offsets.append(kesarimbu.decode(recording[place:]).offset_new_packet)
        elif isinstance(answer, Packet):
            found.append(offsets)
            offsets = []
        else:
            return found


class OwnPositions(unittest.TestCase):
    """Where a packet stands, and where the search for it began."""

    def test_a_packet_stands_at_its_own_position(self):
        recording = (FIRST + SECOND + THIRD) * 20
        for settings in ({}, {"link": 3}, {"fee": 0x522A}, {"stave": "L5_42"}, {"stave": "L0_6", "skip_payload": True}):
            found, _ = read(io.BytesIO(recording), window=100, **settings)
            with self.subTest(**settings):
                self.assertGreaterEqual(len(found), 20)
                self.assertEqual([recording[packet.own:packet.own + 64] for packet in found], [bytes(packet.header) for packet in found])

    def test_between_the_two_are_the_offsets_passed(self):
        turns = itertools.cycle([{"link": 1}, {"stave": 0x502A}, {"link": 2, "skip_payload": True}, {"fee": 6, "stats": False}, {}])
        most = 0
        for (name, recording), settings in zip(every(7), turns):
            found, _ = read(io.BytesIO(recording), window=300, **settings)
            passed = passed_offsets(recording, Settings(**settings))
            with self.subTest(name, **settings):
                self.assertEqual([packet.own - packet.position for packet in found], list(map(sum, passed)))
            most = max([most, *map(len, passed)])
        self.assertGreater(most, 2)

    def test_without_a_filter_they_are_the_same(self):
        for name, recording in every(8):
            found, _ = read(io.BytesIO(recording), window=200)
            with self.subTest(name):
                self.assertEqual([packet.own for packet in found], [packet.position for packet in found])


class LikeTheExactLayer(unittest.TestCase):
    """Recordings of every kind, sound and damaged, through windows of several lengths: as by `load` on one window with all of it."""

    def hold(self, recording, source, window, **settings):
        found, end = read(source, window=window, **settings)
        expected, last = exact(recording, Settings(**settings))
        self.assertEqual(found, expected)
        self.assertEqual(end.refusal, last.answer)
        kept = last.kept
        self.assertEqual((end.seen, end.filtered, end.payload, end.triggers), (kept.seen, kept.filtered, kept.payload, kept.triggers))
        self.assertEqual((end.links, end.fee_ids), (tuple(kept.links[:kept.links_used]), tuple(kept.fee_ids[:kept.fee_ids_used])))

    def test_in_memory(self):
        turns = itertools.cycle(itertools.product([{}, {"skip_payload": True}, {"link": 1}, {"stave": 0x502A}], [64, 100, 777, 1 << 20]))
        for (name, recording), (settings, window) in zip(every(1), turns):
            with self.subTest(name, window=window, **settings):
                self.hold(recording, io.BytesIO(recording), window, **settings)

    def test_in_pieces(self):
        turns = itertools.cycle([{}, {"skip_payload": True}, {"stave": 0x302B, "skip_payload": True}])
        for (name, recording), settings in zip(every(2), turns):
            with self.subTest(name, **settings):
                self.hold(recording, Pieces(recording), 300, **settings)

    def test_files_and_pipes(self):
        for name, recording in itertools.islice(every(3), 0, None, 9):
            pieces = [recording[i:i + 777] for i in range(0, len(recording), 777)]
            for skip in (False, True):
                with self.subTest(name, skip=skip), file_with(recording) as path, pipe_with(pieces) as pipe:
                    self.hold(recording, path, 500, skip_payload=skip)
                    self.hold(recording, pipe, 500, skip_payload=skip)


if __name__ == "__main__":
    unittest.main()
