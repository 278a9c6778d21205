"""Examinations and loads: each answer with its complete reply, by hand; that nothing given is changed; and whatever can be lent.

More cases by hand, on every edge of the rules, are stored as lines: see test_stored.py and differential/make_scan_cases.py.
"""
import unittest
from array import array
from dataclasses import replace

import kesarimbu
from kesarimbu import Header, Initial, Kept, Marks, Packet, Passed, Refused, Scan, Settings, TriggerCounts, Want

LIMIT = 1 << 60
FULL = 0xFFFFFFFE  # the largest count that a scan goes on from
FOUR = array("H", [0xEEEE] * 4)  # the places of a FEE list before it is used
ONE_FEE = array("H", [0x502A] + [0xEEEE] * 3)


def header(offset=72, memory=72, link=2, fee_id=0x502A, number=0):
    return Header(header_id=7, header_size=64, fee_id=fee_id, system_id=32, offset_new_packet=offset, memory_size=memory, link_id=link,
                  packet_counter=number, dataformat_reserved0=2, trigger_type=0x4813 + number)


def one(**fields):
    """A header with 8 bytes behind it, 72 in all."""
    return bytes(header(**fields)) + b"payload!"


def links(*listed):
    return bytes(listed).ljust(256, b"\0")


INITIAL = Marks(initial=Initial(0x4813, 2, 32))
WORD_4813 = TriggerCounts(orbit=1, hb=1, pht=1, tf=1, rs=1)
COUNTED = Kept(links=links(2), links_used=1, triggers=WORD_4813, fee_ids=ONE_FEE, fee_ids_used=1, seen=1)
BEGIN = Kept(fee_ids=FOUR)


class Replies(unittest.TestCase):
    """Complete replies to single calls."""

    def check(self, call, settings, kept, window, first, last, answer, marks, after):
        given = replace(kept)
        reply = call(settings, kept, window, first, last)
        self.assertEqual(reply.answer, answer)
        self.assertEqual(reply.marks, marks)
        self.assertEqual(reply.kept, after)
        self.assertEqual(kept, given, "what was given has changed")

    def both(self, *call_and_reply):
        """The same of an examination and of a load."""
        for call in (kesarimbu.examine, kesarimbu.load):
            with self.subTest(call.__name__):
                self.check(call, *call_and_reply)

    def test_packet(self):
        self.both(Settings(), BEGIN, one(), 0, False, Packet(header(), memoryview(b"payload!"), 0, 0), INITIAL,
                  replace(COUNTED, place=72, position=72, payload=8))

    def test_packet_with_payload_skipped(self):
        """The place moves by the offset, and not by the memory size; payload is counted all the same."""
        self.both(Settings(skip_payload=True), BEGIN, one(offset=100), 0, False, Packet(header(offset=100), memoryview(b""), 0, 0), INITIAL,
                  replace(COUNTED, place=100, position=100, payload=8))

    def test_packet_without_stats(self):
        self.both(Settings(stats=False), BEGIN, one(), 0, False, Packet(header(), memoryview(b"payload!"), 0, 0), Marks(),
                  replace(BEGIN, place=72, position=72))

    def test_packet_that_is_filtered(self):
        for settings in (Settings(link=2), Settings(fee=0x502A), Settings(stave=0x532A), Settings(link=2, fee=1, stave=1),
                         Settings(fee=0x502A, stave=1)):
            with self.subTest(settings):
                self.both(settings, BEGIN, one(), 0, False, Packet(header(), memoryview(b"payload!"), 0, 0), INITIAL,
                          replace(COUNTED, place=72, position=72, payload=8, filtered=1))

    def test_packet_that_is_cut(self):
        self.both(Settings(), BEGIN, one()[:71], 0, True, Packet(header(), memoryview(b""), 0, 0), replace(INITIAL, e100=True),
                  replace(COUNTED, place=71, position=72, payload=8))

    def test_packet_of_an_open_load(self):
        """It has the position of the load's start, which may be any, and its own; it is no first header, and closes the load."""
        self.both(Settings(), replace(BEGIN, load=5, position=0), one(), 0, False, Packet(header(), memoryview(b"payload!"), 5, 0), Marks(),
                  replace(COUNTED, place=72, position=72, payload=8))

    def test_passed(self):
        """An examination answers that, and opens a load; a load goes on, and wants the next header."""
        after = replace(COUNTED, place=72, position=72, load=0)
        self.check(kesarimbu.examine, Settings(link=3), BEGIN, one(), 0, False, Passed(), INITIAL, after)
        self.check(kesarimbu.load, Settings(link=3), BEGIN, one(), 0, False, Want(72, 64), INITIAL, after)

    def test_load_over_passed_headers(self):
        recording = one(link=1, fee_id=7) + one(link=1, fee_id=7, number=1) + one(number=2)
        self.check(kesarimbu.load, Settings(link=2), BEGIN, recording, 0, False, Packet(header(number=2), memoryview(b"payload!"), 0, 144),
                   INITIAL, Kept(place=216, position=216, seen=3, filtered=1, payload=8, links=links(1, 2), links_used=2,
                                 triggers=TriggerCounts(orbit=2, hb=1, hbr=2, pht=3, tf=3, rs=3),
                                 fee_ids=array("H", [7, 0x502A, 0xEEEE, 0xEEEE]), fee_ids_used=2))

    def test_want(self):
        """A want changes nothing: for the header, and for the payload, from the header's place on."""
        for length, size in [(0, 64), (63, 64), (64, 72), (71, 72)]:
            with self.subTest(length=length):
                self.both(Settings(), BEGIN, one()[:length], 0, False, Want(0, size), Marks(), BEGIN)

    def test_refusal_1(self):
        self.both(Settings(), replace(BEGIN, load=5, seen=9), one()[:63], 0, True, Refused(1), Marks(), replace(BEGIN, place=63, seen=9))

    def test_refusal_2(self):
        """A first header is counted; a later one is not, and the position is its own."""
        for offset in (0, 63, 10_065, 65_535):
            with self.subTest(offset=offset):
                self.both(Settings(), BEGIN, one(offset=offset), 0, True, Refused(2, (offset - 64, 0)), INITIAL, replace(COUNTED, place=64))
                later = replace(BEGIN, load=5, position=9)
                self.both(Settings(), later, one(offset=offset), 0, True, Refused(2, (offset - 64, 9)), Marks(),
                          replace(BEGIN, place=64, position=9))

    def test_every_offset(self):
        """Refused with 2, or 0 to 10,000 are skipped behind the header: with the header passed, and with its payload skipped."""
        for settings in (Settings(link=3, stats=False), Settings(skip_payload=True, stats=False)):
            window = bytearray(one())
            for offset in range(1 << 16):
                window[8:10] = offset.to_bytes(2, "little")
                answer, _, kept = kesarimbu.examine(settings, BEGIN, window, 0, True)
                skipped = offset - 64
                if 0 <= skipped <= 10_000:
                    self.assertNotIsInstance(answer, Refused)
                    self.assertEqual((kept.place, kept.position), (64 + skipped, 64 + skipped))
                else:
                    self.assertEqual((answer, kept.place, kept.position), (Refused(2, (skipped, 0)), 64, 0))

    def test_refusal_3(self):
        for settings in (Settings(), Settings(skip_payload=True)):
            self.both(settings, BEGIN, one(memory=63), 0, True, Refused(3), INITIAL, replace(COUNTED, place=64))

    def test_refusal_4(self):
        full = Kept(fee_ids=[7], fee_ids_used=1)
        self.both(Settings(), full, one(), 0, True, Refused(4), INITIAL,
                  replace(full, place=64, seen=1, links=links(2), links_used=1, triggers=WORD_4813))

    def test_refusal_6(self):
        """Nothing changes, and nothing is marked."""
        for changed, first in [
                (dict(), 1), (dict(place=LIMIT + 1), 0), (dict(position=LIMIT + 1), 0), (dict(place=LIMIT), LIMIT),
                (dict(links_used=257), 0), (dict(fee_ids_used=5), 0), (dict(links=[7, 9, 7], links_used=3), 0),
                (dict(seen=FULL + 1), 0), (dict(filtered=FULL + 1), 0), (dict(payload=FULL + 1), 0)]:
            with self.subTest(changed, first=first):
                kept = replace(BEGIN, **changed)
                self.both(Settings(), kept, one(), first, True, Refused(6), Marks(), kept)

    def test_carries(self):
        """Counts that come to 2^32 - 1 go to 0 and are marked."""
        self.both(Settings(link=2), replace(BEGIN, seen=FULL, filtered=FULL, payload=FULL - 7), one(), 0, True,
                  Packet(header(), memoryview(b"payload!"), 0, 0), replace(INITIAL, seen=1, filtered=True, payload=True),
                  replace(COUNTED, place=72, position=72, seen=0))

    def test_numbers_at_their_largest(self):
        """A used number and the start of a load may be any of their width."""
        most = (1 << 64) - 1
        self.both(Settings(), replace(BEGIN, links_used=most, fee_ids_used=most, load=most), b"", 0, True, Refused(6), Marks(),
                  replace(BEGIN, links_used=most, fee_ids_used=most, load=most))
        self.both(Settings(), BEGIN, b"", most, True, Refused(6), Marks(), BEGIN)


class Lent(unittest.TestCase):
    """Whatever can be lent, and what cannot."""

    def test_kinds_of_windows(self):
        recording = one()
        apart = memoryview(bytes(b for pair in zip(recording, recording) for b in pair))[::2]
        for window in (recording, bytearray(recording), memoryview(recording), memoryview(bytearray(recording)), array("B", recording),
                       array("I", recording), apart, memoryview(b"x" + recording)[1:], memoryview(bytearray(b"x" + recording))[1:]):
            with self.subTest(kind=type(window)):
                reply = kesarimbu.load(Settings(), Kept(), window, 0, True)
                self.assertEqual(reply.answer, Packet(header(), memoryview(b"payload!"), 0, 0))
                self.assertIsInstance(reply.answer.payload, memoryview)

    def test_payload_is_a_part_of_the_window(self):
        window = bytearray(one())
        payload = kesarimbu.load(Settings(), Kept(), window, 0, True).answer.payload
        window[64:67] = b"PAY"
        self.assertEqual(payload, b"PAYload!")

    def test_lists(self):
        """Lists may be any numbers; they come back as bytes and an array."""
        kept = Kept(links=(2, 9), links_used=1, fee_ids=(7, 8), fee_ids_used=1)
        self.assertEqual((kept.links, kept.fee_ids), (links(2, 9), array("H", [7, 8])))
        reply = kesarimbu.load(Settings(), kept, one(link=3), 0, True)
        self.assertEqual(reply.kept.links, links(2, 3))
        self.assertEqual(reply.kept.fee_ids, array("H", [7, 0x502A]))
        self.assertEqual(len(Kept().fee_ids), 4096)

    def test_trigger_counts(self):
        """They may be any numbers, and as few as there are; they are always held, and come back, as 20 with their names."""
        for given in ((5, 6), [5, 6], array("I", [5, 6]), bytes([5, 6]), TriggerCounts(5, 6), [5, 6] + [0] * 18):
            with self.subTest(given=given):
                kept = Kept(triggers=given)
                self.assertIsInstance(kept.triggers, TriggerCounts)
                self.assertEqual(kept.triggers, (5, 6, *[0] * 18))
                after = kesarimbu.load(Settings(), kept, one(), 0, True).kept.triggers
                self.assertIsInstance(after, TriggerCounts)
                self.assertEqual(after, TriggerCounts(orbit=6, hb=7, pht=1, tf=1, rs=1))

    def test_numbers_that_do_not_fit(self):
        for settings in (Settings(link=256), Settings(fee=1 << 16), Settings(stave=-1)):
            with self.subTest(settings), self.assertRaises((OverflowError, ValueError)):
                kesarimbu.load(settings, Kept(), b"", 0, True)
        for name, bits in dict(place=64, position=64, load=64, links_used=64, fee_ids_used=64, seen=32, filtered=32, payload=32).items():
            for number in (1 << bits, -1):
                with self.subTest(name, number=number), self.assertRaises((OverflowError, ValueError)):
                    kesarimbu.load(Settings(), Kept(**{name: number}), b"", 0, True)
        for first in (1 << 64, -1):
            with self.assertRaises((OverflowError, ValueError)):
                kesarimbu.load(Settings(), Kept(), b"", first, True)
        for lists in (dict(links=[256]), dict(links=[-1]), dict(links=bytes(257)), dict(fee_ids=[1 << 16]), dict(fee_ids=[-1]),
                      dict(triggers=[1 << 32]), dict(triggers=[0] * 19 + [-1]), dict(triggers=[0] * 21)):
            with self.subTest(lists), self.assertRaises((OverflowError, ValueError)):
                kesarimbu.load(Settings(), Kept(**lists), b"", 0, True)
        for numbers in ([1.5], "12", [None]):
            self.assertRaisesRegex(TypeError, "orbit is .*, and must be a whole number", Kept, triggers=numbers)


class Scans(unittest.TestCase):
    """Call after call."""

    def test_the_same_as_single_calls(self):
        recording = one(link=1) + one(number=1) + one(offset=63, number=2) + one(number=3)
        for settings in (Settings(), Settings(link=2), Settings(skip_payload=True), Settings(stats=False)):
            for name in ("examine", "load"):
                with self.subTest(settings=settings, name=name):
                    scan, kept = Scan(settings, BEGIN), BEGIN
                    for end in (0, 64, 100, 150, 216, 288, 288, 288, 288, 288):
                        scan.lend(recording[:end], 0, end == 288)
                        reply = getattr(kesarimbu, name)(settings, kept, recording[:end], 0, end == 288)
                        self.assertEqual((getattr(scan, name)(), scan.marks, scan.kept), tuple(reply))
                        kept = reply.kept

    def test_what_is_given_to_a_scan_stays(self):
        kept = Kept(fee_ids=FOUR)
        scan = Scan(Settings(), kept)
        scan.lend(one(), 0, True)
        scan.load()
        self.assertEqual(kept, BEGIN)


if __name__ == "__main__":
    unittest.main()
