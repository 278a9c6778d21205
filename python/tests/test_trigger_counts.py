"""Trigger counts: a header that a scan counts as seen has its trigger word counted at once, by examination, load and listing alike.

What is expected is by hand, or worked out from a recording's bytes by a walk along its chain.
"""
import io
import itertools
import random
import unittest
from ctypes import c_uint8, c_uint16, c_uint32
from dataclasses import replace

import kesarimbu
from kesarimbu import Kept, Listing, Marks, Packet, Passed, Refused, Settings, TriggerCounts, Want, library, packets, plain, structs
from kesarimbu.scan import plain_state
from .sources import Pieces, file_with
from .test_triggers import alike
from make_recordings import every, header, packet

LIMIT = 1 << 60
FULL = 0xFFFFFFFF
# The bits that are counted, in the order of the counts. Bits 15 to 26 are spare.
BITS = [*range(15), *range(27, 32)]
SPARE = 0x07FF8000
# A word with some bits of each kind, and another one.
WORD, OTHER = 0x9A40C813, 0x48015526
BAD_OFFSETS = (0, 63, 10_065, 65_535)
WINDOWS = (64, 65, 127, 1000, 1 << 20)


def raised(counts, *words):
    """The counts with these words more."""
    return TriggerCounts(*((count + sum(word >> bit & 1 for word in words)) % (1 << 32) for count, bit in zip(counts, BITS)))


def number_at(recording, place, width):
    return int.from_bytes(recording[place:place + width], "little")


def seen_words(recording, takes=lambda header: True, skip=False):
    """The trigger words of the headers seen up to the first refusal, by a walk from header to header, if no FEE list is ever full."""
    words, place, is_first = [], 0, True
    while place + 64 <= len(recording):
        offset, memory, word = number_at(recording, place + 8, 2), number_at(recording, place + 10, 2), number_at(recording, place + 32, 4)
        can_be_followed = 64 <= offset <= 10_064
        if is_first or can_be_followed:
            words.append(word)
        is_taken = takes(recording[place:place + 64])
        if not can_be_followed or is_taken and memory < 64:
            break
        place += memory if is_taken and not skip else offset
        is_first = is_taken
    return words


# One call of each kind on a window: the number of the refusal, or 0, and the trigger counts after it.


def by_examination(settings, kept, window, first, last):
    return told(kesarimbu.examine(settings, kept, window, first, last))


def by_load(settings, kept, window, first, last):
    return told(kesarimbu.load(settings, kept, window, first, last))


def told(reply):
    return reply.answer.number if isinstance(reply.answer, Refused) else 0, reply.kept.triggers


def by_list(settings, kept, window, first, last):
    """The function that C calls, since a `Listing` begins with no counts. It goes on to a want or a refusal."""
    links, triggers = (c_uint8 * 256)(*kept.links), (c_uint32 * 20)(*kept.triggers)
    fee_ids, out = (c_uint16 * len(kept.fee_ids))(*kept.fee_ids), (c_uint8 * 4096)()
    asked = plain.settings(settings.link, settings.fee, settings.stave, settings.skip_payload, settings.stats)
    listed = library.list_packets(asked, plain_state(kept), structs.Validator(), links, triggers, fee_ids, len(fee_ids), window, len(window),
                                  first, last, out, len(out))
    return listed.answer.refusal, TriggerCounts(*triggers)


CALLS = (by_examination, by_load, by_list)


def state(**changed):
    """What is kept before a call, with counts that a call must go on from."""
    return Kept(**{"triggers": range(100, 120), "fee_ids": [0] * 4, **changed})


class OneHeader(unittest.TestCase):
    """A window with one header: what each kind of call leaves of the counts."""

    def hold(self, settings, kept, window, refusal, *words, first=0, last=False):
        """The call is refused with this number, or not if it is 0, and has counted these words."""
        for call in CALLS:
            with self.subTest(call.__name__, settings=settings):
                self.assertEqual(call(settings, kept, window, first, last), (refusal, raised(kept.triggers, *words)))

    def test_each_bit_alone(self):
        for bit in range(32):
            with self.subTest(bit=bit):
                expected = [0] * 20
                if bit in BITS:
                    expected[BITS.index(bit)] = 1
                for call in CALLS:
                    self.assertEqual(call(Settings(), Kept(), header(trigger=1 << bit), 0, False), (0, tuple(expected)))

    def test_by_name(self):
        for word, counts in [(1, dict(orbit=1)), (0x4813, dict(orbit=1, hb=1, pht=1, tf=1, rs=1)), (0x7000, dict(fe_rst=1, rt=1, rs=1)),
                             (0x88000000, dict(lhc_gap1=1, tof=1)), (0x70000000, dict(lhc_gap2=1, tpc_sync=1, tpc_rst=1))]:
            for call in CALLS:
                self.assertEqual(call(Settings(), Kept(), header(trigger=word), 0, False)[1], TriggerCounts(**counts))

    def test_no_bit_all_bits_all_spare_bits(self):
        for word, counts in [(0, alike(5)), (FULL, alike(6)), (SPARE, alike(5)), (FULL - SPARE, alike(6))]:
            for call in CALLS:
                self.assertEqual(call(Settings(), state(triggers=alike(5)), header(trigger=word), 0, False), (0, counts))

    def test_a_packet(self):
        for settings in (Settings(), Settings(skip_payload=True), Settings(link=2), Settings(stave="L5_42")):
            self.hold(settings, state(), header(link=2, trigger=WORD), 0, WORD)
            self.hold(settings, state(load=7), header(link=2, trigger=WORD), 0, WORD)

    def test_a_packet_that_is_cut(self):
        cut = header(offset=99, memory=99, trigger=WORD)
        answer, marks, kept = kesarimbu.examine(Settings(), state(), cut, 0, True)
        self.assertTrue(marks.e100)
        self.assertEqual((answer.own, kept.triggers), (0, raised(range(100, 120), WORD)))

    def test_passed(self):
        for settings in (Settings(link=2), Settings(fee=7), Settings(stave="L0_6")):
            self.assertEqual(kesarimbu.examine(settings, state(), header(trigger=WORD), 0, False).answer, Passed())
            self.hold(settings, state(), header(trigger=WORD), 0, WORD)
            self.hold(settings, state(load=7), header(trigger=WORD), 0, WORD)

    def test_an_offset_that_cannot_be_followed(self):
        """With refusal 2 the first header of a load is counted, and a later one is not, be it to be passed or not."""
        for offset, settings in itertools.product(BAD_OFFSETS, (Settings(), Settings(link=2), Settings(skip_payload=True))):
            bad = header(offset=offset, trigger=WORD)
            self.hold(settings, state(), bad, 2, WORD)
            self.hold(settings, state(load=0), bad, 2)

    def test_a_memory_size_below_64(self):
        for memory, settings in itertools.product((0, 63), (Settings(), Settings(skip_payload=True), Settings(fee=0x502A))):
            bad = header(memory=memory, trigger=WORD)
            self.hold(settings, state(), bad, 3, WORD)
            self.hold(settings, state(load=7), bad, 3, WORD)

    def test_no_place_for_a_fee_id(self):
        for full in (dict(fee_ids=[]), dict(fee_ids=[7], fee_ids_used=1)):
            for settings in (Settings(), Settings(link=2)):
                self.hold(settings, state(**full), header(trigger=WORD), 4, WORD)
                self.hold(settings, state(load=7, **full), header(trigger=WORD), 4, WORD)

    def test_no_place_for_a_fee_id_and_a_bad_offset(self):
        """A first header is counted, and refused with 4; a later one is not counted, and refused with 2."""
        bad = header(offset=63, trigger=WORD)
        self.hold(Settings(), state(fee_ids=[]), bad, 4, WORD)
        self.hold(Settings(), state(fee_ids=[], load=7), bad, 2)

    def test_the_end(self):
        for length in (0, 1, 63):
            self.hold(Settings(), state(), header(trigger=FULL)[:length], 1, last=True)
            self.hold(Settings(), state(load=7), header(trigger=FULL)[:length], 1, last=True)

    def test_what_cannot_be_worked_with(self):
        for changed, first in [(dict(), 1), (dict(place=LIMIT + 1), 0), (dict(position=LIMIT + 1), 0), (dict(links_used=257), 0),
                               (dict(fee_ids_used=5), 0), (dict(links=[7, 7], links_used=2), 0), (dict(seen=FULL), 0),
                               (dict(filtered=FULL), 0), (dict(payload=FULL), 0)]:
            for last in (False, True):
                with self.subTest(changed, first=first):
                    self.hold(Settings(), state(**changed), header(trigger=FULL), 6, first=first, last=last)

    def test_a_want(self):
        """For the header, and for the payload of a header that would be handed out."""
        recording = header(offset=72, memory=72, trigger=FULL) + bytes(8)
        for length, size in [(0, 64), (63, 64), (64, 72), (71, 72)]:
            for kept in (state(), state(load=7)):
                self.assertEqual(kesarimbu.load(Settings(), kept, recording[:length], 0, False).answer, Want(0, size))
                self.hold(Settings(), kept, recording[:length], 0)
        self.hold(Settings(), state(), recording, 0, FULL)
        self.hold(Settings(skip_payload=True), state(), recording[:64], 0, FULL)

    def test_without_statistics(self):
        """Whatever becomes of the header."""
        for settings, window, refusal in [
                (Settings(), header(trigger=FULL), 0), (Settings(link=2), header(trigger=FULL), 0), (Settings(), header(offset=63), 2),
                (Settings(), header(memory=63), 3), (Settings(link=2), header(offset=63), 2)]:
            for kept in (state(), state(load=7), state(fee_ids=[])):
                self.hold(replace(settings, stats=False), kept, window, refusal)


class AtTheirEnd(unittest.TestCase):
    """Counts made by hand, near 2^32: modulo 2^32 alone, unlike the count of seen headers, which starts again at 2^32 - 1 with a mark."""

    def test_counts_that_wrap(self):
        for n in (FULL - 2, FULL - 1, FULL):
            for call in CALLS:
                with self.subTest(call.__name__, n=n):
                    kept = state(triggers=alike(n))
                    self.assertEqual(call(Settings(), kept, header(trigger=FULL), 0, False), (0, alike((n + 1) % (1 << 32))))
                    self.assertEqual(call(Settings(), kept, header(trigger=0), 0, False), (0, alike(n)))

    def test_only_those_with_a_bit_wrap(self):
        for call in CALLS:
            self.assertEqual(call(Settings(), state(triggers=alike(FULL)), header(trigger=0x40000004), 0, False),
                             (0, alike(FULL)._replace(hbr=0, tpc_rst=0)))

    def test_nothing_is_marked(self):
        for call, n in itertools.product((kesarimbu.examine, kesarimbu.load), (FULL - 1, FULL)):
            answer, marks, _ = call(Settings(), state(triggers=alike(n), position=1), header(trigger=FULL), 0, False)
            self.assertIsInstance(answer, Packet)
            self.assertEqual(marks, Marks())

    def test_a_mark_of_seen_leaves_them(self):
        _, marks, kept = kesarimbu.examine(Settings(), state(triggers=alike(FULL - 1), seen=FULL - 1, position=1), header(trigger=FULL), 0,
                                           False)
        self.assertEqual((marks, kept.seen, kept.triggers), (Marks(seen=1), 0, alike(FULL)))


class InARow(unittest.TestCase):
    """Several headers, in one call and in several."""

    def test_headers_that_a_load_passes(self):
        """They stay counted, once each, whatever ends the call."""
        passed, later = header(link=1, trigger=WORD), header(link=2, trigger=OTHER)
        for call in (by_load, by_list):
            for window, last, refusal, words in [
                    (passed + passed, False, 0, [WORD, WORD]),
                    (passed + passed, True, 1, [WORD, WORD]),
                    (passed + later[:63], False, 0, [WORD]),
                    (passed + later, False, 0, [WORD, OTHER]),
                    (passed + header(link=2, offset=99, memory=99, trigger=OTHER), False, 0, [WORD]),
                    (passed + header(link=2, offset=63, trigger=OTHER), True, 2, [WORD]),
                    (passed + header(link=2, memory=63, trigger=OTHER), True, 3, [WORD, OTHER]),
                    (passed + header(link=2, fee_id=9, trigger=OTHER), True, 4, [WORD, OTHER])]:
                with self.subTest(call.__name__, refusal=refusal, last=last):
                    kept = state(fee_ids=[0])
                    self.assertEqual(call(Settings(link=2), kept, window, 0, last), (refusal, raised(kept.triggers, *words)))

    def test_calls_that_go_on(self):
        """A want counts nothing, so that no header is counted twice."""
        recording = header(link=1, trigger=WORD) + header(link=2, offset=72, memory=72, trigger=OTHER) + bytes(8)
        kept, counts = Kept(), []
        for end in (63, 64, 100, 128, 135, 136, 136):
            kept = kesarimbu.load(Settings(link=2), kept, recording[:end], 0, False).kept
            counts.append(kept.triggers)
        none, first = TriggerCounts(), raised(TriggerCounts(), WORD)
        both = raised(first, OTHER)
        self.assertEqual(counts, [none, first, first, first, first, both, both])

    def test_after_a_refusal(self):
        """A scan that goes on behind a refused header keeps its counts."""
        recording = header(trigger=WORD) + header(offset=63, trigger=OTHER) + header(memory=0, trigger=1) + header(trigger=FULL)
        kept, numbers = Kept(), []
        while numbers[-1:] != [1]:
            answer, _, kept = kesarimbu.load(Settings(), kept, recording, 0, True)
            numbers.append(answer.number if isinstance(answer, Refused) else 0)
        self.assertEqual((numbers, kept.triggers), ([0, 2, 3, 0, 1], raised(TriggerCounts(), WORD, OTHER, 1, FULL)))

    def test_the_order_of_the_words_does_not_matter(self):
        words = [1 << bit for bit in reversed(BITS)] + [WORD, OTHER]
        counts = [counted_by_packets(b"".join(header(trigger=word) for word in chain)) for chain in (words, words[::-1])]
        self.assertEqual(counts, [raised(alike(1), WORD, OTHER)] * 2)


# What a filter is asked for, and the headers that it takes, by their bytes.
FILTERS = [
    ({}, lambda header: True),
    ({"link": 1}, lambda header: header[12] == 1),
    ({"fee": 0x302B}, lambda header: number_at(header, 2, 2) == 0x302B),
    ({"stave": "L5_42"}, lambda header: number_at(header, 2, 2) & 0x703F == 0x502A),
]


# The trigger counts of a recording up to the first refusal. Examinations and loads have one window with all of it.


def counted_by_examinations(recording, **asked):
    return counted_by_calls(kesarimbu.examine, recording, Settings(**asked))


def counted_by_loads(recording, **asked):
    return counted_by_calls(kesarimbu.load, recording, Settings(**asked))


def counted_by_calls(call, recording, settings):
    kept, answer = Kept(), None
    while not isinstance(answer, Refused):
        answer, _, kept = call(settings, kept, recording, 0, True)
    return kept.triggers


def counted_by_packets(source, window=1 << 20, **asked):
    with packets(opened(source), window=window, **asked) as found:
        list(found)
        return found.end.triggers


def counted_by_listing(source, window=1 << 20, room=1 << 18, **asked):
    with Listing(opened(source), window=window, room=room, **asked) as listing:
        list(listing)
        return listing.triggers


def opened(source):
    return io.BytesIO(source) if isinstance(source, bytes) else source


def recordings():
    """Recordings with trigger words at random, that end in every way, and those of every kind that all tests have."""
    rng = random.Random("trigger words")

    def some(size, **fields):
        return packet(rng, size, trigger=rng.getrandbits(32), **fields)

    ends = [b"", some(64)[:63], some(300)[:-1], some(64, offset=63) + some(64), some(64, memory=0) + some(64), some(64, memory=65_535)]
    for end, count in itertools.product(ends, (0, 1, 7, 40)):
        yield b"".join(some(rng.choice([64, 65, 200, 500])) for _ in range(count)) + end
    for _, recording in every(11):
        yield recording


class EveryWay(unittest.TestCase):
    """Whole recordings, by all calls and through windows of any size: the counts are those of the headers that a walk sees."""

    @classmethod
    def setUpClass(cls):
        """The cases: a recording, what is asked for, and the trigger words of the headers seen."""
        turns = itertools.cycle(itertools.product(FILTERS, (False, True)))
        cls.cases = [(recording, {"skip_payload": skip, **asked}, seen_words(recording, takes, skip))
                     for recording, ((asked, takes), skip) in zip(recordings(), turns)]

    def hold(self, count, cases, *how):
        """`count` gives the counts of all words of each case."""
        for recording, asked, words in cases:
            with self.subTest(count.__name__, length=len(recording), how=how, **asked):
                self.assertEqual(count(recording, *how, **asked), raised(TriggerCounts(), *words))

    def test_what_the_cases_are(self):
        """Each bit is counted and not counted many times; and with a filter there are far more headers seen than packets found."""
        words = [word for *_, seen in self.cases for word in seen]
        self.assertGreater(len(self.cases), 80)
        for bit in BITS:
            self.assertTrue(100 < sum(word >> bit & 1 for word in words) < len(words) - 100, bit)
        seen = found = 0
        for recording, asked, words in self.cases:
            if len(asked) > 1:
                seen, found = seen + len(words), found + len(list(packets(io.BytesIO(recording), **asked)))
        self.assertGreater(seen, 2 * found)

    def test_one_window(self):
        for count in (counted_by_examinations, counted_by_loads, counted_by_packets, counted_by_listing):
            self.hold(count, self.cases)

    def test_windows_of_any_size(self):
        for window in WINDOWS:
            self.hold(counted_by_packets, self.cases, window)
            self.hold(counted_by_listing, self.cases, window, 1024)

    def test_sources_of_other_kinds(self):
        """A source that gives some bytes at a time, and a file that is read ahead."""
        for recording, asked, words in self.cases[::3]:
            expected = raised(TriggerCounts(), *words)
            with self.subTest(length=len(recording), **asked), file_with(recording) as path:
                self.assertEqual(counted_by_packets(Pieces(recording), 200, **asked), expected)
                self.assertEqual(counted_by_listing(Pieces(recording), 200, **asked), expected)
                self.assertEqual(counted_by_listing(path, 200, **asked), expected)

    def test_without_statistics(self):
        for recording, asked, _ in self.cases[::3]:
            for count in (counted_by_examinations, counted_by_loads, counted_by_packets, counted_by_listing):
                self.assertEqual(count(recording, stats=False, **asked), alike(0))


if __name__ == "__main__":
    unittest.main()
