"""A filter only thins out: with payload skipped and statistics off, a filtered scan hands out the matching headers of the scan without a filter,
in the same order, each at its own position, and ends with the same refusal, byte place and position. Where the scan without a filter is refused
with 3 at a header that does not match, the filtered one passes that header, and the two part.

What must be so is worked out by differential/thinning.py. Recordings are made from two seeds, of which one is another each time: it is printed,
and the environment variable KESARIMBU_SEED sets it.
"""
import doctest
import io
import os
import random
import unittest
from collections import Counter
from functools import cache
from itertools import product

import kesarimbu
from kesarimbu import Kept, Marks, Packet, Refused, Settings, Want, packets
from .differential import DATA, ROOT
from .sources import Pieces, file_with
import port
import thinning
from answers import cases, parted
from make_cases import filters_that_thin, sources_in
from make_recordings import KINDS, SOURCES, every, header, packet, undersized
from thinning import Filter, Scan, fault, filter_of, not_thinned, number_at, offset_of, parts_at, recording_of, scan_of

SEED = os.environ.get("KESARIMBU_SEED") or os.urandom(6).hex()
SEEDS = ("thinning", SEED)
WINDOWS = (1, 64, 65, 100, 128, 1000, 8192, 1 << 20)
BACK = (0, 0, 1, 64, 200)
CALLS = (kesarimbu.load, kesarimbu.examine)


def load_tests(loader, tests, pattern):
    tests.addTests(doctest.DocTestSuite(thinning))
    return tests


# Scans by the module.


def replies(call, recording, settings, kept, size, back):
    """The replies of loads or examinations up to the first refusal, wants left out: through windows of so many bytes that start so many before
    the place, or of what is wanted if that is more."""
    length = len(recording)
    first, end = 0, min(size, length)
    while True:
        reply = call(settings, kept, recording[first:end], first, end == length)
        kept = reply.kept
        if isinstance(reply.answer, Want):
            place = min(reply.answer.place, length)
            first = max(place - back, 0)
            end = min(max(first + size, place + reply.answer.size), length)
            continue
        yield reply
        if isinstance(reply.answer, Refused):
            return


def scan(recording, wanted=Filter(), call=kesarimbu.load, size=1 << 20, back=0, **changed):
    """A scan with payload skipped and statistics off: no payload is handed out, and nothing is marked or counted."""
    settings = Settings(*wanted, **{"skip_payload": True, "stats": False, **changed})
    given = list(replies(call, recording, settings, Kept(fee_ids=[]), size, back))
    if not changed:
        last = given[-1].kept
        assert all(reply.marks == Marks() and not len(getattr(reply.answer, "payload", b"")) for reply in given), given
        assert last == Kept(last.place, last.position, fee_ids=[]), last
    return scan_of_replies(given)


def scan_of_replies(given):
    last = given[-1]
    return Scan(packets_in(reply.answer for reply in given), (last.answer.number, *last.answer.values), last.kept.place, last.kept.position)


def packets_in(answers):
    return [thinning.Packet(bytes(one.header), one.own, one.position) for one in answers if isinstance(one, Packet)]


def found_by_packets(source, wanted, size):
    """Packets and refusal of such a scan by `packets`, which does not tell byte place and position."""
    with packets(source, **wanted._asdict(), skip_payload=True, stats=False, window=size) as found:
        return packets_in(found), (found.end.refusal.number, *found.end.refusal.values)


def at_places(found):
    """The packets of a scan without the starts of their loads."""
    return [(packet.header, packet.own) for packet in found.packets]


# Recordings from a seed, and the filters to scan them with.


@cache
def made(seed):
    """Name and bytes of recordings of every kind, each with its filters."""
    found = []
    for name, recording in every(seed, [*KINDS, undersized]):
        filters = filters_that_thin(random.Random(f"filters {name} {seed}"), sources_in(recording) or SOURCES)
        found.append((name, recording, [Filter(**wanted) for wanted in filters]))
    return found


def each(step=1):
    """Each seed and recording, its filters with what a failure tells, and numbers at random."""
    for seed in SEEDS:
        for name, recording, filters in made(seed)[::step]:
            told = [(f"KESARIMBU_SEED={seed}, {name}, {wanted}", wanted) for wanted in filters]
            yield seed, recording, told, random.Random(f"windows {name} {seed}")


def kind_of(recording, wanted, unfiltered, filtered):
    """How a filtered scan is to the one without a filter."""
    if parts_at(recording, wanted, unfiltered) is not None:
        return "parted"
    if unfiltered.refusal == (3,):
        return "3 at a match"
    count = len(filtered.packets)
    return "none" if not count else "all" if count == len(unfiltered.packets) else "some"


class OfTheRust(unittest.TestCase):
    def test_the_stored_answers(self):
        """The Rust's filtered scans beside the Rust's scan without a filter; and there are as many as there have been."""
        lines, answers = ((DATA / name).read_text().splitlines() for name in ("rust_cases.txt", "rust_answers.txt"))
        recording, unfiltered, kinds, ends = b"", None, Counter(), Counter()
        for (set_up, case), answer in zip(cases(lines), parted(answers), strict=True):
            if set_up:
                recording, unfiltered = recording_of(set_up), None
            wanted = filter_of(case)
            if wanted == Filter():
                unfiltered = scan_of(answer)
            elif wanted and unfiltered:
                filtered = scan_of(answer)
                self.assertIsNone(fault(recording, wanted, unfiltered, filtered), case)
                kinds[kind_of(recording, wanted, unfiltered, filtered)] += 1
                ends[filtered.refusal[0]] += 1
        self.assertEqual((kinds, ends), (dict(some=56, none=14), {1: 49, 2: 21}))


class OfTheModule(unittest.TestCase):
    """Recordings of every kind, sound and damaged, through windows of many sizes, other ones for each of the scans."""

    @classmethod
    def setUpClass(cls):
        print(f"KESARIMBU_SEED={SEED}", flush=True)

    def hold(self, told, recording, wanted, unfiltered, filtered):
        """The filtered scan is as it must be."""
        self.assertIsNone(fault(recording, wanted, unfiltered, filtered), told)

    def test_loads_and_examinations(self):
        kinds = {seed: Counter() for seed in SEEDS}
        for seed, recording, filters, rng in each():
            unfiltered = scan(recording, size=rng.choice(WINDOWS), back=rng.choice(BACK))
            for told, wanted in filters:
                loaded, examined = (scan(recording, wanted, call, rng.choice(WINDOWS), rng.choice(BACK)) for call in CALLS)
                self.assertEqual(examined, loaded, told)
                self.hold(told, recording, wanted, unfiltered, loaded)
                kinds[seed][kind_of(recording, wanted, unfiltered, loaded)] += 1
        self.assertEqual([count.total() for count in kinds.values()], [770, 770])
        self.assertEqual(kinds[SEEDS[0]], {"none": 232, "some": 298, "all": 191, "3 at a match": 15, "parted": 34})

    def test_packets(self):
        """The friendly layer, over memory, pieces and files: packets and refusal are those of the exact layer, and thin out."""
        for seed, recording, filters, rng in each(5):
            unfiltered = scan(recording)
            self.assertEqual(found_by_packets(io.BytesIO(recording), Filter(), rng.choice(WINDOWS)), unfiltered[:2], filters)
            for told, wanted in filters:
                filtered = scan(recording, wanted)
                self.hold(told, recording, wanted, unfiltered, filtered)
                with file_with(recording) as path:
                    for source in (io.BytesIO(recording), Pieces(recording, seed), path):
                        self.assertEqual(found_by_packets(source, wanted, rng.choice(WINDOWS)), filtered[:2], told)

    def test_what_answer_lines_tell(self):
        """The own positions that are worked out of the lines of an answer are those that the module gives."""
        for _, recording, filters, rng in each():
            for told, wanted in filters[:3]:
                values = {key: value for key, value in wanted._asdict().items() if value is not None}
                lines = port.scan_lines(recording, dict(values, skip=1, window=rng.choice(WINDOWS)))
                self.assertEqual(scan_of(lines), scan(recording, wanted), told)

    def test_behind_the_header_where_they_part(self):
        times = Counter()
        for seed, recording, filters, _ in each():
            for told, wanted in filters:
                times[seed] += self.follow(told, recording, wanted)
        self.assertGreater(times[SEEDS[0]], 20)

    def follow(self, told, recording, wanted):
        """A filtered scan goes on behind the header where it parts as one of the bytes behind it does, which again thins out or parts. How often it
        has parted."""
        unfiltered, filtered, times = scan(recording), scan(recording, wanted), 0
        while parts_at(recording, wanted, unfiltered) is not None:
            place = unfiltered.place - 64
            place += offset_of(recording[place:])
            recording, whole, due = recording[place:], filtered, len(thinning.matching(wanted, unfiltered))
            unfiltered, filtered = scan(recording), scan(recording, wanted)
            self.hold(told, recording, wanted, unfiltered, filtered)
            self.assertEqual(at_places(whole)[due:], [(content, own + place) for content, own in at_places(filtered)], told)
            number, *values = filtered.refusal
            refusal = (number, *values[:1], *(position + place for position in values[1:]))
            self.assertEqual(whole[1:], (refusal, filtered.place + place, filtered.position + place), told)
            times += 1
        return times


class OfTheSample(unittest.TestCase):
    """Links, FEE ids and staves of the sample, by number and by name."""

    @classmethod
    def setUpClass(cls):
        cls.recording = (ROOT / "samples/staves.raw").read_bytes()
        cls.unfiltered = scan(cls.recording)

    def scans(self, filters):
        """Scans with these filters, each through windows of another size."""
        found = [scan(self.recording, wanted, size=64 + number) for number, wanted in enumerate(filters)]
        for wanted, filtered in zip(filters, found):
            self.assertIsNone(fault(self.recording, wanted, self.unfiltered, filtered), wanted)
        return found

    def test_links_and_fee_ids_share_out_the_packets(self):
        self.assertEqual((len(self.unfiltered.packets), self.unfiltered.refusal), (54, (2, -64, 15280)))
        fee_ids = {number_at(packet.header, 2) for packet in self.unfiltered.packets}
        for filters in ([Filter(link=link) for link in range(256)], [Filter(fee=fee_id) for fee_id in fee_ids]):
            shared = [one for found in self.scans(filters) for one in at_places(found)]
            self.assertEqual(sorted(shared, key=lambda one: one[1]), at_places(self.unfiltered))

    def test_staves_by_name(self):
        for name, stave, count in [("L0_6", 0x0006, 17), ("L3_43", 0x302B, 18), ("L5_42", 0x502A, 18), ("L6_47", 0x602F, 0)]:
            with self.subTest(name):
                by_number, by_other_uplink = self.scans([Filter(stave=stave), Filter(stave=stave | 0x0300)])
                self.assertEqual((scan(self.recording, Filter(stave=name)), by_other_uplink), (by_number, by_number))
                self.assertEqual(len(by_number.packets), count)


class Smallest(unittest.TestCase):
    """The smallest recordings for which a filter does more than thin out, each where one condition lacks."""

    def test_a_memory_size_below_64(self):
        """One header: refused with 3 at position 0, unless a filter passes it."""
        refused, passed = Scan([], (3,), 64, 0), Scan([], (1,), 64, 64)
        for memory, call in product((0, 63), CALLS):
            recording = header(link=1, memory=memory)
            self.assertEqual(scan(recording, call=call), refused)
            for wanted in (Filter(link=2), Filter(fee=7), Filter(stave=7), Filter(link=2, fee=0x502A)):
                self.assertEqual(scan(recording, wanted, call), passed, wanted)
                self.assertEqual(not_thinned(wanted, refused, passed), "the refusal at the end is (1,), and (3,) without a filter")
                self.assertEqual(parts_at(recording, wanted, refused), recording)
                self.assertIsNone(fault(recording, wanted, refused, passed))
            for wanted in (Filter(link=1), Filter(fee=0x502A), Filter(stave=0x532A), Filter(link=1, fee=7)):
                self.assertEqual(scan(recording, wanted, call), refused, wanted)
                self.assertIsNone(fault(recording, wanted, refused, refused))

    def test_a_memory_size_of_64(self):
        recording = header(link=1, memory=64)
        self.assertEqual([scan(recording, wanted)[1:] for wanted in (Filter(), Filter(link=1), Filter(link=2))], [((1,), 64, 64)] * 3)

    def with_payload_read(self, recording, wanted):
        """The two scans. With payload skipped they thin out."""
        self.assertIsNone(fault(recording, wanted, scan(recording), scan(recording, wanted)))
        return [scan(recording, some, skip_payload=False) for some in (Filter(), wanted)]

    def test_payload_that_is_read(self):
        """A first header that is passed: its payload hides a second one, or stops short of where the offset leads. Two headers need 128 bytes."""
        for offset, memory, without, with_filter in [(64, 128, [0], [64]), (128, 64, [0, 128], [])]:
            recording = header(link=1, offset=offset, memory=memory) + header(link=2)
            found = self.with_payload_read(recording, Filter(link=2))
            self.assertEqual([[packet.own for packet in one.packets] for one in found], [without, with_filter])
            self.assertEqual(not_thinned(Filter(link=2), *found), f"there are {len(with_filter)} packets, and {len(without) - 1} match")

    def test_the_byte_place_where_payload_is_read(self):
        """One header, with an offset above its memory size: refusal and position are the same, and the byte place is not."""
        found = self.with_payload_read(header(link=1, offset=65), Filter(link=2))
        self.assertEqual([one[1:] for one in found], [((1,), 64, 65), ((1,), 65, 65)])
        self.assertEqual(not_thinned(Filter(link=2), *found), "the place at the end is 65, and 64 without a filter")

    def test_statistics(self):
        """A second header that cannot be followed, with a new FEE id. Of a load's first header 4 comes before 2, of a later one behind it. Where
        the list has room the end is the same, and what was counted up to it is not."""
        recording, wanted = header(link=1, fee_id=1, trigger=1) + header(link=2, fee_id=2, trigger=2, offset=63), Filter(link=2)
        self.assertIsNone(fault(recording, wanted, scan(recording), scan(recording, wanted)))
        for places, refusals, counted in [(1, [(4,), (2, -1, 64)], [(2, (1, 1), 1), (1, (1, 0), 1)]),
                                          (2, [(2, -1, 64), (2, -1, 64)], [(2, (1, 1), 2), (1, (1, 0), 1)])]:
            given = [list(replies(kesarimbu.load, recording, Settings(link, skip_payload=True), Kept(fee_ids=[0] * places), 128, 0))
                     for link in (None, 2)]
            found = [scan_of_replies(one) for one in given]
            self.assertEqual([one[1:] for one in found], [(refusal, 128, 64) for refusal in refusals])
            self.assertEqual(not_thinned(wanted, *found) is None, refusals[0] == refusals[1])
            last = [one[-1].kept for one in given]
            self.assertEqual([(kept.seen, kept.triggers[:2], kept.fee_ids_used) for kept in last], counted)


class ToldApart(unittest.TestCase):
    """The comparison can fail: scans that are almost right are told from those that are."""

    def setUp(self):
        """Links 1 and 2 in turns, and one of the first that cannot be followed; and the same with a memory size of 0 in the middle, of link 1."""
        rng = random.Random("told apart")
        chain = [packet(rng, 64 + 10 * n, link=1 + n % 2, fee_id=n, counter=n) for n in range(8)] + [header(link=1, offset=63)]
        self.sound = b"".join(chain)
        self.small = b"".join([*chain[:4], header(link=1, memory=0, offset=64), *chain[4:]])
        self.wanted = Filter(link=2)

    def hold(self, recording, faults):
        """The scans are right, and each that is changed has the fault that is due."""
        unfiltered, filtered = scan(recording), scan(recording, self.wanted)
        self.assertIsNone(fault(recording, self.wanted, unfiltered, filtered))
        for told, changed in faults:
            with self.subTest(told):
                self.assertRegex(str(fault(recording, self.wanted, unfiltered, filtered._replace(**changed))), told)

    def test_thinned_out(self):
        others, found = scan(self.sound).packets[::2], scan(self.sound, self.wanted).packets
        self.assertEqual([(packet.own, packet.start) for packet in found], [(64, 0), (222, 138), (420, 316), (658, 534)])
        self.hold(self.sound, [
            ("packet 0 stands at 0, and at 64", dict(packets=[packet._replace(own=packet.start) for packet in found])),
            ("packet 3 stands at 659, and at 658", dict(packets=[*found[:3], found[3]._replace(own=659)])),
            ("packet 0 is another one", dict(packets=found[::-1])),
            ("packet 1 is another one", dict(packets=[found[0], found[2], found[1], found[3]])),
            ("there are 5 packets, and 4 match", dict(packets=[*found, found[-1]])),
            ("there are 5 packets, and 4 match", dict(packets=[*found, others[-1]])),
            ("packet 0 is another one", dict(packets=[others[0], *found])),
            ("packet 1 is another one", dict(packets=[found[0], others[1]._replace(own=222), *found[2:]])),
            ("there are 3 packets, and 4 match", dict(packets=found[:-1])),
            ("packet 0 is another one", dict(packets=found[1:])),
            ("there are 0 packets, and 4 match", dict(packets=[])),
            (r"the refusal at the end is \(1,\), and \(2, -1, 792\)", dict(refusal=(1,))),
            (r"the refusal at the end is \(2, 0, 792\)", dict(refusal=(2, 0, 792))),
            (r"the refusal at the end is \(2, -1, 64\)", dict(refusal=(2, -1, 64))),
            ("the place at the end is 792, and 856", dict(place=792)),
            ("the position at the end is 856, and 792", dict(position=856))])

    def test_the_start_of_a_load_is_excepted(self):
        unfiltered, filtered = scan(self.sound), scan(self.sound, self.wanted)
        moved = filtered._replace(packets=[packet._replace(start=7) for packet in filtered.packets])
        self.assertIsNone(fault(self.sound, self.wanted, unfiltered, moved))
        self.assertRegex(str(fault(self.sound, self.wanted, filtered, filtered)), "does not stand where its load started")

    def test_parted(self):
        unfiltered, filtered = scan(self.small), scan(self.small, self.wanted)
        self.assertEqual((unfiltered[1:], filtered[1:]), (((3,), 380, 316), ((2, -1, 856), 920, 856)))
        found, other = filtered.packets, unfiltered.packets[2]
        self.assertEqual([packet.own for packet in found], [64, 222, 484, 722])
        self.hold(self.small, [
            ("it ends at 316, byte place 380, in front of 380", unfiltered._replace(packets=found[:2])._asdict()),
            ("it ends at 856, byte place 379, in front of 380", dict(place=379)),
            ("there are 1 packets, and 2 match", dict(packets=found[:1])),
            ("packet 0 is another one", dict(packets=[found[1], found[0], *found[2:]])),
            ("packet 1 stands at 64, and at 222", dict(packets=[found[0], found[1]._replace(own=64), *found[2:]])),
            ("the packet at 380 does not match", dict(packets=[*found[:2], other._replace(own=380), *found[2:]])),
            ("the packet at 316 stands in front of 380", dict(packets=[*found[:2], found[2]._replace(own=316)])),
            ("the packet at 484 stands in front of 856", dict(packets=[*found[:2], found[3], found[2]])),
            ("the packet at 222 stands in front of 856", dict(packets=[*found, found[1]])),
            ("it ends at 800, in front of 856", dict(position=800))])
        nowhere = unfiltered._replace(place=0)
        self.assertRegex(str(fault(self.small, self.wanted, nowhere, filtered)), "behind no header")

    def test_a_3_at_a_match(self):
        """A filtered scan that would go on there is told apart."""
        match, unfiltered, other = Filter(link=1), scan(self.small), scan(self.small, self.wanted)
        refused = scan(self.small, match)
        self.assertIsNone(fault(self.small, match, unfiltered, refused))
        gone_on = other._replace(packets=refused.packets)
        self.assertRegex(str(fault(self.small, match, unfiltered, gone_on)), r"the refusal at the end is \(2, -1, 856\), and \(3,\)")


if __name__ == "__main__":
    unittest.main()
