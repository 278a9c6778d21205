"""The check of links: held to a model of its rule over headers at random, with numbers next to where they start again, and by hand there.

Headers at random are made from two seeds, of which one is another each time: it is printed, and the environment variable KESARIMBU_SEED
sets it.
"""
import os
import random
import unittest
from collections import Counter
from itertools import product

from kesarimbu import Header, LastHeader, LinkCheck, LinkContinuity
from .link_model import NO_FLAG, Links, yielded

SEED = os.environ.get("KESARIMBU_SEED") or os.urandom(6).hex()
SEEDS = ("links", SEED)
NAMES = ("packet_counter", "pages_counter", "orbit", "stop_bit")
MOST = (255, 65_535, 2**32 - 1, 255)
# Numbers next to where they start again, and stop bits of every kind.
COUNTERS, PAGES, ORBITS, STOP_BITS = (0, 1, 254, 255), (0, 1, 65_534, 65_535), (0, 1, 2**32 - 1), (0, 1, 2, 255)
NEAR = (COUNTERS, PAGES, ORBITS, STOP_BITS)


def header(link, numbers):
    """A header with these numbers, and others in its other fields."""
    others = dict(header_id=6, header_size=63, fee_id=link * 31, priority_bit=3, system_id=9, offset_new_packet=5, memory_size=4,
                  cruid_dw=77, bc_reserved0=0xFFFFFFFF, dataformat_reserved0=2**64 - 1, trigger_type=0x4813, rdh2_reserved0=255, par_bit=8)
    return Header(link_id=link, **dict(zip(NAMES, numbers)), **others)


def some_numbers(rng):
    """Each number one of those next to where it starts again, or any."""
    return tuple(rng.choice(near) if rng.random() < 0.8 else rng.randint(0, most) for near, most in zip(NEAR, MOST))


def next_numbers(rng, last):
    """Numbers that go on from the last ones, or differ from such in some of them."""
    if last is None or rng.random() < 0.1:
        return some_numbers(rng)
    counter, pages, orbit, stop_bit = last
    due = ((counter + 1) % 256, 0 if stop_bit else (pages + 1) % 65_536, orbit, rng.choice([0, *STOP_BITS]))
    return tuple(number if rng.random() < 0.7 else other for number, other in zip(due, some_numbers(rng)))


def some_headers(rng, links, count):
    """Link and numbers of headers on these links, most of which go on from one another."""
    last, made = {}, []
    for _ in range(count):
        link = rng.choice(links)
        last[link] = next_numbers(rng, last.get(link))
        made.append((link, last[link]))
    return made


def some_kept(rng):
    """What some of the links keep, to begin with."""
    return {link: some_numbers(rng) for link in rng.sample(range(256), rng.choice([0, 3, 250, 256]))}


def continuity(kept=()):
    """Links that keep these numbers."""
    links = LinkContinuity()
    for link, numbers in dict(kept).items():
        links.keep(link, *numbers)
    return links


def all_kept(links):
    return {link: tuple(links.kept(link)) for link in range(256) if links.kept(link) is not None}


def yields(links, headers):
    """What each of the headers yields, in their order."""
    return [tuple(links.check(header(link, numbers))) for link, numbers in headers]


def run_in_order(rng, count):
    """Numbers of so many packets of a link, as a card writes them: frames of several pages, with a stop at the end of each."""
    counter, orbit, made = rng.choice([0, 200, 255]), rng.choice(ORBITS), []
    while len(made) < count:
        pages = rng.randint(1, 5)
        for page in range(pages):
            made.append((counter, page, orbit, rng.choice([1, 2, 255]) if page == pages - 1 else 0))
            counter = (counter + 1) % 256
        orbit = (orbit + 1) % 2**32
    return made[:count]


class ByHand(unittest.TestCase):
    """A header behind another one, which was the first of its link."""

    def hold(self, last, new, *flags, distance=0):
        links = LinkContinuity()
        self.assertEqual(tuple(links.check(header(3, last))), NO_FLAG)
        found = links.check(header(3, new))
        self.assertEqual(found, LinkCheck(*(name in flags for name in NAMES[:3]), distance), (last, new))
        self.assertEqual((found.flagged, links.kept(3)), (bool(flags), new))

    def test_first_headers_are_taken_as_they_come(self):
        for numbers in product(*NEAR):
            links = LinkContinuity()
            self.assertEqual(links.check(header(7, numbers)), LinkCheck(False, False, False, 0))
            self.assertEqual(links.kept(7), numbers)

    def test_packet_counters(self):
        for last, new, distance in [(254, 0, 1), (255, 255, 255), (255, 1, 1), (0, 0, 255), (0, 2, 1), (0, 255, 254), (10, 9, 254),
                                    (10, 10, 255), (10, 12, 1), (10, 0, 245), (1, 0, 254), (200, 199, 254), (128, 0, 127)]:
            self.hold((last, 5, 9, 0), (new, 6, 9, 0), "packet_counter", distance=distance)
            self.hold((last, 5, 9, 1), (new, 0, 8, 0), "packet_counter", distance=distance)  # a stop does not matter
        for last, new in [(0, 1), (10, 11), (127, 128), (254, 255), (255, 0)]:
            self.hold((last, 5, 9, 0), (new, 6, 9, 0))
            self.hold((last, 5, 9, 1), (new, 0, 8, 0))

    def test_pages_counters(self):
        for last, new in [(0, 0), (0, 2), (7, 7), (7, 6), (7, 0), (255, 0), (65_534, 0), (65_534, 65_534), (65_535, 65_535), (65_535, 1)]:
            self.hold((4, last, 9, 0), (5, new, 9, 0), "pages_counter")
        for last, new in [(0, 1), (7, 8), (255, 256), (65_534, 65_535), (65_535, 0)]:
            self.hold((4, last, 9, 0), (5, new, 9, 0))

    def test_pages_counters_behind_a_stop(self):
        for stop_bit, last in product((1, 2, 3, 128, 255), (0, 1, 7, 65_534, 65_535)):
            self.hold((4, last, 9, stop_bit), (5, 0, 9, 0))
            for new in {1, last, last + 1, 65_535} - {0, 65_536}:
                self.hold((4, last, 9, stop_bit), (5, new, 9, 0), "pages_counter")

    def test_orbits(self):
        for last, new in [(9, 10), (9, 8), (0, 2**32 - 1), (2**32 - 1, 0), (0, 2**31), (9, 9 + 2**16)]:
            self.hold((4, 1, last, 0), (5, 2, new, 0), "orbit")
            self.hold((4, 1, last, 0), (5, 2, new, 1), "orbit")  # its own stop does not free it
            for stop_bit in (1, 2, 128, 255):
                self.hold((4, 1, last, stop_bit), (5, 0, new, 0))
        for orbit in (0, 9, 2**32 - 1):
            self.hold((4, 1, orbit, 0), (5, 2, orbit, 0))

    def test_several_flags(self):
        self.hold((4, 1, 9, 0), (6, 3, 9, 0), "packet_counter", "pages_counter", distance=1)
        self.hold((4, 1, 9, 0), (6, 0, 10, 0), "packet_counter", "pages_counter", "orbit", distance=1)
        self.hold((4, 1, 9, 0), (5, 0, 10, 0), "pages_counter", "orbit")
        self.hold((4, 1, 9, 0), (3, 2, 10, 0), "packet_counter", "orbit", distance=254)
        self.hold((4, 1, 9, 1), (3, 2, 10, 0), "packet_counter", "pages_counter", distance=254)

    def test_flagged(self):
        for flags in product((False, True), repeat=3):
            self.assertIs(LinkCheck(*flags, 0).flagged, any(flags))
        self.assertIs(LinkCheck(False, False, False, 7).flagged, False)


class LikeTheModel(unittest.TestCase):
    @classmethod
    def setUpClass(cls):
        print(f"KESARIMBU_SEED={SEED}", flush=True)

    def test_each_pair_of_numbers_next_to_where_they_start_again(self):
        """Of each number alone, since each of the flags has its own: a last header, kept or put, and the next one."""
        links = LinkContinuity()
        for last in product(*NEAR):
            for new in [last, *((*last[:i], number, *last[i + 1:]) for i in range(4) for number in NEAR[i])]:
                expected = yielded(last, new)
                links.keep(9, *last)
                self.assertEqual(links.check(header(9, new)), expected, (last, new))
                links.forget(9)
                self.assertEqual(yields(links, [(9, last), (9, new)]), [NO_FLAG, expected], (last, new))

    def test_every_pair_of_packet_counters(self):
        links = LinkContinuity()
        for counter in range(256):
            new = header(9, (counter, 6, 9, 0))
            for last in range(256):
                links.keep(9, last, 5, 9, 0)
                self.assertEqual(links.check(new), yielded((last, 5, 9, 0), (counter, 6, 9, 0)), (last, counter))

    def test_headers_at_random(self):
        """On links that keep something to begin with. All kinds of flags are met together."""
        for seed in SEEDS:
            rng, kinds = random.Random(f"headers {seed}"), Counter()
            for count in [1, 2, 30, 300, 6000]:
                kept = some_kept(rng)
                model, links = Links(kept), continuity(kept)
                for link, numbers in some_headers(rng, rng.choice([[5], [0, 255], range(256)]), count):
                    expected = model.put(link, numbers)
                    self.assertEqual(links.check(header(link, numbers)), expected, f"KESARIMBU_SEED={seed}")
                    kinds[expected[:3]] += 1
                self.assertEqual(all_kept(links), model.last, f"KESARIMBU_SEED={seed}")
            self.assertEqual((len(kinds), min(kinds.values()) > 20), (8, True), f"KESARIMBU_SEED={seed}")

    def test_numbers_kept_and_forgotten_between_headers(self):
        for seed in SEEDS:
            rng, model, links = random.Random(f"kept {seed}"), Links(), LinkContinuity()
            for _ in range(3000):
                link, numbers = rng.randrange(4), some_numbers(rng)
                match rng.choice(["keep", "forget", "check", "check"]):
                    case "keep":
                        links.keep(link, *numbers)
                        model.last[link] = numbers
                    case "forget":
                        links.forget(link)
                        model.last.pop(link, None)
                    case _:
                        self.assertEqual(links.check(header(link, numbers)), model.put(link, numbers), f"KESARIMBU_SEED={seed}")
                self.assertEqual([links.kept(n) for n in range(4)], [model.last.get(n) for n in range(4)], f"KESARIMBU_SEED={seed}")


class EachForItself(unittest.TestCase):
    """A link does not know of the others."""

    def test_no_other_link_changes(self):
        rng = random.Random("others")
        for link in range(256):
            kept = some_kept(rng)
            links, numbers = continuity(kept), some_numbers(rng)
            self.assertEqual(all_kept(links), kept)
            links.check(header(link, numbers))
            self.assertEqual(all_kept(links), {**kept, link: numbers})

    def test_among_others_as_alone(self):
        """What a link yields in turns with others is what its own headers yield alone, and so is what it keeps: its last header's numbers,
        or what it kept before where it had none."""
        for seed in SEEDS:
            rng = random.Random(f"alone {seed}")
            for _ in range(20):
                kept, used = some_kept(rng), rng.sample(range(256), 5)
                among = continuity(kept)
                headers = some_headers(rng, used[:4], rng.choice([0, 1, 10, 200]))
                found = yields(among, headers)
                for link in used:
                    own, alone = [one for one in headers if one[0] == link], continuity(kept)
                    own_found = [check for check, one in zip(found, headers) if one[0] == link]
                    self.assertEqual(own_found, yields(alone, own), f"KESARIMBU_SEED={seed}")
                    self.assertEqual(among.kept(link), own[-1][1] if own else kept.get(link), f"KESARIMBU_SEED={seed}")
                    self.assertEqual(among.kept(link), alone.kept(link))

    def test_two_that_are_kept_apart(self):
        one, other = continuity({3: (1, 2, 3, 4)}), LinkContinuity()
        other.check(header(3, (9, 9, 9, 9)))
        self.assertEqual((all_kept(one), all_kept(other)), ({3: (1, 2, 3, 4)}, {3: (9, 9, 9, 9)}))


class LostPackets(unittest.TestCase):
    """A run in order, of which some packets are left out."""

    def flagged(self, numbers):
        """Which of the headers have a flag of the packet counter, each with its distance; no other header has a distance."""
        checks = [LinkCheck(*check) for check in yields(LinkContinuity(), [(3, one) for one in numbers])]
        self.assertTrue(all(check.packet_counter == (check.distance != 0) for check in checks))
        return {place: check.distance for place, check in enumerate(checks) if check.packet_counter}

    def test_none(self):
        for seed in SEEDS:
            run = run_in_order(random.Random(f"in order {seed}"), 1000)
            self.assertEqual(set(yields(LinkContinuity(), [(3, one) for one in run])), {NO_FLAG}, f"KESARIMBU_SEED={seed}")

    def test_one(self):
        run = run_in_order(random.Random("one"), 300)
        for lost in range(1, 299):
            self.assertEqual(self.flagged(run[:lost] + run[lost + 1:]), {lost: 1})
        self.assertEqual((self.flagged(run[1:]), self.flagged(run[:-1])), ({}, {}))

    def test_several_in_a_row(self):
        run = run_in_order(random.Random("several"), 1100)
        for count in [2, 3, 100, 254, 255, 257, 300, 511, 513, 1000]:
            self.assertEqual(self.flagged(run[:50] + run[50 + count:]), {50: count % 256})

    def test_as_many_as_the_packet_counter_cannot_tell(self):
        run = run_in_order(random.Random("256"), 1100)
        for count in (256, 512, 1024):
            self.assertEqual(self.flagged(run[:50] + run[50 + count:]), {})

    def test_in_several_places(self):
        run = run_in_order(random.Random("places"), 300)
        self.assertEqual(self.flagged(run[:10] + run[12:40] + run[45:200] + run[201:]), {10: 2, 38: 5, 193: 1})

    def test_a_packet_that_came_twice(self):
        run = run_in_order(random.Random("twice"), 300)
        for place in (0, 1, 100, 298):
            self.assertEqual(self.flagged(run[:place + 1] + run[place:]), {place + 1: 255})


class Kept(unittest.TestCase):
    def test_nothing_at_the_beginning(self):
        links = LinkContinuity()
        self.assertEqual([links.kept(link) for link in range(256)], [None] * 256)

    def test_what_was_set(self):
        links = LinkContinuity()
        for numbers in product(*NEAR):
            links.keep(255, *numbers)
            self.assertEqual((links.kept(255), links.kept(255)._asdict()), (numbers, dict(zip(NAMES, numbers))))
        self.assertIsInstance(links.kept(255), LastHeader)
        self.assertEqual(all_kept(links), {255: MOST})

    def test_by_name(self):
        links = LinkContinuity()
        links.keep(link=3, stop_bit=4, orbit=3, pages_counter=2, packet_counter=1)
        self.assertEqual(links.kept(link=3), (1, 2, 3, 4))

    def test_forgotten(self):
        links = continuity({2: (1, 2, 3, 0), 3: (1, 2, 3, 0)})
        for _ in range(2):
            links.forget(3)
            self.assertEqual(all_kept(links), {2: (1, 2, 3, 0)})
        self.assertEqual(yields(links, [(3, (9, 9, 9, 9)), (2, (2, 3, 3, 0))]), [NO_FLAG, NO_FLAG])
        self.assertEqual(all_kept(links), {2: (2, 3, 3, 0), 3: (9, 9, 9, 9)})

    def test_links_that_are_none(self):
        links = continuity({255: (1, 2, 3, 4)})
        for call in (links.kept, links.forget, lambda link: links.keep(link, 0, 0, 0, 0)):
            for link in (-1, 256, -256, 1 << 64):
                self.assertRaisesRegex(OverflowError, f"link is {link}, and must be from 0 to 255", call, link)
            for link in (1.0, "3", None, b"3"):
                self.assertRaisesRegex(TypeError, "link is .*, and must be a whole number", call, link)
        self.assertEqual(all_kept(links), {255: (1, 2, 3, 4)})

    def test_numbers_that_do_not_fit(self):
        """Nothing is kept then, not even of the numbers that do fit."""
        links = continuity({3: (1, 2, 3, 4)})
        for place, (name, most) in enumerate(zip(NAMES, MOST)):
            for number, error in ((most + 1, OverflowError), (-1, OverflowError), (1.5, TypeError), (None, TypeError), ("7", TypeError)):
                given = [9, 9, 9, 9]
                given[place] = number
                self.assertRaisesRegex(error, f"{name} is {number!r}, and must be", links.keep, 3, *given)
                self.assertRaisesRegex(error, f"{name} is {number!r}, and must be", links.keep, 4, *given)
        self.assertEqual(all_kept(links), {3: (1, 2, 3, 4)})

    def test_headers_that_do_not_fit(self):
        links = continuity({3: (1, 2, 3, 4)})
        for field, number in [("link_id", 256), ("link_id", -1), ("packet_counter", 256), ("pages_counter", 65_536), ("orbit", -1),
                              ("stop_bit", 256), ("reserved2", 1 << 64)]:
            self.assertRaisesRegex(OverflowError, f"{field} is {number}", links.check, Header(**{"link_id": 3, field: number}))
        self.assertRaises(TypeError, links.check, Header(link_id=3, orbit=1.5))
        self.assertEqual(all_kept(links), {3: (1, 2, 3, 4)})


if __name__ == "__main__":
    unittest.main()
