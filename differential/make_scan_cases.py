#!/usr/bin/env python3
"""Prints case lines on scans. README.md describes the lines; scan_model.py gives their answers.

    make_scan_cases.py stored              those of python/tests/data/model_cases.txt, by hand, in the order of the functions below
    make_scan_cases.py random SEED COUNT   single calls with settings, state, lists and window taken at random near their edges
"""
import random
import sys
from itertools import product

from make_recordings import WORDS, header

LIMIT = 2**60
FULL = 2**32 - 2  # the largest count that a scan goes on from
MOST = 2**64 - 1
UNUSED = [0xEEEE] * 4  # what stands in the places of the FEE list
ALL = 0xFFFF_FFFF  # the trigger word with every bit
LATE = [2**32 - 1] * 20  # trigger counts that go to 0 with the next word of their bit
OWN = [100 * n for n in range(1, 21)]  # trigger counts of which no two are the same

# Recordings. Each header has a number of its own, so that no two are the same, and by its number a trigger word.


def rdh(link, fee_id, offset, memory, number=0, word=None):
    trigger = WORDS[number] if word is None else word
    return header(link=link, fee_id=fee_id, offset=offset, memory=memory, trigger=trigger, counter=number)


def filled(count):
    """Bytes to stand behind a header."""
    return bytes(range(101, 101 + count))


def one(offset, memory):
    """A header with 8 bytes behind it, 72 in all."""
    return rdh(2, 0x502A, offset, memory) + filled(8)


def triggered(words):
    """A header of 64 bytes for each trigger word."""
    return b"".join(rdh(1, 0x1001, 64, 64, number, word) for number, word in enumerate(words))


def two(offset, memory):
    """A header of link 1, then one of link 2: 128 bytes."""
    return rdh(1, 0x1001, 64, 64) + rdh(2, 0x502A, offset, memory, 1)


# Headers of links 1, 2, 1 and 3; those of links 2 and 3 have 8 bytes of payload. 272 bytes.
FOUR = (rdh(1, 0x1001, 64, 64) + rdh(2, 0x502A, 72, 72, 1) + filled(8) + rdh(1, 0x1001, 64, 64, 2) + rdh(3, 0x502A, 72, 72, 3) + filled(8))
# Packets of 72, 80 and 72 bytes. 224 bytes.
THREE = rdh(1, 0x1001, 72, 72) + filled(8) + rdh(2, 0x502A, 80, 80, 1) + filled(16) + rdh(1, 0x1001, 72, 72, 2) + filled(8)
# A header, one whose memory size is too small, and one whose offset is too large. 224 bytes.
DAMAGED = rdh(1, 0x1001, 64, 64) + rdh(2, 0x502A, 72, 63, 1) + rdh(1, 0x1001, 10_065, 64, 2) + filled(32)
# Packets of three links and of FEE ids of two staves; the last payload is cut.
MIXED = (rdh(1, 0x502A, 72, 72) + filled(8) + rdh(2, 0x502A, 64, 64, 1) + rdh(2, 0x522A, 80, 80, 2) + filled(16)
         + rdh(3, 0x1006, 64, 64, 3) + rdh(2, 0x1006, 100, 100, 4) + filled(20))

# Windows: the place at which they are lent, the bytes of the recording that they have, and whether they are the last.


def part(start, end):
    return start, start, end, 0


def last(start, end):
    return start, start, end, 1


def far(first, length, is_last):
    """The recording's first bytes, lent at a place of their own."""
    return first, 0, length, is_last


# Lines. What stands already is not said again.

said = {}


def say(name, text):
    if said.get(name) != text:
        said[name] = text
        print(text)


def title(text):
    print("#", text)


def begin(place=0, position=0, start="-", seen=0, filtered=0, payload=0, triggers=None, links=(), links_used=None, fees=UNUSED, fees_used=0,
          **settings):
    """A state to call from. `start` is that of an open load; statistics are on unless `stats` is 0, and trigger counts are 0 unless they are
    given."""
    settings = dict(link="-", fee="-", stave="-", skip=0, stats=1) | settings
    say("settings", " ".join(["settings", *(f"{key}={value}" for key, value in settings.items())]))
    print("state", place, position, start, seen, filtered, payload)
    if triggers:
        print("triggers", *triggers)
    print("links", len(links) if links_used is None else links_used, *links)
    print("fees", len(fees), fees_used, *fees)


def record(recording, times=1):
    text = "recording"
    for i in range(0, len(recording), 512):
        text += "\nbytes " + recording[i:i + 512].hex()
    if times > 1:
        text += f"\nrepeat {times}"
    say("recording", text)


def call(name, recording, window):
    first, start, end, is_last = window
    record(recording)
    print(name, first, end - start, is_last, start)


def examine(recording, window, **state):
    """An examination: from this state, or from the one that the call before left if none is given."""
    if state:
        begin(**state)
    call("examine", recording, window)


def load(recording, window, **state):
    if state:
        begin(**state)
    call("load", recording, window)


def scan(**settings):
    """A scan of the recording that was put together last."""
    print("scan", *(f"{key}={value}" for key, value in settings.items()))


# Each row of the table of refusals, with what it leaves, and the nearest calls that are not refused.


def end_of_recording():
    title("1: fewer than 64 bytes at the byte place")
    r = one(72, 72)
    examine(r, last(0, 0), place=0)
    examine(r, last(0, 63), place=0)
    examine(r, last(0, 72), place=40, position=7)
    examine(r, last(0, 72), place=100, position=7)
    examine(r, part(0, 72), place=100, position=7)
    opened = dict(place=72, position=7, start=3, seen=1, filtered=2, payload=3)
    examine(r, last(0, 72), **opened)
    examine(r, last(64, 72), **opened, stats=0)
    examine(r, part(0, 72), **opened)


def offset_of_a_first_header():
    title("2: a first header, which is counted; offsets at their edges")
    for offset in (0, 63, 64, 10_064, 10_065, 65_535):
        examine(one(offset, 64), last(0, 72), position=640)
    examine(one(63, 0), last(0, 72), position=640)
    examine(one(63, 72), part(0, 64), position=640)
    for settings in (dict(link=9), dict(fee=0x502A), dict(skip=1), dict(stats=0)):
        examine(one(63, 64), last(0, 72), position=640, **settings)


def offset_of_a_later_header():
    title("2: a later header, which is not counted")
    for offset, memory in ((63, 64), (64, 64), (10_065, 64), (63, 0)):
        examine(one(offset, memory), last(0, 72), position=640, start=576)
    for offset, settings in ((63, dict(link=9)), (64, dict(link=9)), (63, dict(stats=0))):
        examine(one(offset, 64), last(0, 72), position=640, start=576, **settings)


def memory_size():
    title("3: memory size below 64")
    for memory in (0, 63, 64):
        examine(one(72, memory), last(0, 72), position=640)
    examine(one(72, 63), part(0, 64), position=640)
    for settings in (dict(), dict(start=576), dict(skip=1), dict(stats=0)):
        examine(one(72, 63), last(0, 72), position=640, fee=0x502A, **settings)
    for memory in (63, 64):
        examine(one(72, memory), last(0, 72), position=640, skip=1)
    title("a header that does not match is passed")
    examine(one(72, 0), last(0, 72), position=640, link=9)
    examine(one(72, 63), last(0, 72), position=640, start=576, link=9, skip=1)


def fee_ids_full():
    title("4: the FEE id is new and the list is full")
    r = one(72, 72)
    examine(r, last(0, 72), position=640, fees=[])
    examine(r, last(0, 72), position=640, fees=[], stats=0)
    full = dict(position=640, fees=[1, 2], fees_used=2)
    examine(r, last(0, 72), **full)
    examine(r, part(0, 64), **full)
    for change in (dict(start=576), dict(link=9), dict(link=2), dict(links=[2]), dict(stats=0)):
        examine(r, last(0, 72), **full | change)
    title("it is not new, or there is a place")
    for fees, used in (([1, 0x502A], 2), ([1, 2], 1), ([1, 0x502A], 1), ([1, 2, 0xEEEE], 2)):
        examine(r, last(0, 72), position=640, fees=fees, fees_used=used)
    title("4 and 2: 4 for a first header, 2 for a later one; 4 and 3: 4")
    for recording, start in product((one(63, 72), one(72, 0)), ("-", 576)):
        examine(recording, last(0, 72), position=640, start=start, fees=[])


def with_and_without_stats(window, **state):
    for stats in (1, 0):
        examine(one(72, 72), window, **state, stats=stats)


def unusable():
    title("6: the window starts after the byte place")
    with_and_without_stats(part(64, 72))
    with_and_without_stats(last(1, 72))
    with_and_without_stats(last(64, 64), place=63, start=5)
    with_and_without_stats(far(LIMIT + 1, 72, 0))
    with_and_without_stats(far(MOST, 72, 1))
    title("6: a place, a position or the window's end above 2^60")
    with_and_without_stats(last(0, 72), place=LIMIT + 1)
    with_and_without_stats(part(0, 0), place=MOST, position=7, start=5)
    with_and_without_stats(last(0, 72), position=LIMIT + 1)
    with_and_without_stats(part(0, 0), position=MOST, start=5)
    with_and_without_stats(far(LIMIT - 71, 72, 0), place=LIMIT - 8)
    with_and_without_stats(far(LIMIT, 1, 1), place=LIMIT)
    title("6: by state and window")
    with_and_without_stats(far(LIMIT + 2, 72, 1), place=LIMIT + 1)
    title("6: a used number above its length")
    with_and_without_stats(last(0, 72), fees_used=5)
    with_and_without_stats(last(0, 72), fees=[], fees_used=1)
    with_and_without_stats(last(0, 0), fees=UNUSED[:2], fees_used=MOST)
    with_and_without_stats(last(0, 72), links=range(256), links_used=257)
    with_and_without_stats(part(0, 0), links=range(256), links_used=MOST, start=5)
    title("6: a link listed twice")
    with_and_without_stats(last(0, 72), links=[7, 9, 7])
    with_and_without_stats(last(0, 72), links=[9, 7, 7], start=5)
    with_and_without_stats(last(0, 0), links=[*range(255), 0])
    title("6: a count at 2^32 - 1")
    with_and_without_stats(last(0, 72), seen=FULL + 1)
    with_and_without_stats(last(0, 72), filtered=FULL + 1)
    with_and_without_stats(part(0, 0), payload=FULL + 1, start=5)
    title("6 wins over 1")
    with_and_without_stats(last(0, 0), place=LIMIT + 1)


def nearly_unusable():
    title("no 6: what is not used, a FEE id listed twice, full lists, a load that started above 2^60")
    with_and_without_stats(last(0, 72), links=[7, 9, 7], links_used=2)
    with_and_without_stats(last(0, 72), fees=[7, 7, 0xEEEE], fees_used=2)
    with_and_without_stats(last(0, 72), fees=[7, 0x502A], fees_used=2)
    with_and_without_stats(last(0, 72), links=[0, 1, 255, *range(3, 255), 2], links_used=255)
    with_and_without_stats(last(0, 72), links=range(256))
    with_and_without_stats(last(0, 72), links=[1, 3])
    with_and_without_stats(last(0, 72), start=LIMIT + 1)
    with_and_without_stats(last(0, 72), position=9, start=MOST, link=9)


# What a load keeps from one call to the next, what its reply marks, and what a want undoes.


def open_load():
    title("a passed header opens a load; a want or a 6 leaves it open")
    begin(link=2)
    examine(FOUR, part(0, 64))
    examine(FOUR, part(0, 64))
    examine(FOUR, part(0, 127))
    examine(FOUR, part(0, 128))
    load(FOUR, part(0, 135))
    examine(FOUR, part(65, 272))
    load(FOUR, part(65, 272))
    title("a packet closes it, with the position from its start; then refusal 1 does")
    load(FOUR, part(64, 136))
    examine(FOUR, part(0, 272))
    examine(FOUR, part(0, 272))
    load(FOUR, last(0, 272))
    load(FOUR, last(0, 272))
    title("a want leaves a first header a first one")
    r = one(72, 72)
    examine(r, part(0, 63), place=0)
    examine(r, part(0, 64))
    load(r, part(0, 71))
    load(r, part(0, 72))


def refused_in_a_load():
    title("a later header is refused: 2 with its own position and not counted, 3 and 4 counted; the load is closed")
    load(two(63, 64), last(0, 128), position=1000, link=2)
    load(one(72, 72), far(128, 72, 1))
    load(two(72, 63), last(0, 128), position=1000, link=2)
    for fees, offset in ((UNUSED[:1], 72), (UNUSED[:1], 10_065), ([], 72), (UNUSED, 72)):
        load(two(offset, 64), last(0, 128), position=1000, link=2, fees=fees)


def initial_mark():
    title("the initial mark comes with refusals 2, 3 and 4")
    examine(one(63, 72), last(0, 72), place=0)
    examine(one(72, 0), last(0, 72), place=0)
    examine(one(72, 72), last(0, 72), fees=[])
    title("it is of a first header, at position 0, with statistics")
    for state in (dict(link=9), dict(position=1), dict(start=0), dict(stats=0)):
        examine(one(72, 72), last(0, 72), **state)
    title("a load that passes the header at position 0 gives it with that header's numbers")
    load(FOUR, last(0, 272), link=2)
    load(FOUR, last(0, 272), link=9)
    title("it is given again while the position is 0")
    r = rdh(1, 0x1001, 63, 64) + rdh(1, 0x1002, 64, 0, 1) + rdh(2, 0x502A, 64, 64, 2) + rdh(2, 0x502A, 64, 64, 3)
    begin()
    for _ in range(4):
        load(r, last(0, 256))


def undone():
    title("a want for the payload undoes counts, carries, marks and lists")
    r, full = one(65, 65), dict(link=2, seen=FULL, filtered=FULL, payload=FULL)
    for stats, name in product((1, 0), (examine, load)):
        name(r, part(0, 64), **full, stats=stats)
        name(r, part(0, 65))
    title("headers passed before it stay counted, and their marks are given once")
    begin(link=2, seen=FULL)
    for end in (130, 130, 136, 210):
        load(FOUR, part(0, end))
    load(FOUR, last(0, 272))
    title("so with a 6 by the window, and with a want for 64")
    load(FOUR, part(0, 66), link=9)
    load(FOUR, part(65, 272))
    load(FOUR, part(0, 272), link=9, seen=FULL)
    load(FOUR, last(272, 272))


def wanted():
    title("the size of a want counts from the header's place")
    examine(one(72, 72), part(0, 0), place=0)
    examine(one(72, 72), part(0, 71), place=0)
    examine(FOUR, part(10, 135), place=64, position=64, link=2)
    examine(one(72, 65_535), part(0, 72), place=0)
    title("no want beyond 64: size 0, skipping, a mismatch")
    examine(one(72, 64), part(0, 64), place=0)
    examine(one(72, 72), part(0, 64), skip=1)
    examine(one(10_064, 65_535), part(0, 64), skip=1)
    examine(one(72, 72), part(0, 64), link=9)


def cut():
    title("a payload that the end cuts")
    examine(one(72, 72), last(0, 71), place=0)
    examine(one(10_064, 72), last(0, 64), fee=0x502A)
    examine(one(72, 72), last(0, 71), position=640, start=5, seen=1, filtered=2, payload=FULL - 7)
    examine(one(72, 72), last(0, 71), stats=0)
    examine(one(72, 65_535), last(0, 72), place=0)
    load(FOUR, last(0, 135), link=2)
    title("not cut: all there, size 0, skipping")
    examine(one(72, 72), last(0, 72), place=0)
    examine(one(72, 64), last(0, 64), place=0)
    examine(one(72, 72), last(0, 64), skip=1)


def without_stats():
    title("without statistics nothing is counted, listed or marked")
    begin(link=2, stats=0, seen=FULL, filtered=FULL, payload=FULL)
    for name in (examine, examine, load, load):
        name(FOUR, last(0, 272))


def offset_and_memory():
    title("after a payload was read the place moves by the memory size, after it was skipped by the offset")
    for offset, memory in ((64, 72), (10_064, 68), (10_064, 64)):
        for skip in (0, 1):
            examine(one(offset, memory), last(0, 72), skip=skip)
    examine(one(65, 65_535), last(0, 72), skip=1)
    title("the largest memory size: all there, and a byte short")
    record(rdh(2, 0x502A, 64, 65_535) + filled(128), 342)
    for length in (65_535, 65_534):
        scan(stats=1, places=1, window=65_536, length=length, more=1, brief=1)


# Windows: one header through those that start before, at and after its place, and end before it, in it, in its payload and behind.


def windows():
    middle = dict(place=72, position=72, seen=1, payload=8, links=[1], fees=[0x1001] + UNUSED[1:], fees_used=1)
    title("windows that start before the place, and at it")
    for start in (0, 72):
        for end in (72, 73, 135, 136, 144, 151, 152, 153, 224):
            examine(THREE, part(start, end), **middle)
            examine(THREE, last(start, end), **middle)
    title("windows that start after the place")
    for window in (part(73, 224), last(73, 224), last(224, 224)):
        examine(THREE, window, **middle)


# Counts that are full, and places and positions at 2^60 and above.


def counts():
    title("seen at 2^32 - 2")
    r, full = one(72, 64), dict(position=640, seen=FULL)
    for state in (dict(), dict(link=9), dict(fees=[]), dict(stats=0), dict(seen=FULL - 1)):
        examine(r, last(0, 72), **full | state)
    examine(one(63, 64), last(0, 72), **full)
    examine(one(63, 64), last(0, 72), **full, start=576)
    examine(one(72, 63), last(0, 72), **full)
    title("in a load")
    for seen, link in ((FULL, 9), (FULL - 1, 3), (FULL - 3, 9), (FULL - 4, 9)):
        load(FOUR, last(0, 272), position=640, seen=seen, link=link)
    title("filtered at 2^32 - 2")
    full = dict(position=640, filtered=FULL)
    for state in (dict(link=2), dict(link=9), dict(), dict(link=2, stats=0), dict(fee=0x502A, filtered=FULL - 1)):
        examine(r, last(0, 72), **full | state)
    for offset, memory in ((72, 63), (63, 64)):
        examine(one(offset, memory), last(0, 72), **full, stave=0x502A)
    load(FOUR, last(0, 272), **full, link=3)


def payload_sum():
    title("the payload sum near 2^32: it wraps first, and is marked only at 2^32 - 1")
    for memory in (64, 65, 66, 67, 63):
        examine(one(72, memory), last(0, 72), position=640, payload=FULL)
    for payload in (FULL - 6, FULL - 7, FULL - 8):
        examine(one(72, 72), last(0, 72), position=640, payload=payload)
    for payload in (FULL - 65_470, FULL):
        examine(one(72, 65_535), last(0, 72), position=640, payload=payload, skip=1)
    examine(one(72, 65), last(0, 72), position=640, payload=FULL, stats=0)
    title("all three")
    for name in (examine, load):
        name(one(72, 65), last(0, 72), position=640, seen=FULL, filtered=FULL, payload=FULL, link=2)


def trigger_bits():
    title("trigger words: each bit alone, from counts of their own; all bits but one, from counts at 2^32 - 1")
    alone, others = [1 << bit for bit in range(32)], [ALL ^ 1 << bit for bit in range(32)]
    for words, counts in ((alone, OWN), (others, LATE)):
        begin(triggers=counts)
        for _ in range(33):
            load(triggered(words), last(0, 2048))
    title("so many headers have a bit that no two bits have the same number, from below and from above")
    for words in ([ALL >> n for n in range(33)], [ALL >> n << n for n in range(33)]):
        record(triggered(words))
        for setting in (dict(), dict(link=2), dict(skip=1, window=100), dict(loads=17), dict(stats=0)):
            scan(**dict(stats=1, places=1, window=2112, brief=1) | setting)


def trigger_counts():
    title("trigger counts, with all else that is counted: with refusals 2, 3 and 4, but not with 2 for a later header")
    r = rdh(2, 0x502A, 72, 72, word=ALL) + filled(8)
    bad, small = (rdh(2, 0x502A, offset, memory, word=ALL) for offset, memory in ((63, 64), (72, 63)))
    for counts in (OWN, LATE):
        for recording, state in ((r, dict()), (r, dict(link=9)), (r, dict(link=2)), (r, dict(skip=1)), (bad, dict()), (bad, dict(start=576)),
                                 (small, dict()), (small, dict(start=576)), (small, dict(link=9)), (r, dict(fees=[])), (bad, dict(fees=[]))):
            examine(recording, last(0, len(recording)), triggers=counts, position=640, **state)
        title("not with a want, with refusals 1 and 6, or without statistics")
        for window, state in ((part(0, 63), dict()), (part(0, 71), dict()), (last(0, 63), dict()), (last(1, 72), dict()),
                              (last(0, 72), dict(seen=FULL + 1)), (last(0, 72), dict(stats=0)), (last(0, 72), dict(stats=0, link=9))):
            examine(r, window, triggers=counts, position=640, **state)
    title("in a load: of the headers that it passes, and of the one that it comes to, unless that is wanted or refused with 2")
    for counts in (OWN, LATE):
        for recording, window in ((FOUR, last(0, 272)), (FOUR, part(0, 130)), (FOUR, part(0, 210)), (two(63, 64), last(0, 128)),
                                  (two(72, 63), last(0, 128))):
            for link in (3, 2):
                load(recording, window, triggers=counts, position=640, link=link)
    load(two(72, 64), last(0, 128), triggers=LATE, position=640, link=2, fees=UNUSED[:1])


def places():
    title("the place comes to 2^60")
    r = one(64, 64)
    examine(r, far(LIMIT - 64, 64, 0), place=LIMIT - 64, position=640)
    examine(r, far(LIMIT - 64, 64, 0))
    examine(r, far(LIMIT, 0, 1))
    examine(r, far(LIMIT - 72, 72, 1), place=LIMIT - 10, position=640)
    examine(one(72, 73), far(LIMIT - 72, 72, 1), place=LIMIT - 72, position=640)
    examine(one(72, 73), far(LIMIT - 72, 72, 0), place=LIMIT - 72, position=640)
    title("the place goes above it")
    examine(one(65, 64), far(LIMIT - 64, 64, 1), place=LIMIT - 64, position=640, skip=1)
    examine(one(65, 64), far(LIMIT - 64, 64, 1))
    load(one(65, 64), far(LIMIT, 0, 1))
    examine(r, far(LIMIT - 64, 64, 0), place=LIMIT, position=640)
    examine(r, far(LIMIT - 64, 64, 1))
    title("it goes above in the middle of a load")
    r = rdh(1, 0x1001, 64, 64) + rdh(3, 0x1002, 65, 64, 1)
    load(r, far(LIMIT - 128, 128, 1), place=LIMIT - 128, link=2, seen=FULL)
    load(r, far(LIMIT - 128, 128, 1))
    load(r, far(LIMIT - 128, 128, 0), place=LIMIT - 128, link=3)
    load(r, far(LIMIT - 128, 128, 0))
    examine(r, far(LIMIT - 128, 128, 1), place=LIMIT - 128, link=2)
    examine(r, far(LIMIT - 128, 128, 1))
    examine(r, far(LIMIT - 128, 128, 1))


def positions():
    title("positions at 2^60 and above")
    examine(one(64, 64), part(0, 64), position=LIMIT - 64)
    for position in (LIMIT, LIMIT + 64):
        examine(one(64, 64), part(0, 64), position=position)
    examine(one(63, 64), part(0, 64), position=LIMIT)
    examine(one(64, 64), part(0, 63), position=LIMIT)
    examine(one(64, 64), last(0, 72), place=64, position=LIMIT)
    for position in (LIMIT - 64, LIMIT - 136, LIMIT - 200):
        load(FOUR, last(0, 272), position=position, link=3)
    title("window ends at 2^60 and above")
    r = one(72, 72)
    for place, window in ((LIMIT - 72, far(LIMIT - 72, 72, 0)), (LIMIT - 72, far(LIMIT - 73, 72, 0)), (LIMIT - 71, far(LIMIT - 71, 71, 1)),
                          (LIMIT - 71, far(LIMIT - 71, 72, 1)), (LIMIT, far(LIMIT, 0, 0)), (LIMIT, far(LIMIT, 1, 0))):
        examine(r, window, place=place, position=640)


# Recordings of every length, windows of every size, and all settings.


def lengths():
    title("every length from 0 to 200, whole and damaged")
    for recording in (THREE, DAMAGED):
        record(recording)
        for length in range(201):
            scan(stats=1, places=4, window=512, length=length, more=2, brief=1)


def sizes():
    title("windows of every size, from the byte place on; and of some sizes, from 17 before it on")
    record(THREE)
    for size, back in [*product(range(64, 225), [0]), *product(range(64, 225, 5), [17])]:
        scan(link=1, stats=1, places=4, window=size, back=back, brief=1)
    title("a window that grows by a byte")
    for settings in (dict(link="-"), dict(link=1), dict(skip=1)):
        begin(**settings, fees=UNUSED[:2])
        for end in range(224):
            load(THREE, part(0, end))
        for _ in range(4):
            load(THREE, last(0, 224))


def settings():
    title("all settings: in one window, in windows of 100 bytes, and in windows of 130 bytes that start 30 before the place")
    record(MIXED)
    for link, fee, stave, skip, stats in product(("-", 2), ("-", 0x1006), ("-", 0x532A), (0, 1), (1, 0)):
        for size, back in ((512, 0), (100, 0), (130, 30)):
            scan(link=link, fee=fee, stave=stave, skip=skip, stats=stats, places=4, window=size, back=back, brief=1)
    title("whole answers, too few places for FEE ids, and a scan that is left after two loads")
    scan(stats=1, places=4, window=100)
    scan(stats=1, places=2, window=100, more=3)
    scan(stats=1, places=4, window=100, loads=2)
    title("a load that passes 4,000 headers, through windows of 1,000 bytes")
    record(rdh(2, 0x502A, 64, 64) + rdh(3, 0x502B, 64, 64, 1), 2000)
    scan(link=9, stats=1, places=4, window=1000, brief=1)


def at_random():
    title("single calls at random")
    some_calls("stored", 40)


STORED = (end_of_recording, offset_of_a_first_header, offset_of_a_later_header, memory_size, fee_ids_full, unusable, nearly_unusable,
          open_load, refused_in_a_load, initial_mark, undone, wanted, cut, without_stats, offset_and_memory, windows, counts, payload_sum,
          trigger_bits, trigger_counts, places, positions, lengths, sizes, settings, at_random)


# Single calls at random.


def near(rng, *edges):
    """A number near one of these, or 0."""
    return max(0, rng.choice([0, *edges]) + rng.choice([-64, -8, -1, 0, 0, 0, 1, 8, 64]))


def some_word(rng):
    """A trigger word: any, with each bit, with none, with one, or with all but one."""
    one = 1 << rng.randrange(32)
    return rng.choice([rng.getrandbits(32), rng.getrandbits(32), ALL, 0, one, ALL ^ one])


def some_triggers(rng):
    """Trigger counts: 0, or some numbers, among them the last before 2^32."""
    return rng.choice([None, [rng.choice([0, rng.getrandbits(32), FULL, FULL + 1]) for _ in LATE]])


def some_recording(rng, words):
    recording = b""
    for number in range(rng.choice([0, 1, 2, 3, 4, 5, 6])):
        memory = rng.choice([64, 64, 65, 72, 100, 300, 64 + 8, 63, 0, 65_535])
        usual = min(max(memory, 64), 10_064)
        offset = rng.choice([usual, usual, usual, usual, usual, 64, 80, 63, 10_064, 10_065, rng.randrange(65_536)])
        recording += rdh(rng.randrange(1, 4), rng.choice([0x502A, 0x522A, 1]), offset, memory, number, some_word(words))
        recording += rng.randbytes(max(0, min(memory, offset, 400) - 64))
    return recording[:rng.choice([None, None, rng.randrange(len(recording) + 1)])]


def some_state(rng, recording):
    """The place at which the recording's first byte is lent, and a state; now and then one that meets refusal 6."""

    def mostly(usual, *others):
        return rng.choice(others) if rng.random() < 0.04 else usual

    def count():
        return mostly(rng.choice([0, 0, 5, FULL, FULL - 1, FULL - 8]), FULL + 1)

    base = rng.choice([0, 0, 0, 1000, LIMIT - len(recording)])
    links = mostly(rng.choice([[], [1], [2, 1], [3, 2, 1]]), [1, 1], [1, 2, 3, 2], rng.sample(range(256), 256))
    fees = rng.choice([[], [7], [1, 7], [0x502A, 0x522A, 1], [7, 7, 7, 7], UNUSED])
    state = dict(
        place=base + rng.choice([0, 0, 0, rng.randrange(len(recording) + 70)]), position=mostly(near(rng, 640), near(rng, LIMIT)),
        start=rng.choice(["-", "-", "-", 0, 576, MOST]), seen=count(), filtered=count(), payload=count(),
        links=links, links_used=mostly(rng.choice([None, None, len(links) // 2]), 257, MOST),
        fees=fees, fees_used=mostly(rng.choice([0, len(fees), len(fees) // 2]), len(fees) + 1))
    filters = dict(link=rng.choice(["-", "-", 1, 2]), fee=rng.choice(["-", "-", 0x502A]), stave=rng.choice(["-", "-", 0x532A]))
    return base, state | filters | dict(skip=rng.randrange(2), stats=rng.choice([0, 1, 1]))


def some_calls(seed, count):
    """What concerns trigger counts is taken from numbers of its own."""
    rng, words = random.Random(seed), random.Random(f"words {seed}")
    for _ in range(count):
        recording = some_recording(rng, words)
        base, state = some_state(rng, recording)
        begin(**state, triggers=some_triggers(words))
        for _ in range(rng.randrange(1, 5)):
            start = rng.choice([0, 0, 0, 0, 0, 0, rng.randrange(len(recording) + 1)])
            end = rng.choice([len(recording), len(recording), rng.randrange(start, len(recording) + 1)])
            first = rng.choice([base + start] * 20 + [near(rng, LIMIT, MOST - 100)])
            call(rng.choice(["examine", "load"]), recording, (first, start, end, rng.randrange(2)))


if __name__ == "__main__":
    match sys.argv[1:]:
        case ["stored"]:
            for cases in STORED:
                cases()
        case ["random", seed, count]:
            some_calls(f"calls {seed}", int(count))
        case _:
            sys.exit(__doc__)
