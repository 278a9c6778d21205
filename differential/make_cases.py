#!/usr/bin/env python3
"""Prints case lines, the same ones for the same seed. README.md describes the lines.

    make_cases.py headers SEED COUNT    headers to decode, encode and show, and pairs of them
    make_cases.py verdicts SEED COUNT   verdicts, in sequences of at most 16
    make_cases.py words SEED COUNT      no lines but the first words of headers, as bytes: each test of RDH0 at its edges, then any
    make_cases.py lengths SEED COUNT    verdicts, rows and trigger texts into buffers of every length near the text's
    make_cases.py fees                  every FEE id, and layers and staves
    make_cases.py names SEED COUNT      stave names and what is none
    make_cases.py staves                the name of every stave, and of layers and staves above the highest
    make_cases.py triggers SEED COUNT   pairs of trigger statistics
    make_cases.py scans SEED            scans of every recording that make_recordings.py makes from the seed
    make_cases.py sweeps SEED           scans of a short recording, sound or damaged, cut at every length
    make_cases.py thins SEED            scans of such recordings with payload skipped and statistics off, without a filter and then with several
    make_cases.py edges                 scans of two headers, an offset or a memory size of the first at its edges, with every filter
    make_cases.py bits                  scans of headers whose trigger words tell each bit from every other, up to each of them
    make_cases.py carry                 scans of 70,000 headers that bring the payload sum to 2^32 - 1, and past it
    make_cases.py wrap                  a trigger word that is counted 2^32 - 1 times, and a few more
"""
import random
import sys
from itertools import cycle, product

from make_recordings import FIELDS, HEADER, KINDS, LAYOUT, SOURCES, STAVES, WORDS, every, header, packet, undersized

# How many bits each field of the header has, and values at which its test or its text changes.
WIDTHS = dict(zip(FIELDS, (8 * {"B": 1, "H": 2, "I": 4, "Q": 8}[c] for c in LAYOUT.format if c in "BHIQ")))
EDGES = dict(
    header_id=[6, 7, 8], header_size=[0, 63, 64, 65], priority=[1], system_id=[0, 31, 32, 33], reserved0=[1, 0x8000],
    fee_id=[0x0100, 0x0300, 0x0040, 0x0080, 0x0400, 0x0800, 0x8000, 0x6030, 0x602F, 0x7000, 0x6000, 0xFFFF],
    cru_dw=[0x0FFF, 0x1000, 0x2000, 0xF000], bc_reserved=[0xDEB, 0xDEC, 0xFFF, 0x1000, 0xFFFFF000], format_reserved=[0, 1, 3, 255, 0x102],
    trigger=[0, 1, 0x4000, 0x8000, 0x4000000, 0x8000000, 0x80000000], stop=[0, 1, 2, 255], rdh2_reserved=[1, 128],
    detector=[0x800, 0x1000, 0x800000, 0x1000000], rdh3_reserved=[1, 0x8000])


def some_header(rng):
    """A sound header, one with a few fields changed, or noise."""
    if rng.random() < 0.1:
        return rng.randbytes(HEADER)
    changed = {}
    for name in rng.sample(FIELDS, rng.choice([0, 0, 1, 1, 2, 3, 8])):
        bits = rng.getrandbits(WIDTHS[name])
        changed[name] = rng.choice(EDGES.get(name, []) + [bits, 1 << rng.randrange(WIDTHS[name])])
    return header(**changed)


def headers(rng, count):
    for _ in range(count):
        one = some_header(rng)
        print("header", one.hex())
        other = bytearray(one)
        other[rng.randrange(HEADER)] ^= rng.choice([0, 1 << rng.randrange(8)])
        print("equal", one.hex(), other.hex())
        print("pht", one.hex())
        print("encode", one.hex(), rng.choice([0, 63, 64, 65, rng.randrange(200)]))
    for length in [0, 1, *range(60, 70), 127, 128]:
        print("header", (one + other)[:length].hex() or "-")


def verdicts(rng, count):
    left = 0
    for _ in range(count):
        if left == 0:
            left = rng.randrange(1, 17)
            lent = rng.random() < 0.3
            print(*some_validator(rng))
        left -= 1
        print("verdict", some_header(rng).hex(), *[some_length(rng)] * lent)


def some_validator(rng):
    """With a version, with none, or with none and a header ID that is settled."""
    its = rng.randrange(2)
    some_id = rng.choice([6, 7, 7, rng.randrange(256)])
    return rng.choice(3 * [("validator", "-", its)] + [("validator", some_id, its), ("validator", "-", its, some_id)])


def some_length(rng):
    """A buffer that is too short for any text, for some, or for none."""
    return rng.choice([0, 3, rng.randrange(150), rng.randrange(420), 512])


def lengths(rng, count):
    """Each text into every length up to one that suffices. A verdict that is refused settles nothing, so what settles the header ID is the
    first one that has room, unless another header comes between."""
    for _ in range(count):
        one, other = some_header(rng), some_header(rng)
        print(*some_validator(rng))
        for length in range(410):
            print("verdict", one.hex(), length)
            if rng.random() < 0.01:
                print("verdict", other.hex(), some_length(rng))
        for length in range(100, 118):
            print("header", one.hex(), length)
        trigger_words(rng)
        for length in [0, 3, *range(390, 460)]:
            print("list", length)
        for length in range(0, 1200, 7):
            print("compare", length)


def words(rng, count):
    """A sound word first, which settles the header ID."""
    names = FIELDS[:6]
    changes = [{}, *({name: value} for name in names for value in EDGES[name])]
    changes += [dict(header_id=8, header_size=1, fee_id=0xFFFF, priority=255, system_id=0, reserved0=0xFFFF)]
    for _ in range(count):
        chosen = rng.sample(names, rng.randrange(7))
        changes += [{name: rng.choice(EDGES[name] + [rng.getrandbits(WIDTHS[name])]) for name in chosen}]
    sys.stdout.buffer.write(b"".join(header(**changed)[:8] for changed in changes))


def fees():
    for fee_id in range(1 << 16):
        print("fee", fee_id)
    for layer in [*range(10), 63, 64, 127, 128, 255]:
        for stave in range(256):
            print("feeid", layer, stave)
    for stave in STAVES:
        for bit in range(16):
            print("match", stave, stave ^ 1 << bit)
        print("match", stave, stave)


def some_number(rng, highest):
    """Mostly a number of a stave that there is, or next to one."""
    sign = rng.choice(12 * [""] + ["+", "+", "-", "++", " "])
    digits = rng.choice(15 * [str(rng.randrange(highest + 2))] + [str(rng.randrange(64)), str(rng.randrange(300)),
                                                                  str(rng.randrange(250, 262)), "", "x", "1x"])
    return sign + "0" * rng.choice([0, 0, 0, 1, 2, 30]) + digits


def names(rng, count):
    for _ in range(count):
        first = rng.choice(8 * ["L"] + ["l", "+", "7", "\0", "\x7f", "_", "", "é", "LL"])
        parts = [some_number(rng, highest) for highest in (6, 47, 47)[:rng.choice([0, 1] + 15 * [2] + [3])]]
        name = (first + "_".join(parts)).encode()
        if rng.random() < 0.05:
            name += bytes([rng.randrange(256)])
        print("name", name.hex() or "-")


def staves():
    for layer in [*range(10), 63, 64, 127, 128, 255, 256]:
        for stave in [*range(72), 127, 128, 255, 256]:
            print("name", f"L{layer}_{stave}".encode().hex())


def triggers(rng, count):
    for _ in range(count):
        trigger_words(rng)
        print("list")
        print("compare")


def trigger_words(rng):
    """Words for two statistics, of which the second lacks some; now and then so many that a count outgrows its column."""
    print("triggers")
    mask = rng.choice([0xFFFFFFFF, rng.getrandbits(32), rng.getrandbits(32) & rng.getrandbits(32)])
    same = [rng.getrandbits(32) & mask for _ in range(rng.randrange(40))]
    print("first", *same)
    print("second", *(w for w in same if rng.random() < 0.9))
    if rng.random() < 0.05:
        print("again", rng.choice([999_990, 10**6, 3 * 10**6]), rng.getrandbits(32))


def wrap():
    """All counts at 2^32 - 1; then five of them past it, and then the others."""
    print("triggers")
    for times, word in [((1 << 32) - 1, 0xFFFF_FFFF), (2, 0x4813), (1, 0xFFFF_FFFF)]:
        print("again", times, word)
        print("list")
        print("compare")


def print_recording(recording):
    print("recording")
    for i in range(0, len(recording), 512):
        print("bytes", recording[i:i + 512].hex())


def sources_in(recording):
    """FEE id and link of each packet, as far as the offsets lead."""
    found, place = [], 0
    while place + HEADER <= len(recording):
        fields = dict(zip(FIELDS, LAYOUT.unpack_from(recording, place)))
        found.append((fields["fee_id"], fields["link"]))
        place += max(HEADER, fields["offset"])
    return found


def some_filters(rng, sources):
    """Link, FEE id and stave to look for: none, one, or several, of which the first decides."""
    fee_id, link = rng.choice(3 * sources + SOURCES)
    wanted = rng.choice(3 * [()] + [("link",), ("fee",), ("stave",), ("stave",), ("link", "fee"), ("fee", "stave"), ("link", "stave")])
    values = dict(link=link, fee=fee_id, stave=fee_id ^ rng.choice([0, 0x0300, 0x8CC0]))
    return {name: values[name] if name in wanted else "-" for name in values}


def scans(seed):
    for name, recording in every(seed):
        rng = random.Random(f"scans {name} {seed}")
        print("#", name)
        print_recording(recording)
        sources = sources_in(recording)
        for skip, stats in 2 * [(0, 0), (0, 1), (1, 0), (1, 1)]:
            print_scan(some_filters(rng, sources), skip=skip, stats=stats, **some_reading(rng))


def some_reading(rng):
    """How often to load, and the windows and FEE places that are lent."""
    return dict(more=rng.choice([0, 1, 2, 9]), loads=rng.choice(6 * ["-"] + [rng.randrange(6)]), **some_windows(rng),
                places=rng.choice(20 * [4096] + [rng.randrange(12)]))


def some_windows(rng):
    return dict(window=rng.choice([0, 1, 64, 65, 100, 128, 1000, 8192, 65_536, rng.randrange(65_536)]),
                back=rng.choice([0, 0, 1, 64, rng.randrange(256)]))


def print_scan(filters, **settings):
    print("scan", *(f"{key}={value}" for key, value in (filters | settings).items()))


def sweeps(seed):
    rng = random.Random(f"sweeps {seed}")
    recording = bytearray(b"".join(packet(rng, rng.randrange(HEADER, 100)) for _ in range(4)))
    for _ in range(rng.randrange(3)):
        recording[rng.randrange(len(recording))] ^= rng.randrange(1, 256)
    print_recording(recording)
    sources = sources_in(recording)
    for length in range(len(recording) + 1):
        print_scan(some_filters(rng, sources), skip=rng.randrange(2), stats=rng.randrange(2), **some_reading(rng), length=length)


def thins(seed):
    for name, recording in every(seed, [*KINDS, undersized]):
        rng = random.Random(f"thins {name} {seed}")
        print("#", name)
        print_recording(recording)
        for filters in [{}, *filters_that_thin(rng, sources_in(recording) or SOURCES)]:
            print_scan(filters, skip=1, stats=0, **some_windows(rng))


def filters_that_thin(rng, sources):
    """By a link, a FEE id and a stave of these sources, and a stave with the bits of another uplink; several at once, of which the first
    decides; and one that takes none of the sources."""
    fee_ids, links = zip(*(rng.choice(sources) for _ in range(6)))
    single = [dict(link=links[0]), dict(fee=fee_ids[1]), dict(stave=fee_ids[2]), dict(stave=fee_ids[3] ^ rng.choice([0x0100, 0x0200, 0x0300]))]
    behind_link = rng.choice([dict(fee=fee_ids[0]), dict(stave=fee_ids[1]), dict(fee=fee_ids[0], stave=fee_ids[1])])
    return [*single, dict(link=links[4]) | behind_link, dict(fee=fee_ids[5], stave=fee_ids[2]), no_source(rng, sources)]


def no_source(rng, sources):
    """A filter by a number that no source has."""
    fee_ids, links = zip(*sources)
    name, bits, mask, taken = rng.choice([("link", 8, 0xFF, links), ("fee", 16, 0xFFFF, fee_ids), ("stave", 16, 0x703F, fee_ids)])
    taken = {number & mask for number in taken}
    number = rng.getrandbits(bits)
    while number & mask in taken:
        number = rng.getrandbits(bits)
    return {name: number}


def edges():
    fields = [("offset", [0, 63, 64, 65, 128, 10_064, 10_065, 65_535]), ("memory", [0, 63, 64, 65, 128, 129, 65_535])]
    filters = [{}, dict(link=3), dict(fee=0x312B), dict(stave=0x302B)]
    windows = cycle([0, 64, 100, 65_536])
    for name, values in fields:
        for value in values:
            # The second header has each trigger bit that the first lacks, so that the counts tell which of them was seen.
            print_recording(header(**{name: value}) + header(fee_id=0x312B, link=3, counter=1, trigger=~0x4813 & 0xFFFF_FFFF))
            for wanted in filters:
                for skip, stats in product([0, 1], [0, 1]):
                    print_scan(wanted, skip=skip, stats=stats, more=2, window=next(windows), places=4096)


def bits():
    print_recording(b"".join(header(trigger=word, counter=number) for number, word in enumerate(WORDS)))
    for headers in range(1, len(WORDS) + 1):
        print_scan(dict(link=9), skip=0, stats=1, window=65_536, places=1, length=headers * HEADER)
        print_scan({}, skip=1, stats=1, loads=headers, window=0, places=1)
    print_scan({}, skip=0, stats=0, window=65_536, places=1)


def carry():
    # 16 headers whose payload sizes add up to 983,055; 4,369 times that is 2^32 - 1. One byte less or more steps over it. The
    # trigger words differ, and the lowest bits are counted 69,920 times, past 2^16.
    for last in [1054, 1053, 1055]:
        headers = [header(memory=65_535, trigger=0xFFFF_FFFF >> 2 * n) for n in range(15)]
        print_recording(b"".join(headers) + header(memory=last))
        print("repeat", 4370)
        print_scan({}, skip=1, stats=1, window=65_536, places=4096)


def main(words):
    match words:
        case ["headers" | "verdicts" | "words" | "lengths" | "names" | "triggers" as kind, seed, count]:
            globals()[kind](random.Random(f"{kind} {seed}"), int(count))
        case ["scans" | "sweeps" | "thins" as kind, seed]:
            globals()[kind](int(seed))
        case ["fees" | "staves" | "edges" | "bits" | "carry" | "wrap" as kind]:
            globals()[kind]()
        case _:
            sys.exit(__doc__)


if __name__ == "__main__":
    main(sys.argv[1:])
