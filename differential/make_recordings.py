#!/usr/bin/env python3
"""Makes recordings to try readers with. The same seed makes the same bytes.

    make_recordings.py sample FILE          the small recording that is kept in samples/
    make_recordings.py bench FOLDER BYTES   sound recordings of about BYTES bytes each, to time readers with
    make_recordings.py all FOLDER SEED      recordings of every kind below, sound and damaged, a file for each
"""
import random
import struct
import sys
from itertools import islice
from pathlib import Path

HEADER = 64
MOST_OFFSET = 10_064
# The 64 bytes, in their order. `cru_dw`, `bc_reserved` and `format_reserved` each hold two fields.
FIELDS = ("header_id header_size fee_id priority system_id reserved0 offset memory link counter cru_dw bc_reserved orbit "
          "format_reserved trigger pages stop rdh2_reserved reserved1 detector par rdh3_reserved reserved2").split()
LAYOUT = struct.Struct("<BBHBBH HHBBH II Q IHBB Q IHH Q")
SOUND = dict.fromkeys(FIELDS, 0) | dict(header_id=7, header_size=64, fee_id=0x502A, system_id=32, offset=64, memory=64,
                                        cru_dw=1, format_reserved=2, trigger=0x4813)
TRIGGERS = 0xF800_7FFF  # the bits of a sound trigger word; the others are spare
# Trigger words by which each bit is told from every other: in one of the first five the two part, whichever they are. Then all bits, and none.
WORDS = [0xAAAA_AAAA, 0xCCCC_CCCC, 0xF0F0_F0F0, 0xFF00_FF00, 0xFFFF_0000, 0xFFFF_FFFF, 0]

# Three staves, each with three uplinks, every uplink on a link of its own: FEE id and link.
STAVES = [0x0006, 0x302B, 0x502A]
SOURCES = [(stave | uplink << 8, 3 * i + uplink) for i, stave in enumerate(STAVES) for uplink in range(3)]


def header(**fields):
    """64 bytes: a sound header but for the fields given."""
    values = SOUND | fields
    return LAYOUT.pack(*(values[name] for name in FIELDS))


def packet(rng, size, gap=b"", **fields):
    """A sound packet of `size` bytes from a source taken at random, and what stands in the gap behind it. Its trigger word has some of the bits
    of its orbit, so that the words of a recording differ."""
    fee_id, link = rng.choice(SOURCES)
    sound = dict(fee_id=fee_id, link=link, offset=size + len(gap), memory=size, counter=rng.randrange(256),
                 bc_reserved=rng.randrange(0xDEC), orbit=rng.getrandbits(32))
    sound["trigger"] = sound["orbit"] & TRIGGERS or SOUND["trigger"]
    return header(**sound | fields) + rng.randbytes(size - HEADER) + gap


def readout(rng, sizes):
    """Packets as a card writes them, without end: in each orbit two pages of every source, the second with the stop bit; all with one trigger
    word."""
    counters = [0] * len(SOURCES)
    orbit = rng.getrandbits(20)
    while True:
        orbit += 1
        for i, (fee_id, link) in enumerate(SOURCES):
            for page in range(2):
                yield packet(rng, rng.choice(sizes), fee_id=fee_id, link=link, counter=counters[i] % 256, orbit=orbit,
                             bc_reserved=0, pages=page, stop=page, trigger=SOUND["trigger"])
                counters[i] += 1


def some_size(rng):
    return rng.choice([HEADER, HEADER, rng.randrange(HEADER, HEADER + 20), rng.randrange(HEADER, 600)])


def packets(rng, most=8):
    """A list of a few sound packets."""
    return [packet(rng, some_size(rng)) for _ in range(rng.randrange(1, most))]


def amid(rng, odd):
    """A recording with `odd` at a place taken at random among sound packets."""
    chain = packets(rng)
    chain.insert(rng.randrange(len(chain) + 1), odd)
    return b"".join(chain)


# The kinds of recordings. Each makes a list of them.


def sound(rng):
    return [b"".join(packets(rng, 30)), b"".join(islice(readout(rng, range(64, 513)), 40))]


def longest(rng):
    """The longest packets that a card writes."""
    return [b"".join(islice(readout(rng, [8128]), rng.randrange(1, 6)))]


def many_sources(rng):
    """More links and FEE ids than a stave has, some of them again and again."""
    return [b"".join(packet(rng, HEADER, fee_id=rng.choice([rng.getrandbits(16), rng.getrandbits(6)]), link=rng.getrandbits(8))
                     for _ in range(400))]


def gaps(rng):
    """Memory size below the offset: noise between packets, or whole headers, which a scan that reads payload comes upon."""
    noise = [packet(rng, some_size(rng), rng.randbytes(rng.randrange(1, 200))) for _ in range(6)]
    headers = [packet(rng, some_size(rng), b"".join(packet(rng, HEADER) for _ in range(rng.randrange(1, 4)))) for _ in range(6)]
    return [b"".join(noise), b"".join(headers), b"".join(a + b for a, b in zip(headers, noise))]


def memory_sizes(rng):
    """A memory size below 64, next to the offset, or far above it."""
    size = some_size(rng) + 1
    sizes = [0, 1, 63, 64, 65, size - 1, size, size + 1, size + HEADER, 2 * size, 8128, 65_535]
    return [amid(rng, packet(rng, size, memory=memory)) for memory in sizes]


def offsets(rng):
    """An offset at the edges of what is allowed, with as many bytes behind it as it says, as far as it is allowed."""
    edges = [0, 1, 63, 64, 65, MOST_OFFSET - 1, MOST_OFFSET, MOST_OFFSET + 1, 65_535]
    return [amid(rng, packet(rng, max(HEADER, min(edge, MOST_OFFSET + 1)), offset=edge)) for edge in edges]


def stumbles(rng):
    """Headers with a bad offset and nothing behind them: a scan that goes on after the refusal finds the next packet."""
    bad = [packet(rng, HEADER, offset=rng.choice([0, 63, MOST_OFFSET + 1, 65_535])) for _ in range(5)]
    return [b"".join(x for pair in zip(packets(rng) + [b""] * 5, bad) for x in pair), b"".join(bad), amid(rng, bad[0])]


def cuts(rng):
    """Cut at every length near a header's and a payload's end."""
    ends, whole = [], b""
    for _ in range(2):
        ends += [len(whole) + HEADER]
        whole += packet(rng, rng.randrange(HEADER + 2, 300))
        ends += [len(whole)]
    whole += packet(rng, 80)
    return [whole[:end + near] for end in ends for near in range(-3, 4)]


def short(rng):
    """Every length near 64 and 128, and next to nothing."""
    whole = b"".join(packet(rng, HEADER) for _ in range(3))
    lengths = [*range(4), *range(HEADER - 8, HEADER + 9), *range(2 * HEADER - 4, 2 * HEADER + 5)]
    return [whole[:length] for length in lengths]


def flipped(rng):
    """Sound packets in which bits of a few bytes are flipped, half of them in the first header."""
    made = []
    for _ in range(10):
        recording = bytearray(b"".join(packets(rng)))
        for _ in range(rng.randrange(1, 6)):
            recording[rng.choice([rng.randrange(HEADER), rng.randrange(len(recording))])] ^= rng.randrange(1, 256)
        made.append(bytes(recording))
    return made


def noise(rng):
    """Bytes taken at random; and packets of which only the offset is not."""
    lengths = [rng.randrange(HEADER, 400) for _ in range(20)]
    wild = [rng.randbytes(8) + struct.pack("<H", length) + rng.randbytes(length - 10) for length in lengths]
    return [rng.randbytes(rng.randrange(2000)), b"".join(wild)]


def trigger_words(rng):
    """Trigger words with spare bits and all. In the first two recordings no two bits are in the same number of headers; in the others are the
    words that tell each bit from every other, words at random, and words of one bit or of all but one."""
    below, above = [(1 << n) - 1 for n in range(33)], [0xFFFF_FFFF >> n << n for n in range(33)]
    some = [rng.getrandbits(32) for _ in range(8)]
    ones = [1 << bit ^ rng.choice([0, 0xFFFF_FFFF]) for bit in rng.sample(range(32), 8)]
    return [b"".join(packet(rng, HEADER, trigger=word) for word in rng.sample(words, len(words))) for words in (below, above, WORDS, some, ones)]


def undersized(rng):
    """Memory sizes below 64 among others, so that a filter may pass a header at which a scan without one is refused; then nothing, a bad offset,
    or a cut. Only the cases on filters that thin out have these."""
    made = []
    for end in (b"", packet(rng, HEADER, offset=63), packet(rng, HEADER)[:-1], packet(rng, 200)[:100]):
        some = [dict(memory=rng.randrange(HEADER)) if rng.random() < 0.3 else {} for _ in range(rng.randrange(3, 12))]
        made.append(b"".join(packet(rng, some_size(rng), **fields) for fields in some) + end)
    return made


KINDS = [sound, longest, many_sources, gaps, memory_sizes, offsets, stumbles, cuts, short, flipped, noise, trigger_words]


def every(seed, kinds=KINDS):
    """Name and bytes of each recording that the seed makes."""
    for kind in kinds:
        made = kind(random.Random(f"{kind.__name__} {seed}"))
        for i, recording in enumerate(made):
            yield f"{kind.__name__}-{i}", recording


def sample():
    """Three orbits of three staves; a bunch counter and a stave number that are too high; at the end a header with a broken offset."""
    rng = random.Random("sample")
    chain = list(islice(readout(rng, range(HEADER, 513, 16)), 6 * len(SOURCES)))
    chain[20] = packet(rng, 128, bc_reserved=0xDEC, trigger=SOUND["trigger"])
    chain[33] = packet(rng, 96, fee_id=0x6030, trigger=SOUND["trigger"])
    return b"".join(chain) + packet(rng, 256, offset=0, trigger=SOUND["trigger"])[:200]


def to_time(rng, sizes, length):
    """Sound packets of the given sizes, up to about `length` bytes: a block of 4 MiB, made once, again and again."""
    block, made = bytearray(), readout(rng, sizes)
    while len(block) < min(length, 4 << 20):
        block += next(made)
    return bytes(block) * max(1, length // len(block))


def write_bench(folder, length):
    for name, sizes in [("8128", [8128]), ("64-512", range(64, 513)), ("288", [288]), ("64", [64])]:
        recording = to_time(random.Random(f"bench {name}"), sizes, length)
        (folder / f"{name}.raw").write_bytes(recording)


def main(words):
    match words:
        case ["sample", file]:
            Path(file).write_bytes(sample())
        case ["bench", folder, length]:
            Path(folder).mkdir(parents=True, exist_ok=True)
            write_bench(Path(folder), int(length))
        case ["all", folder, seed]:
            Path(folder).mkdir(parents=True, exist_ok=True)
            for name, recording in every(int(seed)):
                (Path(folder) / f"{name}.raw").write_bytes(recording)
        case _:
            sys.exit(__doc__)


if __name__ == "__main__":
    main(sys.argv[1:])
