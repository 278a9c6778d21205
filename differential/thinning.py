"""Whether a filtered scan is the scan without a filter thinned out: of its packets those that match, in the same order, each at its own
position, and the same end, which is the refusal with its values, the byte place and the position.

It must be so for scans of a whole recording from a new state to the first refusal, with payload skipped and statistics off, for any filter,
with one exception: where the scan without a filter is refused with 3 at a header that does not match, the filtered one passes that header,
and the two part there. Which headers match is worked out here, from their bytes.
"""
from __future__ import annotations

import re
from typing import NamedTuple, Sequence

HEADER = 64
STAVE = 0x703F  # the bits of a FEE id that tell layer and stave
MEMORY_SIZE = 3  # the refusal of a header that would be handed out, with a memory size below 64


def number_at(header: bytes, place: int) -> int:
    """A number of two bytes in a header."""
    return int.from_bytes(header[place:place + 2], "little")


def offset_of(header: bytes) -> int:
    return number_at(header, 8)


class Filter(NamedTuple):
    """What a scan looks for: the first of link, FEE id and stave that is set decides, and with none set all headers match.

    >>> header = bytes.fromhex("07402a51002000004000400003") + bytes(51)
    >>> Filter(link=3).takes(header), Filter(fee=0x502A).takes(header), Filter(stave=0x522A).takes(header), Filter().takes(header)
    (True, False, True, True)
    >>> Filter(link=4, fee=0x512A).takes(header), Filter(fee=0x512A, stave=7).takes(header)
    (False, True)
    """

    link: int | None = None
    fee: int | None = None
    stave: int | None = None

    def takes(self, header: bytes) -> bool:
        fee_id = number_at(header, 2)
        if self.link is not None:
            return header[12] == self.link
        if self.fee is not None:
            return fee_id == self.fee
        return self.stave is None or fee_id & STAVE == self.stave & STAVE


class Packet(NamedTuple):
    """A header that was handed out, its own position, and the position at which its load started."""

    header: bytes
    own: int
    start: int


class Scan(NamedTuple):
    """The packets of a scan up to its first refusal, that refusal with its values, and where byte place and position then stand."""

    packets: Sequence[Packet]
    refusal: tuple[int, ...]
    place: int
    position: int


# Case lines, and the lines of their answers. README.md describes both.

LOAD = r"packet (\d+)\nheader ([0-9a-f]{128})\npayload 0\nplace \d+\nposition (\d+)\n"
END = r"refused (\d+(?: -?\d+)*)\nplace (\d+)\nposition (\d+)\ncounts 0 0 0\ntriggers(?: 0){20}\n"
ANSWER = re.compile(rf"((?:{LOAD})*){END}")
# What a scan does, besides looking for something, if its line does not say it.
UNSAID = dict(skip="0", stats="0", more="0", loads="-", length="-", brief="0")


def scan_of(answer: Sequence[str]) -> Scan:
    """The scan that the lines of an answer tell. Its loads must have handed out no payload, and counted and marked nothing.

    The answer has no own positions. But a packet moves the position from its own by its offset, and where it then stands is told.

    >>> counts = ["counts 0 0 0", "triggers" + 20 * " 0"]
    >>> load = ["packet 0", "header 07402a510020000050004000" + 104 * "0", "payload 0", "place 144", "position 144"]
    >>> scan = scan_of([*load, "refused 1", "place 200", "position 144", *counts])
    >>> [(packet.own, packet.start) for packet in scan.packets], scan[1:]
    ([(64, 0)], ((1,), 200, 144))
    >>> scan_of(["refused 2 -1 64", "place 128", "position 64", *counts])
    Scan(packets=[], refusal=(2, -1, 64), place=128, position=64)
    >>> scan_of(["refused 1", "mark e100", "place 128", "position 64", *counts])
    Traceback (most recent call last):
    ...
    ValueError: no answer of a scan with payload skipped and statistics off
    """
    found = ANSWER.fullmatch("".join(f"{line}\n" for line in answer))
    if found is None:
        raise ValueError("no answer of a scan with payload skipped and statistics off")
    packets = []
    for start, digits, position in re.findall(LOAD, found[1]):
        header = bytes.fromhex(digits)
        packets.append(Packet(header, int(position) - offset_of(header), int(start)))
    refusal, place, position = found.groups()[-3:]
    return Scan(packets, tuple(map(int, refusal.split(" "))), int(place), int(position))


def filter_of(case: str) -> Filter | None:
    """What the scan of a case line looks for; None if it is no scan of a whole recording to the first refusal with payload skipped and
    statistics off.

    >>> filter_of("scan link=- fee=- stave=20522 skip=1 stats=0 window=100")
    Filter(link=None, fee=None, stave=20522)
    >>> filter_of("scan skip=1 stats=0") == Filter()
    True
    >>> filter_of("scan skip=0 stats=0"), filter_of("scan skip=1 stats=0 more=1"), filter_of("scan skip=1 length=99"), filter_of("list")
    (None, None, None, None)
    """
    first, *words = case.split(" ")
    if first != "scan":
        return None
    values = UNSAID | dict(word.split("=") for word in words)
    if any(values[name] != word for name, word in (UNSAID | dict(skip="1")).items()):
        return None
    return Filter(**{name: int(values[name]) for name in Filter._fields if values.get(name, "-") != "-"})


def recording_of(lines: Sequence[str]) -> bytes:
    """The recording that lines set up.

    >>> recording_of(["bytes 07", "recording", "bytes 0102", "bytes 03", "repeat 2"]).hex()
    '010203010203'
    """
    recording = b""
    for line in lines:
        match line.split(" "):
            case ["recording"]:
                recording = b""
            case ["bytes", digits]:
                recording += b"" if digits == "-" else bytes.fromhex(digits)
            case ["repeat", times]:
                recording *= int(times)
    return recording


# The comparison.


def parts_at(recording: bytes, wanted: Filter, unfiltered: Scan) -> bytes | None:
    """The header at which a filtered scan parts from the one without a filter, if there is one: that one is refused with 3 there, which leaves
    the byte place behind the header, and the header does not match."""
    header = recording[unfiltered.place - HEADER:unfiltered.place]
    return header if unfiltered.refusal[0] == MEMORY_SIZE and not wanted.takes(header) else None


def fault(recording: bytes, wanted: Filter, unfiltered: Scan, filtered: Scan) -> str | None:
    """What is wrong with a filtered scan beside the one without a filter of the same recording; None if it is as it must be."""
    if any(packet.own != packet.start for packet in unfiltered.packets):
        return "without a filter a packet does not stand where its load started"
    if unfiltered.refusal[0] == MEMORY_SIZE and not HEADER <= unfiltered.place <= len(recording):
        return "without a filter refusal 3 leaves the byte place behind no header"
    header = parts_at(recording, wanted, unfiltered)
    return not_thinned(wanted, unfiltered, filtered) if header is None else not_parted(header, wanted, unfiltered, filtered)


def not_thinned(wanted: Filter, unfiltered: Scan, filtered: Scan) -> str | None:
    """How a filtered scan differs from the one without a filter thinned out."""
    return fault_in_packets(matching(wanted, unfiltered), filtered.packets) or fault_at_the_end(unfiltered, filtered)


def not_parted(header: bytes, wanted: Filter, unfiltered: Scan, filtered: Scan) -> str | None:
    """How a filtered scan differs from one that has handed out what matches of the other, passes the header at which that one was refused, and
    goes on behind it."""
    due = matching(wanted, unfiltered)
    before, behind = filtered.packets[:len(due)], filtered.packets[len(due):]
    start = unfiltered.position + offset_of(header)
    if filtered.position < start or filtered.place < unfiltered.place - HEADER + offset_of(header):
        return f"it ends at {filtered.position}, byte place {filtered.place}, in front of {start}, though the header there does not match"
    return fault_in_packets(due, before) or fault_behind(wanted, behind, start, filtered.position)


def matching(wanted: Filter, scan: Scan) -> list[Packet]:
    """The packets of a scan that match."""
    return [packet for packet in scan.packets if wanted.takes(packet.header)]


def fault_in_packets(due: Sequence[Packet], found: Sequence[Packet]) -> str | None:
    """How the packets differ from those that are due, the starts of their loads excepted."""
    for number, (one, other) in enumerate(zip(due, found)):
        if one.header != other.header:
            return f"packet {number} is another one"
        if one.own != other.own:
            return f"packet {number} stands at {other.own}, and at {one.own} without a filter"
    return None if len(due) == len(found) else f"there are {len(found)} packets, and {len(due)} match"


def fault_at_the_end(unfiltered: Scan, filtered: Scan) -> str | None:
    """How the ends of two scans differ."""
    for name in ("refusal", "place", "position"):
        one, other = getattr(unfiltered, name), getattr(filtered, name)
        if one != other:
            return f"the {name} at the end is {other}, and {one} without a filter"
    return None


def fault_behind(wanted: Filter, packets: Sequence[Packet], start: int, end: int) -> str | None:
    """What is wrong with packets of which the first stands at `start` or behind it, each other one behind the one before it, and all in front of
    `end`."""
    for packet in packets:
        if not wanted.takes(packet.header):
            return f"the packet at {packet.own} does not match"
        if packet.own < start:
            return f"the packet at {packet.own} stands in front of {start}"
        start = packet.own + offset_of(packet.header)
    return None if start <= end else f"it ends at {end}, in front of {start}"
