"""The scan of a recording: one header examined, or one packet loaded, in a window of the recording that is lent.

`examine` and `load` are one to one with the exported functions and change nothing that they are given. `Scan` is the same for many calls:
it keeps state, lists and trigger counts in buffers that are made once.
"""
from __future__ import annotations

from array import array
from ctypes import c_uint8, c_uint16, c_uint32, c_uint64
from dataclasses import dataclass, field
from typing import TYPE_CHECKING, Any, NamedTuple, Sequence, Union

from . import lending, library, plain, structs
from .headers import Header, decode_lent
from .refusals import Refused, refused_of
from .triggers import TriggerCounts, counts_of

if TYPE_CHECKING:
    from .lending import Readable


@dataclass(frozen=True)
class Settings:
    """What a scan is asked for: the filter (a link, a FEE id, or a stave by its name or as a FEE id of which layer and stave are compared),
    whether payload is skipped, and whether headers are counted and listed.

    Of several filters the first of link, FEE id and stave decides; without any, all headers match. A name is refused with 8 at once if there
    is no such stave.

    >>> Settings(stave="L5_42").stave
    'L5_42'
    >>> Settings(stave="L7_0")
    Traceback (most recent call last):
    ...
    kesarimbu.Refused: refused with 8: not a stave name: write a letter, a layer of 0 to 6, _ and a stave of 0 to 47, as L5_42
    """

    link: int | None = None
    fee: int | None = None
    stave: str | bytes | int | None = None
    skip_payload: bool = False
    stats: bool = True

    def __post_init__(self) -> None:
        if isinstance(self.stave, (str, bytes)):  # asked now, so that there are no settings of a refused name
            plain.with_stave(structs.Settings(), self.stave)


def _no_fee_ids() -> array:
    return array("H", bytes(2 * plain.PLACES))


def _fee_ids_of(given: Sequence[int]) -> array:
    """The FEE ids in an array of their own. A slice is the fast way to copy one."""
    if isinstance(given, array) and given.typecode == "H":
        return given[:]
    return array("H", [structs.fitting("a FEE id", number, c_uint16) for number in given])


def _links_of(given: bytes | Sequence[int]) -> bytes:
    """The links, and 0 behind them."""
    links = given if isinstance(given, bytes) else bytes(structs.fitting("a link", number, c_uint8) for number in given)
    if len(links) > structs.LINKS:
        raise ValueError(f"{len(links)} links are given, and {structs.LINKS} are the most that can be kept")
    return links.ljust(structs.LINKS, b"\0")


@dataclass(frozen=True)
class Kept:
    """What a scan keeps between two calls; `Kept()` is the beginning.

    `place` is the byte place where it reads, `position` what it reports, and `load` the position from which the open load started, or None.
    `links` and `fee_ids` are lists in the order of first sight, of which `links_used` and `fee_ids_used` say how many are used. Links are
    filled up to 256 with 0. The FEE list has as many places as `fee_ids` has numbers. `triggers` are the trigger counts of the headers seen,
    `TriggerCounts` or any numbers in their order, which are filled up to 20 with 0.

    >>> kept = Kept(links=[1, 2], links_used=2, triggers=[9, 4], fee_ids=[0x502A, 0, 0], fee_ids_used=1)
    >>> len(kept.links), kept.fee_ids
    (256, array('H', [20522, 0, 0]))
    >>> kept.triggers.orbit, kept.triggers.hb, len(kept.triggers)
    (9, 4, 20)
    """

    place: int = 0
    position: int = 0
    load: int | None = None
    seen: int = 0
    filtered: int = 0
    payload: int = 0
    links: bytes | Sequence[int] = bytes(structs.LINKS)
    links_used: int = 0
    triggers: Sequence[int] = TriggerCounts()
    fee_ids: Sequence[int] = field(default_factory=_no_fee_ids)
    fee_ids_used: int = 0

    def __post_init__(self) -> None:
        object.__setattr__(self, "links", _links_of(self.links))
        object.__setattr__(self, "triggers", counts_of(self.triggers))
        object.__setattr__(self, "fee_ids", _fee_ids_of(self.fee_ids))


class Initial(NamedTuple):
    """What is marked of a recording's first header."""

    trigger_type: int
    data_format: int
    system_id: int


@dataclass(frozen=True)
class Marks:
    """What is reported of the headers that a call examined.

    `initial` is there if the first of them was at position 0. `seen` is how often the count of seen headers reached 2^32 - 1 and started
    again; `filtered` and `payload` are whether those counts did. `e100`: a payload was cut by the recording's end.
    """

    initial: Initial | None = None
    seen: int = 0
    filtered: bool = False
    payload: bool = False
    e100: bool = False


@dataclass(frozen=True)
class Packet:
    """A packet: its header, its payload as a part of the window (empty if it is skipped or cut), and two positions.

    `position` is where its load started: with a filter that may be the first header that was passed on the way to it. `own` is where its own
    header stands. A scan without a filter gives the same number for both.
    """

    header: Header
    payload: memoryview
    position: int
    own: int


@dataclass(frozen=True)
class Want:
    """Bytes are lacking: there must be `size` of them from `place` on, or the window must be the last."""

    place: int
    size: int


@dataclass(frozen=True)
class Passed:
    """An examination: the header does not match the filter, and was passed."""


Answer = Union[Packet, Want, Passed, Refused]


class Reply(NamedTuple):
    """What a call answers: what it found, what it marked, and what to keep for the next call."""

    answer: Answer
    marks: Marks
    kept: Kept


_ANSWER = structs.LAYOUTS[structs.Answer]
_MARKS = structs.LAYOUTS[structs.Marks]
_MARKS_AT = structs.Reply.marks.offset
_NO_MARKS = _MARKS.unpack(bytes(_MARKS.size))
NO_MARKS = Marks()


class Scan:
    """A scan that goes on from what is kept: the same as `examine` and `load`, call after call, with less to make for each.

    `lend` a window, then call `load` or `examine` as long as the window suffices. `marks` are those of the last call; `kept` is what
    `load(settings, kept, ..)` would give.

    >>> from kesarimbu import Header
    >>> scan = Scan(Settings(skip_payload=True))
    >>> scan.load()
    Want(place=0, size=64)
    >>> scan.lend(bytes(Header(offset_new_packet=64, memory_size=64, orbit=9)), 0, True)
    >>> scan.load().header.orbit
    9
    >>> scan.load()
    Refused(1)
    >>> scan.kept.seen
    1
    """

    def __init__(self, settings: Settings = Settings(), kept: Kept | None = None) -> None:
        kept = Kept() if kept is None else kept
        self._settings = plain.settings(settings.link, settings.fee, settings.stave, settings.skip_payload, settings.stats)
        self._reply = structs.Reply(state=plain_state(kept))
        self._links = (c_uint8 * structs.LINKS).from_buffer_copy(kept.links)
        self._triggers = (c_uint32 * structs.TRIGGERS)(*kept.triggers)
        self._fee_ids = (c_uint16 * len(kept.fee_ids)).from_buffer_copy(kept.fee_ids)
        self._header = (c_uint8 * structs.HEADER_SIZE)()
        self.lend(b"", 0, False)

    def lend(self, window: Readable, first: int, last: bool) -> None:
        """Lends the window for the next calls: bytes of the recording from the byte place `first` on, with which it ends if `last`."""
        self._view = _view_of(window)
        lent, length = lending.to_read(window)
        self._lent = (self._links, self._triggers, self._fee_ids, len(self._fee_ids), lent, length,
                      structs.fitting("first", first, c_uint64), bool(last), self._header)

    def examine(self) -> Answer:
        """Examines the header at the place that is kept."""
        self._reply = library.examine(self._settings, self._reply.state, *self._lent)
        return self._answer()

    def load(self) -> Answer:
        """Loads the next packet: examines headers up to the first that is not passed. The answer is never `Passed`."""
        self._reply = library.load(self._settings, self._reply.state, *self._lent)
        return self._answer()

    def _answer(self) -> Answer:
        position, own, want_place, want_size, start, length, kind, _, _ = _ANSWER.unpack_from(self._reply)
        if kind == structs.PACKET:
            header = decode_lent(self._header, structs.HEADER_SIZE)
            return Packet(header, self._view[start:start + length], position, own)
        if kind == structs.WANT:
            return Want(want_place, want_size)
        if kind == structs.REFUSED:
            return refused_of(self._reply.answer)
        return Passed()

    @property
    def marks(self) -> Marks:
        """The marks of the last call."""
        marks = _MARKS.unpack_from(self._reply, _MARKS_AT)
        return NO_MARKS if marks == _NO_MARKS else _marks_of(*marks)

    @property
    def kept(self) -> Kept:
        """What is kept now."""
        return kept_of(self._reply.state, self._links, self._triggers, self._fee_ids)


def examine(settings: Settings, kept: Kept, window: Readable, first: int, last: bool) -> Reply:
    """Examines the header at the byte place that is kept, in a window: bytes of the recording from the byte place `first` on, with which
    the recording ends if `last`.

    >>> from kesarimbu import Header
    >>> header = bytes(Header(link_id=3, offset_new_packet=64, memory_size=64, trigger_type=0x4813))
    >>> reply = examine(Settings(link=2), Kept(), header, 0, True)
    >>> reply.answer, reply.kept.place, reply.kept.seen
    (Passed(), 64, 1)

    With statistics, a header that is seen is counted at once in the trigger counts, too:

    >>> reply.kept.triggers.pht, reply.kept.triggers.tof
    (1, 0)
    """
    scan = Scan(settings, kept)
    scan.lend(window, first, last)
    return Reply(scan.examine(), scan.marks, scan.kept)


def load(settings: Settings, kept: Kept, window: Readable, first: int, last: bool) -> Reply:
    """Loads the next packet: examines headers, as `examine` does, up to the first that is not passed.

    >>> from kesarimbu import Header
    >>> recording = bytes(Header(offset_new_packet=66, memory_size=66, orbit=9)) + b"ab"
    >>> reply = load(Settings(), Kept(), recording, 0, True)
    >>> reply.answer.header.orbit, bytes(reply.answer.payload), reply.answer.position
    (9, b'ab', 0)
    >>> load(Settings(), reply.kept, recording, 0, True).answer
    Refused(1)
    >>> load(Settings(), Kept(), recording[:65], 0, False).answer
    Want(place=0, size=66)

    A load that passes headers starts at the first of them:

    >>> wanted = bytes(Header(link_id=3, offset_new_packet=64, memory_size=64))
    >>> packet = load(Settings(link=3), Kept(), recording + wanted, 0, True).answer
    >>> packet.position, packet.own
    (0, 66)
    """
    scan = Scan(settings, kept)
    scan.lend(window, first, last)
    return Reply(scan.load(), scan.marks, scan.kept)


def plain_state(kept: Kept) -> structs.State:
    """What is kept, but for the lists and the trigger counts, as a struct."""
    is_open = kept.load is not None
    return structs.filled(structs.State, (kept.place, kept.position, kept.load if is_open else 0, kept.links_used, kept.fee_ids_used,
                                          kept.seen, kept.filtered, kept.payload, is_open))


def kept_of(state: structs.State, links: Any, triggers: Any, fee_ids: Any) -> Kept:
    """What is kept: a struct, the two lists and the trigger counts together."""
    place, position, start, links_used, fee_ids_used, seen, filtered, payload, is_open = structs.values(state)
    listed = array("H", bytes(fee_ids))
    return Kept(place, position, start if is_open else None, seen, filtered, payload, bytes(links), links_used, triggers, listed,
                fee_ids_used)


def _marks_of(seen: int, trigger_type: int, data_format: int, system_id: int, initial: bool, filtered: bool, payload: bool,
              cut: bool) -> Marks:
    return Marks(Initial(trigger_type, data_format, system_id) if initial else None, seen, filtered, payload, cut)


def _view_of(window: Readable) -> memoryview:
    view = memoryview(window)
    if not view.c_contiguous:
        view = memoryview(view.tobytes())
    return view if view.format == "B" and view.ndim == 1 else view.cast("B")
