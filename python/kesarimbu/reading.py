"""The packets of a whole recording, one after the other."""
from __future__ import annotations

from array import array
from dataclasses import dataclass
from typing import TYPE_CHECKING, Any

from .plain import PLACES
from .refusals import Refused
from .scan import NO_MARKS, Kept, Marks, Packet, Scan, Settings, Want
from .windows import Windows

if TYPE_CHECKING:
    from .triggers import TriggerCounts
    from .windows import Source

# How many bytes are read at a time.
WINDOW = 1 << 20


@dataclass(frozen=True)
class End:
    """How a scan ended: the refusal (1 at the recording's end), the counts of headers and payload bytes, the trigger counts of the headers
    seen, the links and FEE ids in the order of first sight, and the marks of all loads together."""

    refusal: Refused
    seen: int
    filtered: int
    payload: int
    triggers: TriggerCounts
    links: tuple[int, ...]
    fee_ids: tuple[int, ...]
    marks: Marks


def end_of(refusal: Refused, kept: Kept, marks: Marks) -> End:
    """The end of a scan that was refused, and has kept this."""
    links, fee_ids = tuple(kept.links[:kept.links_used]), tuple(kept.fee_ids[:kept.fee_ids_used])
    return End(refusal, kept.seen, kept.filtered, kept.payload, kept.triggers, links, fee_ids, marks)


class Packets:
    """The packets of a recording, as an iterator; `packets` makes one. `end` is None until the iteration has come to its end."""

    def __init__(self, windows: Windows, scan: Scan) -> None:
        self._windows = windows
        self._scan = scan
        self._marks = NO_MARKS
        self.end: End | None = None

    def __enter__(self) -> Packets:
        return self

    def __exit__(self, *_: Any) -> None:
        self.close()

    def close(self) -> None:
        """Closes the file, if it was opened here."""
        self._windows.close()

    def __iter__(self) -> Packets:
        return self

    def __next__(self) -> Packet:
        while self.end is None:
            answer = self._scan.load()
            marks = self._scan.marks
            if marks is not NO_MARKS:
                self._marks = together(self._marks, marks)
            if isinstance(answer, Packet):
                return answer
            self._go_on(answer)
        raise StopIteration

    def _go_on(self, answer: Want | Refused) -> None:
        """After a want, with the window that is wanted; a refusal is the end."""
        if isinstance(answer, Want):
            lend_wanted(self._windows, self._scan, answer)
        else:
            self.end = end_of(answer, self._scan.kept, self._marks)
            self.close()


def lend_wanted(windows: Windows, scan: Scan, want: Want) -> None:
    """Lends a scan the window that it wants."""
    windows.move(want.place, want.size)
    scan.lend(windows.window, windows.first, windows.last)


def together(marks: Marks, more: Marks) -> Marks:
    """The marks of two calls together."""
    return Marks(marks.initial or more.initial, marks.seen + more.seen, marks.filtered or more.filtered, marks.payload or more.payload,
                 marks.e100 or more.e100)


def packets(source: Source, *, link: int | None = None, fee: int | None = None, stave: str | bytes | int | None = None,
            skip_payload: bool = False, stats: bool = True, places: int = PLACES, window: int = WINDOW) -> Packets:
    """The packets of a recording of any size: those of a link, a FEE id or a stave (its name, such as "L5_42", or a FEE id), or all.

    `source` is a path, or a file or pipe that is open for reading in binary mode. With `skip_payload` payloads are empty, and what a window
    does not hold of them is not read if the file can seek. With `stats=False` headers are not counted, and links and FEE ids not listed.
    `places` is how many FEE ids can be listed, and `window` how many bytes are read at a time.

    Each `Packet` has `header`, `payload` (a part of the window that was read, without a copy; it stays good), `own`, where its header
    stands, and `position`, where the search for it began. The iteration stops at the recording's end, or at a header that cannot be
    followed; then `end` has the refusal, the counts and the lists.

    >>> import io
    >>> from kesarimbu import Header
    >>> first = bytes(Header(fee_id=0x502A, link_id=2, offset_new_packet=68, memory_size=68, trigger_type=0x10)) + b"data"
    >>> other = bytes(Header(fee_id=0x0006, link_id=3, offset_new_packet=64, memory_size=64, trigger_type=0x11))
    >>> found = packets(io.BytesIO(other + first), stave="L5_42")
    >>> for packet in found:
    ...     print(hex(packet.header.fee_id), bytes(packet.payload), packet.own, packet.position)
    0x502a b'data' 64 0
    >>> found.end.refusal, found.end.seen, found.end.filtered, found.end.links
    (Refused(1), 2, 1, (3, 2))

    All headers seen are in the trigger counts, those too that the filter does not take:

    >>> found.end.triggers.orbit, found.end.triggers.pht
    (1, 2)

    With `skip_payload=True, stats=False` a filter only thins out: what is found are the packets found without it that match, at the same
    `own` positions, and the end is the same. That is proved, if no header has a memory size below 64 (rules C7 and C8 of docs/READER.md):

    >>> def quick(**filters):
    ...     found = packets(io.BytesIO(other + first + other), skip_payload=True, stats=False, **filters)
    ...     return [(hex(packet.header.fee_id), packet.own) for packet in found], found.end.refusal
    >>> quick()
    ([('0x6', 0), ('0x502a', 64), ('0x6', 132)], Refused(1))
    >>> quick(link=3)
    ([('0x6', 0), ('0x6', 132)], Refused(1))

    Windows are read, not mapped: a mapped file that somebody cuts meanwhile kills the process, and bytes that change under a proved
    function break its promise. A file that was opened here is closed at the end of the iteration; where that may not be reached:

        with packets(path) as found:
            first = next(found)
    """
    scan = Scan(Settings(link, fee, stave, skip_payload, stats), Kept(fee_ids=array("H", bytes(2 * places))))
    return Packets(Windows(source, window), scan)
