"""The listing of a recording: a row for each packet, what is wrong with it if it is not sound, and at last the counts.

The command line is made of this. So it imports little: that alone would take longer than to list a recording of a few MiB.
"""
from __future__ import annotations

import os
from ctypes import c_uint8, c_uint16, c_uint32

from . import lending, library, plain, structs
from .refusals import BUFFER_TOO_SHORT, END, Refused, refused_of
from .windows import OneBuffer

TYPE_CHECKING = False
if TYPE_CHECKING:
    from typing import Iterator

    from .triggers import TriggerCounts
    from .windows import Source, Windows

# How many bytes are read at a time, and how many bytes of lines are made at a time: few enough for the processor's caches, and so many that
# handing a window from thread to thread costs little.
WINDOW = 1 << 20
ROOM = 1 << 18


class Listing:
    """The listing of a recording: to be iterated over once, for chunks of bytes that are whole lines.

    `source` and the settings are those of `packets`; `version` and `its` those of `Validator`. The lines are those that the listing program
    prints: own position and row of each packet, a further line with that position and the verdict if it is not sound, and at the end the
    counts and the refusal's number.

    `refusal` is None until the iteration has come to its end. `unsound` is how many of the packets listed so far are not sound, `place` the
    byte place that was reached, and `triggers` are the trigger counts of the headers seen so far.

    >>> import io
    >>> from kesarimbu import Header
    >>> header = Header(header_id=7, header_size=64, offset_new_packet=64, memory_size=64, trigger_type=0x4813)
    >>> listing = Listing(io.BytesIO(bytes(header)))
    >>> print(b"".join(listing).decode(), end="")
    0x0: 7     64     0      0     64      0     0         0    0x0         0          0x4813    0        0      0x0
    seen 1
    filtered 0
    payload 0
    end 1
    >>> listing.refusal, listing.unsound, listing.is_well, listing.place, listing.triggers.pht
    (Refused(1), 0, True, 64, 1)
    """

    def __init__(self, source: Source, *, link: int | None = None, fee: int | None = None, stave: str | bytes | int | None = None,
                 skip_payload: bool = False, stats: bool = True, version: int | None = None, its: bool = False,
                 places: int = plain.PLACES, window: int = WINDOW, room: int = ROOM) -> None:
        self._settings = plain.settings(link, fee, stave, skip_payload, stats)
        self._listed = structs.Listed(validator=plain.validator(version, its, None))
        self._links = (c_uint8 * structs.LINKS)()
        self._triggers = (c_uint32 * structs.TRIGGERS)()
        self._fee_ids = (c_uint16 * places)()
        self._out = (c_uint8 * room)()
        self._text = memoryview(self._out).cast("B")
        self._windows = _windows_of(source, window, skip_payload)
        self.refusal: Refused | None = None
        self.unsound = 0

    def __enter__(self) -> Listing:
        return self

    def __exit__(self, *_: object) -> None:
        self.close()

    def close(self) -> None:
        """Closes the file, if it was opened here."""
        self._windows.close()

    @property
    def place(self) -> int:
        """The byte place that the listing has come to."""
        return self._listed.state.place

    @property
    def is_well(self) -> bool:
        """Whether the recording was listed to its end, and all packets listed are sound."""
        return self.refusal == Refused(END) and self.unsound == 0

    @property
    def triggers(self) -> TriggerCounts:
        """The trigger counts of the headers seen so far. What names them is imported only where they are asked for."""
        from .triggers import TriggerCounts
        return TriggerCounts(*self._triggers)

    def __iter__(self) -> Iterator[bytes]:
        return map(bytes, self.views())

    def views(self) -> Iterator[memoryview]:
        """The chunks without a copy: each is good until the next is asked for."""
        while self.refusal is None:
            self._bring()
            listed = self._list()
            if listed.length:
                yield self._text[:listed.length]

    def _bring(self) -> None:
        """Brings the window that the last call wanted. Only now: what it had listed before that is not to wait for a slow source."""
        answer = self._listed.answer
        if answer.kind == structs.WANT:
            self._windows.move(answer.want_place, answer.want_size)

    def _list(self) -> structs.Listed:
        """One call, for as many packets as the window has and the buffer holds."""
        before, windows = self._listed, self._windows
        listed = library.list_packets(
            self._settings, before.state, before.validator, self._links, self._triggers, self._fee_ids, len(self._fee_ids),
            *lending.to_read(windows.window), windows.first, windows.last, self._out, len(self._out))
        if listed.answer.kind == structs.REFUSED:
            self._finish(listed)
        self.unsound += listed.unsound
        self._listed = listed
        return listed

    def _finish(self, listed: structs.Listed) -> None:
        refusal = refused_of(listed.answer)
        if refusal.number == BUFFER_TOO_SHORT:
            raise Refused(BUFFER_TOO_SHORT, (listed.length,))
        self.refusal = refusal
        self.close()


def _windows_of(source: Source, size: int, skip_payload: bool) -> Windows:
    """The windows of a listing. A long file whose payload is read is read ahead; other sources may let a reader wait, or skip payload."""
    is_path = not hasattr(source, "read")
    if is_path and not skip_payload and os.path.isfile(source) and os.path.getsize(source) > size:
        from .ahead import ReadAhead
        return ReadAhead(source, size)
    return OneBuffer(source, size)
