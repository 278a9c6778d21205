"""The report on a recording's links: a line for each header that is flagged, one for each link, and at last the counts."""
from __future__ import annotations

from collections import defaultdict
from dataclasses import dataclass
from typing import TYPE_CHECKING

from .links import LinkCheck, LinkContinuity
from .reading import WINDOW, lend_wanted
from .refusals import END, Refused
from .scan import Kept, Packet, Scan, Settings, Want
from .windows import OneBuffer

if TYPE_CHECKING:
    from typing import Iterator

    from .windows import Source

# The flags, in the order in which they are told.
FLAGS = LinkCheck._fields[:3]


def flagged_line(own: int, link: int, check: LinkCheck) -> str:
    """The line of a header that is flagged, by its own position.

    >>> flagged_line(0x1A40, 3, LinkCheck(True, True, False, 1))
    '0x1A40: link 3 flags packet_counter,pages_counter distance 1\\n'
    """
    flags = ",".join(name for name, is_set in zip(FLAGS, check) if is_set)
    return f"0x{own:X}: link {link} flags {flags} distance {check.distance}\n"


@dataclass
class LinkTotal:
    """What is counted of a link: its packets, those that are flagged, and the sum of their distances.

    >>> total = LinkTotal()
    >>> total.add(LinkCheck(True, False, False, 2))
    >>> total.line(3)
    'link 3 packets 1 flagged 1 distance 2\\n'
    """

    packets: int = 0
    flagged: int = 0
    distance: int = 0

    def add(self, check: LinkCheck) -> None:
        """Counts one more packet."""
        self.packets += 1
        self.flagged += check.flagged
        self.distance += check.distance

    def line(self, link: int) -> str:
        """The line that tells it."""
        return f"link {link} packets {self.packets} flagged {self.flagged} distance {self.distance}\n"


def count_lines(kept: Kept, refusal: Refused) -> str:
    """The last lines, which are those of the listing.

    >>> print(count_lines(Kept(seen=3, payload=16), Refused(1)), end="")
    seen 3
    filtered 0
    payload 16
    end 1
    """
    return f"seen {kept.seen}\nfiltered {kept.filtered}\npayload {kept.payload}\nend {refusal.number}\n"


class LinkReport:
    """The report on the links of a recording: to be iterated over once, for chunks of bytes that are whole lines, or none.

    `source` and the settings are those of `packets`; headers are counted. `refusal` is None until the iteration has come to its end,
    `flagged` is how many headers so far are flagged, and `place` the byte place from which the source was read last.

    >>> import io
    >>> from kesarimbu import Header
    >>> first, third = (Header(link_id=3, packet_counter=n, pages_counter=n, offset_new_packet=64, memory_size=64) for n in (0, 2))
    >>> report = LinkReport(io.BytesIO(bytes(first) + bytes(third)))
    >>> print(b"".join(report).decode(), end="")
    0x40: link 3 flags packet_counter,pages_counter distance 1
    link 3 packets 2 flagged 1 distance 1
    seen 2
    filtered 0
    payload 0
    end 1
    >>> report.refusal, report.flagged, report.is_well
    (Refused(1), 1, False)
    """

    def __init__(self, source: Source, *, link: int | None = None, fee: int | None = None, stave: str | bytes | int | None = None,
                 skip_payload: bool = False, window: int = WINDOW) -> None:
        self._scan = Scan(Settings(link, fee, stave, skip_payload))
        self._windows = OneBuffer(source, window)
        self._want: Want | None = None
        self._links = LinkContinuity()
        self._totals: defaultdict[int, LinkTotal] = defaultdict(LinkTotal)
        self.refusal: Refused | None = None
        self.flagged = 0

    def __enter__(self) -> LinkReport:
        return self

    def __exit__(self, *_: object) -> None:
        self.close()

    def close(self) -> None:
        """Closes the file, if it was opened here."""
        self._windows.close()

    @property
    def place(self) -> int:
        """The byte place where the last window starts."""
        return self._windows.first

    @property
    def is_well(self) -> bool:
        """Whether the recording was read to its end, and no header is flagged."""
        return self.refusal == Refused(END) and self.flagged == 0

    def __iter__(self) -> Iterator[bytes]:
        return self.views()

    def views(self) -> Iterator[bytes]:
        """A chunk for each window, before the next one is read: what was found is not to wait for a slow source."""
        while self.refusal is None:
            if self._want is not None:
                lend_wanted(self._windows, self._scan, self._want)
            yield "".join(self._lines()).encode()

    def _lines(self) -> Iterator[str]:
        """The lines of what the window has; and the last ones, if that is all."""
        while isinstance(answer := self._scan.load(), Packet):
            yield self._put(answer)
        if isinstance(answer, Want):
            self._want = answer
        else:
            self.refusal = answer
            yield from self._last_lines(answer)
            self.close()

    def _put(self, packet: Packet) -> str:
        """The line of a packet, if it is flagged."""
        link, check = packet.header.link_id, self._links.check(packet.header)
        self._totals[link].add(check)
        if not check.flagged:
            return ""
        self.flagged += 1
        return flagged_line(packet.own, link, check)

    def _last_lines(self, refusal: Refused) -> Iterator[str]:
        for link, total in sorted(self._totals.items()):
            yield total.line(link)
        yield count_lines(self._scan.kept, refusal)
