"""Links: whether the packets of each go on from one another, or some were lost between them."""
from __future__ import annotations

from ctypes import addressof, c_uint8, c_void_p
from typing import NamedTuple

from . import library, structs
from .headers import Header, plain_header


class LinkCheck(NamedTuple):
    """What a header yields behind the last one on its link: a flag for each field that is not as it must be there, and its packet counter
    minus the expected one, modulo 256.

    Where packets were lost in an orderly run, `distance` is how many of them, modulo 256; so the packet counter does not tell of 256 that
    were lost in a row. A distance of 255 may be a packet that came twice.

    >>> check = LinkCheck(packet_counter=False, pages_counter=False, orbit=True, distance=0)
    >>> check.flagged
    True
    """

    packet_counter: bool
    pages_counter: bool
    orbit: bool
    distance: int

    @property
    def flagged(self) -> bool:
        """Whether there is any flag."""
        return self.packet_counter or self.pages_counter or self.orbit


class LastHeader(NamedTuple):
    """What a link keeps of the last header that was put on it."""

    packet_counter: int
    pages_counter: int
    orbit: int
    stop_bit: int


# How wide each of them is: as wide as in a header.
_WIDTHS = tuple(dict(structs.Header._fields_)[name] for name in LastHeader._fields)

_unpack = structs.LAYOUTS[structs.LinkCheck].unpack_from
_check_of = LinkCheck._make


class LinkContinuity:
    """What is kept of the 256 links to check their headers by: of each the last header's values, or nothing at the beginning.

    Put the headers that a scan hands out, all of them and in their order. Where several senders share a link, a filter by FEE id or stave
    leaves gaps, which are told as lost packets: scan without a filter, or by link.

    >>> import io
    >>> from kesarimbu import packets
    >>> first, second, fourth = (Header(packet_counter=n, pages_counter=n, offset_new_packet=64, memory_size=64) for n in (0, 1, 3))
    >>> links = LinkContinuity()
    >>> for packet in packets(io.BytesIO(bytes(first) + bytes(second) + bytes(fourth))):
    ...     check = links.check(packet.header)
    ...     if check.flagged:
    ...         print(hex(packet.own), check)
    0x80 LinkCheck(packet_counter=True, pages_counter=True, orbit=False, distance=1)
    """

    def __init__(self) -> None:
        arrays = [(width * structs.LINKS)() for width in (c_uint8, *_WIDTHS)]
        self._seen, *self._values = arrays
        self._lent = tuple(c_void_p(addressof(array)) for array in arrays)  # made once: an array would become a pointer at every call

    def check(self, header: Header) -> LinkCheck:
        """What a header yields on its link, of which it then is the last one. The first on a link is taken as it comes.

        The packet counter must be the last one plus 1, with 255 followed by 0. The pages counter must be the last one plus 1, with 65,535
        followed by 0, and the orbit the same, up to a stop, which is any stop bit but 0. Behind it the pages counter must be 0, and the
        orbit is free.

        >>> links = LinkContinuity()
        >>> links.check(Header(link_id=3, packet_counter=254, orbit=9))
        LinkCheck(packet_counter=False, pages_counter=False, orbit=False, distance=0)
        >>> links.check(Header(link_id=3, packet_counter=0, pages_counter=1, orbit=9, stop_bit=1))
        LinkCheck(packet_counter=True, pages_counter=False, orbit=False, distance=1)
        >>> links.check(Header(link_id=3, packet_counter=1, orbit=10)).flagged
        False
        """
        return _check_of(_unpack(library.check_link(plain_header(header), *self._lent)))

    def kept(self, link: int) -> LastHeader | None:
        """What is kept of a link's last header; None if there was none.

        >>> links = LinkContinuity()
        >>> _ = links.check(Header(link_id=3, packet_counter=254, orbit=9))
        >>> links.kept(3)
        LastHeader(packet_counter=254, pages_counter=0, orbit=9, stop_bit=0)
        >>> links.kept(4) is None
        True
        """
        place = _place_of(link)
        return LastHeader(*(values[place] for values in self._values)) if self._seen[place] else None

    def keep(self, link: int, packet_counter: int, pages_counter: int, orbit: int, stop_bit: int) -> None:
        """Lets a link keep these values, as if a header that has them had been put on it.

        >>> links = LinkContinuity()
        >>> links.keep(3, 255, 7, 9, 0)
        >>> links.check(Header(link_id=3, packet_counter=0, pages_counter=8, orbit=9)).flagged
        False
        """
        place = _place_of(link)
        last = LastHeader(packet_counter, pages_counter, orbit, stop_bit)
        fitting = [structs.fitting(*given) for given in zip(LastHeader._fields, last, _WIDTHS)]
        for values, number in zip(self._values, fitting):
            values[place] = number
        self._seen[place] = 1

    def forget(self, link: int) -> None:
        """Lets a link keep nothing: its next header is taken as it comes.

        >>> links = LinkContinuity()
        >>> links.keep(3, 255, 7, 9, 0)
        >>> links.forget(3)
        >>> links.kept(3) is None
        True
        """
        self._seen[_place_of(link)] = 0


def _place_of(link: int) -> int:
    return structs.fitting("link", link, c_uint8)
