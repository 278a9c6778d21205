"""Headers: from and to their 64 bytes, and the row that shows one."""
from __future__ import annotations

from dataclasses import dataclass
from typing import TYPE_CHECKING

from . import lending, library, structs
from .refusals import Refused

if TYPE_CHECKING:
    from .lending import Lent, Readable, Writable

# So many bytes hold every row.
ROW_ROOM = 114


@dataclass(frozen=True)
class Header:
    """A raw data header: its fields as numbers, in the order of its 64 bytes. `bytes(header)` are these.

    Three fields hold two values each, which have properties of their own: `bc_reserved0` holds `bc` and `bc_reserved`, `cruid_dw` holds
    `cru_id` and `dw`, and `dataformat_reserved0` holds `data_format`.

    >>> header = Header(header_id=7, header_size=64, fee_id=0x502A, cruid_dw=0x1018)
    >>> bytes(header)[:4].hex(" ")
    '07 40 2a 50'
    >>> header.cru_id, header.dw
    (24, 1)
    """

    header_id: int = 0
    header_size: int = 0
    fee_id: int = 0
    priority_bit: int = 0
    system_id: int = 0
    rdh0_reserved0: int = 0
    offset_new_packet: int = 0
    memory_size: int = 0
    link_id: int = 0
    packet_counter: int = 0
    cruid_dw: int = 0
    bc_reserved0: int = 0
    orbit: int = 0
    dataformat_reserved0: int = 0
    trigger_type: int = 0
    pages_counter: int = 0
    stop_bit: int = 0
    rdh2_reserved0: int = 0
    reserved1: int = 0
    detector_field: int = 0
    par_bit: int = 0
    rdh3_reserved0: int = 0
    reserved2: int = 0

    def __bytes__(self) -> bytes:
        out = bytearray(structs.HEADER_SIZE)
        encode(self, out)
        return bytes(out)

    @property
    def bc(self) -> int:
        """The bunch counter: the low 12 bits of `bc_reserved0`."""
        return _parts(self).bc

    @property
    def bc_reserved(self) -> int:
        """The other 20 bits of `bc_reserved0`."""
        return _parts(self).bc_reserved

    @property
    def cru_id(self) -> int:
        """The readout unit's id: the low 12 bits of `cruid_dw`."""
        return _parts(self).cru_id

    @property
    def dw(self) -> int:
        """The data wrapper's id: the high 4 bits of `cruid_dw`."""
        return _parts(self).dw

    @property
    def data_format(self) -> int:
        """The data format: the low 8 bits of `dataformat_reserved0`."""
        return _parts(self).data_format

    @property
    def is_pht_trigger(self) -> bool:
        """Whether a physics trigger, bit 4 of `trigger_type`, is among the reasons why data were taken."""
        return _parts(self).is_pht_trigger


_NAMES = structs.names(structs.Header)
_LAYOUT = structs.LAYOUTS[structs.Header]


def plain_header(header: Header) -> structs.Header:
    """The header as a struct."""
    return structs.filled(structs.Header, header.__dict__.values())


def _header_in(decoded: structs.Decoded) -> Header:
    """The header that was decoded. It gets all fields at once: one is made for every packet, and `Header(..)` takes longer."""
    header = object.__new__(Header)
    header.__dict__.update(zip(_NAMES, _LAYOUT.unpack_from(decoded, structs.Decoded.header.offset)))
    return header


def _parts(header: Header) -> structs.HeaderParts:
    return library.parts(plain_header(header))


def decode(data: Readable) -> Header:
    """The header in the first 64 bytes. Refusal 9 if there are fewer.

    >>> decode(bytes([7, 64]) + bytes(62)).header_size
    64
    >>> decode(bytes(63))
    Traceback (most recent call last):
    ...
    kesarimbu.Refused: refused with 9: fewer than 64 bytes were lent for a header
    """
    return decode_lent(*lending.to_read(data))


def decode_lent(lent: Lent, length: int) -> Header:
    """`decode`, of what is lent already."""
    decoded = library.decode(lent, length)
    if decoded.refusal:
        raise Refused(decoded.refusal)
    return _header_in(decoded)


def encode(header: Header, out: Writable) -> None:
    """Writes the header to the first 64 bytes of `out`, and no more. Refusal 9 if there are fewer; then nothing is written.

    >>> out = bytearray(b"~" * 66)
    >>> encode(Header(header_id=7), out)
    >>> out[0], out[63:]
    (7, bytearray(b'\\x00~~'))
    """
    refusal = library.encode(plain_header(header), *lending.to_write(out))
    if refusal:
        raise Refused(refusal)


def equal(header: Header, other: Header) -> bool:
    """Whether two headers have the same 64 bytes.

    >>> equal(Header(orbit=1), Header(orbit=1)), equal(Header(orbit=1), Header())
    (True, False)
    """
    return library.equal(plain_header(header), plain_header(other))


def row(header: Header, out: Writable | None = None) -> str:
    """The row that shows a header in columns. With `out` it is also written at its start; refusal 7 if `out` is too short.

    The columns are header ID, header size, FEE id, system id, offset, link, packet counter, BC, orbit, data format, trigger type, pages
    counter, stop bit and detector field.

    >>> row(Header(header_id=7, header_size=64, fee_id=20522, orbit=16, trigger_type=0x4813))
    '7     64     20522  0     0       0     0         0    0x10        0          0x4813    0        0      0x0'
    >>> row(Header(), bytearray(3))
    Traceback (most recent call last):
    ...
    kesarimbu.Refused: refused with 7: the text needs more bytes than were lent (107)
    """
    plain = plain_header(header)
    return lending.text_of(lambda lent, length: library.row(plain, lent, length), out, ROW_ROOM)
