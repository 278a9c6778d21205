"""The structs of include/kesarimbu.h, one to one: names without the prefix, the same fields in the same order.

`filled` makes one from numbers, and refuses a number that its field cannot hold, which ctypes alone would cut. `values` reads one.
"""
from __future__ import annotations

import struct
from ctypes import Structure, c_bool, c_int32, c_size_t, c_uint8, c_uint16, c_uint32, c_uint64
from operator import index

TYPE_CHECKING = False  # `typing` has it too, but takes longer to import than a small recording to list
if TYPE_CHECKING:
    from typing import Any, Iterable

HEADER_SIZE = 64
LINKS = 256
TRIGGERS = 20
LEAST_ROOM = 1024

PASSED, PACKET, WANT, REFUSED, FULL = range(5)


class Header(Structure):
    _fields_ = [
        ("header_id", c_uint8),
        ("header_size", c_uint8),
        ("fee_id", c_uint16),
        ("priority_bit", c_uint8),
        ("system_id", c_uint8),
        ("rdh0_reserved0", c_uint16),
        ("offset_new_packet", c_uint16),
        ("memory_size", c_uint16),
        ("link_id", c_uint8),
        ("packet_counter", c_uint8),
        ("cruid_dw", c_uint16),
        ("bc_reserved0", c_uint32),
        ("orbit", c_uint32),
        ("dataformat_reserved0", c_uint64),
        ("trigger_type", c_uint32),
        ("pages_counter", c_uint16),
        ("stop_bit", c_uint8),
        ("rdh2_reserved0", c_uint8),
        ("reserved1", c_uint64),
        ("detector_field", c_uint32),
        ("par_bit", c_uint16),
        ("rdh3_reserved0", c_uint16),
        ("reserved2", c_uint64),
    ]


class Decoded(Structure):
    _fields_ = [("header", Header), ("refusal", c_uint32)]


class HeaderParts(Structure):
    _fields_ = [
        ("bc_reserved", c_uint32),
        ("bc", c_uint16),
        ("cru_id", c_uint16),
        ("dw", c_uint8),
        ("data_format", c_uint8),
        ("is_pht_trigger", c_bool),
    ]


class Text(Structure):
    _fields_ = [("length", c_size_t), ("refusal", c_uint32)]


class FeeParts(Structure):
    _fields_ = [("layer", c_uint8), ("stave", c_uint8), ("uplink", c_uint8)]


class Named(Structure):
    _fields_ = [("refusal", c_uint32), ("fee_id", c_uint16)]


class Validator(Structure):
    _fields_ = [("configured", c_bool), ("settled", c_bool), ("id", c_uint8), ("its", c_bool)]


class Checked(Structure):
    _fields_ = [("length", c_size_t), ("refusal", c_uint32), ("sound", c_bool), ("validator", Validator)]


class LinkCheck(Structure):
    _fields_ = [("packet_counter", c_bool), ("pages_counter", c_bool), ("orbit", c_bool), ("distance", c_uint8)]


class Settings(Structure):
    _fields_ = [
        ("by_link", c_bool),
        ("by_fee", c_bool),
        ("by_stave", c_bool),
        ("link", c_uint8),
        ("fee", c_uint16),
        ("stave", c_uint16),
        ("skip_payload", c_bool),
        ("stats", c_bool),
    ]


class StaveSet(Structure):
    _fields_ = [("settings", Settings), ("refusal", c_uint32)]


class State(Structure):
    _fields_ = [
        ("place", c_uint64),
        ("position", c_uint64),
        ("load_start", c_uint64),
        ("links_used", c_size_t),
        ("fee_ids_used", c_size_t),
        ("seen", c_uint32),
        ("filtered", c_uint32),
        ("payload", c_uint32),
        ("load_open", c_bool),
    ]


class Answer(Structure):
    _fields_ = [
        ("position", c_uint64),
        ("own", c_uint64),
        ("want_place", c_uint64),
        ("want_size", c_uint64),
        ("payload_start", c_size_t),
        ("payload_length", c_size_t),
        ("kind", c_uint32),
        ("refusal", c_uint32),
        ("distance", c_int32),
    ]


class Marks(Structure):
    _fields_ = [
        ("seen_carries", c_uint64),
        ("trigger_type", c_uint32),
        ("data_format", c_uint8),
        ("system_id", c_uint8),
        ("initial", c_bool),
        ("filtered_carry", c_bool),
        ("payload_carry", c_bool),
        ("payload_cut", c_bool),
    ]


class Reply(Structure):
    _fields_ = [("answer", Answer), ("marks", Marks), ("state", State)]


class Listed(Structure):
    _fields_ = [
        ("answer", Answer),
        ("state", State),
        ("validator", Validator),
        ("length", c_size_t),
        ("unsound", c_uint64),
    ]


# How the module `struct` calls these widths. Its own layout ("@") aligns as C does.
_CODES = {c_bool: "?", c_uint8: "B", c_uint16: "H", c_uint32: "I", c_uint64: "Q", c_size_t: "N", c_int32: "i"}


def _layout(kind: type[Structure]) -> struct.Struct:
    return struct.Struct("@" + "".join(_CODES[width] for _, width in kind._fields_))


# The layouts of the structs that hold numbers alone.
LAYOUTS = {
    kind: _layout(kind)
    for kind in (Header, HeaderParts, FeeParts, Validator, LinkCheck, Settings, State, Answer, Marks)
}


def names(kind: type[Structure]) -> tuple[str, ...]:
    """The names of a struct's fields, in their order."""
    return tuple(field[0] for field in kind._fields_)


def values(made: Structure) -> tuple[int, ...]:
    """The numbers of a struct, in the order of its fields."""
    return LAYOUTS[type(made)].unpack_from(made)


def filled(kind: type[Structure], numbers: Iterable[int]) -> Any:
    """A struct with these numbers, each of which must fit its field.

    >>> filled(FeeParts, (5, 42, 1)).stave
    42
    >>> filled(FeeParts, (5, 300, 1))
    Traceback (most recent call last):
    ...
    OverflowError: stave is 300, and must be from 0 to 255
    """
    given = tuple(numbers)
    made = kind()
    try:
        LAYOUTS[kind].pack_into(made, 0, *given)
    except struct.error:
        for (name, width), number in zip(kind._fields_, given):
            if width is not c_bool:
                fitting(name, number, width)
        raise
    return made


def fitting(name: str, number: int, width: Any) -> int:
    """The number, if it fits an unsigned C type: else an error that names it."""
    try:
        whole = index(number)
    except TypeError:
        raise TypeError(f"{name} is {number!r}, and must be a whole number") from None
    most = width(-1).value
    if not 0 <= whole <= most:
        raise OverflowError(f"{name} is {whole}, and must be from 0 to {most}")
    return whole
