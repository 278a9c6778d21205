"""FEE ids and the names of staves."""
from __future__ import annotations

from ctypes import c_uint8, c_uint16
from typing import NamedTuple

from . import library
from .plain import letters_of
from .refusals import Refused
from .structs import fitting


class Fee(NamedTuple):
    """What a FEE id says."""

    layer: int
    stave: int
    uplink: int


def fee(fee_id: int) -> Fee:
    """Layer, stave and fibre uplink of a FEE id.

    >>> fee(0x512A)
    Fee(layer=5, stave=42, uplink=1)
    """
    parts = library.fee(fitting("fee_id", fee_id, c_uint16))
    return Fee(parts.layer, parts.stave, parts.uplink)


def fee_id(layer: int, stave: int) -> int:
    """The FEE id of a layer and a stave at uplink 0: from the lowest three bits of the one and six of the other. What lies above them is
    lost, and layer 9 becomes layer 1; `name` refuses it.

    >>> hex(fee_id(5, 42))
    '0x502a'
    """
    return library.fee_id(fitting("layer", layer, c_uint8), fitting("stave", stave, c_uint8))


def same_stave(fee_id: int, other: int) -> bool:
    """Whether two FEE ids have the same layer and stave.

    >>> same_stave(0x502A, 0x522A), same_stave(0x502A, 0x502B)
    (True, False)
    """
    return library.same_stave(fitting("fee_id", fee_id, c_uint16), fitting("other", other, c_uint16))


def name(name: str | bytes) -> int:
    """The FEE id of the stave with this name, at uplink 0. Refusal 8 if it is not a stave's name: layers are 0 to 6, and staves 0 to 47.

    >>> hex(name("L5_42"))
    '0x502a'
    >>> name("L9_70")
    Traceback (most recent call last):
    ...
    kesarimbu.Refused: refused with 8: not a stave name: write a letter, a layer of 0 to 6, _ and a stave of 0 to 47, as L5_42
    """
    letters = letters_of(name)
    named = library.name(letters, len(letters))
    if named.refusal:
        raise Refused(named.refusal)
    return named.fee_id
