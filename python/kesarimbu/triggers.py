"""Trigger counts: how many of the headers that a scan has seen had each bit of a trigger, as a list and against those expected."""
from __future__ import annotations

from array import array
from ctypes import c_uint32
from typing import TYPE_CHECKING, NamedTuple

from . import lending, library, structs

if TYPE_CHECKING:
    from ctypes import Array
    from typing import Iterable

    from .lending import Writable

# So many bytes hold every list, and every comparison.
LIST_ROOM = 480
COMPARISON_ROOM = 1058


class TriggerCounts(NamedTuple):
    """How many of the headers seen had each bit of a trigger in their trigger word, modulo 2^32: bits 0 to 14, then 27 to 31. Scans count them
    with all else that they count.

    >>> counts = TriggerCounts(orbit=3, tof=1)
    >>> counts.orbit, counts[0], counts[-1], len(counts)
    (3, 3, 1, 20)
    """

    orbit: int = 0
    hb: int = 0
    hbr: int = 0
    hc: int = 0
    pht: int = 0
    pp: int = 0
    cal: int = 0
    sot: int = 0
    eot: int = 0
    soc: int = 0
    eoc: int = 0
    tf: int = 0
    fe_rst: int = 0
    rt: int = 0
    rs: int = 0
    lhc_gap1: int = 0
    lhc_gap2: int = 0
    tpc_sync: int = 0
    tpc_rst: int = 0
    tof: int = 0


def counts_of(given: Iterable[int]) -> TriggerCounts:
    """The counts in the order of the fields, and 0 behind them. Each must fit 32 bits.

    >>> counts_of([9, 4]).hb
    4
    >>> counts_of([9, -1])
    Traceback (most recent call last):
    ...
    OverflowError: hb is -1, and must be from 0 to 4294967295
    """
    counts = tuple(given)
    if len(counts) > structs.TRIGGERS:
        raise ValueError(f"{len(counts)} trigger counts are given, and {structs.TRIGGERS} are the most that can be kept")
    try:
        return TriggerCounts(*array("I", counts))
    except (OverflowError, TypeError):
        for name, number in zip(TriggerCounts._fields, counts):
            structs.fitting(name, number, c_uint32)
        raise


def _lent(counts: Iterable[int]) -> Array:
    return (c_uint32 * structs.TRIGGERS)(*counts_of(counts))


def trigger_list(counts: Iterable[int], out: Writable | None = None) -> str:
    """The list of the counts: `TriggerCounts`, or any numbers in their order. With `out` it is also written at its start; refusal 7 if `out`
    is too short.

    >>> print(trigger_list(TriggerCounts(orbit=3, tof=1)))  # doctest: +ELLIPSIS
    Trigger statistics:
      Orbit:         3
      HB:            0
    ...
      TOF:           1
    <BLANKLINE>
    """
    triggers = _lent(counts)
    return lending.text_of(lambda lent, length: library.trigger_list(triggers, lent, length), out, LIST_ROOM)


def trigger_compare(counts: Iterable[int], expected: Iterable[int], out: Writable | None = None) -> str:
    """A line for each count that differs from the expected one, in the order of the fields; empty if none does. With `out` it is also
    written at its start; refusal 7 if `out` is too short.

    >>> print(trigger_compare(TriggerCounts(tof=1, hb=3, orbit=2), TriggerCounts(hb=3)), end="")
    orbit mismatch! expected: 0, got: 2
    tof mismatch! expected: 0, got: 1
    >>> trigger_compare(TriggerCounts(hb=3), [0, 3])
    ''
    """
    triggers, other = _lent(counts), _lent(expected)
    return lending.text_of(lambda lent, length: library.trigger_compare(triggers, other, lent, length), out, COMPARISON_ROOM)
