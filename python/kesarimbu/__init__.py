"""Kesarimbu: a proved reader for recordings of ALICE readout crates, which are chains of packets, each led by a 64-byte raw data header
(RDH).

The friendly layer reads whole recordings:

    import kesarimbu
    with kesarimbu.packets("recording.raw", stave="L5_42") as packets:
        for packet in packets:
            print(packet.own, packet.header.orbit, len(packet.payload))
    print(packets.end.refusal, packets.end.seen)

and `Listing`, or `python3 -m kesarimbu list recording.raw`, lists one; `python3 -m kesarimbu links recording.raw` tells where its links
lost packets. The exact layer is one to one with the functions of include/kesarimbu.h, whose answers are proved for all values of their
arguments:

    decode, encode, equal, row      headers, from and to their 64 bytes, and as a row of text
    fee, fee_id, same_stave, name   FEE ids and the names of staves
    Validator.check                 whether a header is sound, and what is wrong with it
    LinkContinuity.check            whether a header goes on from the last one on its link, or packets were lost between
    Settings                        what a scan is asked for, with a filter by the name of a stave
    examine, load                   one header, one packet, in a window of a recording
    trigger_list, trigger_compare   the trigger counts that a scan keeps, as a list and against those expected

A call that is refused raises `Refused`, with the refusal's number and what belongs to it; in the reply of `examine` and `load` it is the
answer. A number that its field cannot hold is an `OverflowError`. Nobody may write a buffer while a call has it: no promise holds then.

The library is target/libkesarimbu.so, which the command doors/build makes; the environment variable KESARIMBU_LIBRARY names another place.
"""
from importlib import import_module as _import_module

from . import library as _library  # at once, so that a library that is missing is told at the import

# Where each name is. They are imported when they are first used: the command line needs few of them, and starts faster.
_HOMES = {
    "headers": "Header decode encode equal row",
    "links": "LastHeader LinkCheck LinkContinuity",
    "listing": "Listing",
    "reading": "End Packets packets",
    "refusals": "Refused",
    "scan": "Initial Kept Marks Packet Passed Reply Scan Settings Want examine load",
    "staves": "Fee fee fee_id name same_stave",
    "triggers": "TriggerCounts trigger_compare trigger_list",
    "verdicts": "Validator Verdict",
}
_HOME_OF = {name: home for home, names in _HOMES.items() for name in names.split()}

__all__ = sorted(_HOME_OF)

TYPE_CHECKING = False
if TYPE_CHECKING:
    from .headers import Header, decode, encode, equal, row
    from .links import LastHeader, LinkCheck, LinkContinuity
    from .listing import Listing
    from .reading import End, Packets, packets
    from .refusals import Refused
    from .scan import Initial, Kept, Marks, Packet, Passed, Reply, Scan, Settings, Want, examine, load
    from .staves import Fee, fee, fee_id, name, same_stave
    from .triggers import TriggerCounts, trigger_compare, trigger_list
    from .verdicts import Validator, Verdict


def __getattr__(name):
    if name not in _HOME_OF:
        raise AttributeError(f"module {__name__!r} has no attribute {name!r}")
    found = getattr(_import_module("." + _HOME_OF[name], __name__), name)
    globals()[name] = found
    return found


def __dir__():
    return sorted({*globals(), *__all__})
