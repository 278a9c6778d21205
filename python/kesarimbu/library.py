"""Opens the shared object and declares the functions that it exports.

It is looked for where the environment variable KESARIMBU_LIBRARY says, and else in the repository's target/.
"""
from __future__ import annotations

import os
from ctypes import CDLL, c_bool, c_size_t, c_uint8, c_uint16, c_uint32, c_uint64, c_void_p

from . import structs

VARIABLE = "KESARIMBU_LIBRARY"

# What is lent crosses as a pointer and a length, in elements.
_LENT = (c_void_p, c_size_t)
# The five arrays that the check of links keeps.
_LINKS = (c_void_p,) * 5
# Links, trigger counts and FEE ids of a scan, and its window with the window's first place and whether it is the last.
_LISTS = (c_void_p, c_void_p, c_void_p, c_size_t)
_WINDOW = (c_void_p, c_size_t, c_uint64, c_bool)
_SCAN = (structs.Settings, structs.State, *_LISTS, *_WINDOW, c_void_p)

# What each function answers, and what it takes.
SIGNATURES = {
    "kesarimbu_decode": (structs.Decoded, *_LENT),
    "kesarimbu_encode": (c_uint32, structs.Header, *_LENT),
    "kesarimbu_equal": (c_bool, structs.Header, structs.Header),
    "kesarimbu_parts": (structs.HeaderParts, structs.Header),
    "kesarimbu_row": (structs.Text, structs.Header, *_LENT),
    "kesarimbu_fee": (structs.FeeParts, c_uint16),
    "kesarimbu_fee_id": (c_uint16, c_uint8, c_uint8),
    "kesarimbu_same_stave": (c_bool, c_uint16, c_uint16),
    "kesarimbu_name": (structs.Named, *_LENT),
    "kesarimbu_set_stave": (structs.StaveSet, structs.Settings, *_LENT),
    "kesarimbu_check": (structs.Checked, structs.Validator, structs.Header, *_LENT),
    "kesarimbu_trigger_list": (structs.Text, c_void_p, *_LENT),
    "kesarimbu_trigger_compare": (structs.Text, c_void_p, c_void_p, *_LENT),
    "kesarimbu_check_link": (structs.LinkCheck, structs.Header, *_LINKS),
    "kesarimbu_examine": (structs.Reply, *_SCAN),
    "kesarimbu_load": (structs.Reply, *_SCAN),
    "kesarimbu_list": (structs.Listed, structs.Settings, structs.State, structs.Validator, *_LISTS, *_WINDOW, *_LENT),
}


def path() -> str:
    """Where the shared object is to be found."""
    repository = os.path.dirname(os.path.dirname(os.path.dirname(os.path.abspath(__file__))))
    return os.environ.get(VARIABLE) or os.path.join(repository, "target", "libkesarimbu.so")


def _opened(where: str) -> CDLL:
    try:
        return CDLL(where)
    except OSError as error:
        raise ImportError(
            f"cannot open the library of Kesarimbu, {where} ({error}): build it by the command doors/build in the "
            f"repository, or let the environment variable {VARIABLE} say where it is", path=where) from None


def _declared(library: CDLL, name: str):
    try:
        function = getattr(library, name)
    except AttributeError:
        raise ImportError(f"the library {library._name} has no function {name}: build it anew by the command doors/build",
                          path=library._name) from None
    function.restype, *function.argtypes = SIGNATURES[name]
    return function


_library = _opened(path())

decode = _declared(_library, "kesarimbu_decode")
encode = _declared(_library, "kesarimbu_encode")
equal = _declared(_library, "kesarimbu_equal")
parts = _declared(_library, "kesarimbu_parts")
row = _declared(_library, "kesarimbu_row")
fee = _declared(_library, "kesarimbu_fee")
fee_id = _declared(_library, "kesarimbu_fee_id")
same_stave = _declared(_library, "kesarimbu_same_stave")
name = _declared(_library, "kesarimbu_name")
set_stave = _declared(_library, "kesarimbu_set_stave")
check = _declared(_library, "kesarimbu_check")
trigger_list = _declared(_library, "kesarimbu_trigger_list")
trigger_compare = _declared(_library, "kesarimbu_trigger_compare")
check_link = _declared(_library, "kesarimbu_check_link")
examine = _declared(_library, "kesarimbu_examine")
load = _declared(_library, "kesarimbu_load")
list_packets = _declared(_library, "kesarimbu_list")
