"""Buffers that are lent to a call: what crosses for the pointer, and the length."""
from __future__ import annotations

from ctypes import c_uint8

from .refusals import Refused

TYPE_CHECKING = False
if TYPE_CHECKING:
    from ctypes import Array
    from typing import Any, Callable, Union

    from . import structs

    # Whatever has a buffer: bytes, bytearray, memoryview, array. (`collections.abc.Buffer` is newer than the Python that suffices here.)
    Readable = Any
    Writable = Any
    Lent = Union[bytes, Array]

_START = c_uint8 * 0
# Lent where there is no byte, since a pointer must not be NULL.
_NOTHING = (c_uint8 * 1)()


def to_read(data: Readable) -> tuple[Lent, int]:
    """Lends bytes to be read: as they are, or a copy of what is neither `bytes` nor writable, since ctypes cannot point into that."""
    if isinstance(data, bytes):
        return data, len(data)
    with memoryview(data) as view:
        if view.readonly or not view.c_contiguous:
            copied = view.tobytes()
            return copied, len(copied)
        return _start_of(view), view.nbytes


def to_write(out: Writable) -> tuple[Lent, int]:
    """Lends bytes to be written, which change where they are."""
    with memoryview(out) as view:
        if view.readonly or not view.c_contiguous:
            raise TypeError("`out` must be a writable buffer in one piece, such as a bytearray")
        return _start_of(view), view.nbytes


def _start_of(view: memoryview) -> Lent:
    return _START.from_buffer(view) if view.nbytes else _NOTHING


def text_of(write: Callable[[Lent, int], structs.Text], out: Writable | None, enough: int) -> str:
    """The text that `write` puts into `out`, or into a buffer of `enough` bytes if there is none. Refusal 7 if it is too short."""
    buffer = bytearray(enough) if out is None else out
    lent, length = to_write(buffer)
    written = write(lent, length)
    if written.refusal:
        raise Refused(written.refusal, (written.length,))
    return text_at(buffer, written.length)


def text_at(buffer: Readable, length: int) -> str:
    """The first `length` bytes as a text. All texts are ASCII."""
    return bytes(memoryview(buffer).cast("B")[:length]).decode("ascii")
