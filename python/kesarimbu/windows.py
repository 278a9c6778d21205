"""Windows on a source of bytes: a file, a pipe, or anything that is open for reading in binary mode.

Windows are read, not mapped: a mapped file that somebody cuts meanwhile kills the process that reads it, and bytes that change under a
proved function break its promise.
"""
from __future__ import annotations

import os

TYPE_CHECKING = False
if TYPE_CHECKING:
    from typing import Any, BinaryIO, Callable, Union

    Source = Union[str, os.PathLike[str], BinaryIO]


NO_BYTES_YET = "the source has no bytes yet: open it so that a read waits for them"


class Windows:
    """The window on a source that is read as a scan goes on.

    `window` are bytes of the source from the byte place `first` on; the source ends with them if `last`. Byte places count from where an
    open file stands at the beginning. Each window is an object of its own, so that parts of an older one stay good.

    >>> import io
    >>> windows = Windows(io.BytesIO(b"0123456789"), 4)
    >>> windows.move(0, 2)
    >>> windows.window, windows.first, windows.last
    (b'0123', 0, False)
    >>> windows.move(3, 6)
    >>> windows.window
    b'345678'
    """

    def __init__(self, source: Source, size: int) -> None:
        """`size`: how many bytes a window has, if no more are wanted."""
        if size < 1:
            raise ValueError(f"a window of {size} bytes is asked for, and it must have one or more")
        is_open = hasattr(source, "read")
        self._file: Any = source if is_open else open(source, "rb", buffering=0)
        self._is_own = not is_open
        self._size = size
        self._read = _one_read(self._file)
        self._can_seek = _can_seek(self._file)
        self.window: bytes | memoryview = b""
        self.first = 0
        self.last = False

    def close(self) -> None:
        """Closes the source, if it was opened here."""
        if self._is_own:
            self._file.close()

    def move(self, place: int, size: int) -> None:
        """Goes on to a window that starts at `place`, with `size` bytes or more, or with all bytes that are left."""
        behind = place - self.first - len(self.window)
        if behind > 0:
            self._pass(behind)
        else:
            self._keep(place - self.first)
        self._fill(size)

    def _keep(self, start: int) -> None:
        self.window = self.window[start:]
        self.first += start

    def _pass(self, distance: int) -> None:
        """Drops the window, and so many bytes behind it: by a seek if that is possible."""
        self._keep(len(self.window))
        if self._can_seek:
            self._file.seek(distance, os.SEEK_CUR)
            self.first += distance
            return
        end = self.first + distance
        while self.first < end and not self.last:
            dropped = self._more(min(self._size, end - self.first))
            self.first += len(dropped)

    def _fill(self, size: int) -> None:
        """Reads on until the window has so many bytes. Each read asks for a whole window, and may give less: a pipe's does."""
        parts, length = [self.window], len(self.window)
        while length < size and not self.last:
            parts.append(self._more(max(self._size, size) - length))
            length += len(parts[-1])
        self.window = b"".join(parts)

    def _more(self, most: int) -> bytes:
        data = self._read(most)
        if data is None:
            raise BlockingIOError(NO_BYTES_YET)
        if not isinstance(data, bytes):
            raise TypeError("the source must be open in binary mode")
        self.last = not data
        return data


class OneBuffer(Windows):
    """Windows that stand in one buffer, so that each is good until the next: for whoever hands out no part of them."""

    def __init__(self, source: Source, size: int) -> None:
        super().__init__(source, size)
        self._buffer = bytearray(size)
        self._read_into = _one_read_into(self._file)

    def _fill(self, size: int) -> None:
        kept, length = self.window, len(self.window)
        if size > len(self._buffer):
            self._buffer = bytearray(size)
        view = memoryview(self._buffer)
        view[:length] = kept
        while length < size and not self.last:
            length += self._more_into(view[length:])
        self.window = view[:length]

    def _more_into(self, view: memoryview) -> int:
        if self._read_into is None:
            data = self._more(len(view))
            view[:len(data)] = data
            return len(data)
        count = self._read_into(view)
        if count is None:
            raise BlockingIOError(NO_BYTES_YET)
        self.last = not count
        return count


def _one_read(file: Any) -> Callable[[int], Any]:
    """The file's way to read what is there, at most so many bytes, without waiting for all of them."""
    return getattr(file, "read1", file.read)


def _one_read_into(file: Any) -> Callable[[memoryview], int | None] | None:
    """The file's way to do that into a buffer, if it has one."""
    return getattr(file, "readinto1", getattr(file, "readinto", None))


def _can_seek(file: Any) -> bool:
    return bool(getattr(file, "seekable", bool)())
