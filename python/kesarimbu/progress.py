"""How far the reading of a large file has come, told on standard error."""
from __future__ import annotations

import os
import stat
import sys
import time

# A file below this size is read in less than a second.
LARGE = 256 << 20
# Seconds between two times that it is told.
PAUSE = 0.2
_GIB = 1 << 30


def size_to_tell(source: object) -> int | None:
    """The size of a source, if its progress is to be told: that of a large file, if standard error is a terminal. If standard output is one
    too, the lines that go there tell enough."""
    if not _is_terminal(sys.stderr) or _is_terminal(sys.stdout):
        return None
    told = os.fstat(source.fileno()) if hasattr(source, "fileno") else os.stat(source)
    return told.st_size if stat.S_ISREG(told.st_mode) and told.st_size >= LARGE else None


def _is_terminal(stream: object) -> bool:
    return stream is not None and stream.isatty()


class Progress:
    """Tells how many bytes of `size` are done, in one line that is written over; nothing if `size` is None."""

    def __init__(self, size: int | None) -> None:
        self._size = size
        self._next = time.monotonic() + PAUSE

    def show(self, done: int) -> None:
        if self._size is not None and time.monotonic() >= self._next:
            self._next = time.monotonic() + PAUSE
            percent = min(100, 100 * done // self._size)
            self._write(f"\r{percent:3} % of {self._size / _GIB:.1f} GiB")

    def clear(self) -> None:
        if self._size is not None:
            self._write("\r" + " " * 40 + "\r")

    def _write(self, text: str) -> None:
        sys.stderr.write(text)
        sys.stderr.flush()
