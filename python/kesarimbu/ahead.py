"""Windows on a file that a second thread reads ahead: while the packets of one window are listed, the next bytes are copied from the file.

Copying takes a fifth of the time of a listing, and the library lets other threads run while it lists.
"""
from __future__ import annotations

from _thread import allocate_lock, start_new_thread

from .windows import Windows

TYPE_CHECKING = False
if TYPE_CHECKING:
    from typing import Any

    from .windows import Source

# How many bytes can stand in front of those that are read: what is left of a window is a part of a packet, and none is longer.
SLACK = 1 << 16


class Reader:
    """Reads a file into two buffers in turn, by a thread of its own: `take` gives the one that was read, and `free` has the other one read."""

    def __init__(self, file: Any, size: int) -> None:
        self._file = file
        self._buffers = tuple(memoryview(bytearray(SLACK + size)) for _ in range(2))
        self._turn = 0
        self._count = 0
        self._error: Exception | None = None
        self._is_reading = self._is_stopped = False
        self._asked, self._done = allocate_lock(), allocate_lock()
        self._asked.acquire()
        self._done.acquire()
        start_new_thread(self._run, ())
        self.free()

    def _run(self) -> None:
        turn = 0
        while self._asked.acquire() and not self._is_stopped:
            try:
                self._count = self._file.readinto(self._buffers[turn][SLACK:])
            except Exception as error:  # it is raised where the bytes are wanted
                self._error = error
            turn = 1 - turn
            self._done.release()

    def take(self) -> tuple[memoryview, int]:
        """The buffer that was read, and how many bytes there are behind its slack: none at the file's end. A read that failed is told again."""
        self._wait()
        if self._error is not None:
            raise self._error
        buffer = self._buffers[self._turn]
        self._turn = 1 - self._turn
        return buffer, self._count

    def free(self) -> None:
        """Nothing of the buffer that was taken before is needed any more."""
        self._is_reading = True
        self._asked.release()

    def stop(self) -> None:
        """Ends the thread, once what it is reading is read."""
        if self._is_stopped:
            return
        self._wait()
        self._is_stopped = True
        self._asked.release()

    def _wait(self) -> None:
        """Waits for the read that is under way, if one is."""
        if self._is_reading:
            self._done.acquire()
            self._is_reading = False


class ReadAhead(Windows):
    """Windows on a file, each good until the next, which is read meanwhile. A source that may let a reader wait is not for this.

    >>> import io
    >>> windows = ReadAhead(io.BytesIO(b"0123456789"), 4)
    >>> windows.move(0, 2)
    >>> bytes(windows.window), windows.first, windows.last
    (b'0123', 0, False)
    >>> windows.move(3, 6)
    >>> bytes(windows.window)
    b'3456789'
    >>> windows.close()
    """

    def __init__(self, source: Source, size: int) -> None:
        super().__init__(source, size)
        self._reader = Reader(self._file, size)

    def __del__(self) -> None:
        if hasattr(self, "_reader"):
            self._reader.stop()

    def close(self) -> None:
        """Ends the reading, and closes the source if it was opened here."""
        self._reader.stop()
        super().close()

    def _pass(self, distance: int) -> None:
        """Drops the window, and so many bytes behind it, which are read all the same."""
        place = self.first + len(self.window) + distance
        while self.first + len(self.window) < place and not self.last:
            self._keep(len(self.window))
            self._go_on()
        self._keep(min(place - self.first, len(self.window)))

    def _fill(self, size: int) -> None:
        while len(self.window) < size and not self.last:
            self._go_on()

    def _go_on(self) -> None:
        """Puts the next bytes behind those of the window: these move into the slack of the next buffer, so that theirs can be read into."""
        buffer, count = self._reader.take()
        kept = len(self.window)
        if kept > SLACK:
            self.window = b"".join((self.window, buffer[SLACK:SLACK + count]))
        else:
            buffer[SLACK - kept:SLACK] = self.window
            self.window = buffer[SLACK - kept:SLACK + count]
        self.last = not count
        if count:
            self._reader.free()
