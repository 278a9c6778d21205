"""Sources that recordings are read from in tests: files that note what is asked of them, and pipes that bytes come from in pieces."""
import contextlib
import io
import os
import random
import tempfile
import threading

from . import differential  # the way to make_recordings, which the tests that import this use too


class Pieces(io.RawIOBase):
    """A source that cannot seek and gives some bytes at each read, as few as it likes."""

    def __init__(self, data, seed=1):
        self.left = data
        self.rng = random.Random(seed)

    def readable(self):
        return True

    def readinto(self, buffer):
        size = min(len(buffer), self.rng.choice([1, 2, 63, 64, 65, 500]))
        piece, self.left = self.left[:size], self.left[size:]
        buffer[:len(piece)] = piece
        return len(piece)


class Noting(io.BytesIO):
    """A file that notes the seeks that it is asked for, and how many bytes were read from it."""

    def __init__(self, data):
        super().__init__(data)
        self.seeks = []
        self.bytes_read = 0

    def seek(self, *where):
        self.seeks.append(where)
        return super().seek(*where)

    def read1(self, size=-1):
        data = super().read1(size)
        self.bytes_read += len(data)
        return data


@contextlib.contextmanager
def pipe_with(pieces):
    """The reading end of a pipe into which a thread writes these pieces, one after the other, and then closes it."""
    reading, writing = os.pipe()

    def write():
        with contextlib.suppress(BrokenPipeError), open(writing, "wb", buffering=0) as end:
            for piece in pieces:
                end.write(piece)

    writer = threading.Thread(target=write)
    writer.start()
    try:
        with open(reading, "rb") as end:
            yield end
    finally:
        writer.join()


@contextlib.contextmanager
def file_with(data):
    """The path of a file with these bytes."""
    with tempfile.TemporaryDirectory() as folder:
        path = os.path.join(folder, "recording.raw")
        with open(path, "wb") as file:
            file.write(data)
        yield path
