"""Unpacks a file compressed by gzip while it is read."""

import gzip
import io
import zlib
from typing import Optional

from .window import BadCapture, Readable

MAGIC = b"\x1f\x8b"


class Begun(io.RawIOBase):
    """A file whose first octets were already read."""

    def __init__(self, file: Readable, begun: bytes) -> None:
        super().__init__()
        self._file = file
        self._begun = begun

    def read(self, size: int = -1) -> bytes:
        """Returns at most this many octets, beginning with those that were already read."""
        octets, self._begun = self._begun[:size], self._begun[size:]
        return octets or self._file.read(size)


class Unzipped:
    """Unpacks a file whose first octets were already read. Allows up to `most` unpacked octets."""

    def __init__(self, file: Readable, begun: bytes, most: Optional[int] = None) -> None:
        self._file = gzip.GzipFile(fileobj=Begun(file, begun))
        self._left = self._most = most

    def read(self, size: int) -> bytes:
        """Returns up to `size` octets; none at the end. Raises BadCapture on bad or excess data."""
        try:
            octets = self._file.read1(size)
        except EOFError:
            raise BadCapture("its gzip data is cut short") from None
        except (zlib.error, gzip.BadGzipFile):
            raise BadCapture("its gzip data is damaged") from None
        if self._left is not None:
            self._left -= len(octets)
            if self._left < 0:
                raise BadCapture(f"its gzip data unpacks to more than {self._most:,} octets")
        return octets
