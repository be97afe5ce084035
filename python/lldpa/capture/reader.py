"""Goes over the records of a capture in memory, and decodes only the records that are needed."""

from typing import Iterator, Optional

from .packet import Look
from .window import Window

UNKNOWN = float("inf")


class Reader:
    """Reads the records of one file. Each format of captures has a subclass.

    `at` is the place of the next record in the window, and `number` counts the packets before it.
    `latest` is the last packet's time stamp in the file's own units. If this is UNKNOWN, the next
    packet is read, not skipped. Most packets have their octets at offset OCTETS_AT of their record.
    """
    HEAD_SIZE = 0
    OCTETS_AT = 0

    def __init__(self, window: Window) -> None:
        self.window = window
        self.at = 0
        self.number = 0
        self.latest = UNKNOWN
        self._found = self._searched = -1

    def record_size(self) -> int:
        """Returns the size of the next record. Its header must be in the window."""
        raise NotImplementedError

    def read_record(self, at: int) -> Optional[Look]:
        """Reads the complete record at this place. Returns None if the record is not a packet."""
        raise NotImplementedError

    def pass_over(self, stop: int) -> Optional[int]:
        """Skips complete packets whose octets begin before `stop`, until a time stamp goes back.
        Returns the place of the last skipped packet, or None if no packet was skipped."""
        raise NotImplementedError

    def looks(self, prefix: bytes) -> Iterator[Look]:
        """Yields each packet that begins with these octets, and packets that show how time passes:
        at least the first, the last, and both packets around a time stamp that goes back."""
        while True:
            size = self._reach_record()
            if not size:
                return
            found = self._next(prefix)
            passed = None
            if found != self.at + self.OCTETS_AT:
                passed = self.pass_over(found if found >= 0 else len(self.window.octets))
            if passed is not None:
                look = self.read_record(passed)
            else:
                look = self.read_record(self.at)
                self.number += look is not None
                self.at += size
            if look is not None:
                yield look

    def _next(self, prefix: bytes) -> int:
        """Returns where these octets occur next in the window, or -1. Remembers the result, since
        many records may precede them."""
        here, end = self.window.begin + self.at, self.window.begin + len(self.window.octets)
        if self._searched != end or 0 <= self._found < here:
            found = self.window.octets.find(prefix, self.at)
            self._found = found + self.window.begin if found >= 0 else -1
            self._searched = end
        return self._found - self.window.begin if self._found >= 0 else -1

    def _reach_record(self) -> int:
        """Reads until the next record is in the window. Returns its size; 0 at the file's end."""
        end = len(self.window.octets)
        if self.at + self.HEAD_SIZE <= end:
            size = self.record_size()
            if self.at + size <= end:
                return size
        if not self.window.move(self.at, self.HEAD_SIZE):
            return 0
        self.at = 0
        self.window.move(0, self.record_size())
        return self.record_size()
