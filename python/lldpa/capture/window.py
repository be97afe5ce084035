"""Keeps a part of a file in memory: a window that moves from the file's beginning to its end."""

from typing import Protocol

from ..faults import LldpaFault

AT_ONCE = 1 << 17
MOST_OCTETS = 1 << 24


class BadCapture(LldpaFault):
    """The capture cannot be read further. The message says why and, if known, at which octet."""

class Readable(Protocol):
    """A source of octets: a file, or an object that unpacks a file."""

    def read(self, size: int) -> bytes:
        """Returns at most this many octets; none at the end."""


class Window:
    """A part of a file: `octets`, which begin at octet `begin` of the file."""

    def __init__(self, file: Readable) -> None:
        self._file = file
        self.begin = 0
        self.octets = b""

    def move(self, at: int, count: int) -> bool:
        """Drops the first `at` octets, and reads until there are at least `count` octets.

        Returns False if no octets are left. Raises BadCapture if some are left, but not `count`.
        """
        if not 0 <= count <= MOST_OCTETS:
            raise self.damage(at, "the length of a record is far too large")
        self.begin += at
        parts = [self.octets[at:]]
        missing = count - len(parts[0])
        while missing > 0 and (more := self._file.read(max(AT_ONCE, missing))):
            parts.append(more)
            missing -= len(more)
        self.octets = b"".join(parts)
        if 0 < len(self.octets) < count:
            end = self.begin + len(self.octets)
            raise BadCapture(f"it ends at octet {end}, inside the record at octet {self.begin}")
        return len(self.octets) >= count

    def damage(self, at: int, why: str) -> BadCapture:
        """Returns a BadCapture about the damaged record at this place of the window."""
        return BadCapture(f"it is damaged at octet {self.begin + at}: {why}")
