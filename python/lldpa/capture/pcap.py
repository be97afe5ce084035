"""Reads pcap files: a file header, then a header and the octets of each packet.

See https://datatracker.ietf.org/doc/draft-ietf-opsawg-pcap/.
"""

import struct
from typing import Optional, Tuple

from .packet import SECOND, CaptureInterface, Look
from .reader import Reader
from .window import Window

UNITS = {0xA1B2C3D4: 10**6, 0xA1B23C4D: 10**9}
FILE_HEAD_SIZE = 24


def form_of(magic: bytes) -> Optional[Tuple[str, int]]:
    """Returns the byte order and the time units in a second, or None if the file is not pcap."""
    for order in "<>":
        units = UNITS.get(struct.unpack(order + "I", magic)[0])
        if units is not None:
            return order, units
    return None


class PcapReader(Reader):
    """Reads a pcap file. All its packets belong to one interface without a name."""
    HEAD_SIZE = OCTETS_AT = 16

    def __init__(self, window: Window, order: str, units: int) -> None:
        super().__init__(window)
        window.move(0, FILE_HEAD_SIZE)
        self.at = FILE_HEAD_SIZE
        most, link_type = struct.unpack_from(order + "II", window.octets, 16)
        self._interface = CaptureInterface(None, link_type & 0xFFFF, units, 0, most)
        self._units = units
        self._unpack = struct.Struct(order + "IIII").unpack_from

    def record_size(self) -> int:
        """Returns the size of the next packet, including its header."""
        captured: int = self._unpack(self.window.octets, self.at)[2]
        return self.HEAD_SIZE + captured

    def read_record(self, at: int) -> Look:
        """Reads the packet at this place of the window."""
        seconds, fraction, captured, length = self._unpack(self.window.octets, at)
        self.latest = seconds * self._units + fraction
        time = seconds * SECOND + fraction * SECOND // self._units
        begin = at + self.HEAD_SIZE
        return self._interface, time, begin, begin + captured, length

    def pass_over(self, stop: int) -> Optional[int]:
        """Skips packets; see `Reader.pass_over`."""
        octets, unpack, units = self.window.octets, self._unpack, self._units
        at, latest, passed, count = self.at, self.latest, None, 0
        while at + 16 < stop:
            seconds, fraction, captured, _ = unpack(octets, at)
            stamp = seconds * units + fraction
            end = at + 16 + captured
            if stamp < latest or end > len(octets):
                break
            passed, at, latest = at, end, stamp
            count += 1
        self.at, self.latest = at, latest
        self.number += count
        return passed
