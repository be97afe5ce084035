"""Reads pcapng files: sections of blocks. Each section has its own byte order and interfaces.

See https://datatracker.ietf.org/doc/draft-ietf-opsawg-pcapng/.
"""

import struct
from typing import Dict, List, Optional

from .packet import ETHERNET, SECOND, CaptureInterface, Look
from .reader import UNKNOWN, Reader
from .window import BadCapture, Window

SECTION_HEADER = b"\n\r\r\n"
SECTION, INTERFACE, OLD_PACKET, SIMPLE_PACKET, ENHANCED_PACKET = 0x0A0D0D0A, 1, 2, 3, 6
NAME, RESOLUTION, OFFSET = 2, 9, 14
BYTE_ORDERS = {b"\x1a\x2b\x3c\x4d": ">", b"\x4d\x3c\x2b\x1a": "<"}
MICROSECONDS = b"\x06"
MOST_INTERFACES = 1 << 18  # of all sections: a hostile file has millions


class PcapngReader(Reader):
    """Reads the blocks of a pcapng file. `described` has the interfaces of all sections so far.

    The first `_passable` interfaces of a section are Ethernet. Only their packets may be skipped.
    Packets of later interfaces are read, so that another link type is noticed.
    """
    HEAD_SIZE = 12
    OCTETS_AT = 28

    def __init__(self, window: Window) -> None:
        super().__init__(window)
        self.described: List[CaptureInterface] = []
        self._begin_section("<")

    def record_size(self) -> int:
        """Returns the size of the next block."""
        octets, at = self.window.octets, self.at
        order = self._order
        if octets.startswith(SECTION_HEADER, at):
            order = BYTE_ORDERS.get(octets[at + 8:at + 12], "")
            if not order:
                raise self.window.damage(at, "a section has an unknown byte order")
        size: int = struct.unpack_from(order + "I", octets, at + 4)[0]
        if size < self.HEAD_SIZE:
            raise self.window.damage(at, f"a block's length is only {size}")
        return size

    def read_record(self, at: int) -> Optional[Look]:
        """Returns the packet in the block at this place of the window, or None if it has none."""
        octets = self.window.octets
        if octets.startswith(SECTION_HEADER, at):
            self._begin_section(BYTE_ORDERS[octets[at + 8:at + 12]])
        kind, size = struct.unpack_from(self._order + "II", octets, at)
        begin, end = at + 8, at + size - 4
        if octets[at + 4:begin] != octets[end:end + 4]:
            raise self.window.damage(at, "a block's two lengths differ")
        try:
            if kind == INTERFACE:
                self._describe(octets[begin:end])
            elif kind == ENHANCED_PACKET:
                return self._packet("IIIII", begin, end)
            elif kind == OLD_PACKET:
                return self._packet("HxxIIII", begin, end)
            elif kind == SIMPLE_PACKET:
                return self._simple_packet(begin, end)
        except (struct.error, IndexError):
            raise self.window.damage(at, "a field or the interface of a block is invalid") from None
        return None

    def pass_over(self, stop: int) -> Optional[int]:
        """Skips packets; see `Reader.pass_over`. Leaves faulty blocks to `read_record`."""
        octets, unpack, unpack_size = self.window.octets, self._unpack_packet, self._unpack_size
        at, latest, passed, count = self.at, self.latest, None, 0
        while at + 28 < stop:
            kind, size, place, high, low, captured, _ = unpack(octets, at)
            stamp = (high << 32) + low
            end = at + size
            if (kind != ENHANCED_PACKET or stamp < latest or end > len(octets)
                    or captured + 32 > size or place >= self._passable
                    or unpack_size(octets, end - 4)[0] != size):
                break
            passed, at, latest = at, end, stamp
            count += 1
        self.at, self.latest = at, latest
        self.number += count
        return passed

    def _begin_section(self, order: str) -> None:
        self._order = order
        self._unpack_packet = struct.Struct(order + "IIIIIII").unpack_from
        self._unpack_size = struct.Struct(order + "I").unpack_from
        self._interfaces: List[CaptureInterface] = []
        self._passable = 0
        self._has_one_clock = True
        self.latest = UNKNOWN

    def _describe(self, body: bytes) -> None:
        """Adds the interface that a block describes, and notes whether all interfaces of the
        section have time stamps with the same units and the same offset."""
        link_type, most = struct.unpack_from(self._order + "HxxI", body)
        options = self._options(body[8:])
        resolution = (options.get(RESOLUTION) or MICROSECONDS)[0]
        power, base = resolution & 0x7F, 2 if resolution & 0x80 else 10
        (offset,) = struct.unpack(self._order + "q", options.get(OFFSET, bytes(8)))
        name = options.get(NAME, b"").decode("utf-8", "replace").rstrip("\0")
        interface = CaptureInterface(name or None, link_type, base**power, offset, most)
        if len(self.described) == MOST_INTERFACES:
            raise BadCapture(f"it describes more than {MOST_INTERFACES:,} interfaces")
        self._interfaces.append(interface)
        self.described.append(interface)
        if link_type == ETHERNET and self._passable == len(self._interfaces) - 1:
            self._passable += 1
        first = self._interfaces[0]
        self._has_one_clock &= first[2:4] == interface[2:4]
        self.latest = UNKNOWN

    def _options(self, octets: bytes) -> Dict[int, bytes]:
        """Returns the options of a block by their codes."""
        options, at, unpack = {}, 0, struct.Struct(self._order + "HH").unpack_from
        while at + 4 <= len(octets):
            code, length = unpack(octets, at)
            if code == 0:
                break
            options[code] = octets[at + 4:at + 4 + length]
            at += 4 + (length + 3 & ~3)
        return options

    def _packet(self, fields: str, begin: int, end: int) -> Look:
        """Returns the packet of an enhanced or an old packet block."""
        unpacked = struct.unpack_from(self._order + fields, self.window.octets, begin)
        place, high, low, captured, length = unpacked
        interface = self._interfaces[place]
        if begin + 20 + captured > end:
            raise IndexError
        stamp = (high << 32) + low
        self.latest = stamp if self._has_one_clock else UNKNOWN
        time = stamp * SECOND // interface.units + interface.offset * SECOND
        return interface, time, begin + 20, begin + 20 + captured, length

    def _simple_packet(self, begin: int, end: int) -> Look:
        """Returns the packet of a simple packet block, which belongs to the first interface."""
        (length,) = struct.unpack_from(self._order + "I", self.window.octets, begin)
        interface = self._interfaces[0]
        captured = min(length, interface.most or length)
        if begin + 4 + captured > end:
            raise IndexError
        return interface, None, begin + 4, begin + 4 + captured, length
