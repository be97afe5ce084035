"""For tests: makes captures in nine forms, and frames for them."""

import struct
from typing import Callable, Dict, List, Optional, Sequence, Tuple

from served import GROUP_ADDRESS, tlv

SECOND = 10**9
START = 1_700_000_000 * SECOND + 999_000_000
ETHERNET = 1

# A frame's time in nanoseconds, its captured octets, and its whole length.
Frame = Tuple[int, bytes, int]


def lldp_frame(chassis: bytes, port: bytes, ttl: int = 120) -> bytes:
    """Returns a frame of the neighbor with this MAC address and this interface name."""
    pdu = tlv(1, b"\4" + chassis) + tlv(2, b"\5" + port) + tlv(3, ttl.to_bytes(2, "big")) + b"\0\0"
    return GROUP_ADDRESS + chassis + b"\x88\xcc" + pdu


LLDP = lldp_frame(bytes.fromhex("001122334455"), b"eth0")
OTHER = bytes.fromhex("ffffffffffff0011223344550800") + bytes(46)
TAGGED = LLDP[:12] + bytes.fromhex("81000005") + LLDP[12:]


def whole(octets: bytes, time: int = START) -> Frame:
    """Returns a frame that was captured whole."""
    return time, octets, len(octets)


def pcap(frames: Sequence[Frame], order: str = "<", units: int = 10**6,
         link_type: int = ETHERNET) -> bytes:
    magic = {10**6: 0xA1B2C3D4, 10**9: 0xA1B23C4D}[units]
    parts = [struct.pack(order + "IHHiIII", magic, 2, 4, 0, 0, 65535, link_type)]
    for time, octets, length in frames:
        fraction = time % SECOND * units // SECOND
        head = struct.pack(order + "IIII", time // SECOND, fraction, len(octets), length)
        parts += [head, octets]
    return b"".join(parts)


def block(order: str, kind: int, body: bytes) -> bytes:
    body += bytes(-len(body) % 4)
    size = struct.pack(order + "I", 12 + len(body))
    return struct.pack(order + "I", kind) + size + body + size


def option(order: str, code: int, value: bytes) -> bytes:
    return struct.pack(order + "HH", code, len(value)) + value + bytes(-len(value) % 4)


def section(order: str = "<") -> bytes:
    return block(order, 0x0A0D0D0A, struct.pack(order + "IHHq", 0x1A2B3C4D, 1, 0, -1))


def interface(order: str = "<", name: str = "", resolution: Optional[int] = None,
              link_type: int = ETHERNET, offset: int = 0) -> bytes:
    options = option(order, 2, name.encode()) if name else b""
    if resolution is not None:
        options += option(order, 9, bytes([resolution]))
    if offset:
        options += option(order, 14, struct.pack(order + "q", offset))
    options += option(order, 0, b"") if options else b""
    return block(order, 1, struct.pack(order + "HHI", link_type, 0, 0) + options)


def units_of(resolution: Optional[int]) -> int:
    """Returns how many time units a second has by this interface option, or 10**6 for None."""
    if resolution is None:
        return 10**6
    return 2**(resolution & 127) if resolution & 128 else 10**resolution


def packet(frame: Frame, order: str = "<", place: int = 0, units: int = 10**6) -> bytes:
    """Returns the block of a frame that the interface with the number `place` captured."""
    time, octets, length = frame
    stamp = -(-time * units // SECOND)
    fields = (place, stamp >> 32, stamp & 0xFFFFFFFF, len(octets), length)
    return block(order, 6, struct.pack(order + "IIIII", *fields) + octets)


def pcapng(frames: Sequence[Frame], order: str = "<", resolution: Optional[int] = None,
           link_type: int = ETHERNET, name: str = "") -> bytes:
    """Returns a pcapng section with one interface, a block that readers skip, and these frames."""
    head = section(order) + interface(order, name, resolution, link_type)
    units = units_of(resolution)
    packets = (packet(frame, order, 0, units) for frame in frames)
    return head + block(order, 5, bytes(12)) + b"".join(packets)


FORMS: Dict[str, Callable[[List[Frame]], bytes]] = {
    "pcap, little end first": pcap,
    "pcap, big end first": lambda frames: pcap(frames, ">"),
    "pcap of nanoseconds": lambda frames: pcap(frames, "<", SECOND),
    "pcap of nanoseconds, big end first": lambda frames: pcap(frames, ">", SECOND),
    "pcapng": pcapng,
    "pcapng, big end first": lambda frames: pcapng(frames, ">"),
    "pcapng of nanoseconds": lambda frames: pcapng(frames, "<", 9),
    "pcapng of binary fractions": lambda frames: pcapng(frames, ">", 128 + 20),
    "pcapng of two sections": lambda frames: pcapng(frames[:2], "<", 9) + pcapng(frames[2:], ">"),
}
