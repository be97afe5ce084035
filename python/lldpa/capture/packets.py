"""Reads the packets of a capture: the interface, the time and the octets of each.

    for packet in packets_of(open("lab.pcap", "rb")):
        print(packet.time, packet.octets.hex())
"""

from contextlib import suppress
from typing import BinaryIO, Iterator, List, Optional

from .packet import ETHERNET, CaptureInterface, Packet
from .pcap import PcapReader, form_of
from .pcapng import SECTION_HEADER, PcapngReader
from .reader import Reader
from .unzip import MAGIC, Unzipped
from .window import BadCapture, Window

__all__ = ["ETHERNET", "BadCapture", "CaptureInterface", "Packet", "Reader", "interfaces_of",
           "packets_of", "reader_of"]

COMPRESSED = {b"\xfd7": "xz", b"\x28\xb5": "zstd", b"BZ": "bzip2"}
NO_PACKET = b"\0" * 1024


def reader_of(file: BinaryIO, most_unpacked: Optional[int] = None) -> Reader:
    """Returns a reader for a capture, which may be compressed by gzip.

    Raises BadCapture if the file is not a capture. The reader raises BadCapture if more than
    `most_unpacked` octets are unpacked.
    """
    window = Window(file)
    if window.move(0, 2) and window.octets.startswith(MAGIC):
        window = Window(Unzipped(file, window.octets, most_unpacked))
    if not window.move(0, 4):
        raise BadCapture("it is empty")
    magic = window.octets[:4]
    form = form_of(magic)
    if form is not None:
        return PcapReader(window, *form)
    if magic == SECTION_HEADER:
        return PcapngReader(window)
    if magic[:2] in COMPRESSED:
        raise BadCapture(f"it is compressed by {COMPRESSED[magic[:2]]}: unpack it first")
    raise BadCapture(f"it is not a capture: it begins with {magic.hex(' ')}, "
                     "which is neither pcap nor pcapng")


def packets_of(file: BinaryIO) -> Iterator[Packet]:
    """Yields the packets of a capture. Raises BadCapture if it cannot be read further."""
    reader = reader_of(file)
    for interface, time, begin, end, length in reader.looks(b""):
        yield Packet(interface, time, reader.window.octets[begin:end], length)


def interfaces_of(file: BinaryIO, most_unpacked: Optional[int] = None
                  ) -> List[CaptureInterface]:
    """Returns the interfaces that a pcapng file describes before any damage; for pcap, none."""
    described: List[CaptureInterface] = []
    with suppress(BadCapture):
        reader = reader_of(file, most_unpacked)
        if isinstance(reader, PcapngReader):
            described = reader.described
            for _ in reader.looks(NO_PACKET):
                pass
    return described
