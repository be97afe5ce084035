"""Tests which packets of a capture are skipped without a look at them: all that say nothing new."""

import ctypes
import io
import shutil
import unittest

from lldpa.capture.packet import LINK_TYPES
from lldpa.capture.packets import reader_of
from made_captures import (LLDP, OTHER, START, Frame, interface, packet, pcap, pcapng, section,
                           whole)
from served import GROUP_ADDRESS
from support import FilesCase

COOKED = 113  # LINUX_SLL
FRAMES: list[Frame] = [whole(OTHER, START + number * 1000) for number in range(20_000)]
# the reader looks at a few packets of each part of a file that it has in memory
MOST_LOOKS = 100


class LinkTypes(unittest.TestCase):
    @unittest.skipUnless(shutil.which("tcpdump"), "tcpdump: it is not installed")
    def test_names_are_those_of_libpcap(self) -> None:
        """Checks the names of link types, which a note shows. For some libpcap has other names, or
        other numbers than captures have."""
        number_of = ctypes.CDLL("libpcap.so.0.8").pcap_datalink_name_to_val
        others = {number: name for number, name in LINK_TYPES.items()
                  if number_of(name.encode()) != number}
        self.assertEqual(others, {1: "ETHERNET", 6: "IEEE802_5", 50: "PPP_HDLC", 101: "RAW",
                                  119: "PRISM", 127: "IEEE802_11_RADIOTAP"})


class PassedPackets(FilesCase):
    def test_few_packets_are_looked_at(self) -> None:
        """Checks that packets between LLDP frames are skipped, since a capture has millions."""
        times = [frame[0] for frame in FRAMES]
        frames = [*FRAMES, whole(LLDP, times[-1])]
        for octets in (pcap(frames), pcapng(frames), pcapng(frames, ">", 9)):
            reader = reader_of(io.BytesIO(octets))
            looks = sum(1 for _ in reader.looks(GROUP_ADDRESS))
            self.assertEqual(reader.number, len(frames))
            self.assertLess(looks, MOST_LOOKS)

    def test_another_link_type_between_skipped_packets(self) -> None:
        """Checks that the only packet of a link type that is not read is reported, although the
        packets before and after it are skipped."""
        for link_types in ((1, COOKED), (1, 1, COOKED), (1, COOKED, 1), (COOKED, 1)):
            cooked = link_types.index(COOKED)
            places = [at for at in range(len(link_types)) if at != cooked]
            head = section() + b"".join(interface(name=f"eth{at}", link_type=kind)
                                        for at, kind in enumerate(link_types))
            order = [*places, *places, cooked, *places, *places]
            octets = b"".join(packet(whole(OTHER, START + at * 1000), place=place)
                              for at, place in enumerate(order))
            path = self.file(head + octets + packet(whole(LLDP, START + 1000_000), place=places[0]))
            out, said, status = self.ran(path)
            self.assertEqual((out, status), (f"rx eth{places[0]} {LLDP.hex()}\n", 1), link_types)
            self.assertEqual(said.count(f"the link type of its interface 'eth{cooked}' is LINUX_SLL"
                                        f" ({COOKED})"), 1, link_types)
