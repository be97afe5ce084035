"""Defines the interfaces and the packets of captures."""

from typing import NamedTuple, Optional, Tuple

SECOND = 10**9
ETHERNET = 1
LINK_TYPES = {
    0: "NULL", 1: "ETHERNET", 6: "IEEE802_5", 8: "SLIP", 9: "PPP", 10: "FDDI", 50: "PPP_HDLC",
    51: "PPP_ETHER", 101: "RAW", 104: "C_HDLC", 105: "IEEE802_11", 107: "FRELAY", 108: "LOOP",
    113: "LINUX_SLL", 117: "PFLOG", 119: "PRISM", 127: "IEEE802_11_RADIOTAP", 189: "USB_LINUX",
    192: "PPI", 195: "IEEE802_15_4", 201: "BLUETOOTH_HCI_H4_WITH_PHDR", 220: "USB_LINUX_MMAPPED",
    228: "IPV4", 229: "IPV6", 239: "NFLOG", 247: "INFINIBAND", 253: "NETLINK", 276: "LINUX_SLL2",
}


class CaptureInterface(NamedTuple):
    """An interface of a capture: its name if the file has one, its link type, its time stamp units
    per second, the seconds to add to its time stamps, and its snapshot length in octets."""
    name: Optional[str]
    link_type: int
    units: int
    offset: int
    most: int


class Packet(NamedTuple):
    """A packet of a capture: the octets that were captured, its original length, and its time in
    nanoseconds since 1970 (None if the file has no time for it)."""
    interface: CaptureInterface
    time: Optional[int]
    octets: bytes
    length: int


# A packet: interface, time, begin and end of its octets in the window, and original length.
Look = Tuple[CaptureInterface, Optional[int], int, int, int]
