#!/usr/bin/env python3
"""Prints a line for each neighbor in a capture: chassis ID, port ID, time to live and system name.

    LLDPA_LIB_DIR=FOLDER who.py FILE.pcap

FOLDER contains liblldpa.so.1. Without LLDPA_LIB_DIR, the usual library folders are searched.
"""
from __future__ import annotations

import ctypes
import os
import struct
import sys
from ctypes import POINTER, Structure, byref, c_bool, c_char_p, c_size_t, c_uint8, c_uint16, c_uint32
from typing import Iterator


class Place(Structure):
    """A range of the octets that were passed to the library."""
    _fields_ = [("start", c_size_t), ("length", c_size_t)]

    def of(self, octets: bytes) -> bytes:
        """Returns the octets in this range."""
        return octets[self.start:self.start + self.length]


class Examined(Structure):
    """The contents of a valid LLDPDU."""
    _fields_ = [("chassis", Place), ("port", Place), ("extent", c_size_t), ("discarded", c_size_t),
                ("unrecognized", c_size_t), ("ttl", c_uint16)]


class Kept(Structure):
    """How far `lldpa_next_kept` has walked through an LLDPDU, and the TLV that it found last."""
    _fields_ = [("next", c_size_t), ("body", Place), ("met", c_bool * 4), ("kind", c_uint8)]


def library() -> ctypes.CDLL:
    """Loads the library, and declares the types of the functions that are called."""
    folder = os.environ.get("LLDPA_LIB_DIR")
    found = ctypes.CDLL(os.path.join(folder, "liblldpa.so.1") if folder else "liblldpa.so.1")
    for name, answer, told in (("lldpa_frame_pdu", c_bool, Place),
                               ("lldpa_examine", c_uint8, Examined),
                               ("lldpa_next_kept", c_bool, Kept)):
        function = getattr(found, name)
        function.restype, function.argtypes = answer, [c_char_p, c_size_t, POINTER(told)]
    found.lldpa_tlv_text.restype = c_uint8
    found.lldpa_tlv_text.argtypes = [c_uint32, c_char_p, c_size_t, c_char_p, c_size_t, POINTER(c_size_t)]
    return found


def shown(lldpa: ctypes.CDLL, kind: int, body: bytes) -> str:
    """Returns a TLV as text. The library escapes what a stranger chose."""
    room, length = ctypes.create_string_buffer(1058), c_size_t()
    lldpa.lldpa_tlv_text(kind, body, len(body), room, len(room), byref(length))
    return room.raw[:length.value].decode()


def frames(capture: bytes) -> Iterator[bytes]:
    """Yields the complete frames of a pcap file."""
    length_of = struct.Struct("<I" if capture[3] == 0xa1 else ">I")
    at = 24
    while at + 16 <= len(capture):
        end = at + 16 + length_of.unpack_from(capture, at + 8)[0]
        if end > len(capture):
            return
        yield capture[at + 16:end]
        at = end


def line_of(lldpa: ctypes.CDLL, pdu: bytes, told: Examined) -> str:
    """Returns the line to print for a neighbor."""
    walk = Kept()
    words = [shown(lldpa, 1, told.chassis.of(pdu)), shown(lldpa, 2, told.port.of(pdu)), str(told.ttl)]
    while lldpa.lldpa_next_kept(pdu, told.extent, byref(walk)):
        if walk.kind == 5:
            words.append(shown(lldpa, walk.kind, walk.body.of(pdu)))
    return " ".join(words)


def main() -> int:
    """Prints each neighbor once."""
    if len(sys.argv) != 2:
        print("usage: who.py FILE.pcap", file=sys.stderr)
        return 2
    with open(sys.argv[1], "rb") as file:
        capture = file.read()
    lldpa, seen = library(), set()
    for frame in frames(capture):
        place, told = Place(), Examined()
        if not lldpa.lldpa_frame_pdu(frame, len(frame), byref(place)):
            continue
        pdu = place.of(frame)
        if lldpa.lldpa_examine(pdu, len(pdu), byref(told)) == 0 and told.ttl > 0:
            name = pdu[:told.port.start + told.port.length]
            if name not in seen:
                seen.add(name)
                print(line_of(lldpa, pdu, told))
    return 0


if __name__ == "__main__":
    sys.exit(main())
