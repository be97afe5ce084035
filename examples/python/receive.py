#!/usr/bin/env python3
"""Prints the LLDP neighbors of a Linux interface that are new, change, leave or age out.

    LLDPA_LIB_DIR=FOLDER receive.py INTERFACE

FOLDER contains liblldpa.so.1. Without LLDPA_LIB_DIR, the usual library folders are searched. The
program needs the right to open packet sockets, and runs until SIGTERM.
"""
from __future__ import annotations

import select
import signal
import socket
import struct
import sys
import time
from ctypes import (CDLL, POINTER, Structure, byref, c_bool, c_char_p, c_size_t, c_uint8, c_uint32, c_void_p,
                    create_string_buffer, pointer, sizeof)

from who import Examined, Place, library

ETHERTYPE_LLDP = 0x88cc
CALLS = ("lldpa_open", "lldpa_due", "lldpa_ticks", "lldpa_frame", "lldpa_aged_count", "lldpa_aged")
REPORTS = {4: "new", 5: "changed", 7: "no room for", 8: "gone"}


class Text(Structure):
    """A text for the library: the octets, without a NUL at the end, and the number of octets."""
    _fields_ = [("octets", c_char_p), ("length", c_size_t)]


class Options(Structure):
    """The options that `lldpa_open` reads."""
    _fields_ = [("size", c_size_t), ("ports", POINTER(Text)), ("port_count", c_size_t), ("hostname", Text),
                ("mac", c_uint8 * 6), ("management", c_uint8 * 4), ("managed", c_bool), ("receive_only", c_bool),
                ("role", c_uint32), ("max_neighbors", c_uint32), ("credit_max", c_uint32),
                ("fast_init", c_uint32), ("reinit", c_uint32)]


class Handle(Structure):
    """A handle of an agent. Only the library reads or changes the fields of the handle."""
    _fields_ = [("held", c_void_p), ("open", c_bool)]


class News(Structure):
    """The effect of a received frame, and the neighbor that sent it."""
    _fields_ = [("chassis", Place), ("port", Place), ("what", c_uint32), ("fault", c_uint32)]


class Held(Structure):
    """A neighbor in a port's table, and the seconds until the neighbor ages out."""
    _fields_ = [("pdu", Examined), ("left", c_uint32)]


class Ticks(Structure):
    """The number of processed ticks, and the number of neighbors that aged out."""
    _fields_ = [("taken", c_uint32), ("aged_out", c_uint32)]


def text_of(lldpa: CDLL, kind: int, body: bytes) -> str:
    """Returns a chassis ID or port ID as `show neighbors` writes it."""
    room, length = create_string_buffer(1058), c_size_t()
    lldpa.lldpa_tlv_text(c_uint32(kind), body, c_size_t(len(body)), room, c_size_t(1058), byref(length))
    return room.raw[:length.value].decode()


def report(lldpa: CDLL, what: str, octets: bytes, chassis: Place, port: Place) -> None:
    """Prints what happened to a neighbor."""
    print(what, text_of(lldpa, 1, chassis.of(octets)), text_of(lldpa, 2, port.of(octets)), flush=True)


def give_seconds(lldpa: CDLL, agent: Handle, passed: int) -> None:
    """Reports the elapsed seconds to the agent, and prints the neighbors that age out."""
    room, held, count = create_string_buffer(1500), Held(), c_uint32()
    while passed > 0:
        done, marks = Ticks(), create_string_buffer(129)  # marks stay empty: the port only receives
        lldpa.lldpa_ticks(byref(agent), c_uint32(passed), marks, byref(done))
        passed -= done.taken
        lldpa.lldpa_aged_count(byref(agent), c_uint32(0), byref(count))
        for index in range(count.value):
            lldpa.lldpa_aged(byref(agent), c_uint32(0), c_uint32(index), room, c_size_t(1500), byref(held))
            report(lldpa, "aged out", room.raw, held.pdu.chassis, held.pdu.port)


def give_frame(lldpa: CDLL, agent: Handle, frame: bytes) -> None:
    """Passes a received frame to the agent, and prints what happened to its sender."""
    marks, news = create_string_buffer(129), News()
    lldpa.lldpa_frame(byref(agent), c_uint32(0), frame, c_size_t(len(frame)), marks, byref(news))
    if news.what in REPORTS:
        report(lldpa, REPORTS[news.what], frame, news.chassis, news.port)


def seconds() -> int:
    """Returns the seconds since the machine started, also those in which it slept."""
    return int(time.clock_gettime(time.CLOCK_BOOTTIME))


def opened(lldpa: CDLL, interface: str) -> Handle:
    """Opens an agent with one port. The port only receives."""
    name, handle = Text(interface.encode(), len(interface.encode())), Handle()
    options = Options(sizeof(Options), pointer(name), 1, receive_only=True, max_neighbors=32, credit_max=5,
                      fast_init=4, reinit=2)
    fault = lldpa.lldpa_open(byref(options), byref(handle))
    if fault != 0:
        sys.exit(f"receive.py: lldpa_open failed with fault {fault}")
    return handle


def main() -> None:
    """Passes received frames and elapsed seconds to the agent until SIGTERM."""
    signal.signal(signal.SIGTERM, lambda *_: sys.exit(0))
    interface, lldpa = sys.argv[1], library()
    for name in CALLS:
        getattr(lldpa, name).restype = c_uint8  # else ctypes reads an int, though a call defines 8 bits
    agent, due = opened(lldpa, interface), c_uint32()
    heard = socket.socket(socket.AF_PACKET, socket.SOCK_RAW, socket.htons(ETHERTYPE_LLDP))
    heard.bind((interface, ETHERTYPE_LLDP))
    group = struct.pack("iHH8s", socket.if_nametoindex(interface), 0, 6, bytes.fromhex("0180c200000e"))
    heard.setsockopt(263, 1, group)  # SOL_PACKET, PACKET_ADD_MEMBERSHIP
    now = seconds()
    while True:
        lldpa.lldpa_due(byref(agent), byref(due))
        came = select.select([heard], [], [], min(due.value, 3600))[0]
        # the seconds passed before the frame arrived, so the agent gets the seconds first
        before, now = now, seconds()
        give_seconds(lldpa, agent, now - before)
        if came:
            give_frame(lldpa, agent, heard.recv(2048))


if __name__ == "__main__":
    main()
