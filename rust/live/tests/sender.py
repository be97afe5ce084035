"""For tests: a program that sends frames at a steady or the greatest rate until it is ended.

    python3 sender.py RATE END.. < FRAMES

Each line of FRAMES is a frame in hexadecimal. Each end sends all of them in turn, RATE a second; a
RATE of 0 is as fast as this machine can. One system call sends up to 256 frames.
"""

import ctypes
import socket
import sys
import time

AT_ONCE = 256
PACKET_QDISC_BYPASS = 20  # linux/if_packet.h
SOL_PACKET = 263
TURN = 0.005  # seconds


class Piece(ctypes.Structure):
    """struct iovec."""
    _fields_ = [("octets", ctypes.c_char_p), ("length", ctypes.c_size_t)]


class Header(ctypes.Structure):
    """struct msghdr."""
    _fields_ = [("name", ctypes.c_void_p), ("name_length", ctypes.c_uint),
                ("pieces", ctypes.POINTER(Piece)), ("count", ctypes.c_size_t),
                ("control", ctypes.c_void_p), ("control_length", ctypes.c_size_t),
                ("flags", ctypes.c_int)]


class Message(ctypes.Structure):
    """struct mmsghdr."""
    _fields_ = [("header", Header), ("sent", ctypes.c_uint)]


def messages_of(frames: "list[bytes]") -> "ctypes.Array[Message]":
    """Returns the messages that send these frames. They keep the octets alive."""
    pieces = (Piece * len(frames))(*(Piece(one, len(one)) for one in frames))
    messages = (Message * len(frames))()
    for number, message in enumerate(messages):
        message.header.pieces = ctypes.pointer(pieces[number])
        message.header.count = 1
    return messages


class End:
    """One end of a link, and which frame it sends next."""

    def __init__(self, name: str, messages: "ctypes.Array[Message]") -> None:
        self.socket = socket.socket(socket.AF_PACKET, socket.SOCK_RAW)
        self.socket.bind((name, 0))
        self.socket.setsockopt(SOL_PACKET, PACKET_QDISC_BYPASS, 1)
        self.messages, self.next = messages, 0
        self.sendmmsg = ctypes.CDLL(None).sendmmsg

    def send(self, count: int) -> int:
        """Sends the next frames, at most `count`. Returns how many it tried to send."""
        count = min(count, AT_ONCE, len(self.messages) - self.next)
        first = ctypes.byref(self.messages, self.next * ctypes.sizeof(Message))
        self.sendmmsg(self.socket.fileno(), first, count, 0)
        self.next = (self.next + count) % len(self.messages)
        return count


def main() -> None:
    rate, names = int(sys.argv[1]), sys.argv[2:]
    messages = messages_of([bytes.fromhex(line) for line in sys.stdin])
    ends = [End(name, messages) for name in names]
    began, sent = time.monotonic(), [0] * len(ends)
    while True:
        due = rate * (time.monotonic() - began) if rate else max(sent) + AT_ONCE
        for number, end in enumerate(ends):
            while sent[number] < int(due):
                sent[number] += end.send(int(due) - sent[number])
        if rate:
            time.sleep(TURN)


if __name__ == "__main__":
    main()
