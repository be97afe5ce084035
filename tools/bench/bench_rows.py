"""Makes the rows of the benchmark: their frames, their traces, and the programs' command lines."""
from __future__ import annotations

import random
import subprocess
from dataclasses import dataclass, field
from pathlib import Path

NEAREST_BRIDGE = bytes.fromhex("0180c200000e")
LLDP = bytes.fromhex("88cc")
PORTS = [f"eth{i}" for i in range(64)]
LONG = "configure lldp tx-interval 3600\n"
ONE_PORT = ["--receive-only", "eth0"]
MANY = ["--receive-only", "--max-neighbors=128"]


def tlv(kind: int, body: bytes) -> bytes:
    return (kind << 9 | len(body)).to_bytes(2, "big") + body


def frame(chassis: bytes, port: bytes, tlvs: list[bytes], ttl: int = 65535) -> bytes:
    """Returns a frame with a chassis ID, a port ID, a time to live, and then these TLVs."""
    begin = tlv(1, chassis) + tlv(2, port) + tlv(3, ttl.to_bytes(2, "big"))
    return NEAREST_BRIDGE + b"\x02\0\0\0\0\x99" + LLDP + begin + b"".join(tlvs) + b"\0\0"


def name(i: int) -> tuple[bytes, bytes]:
    """Returns the chassis ID and port ID of sender i."""
    return b"\x04\x02\x00\x5e" + i.to_bytes(3, "big"), b"\x05swp%d" % (i % 48 + 1)


def common_tlvs(rng: random.Random) -> list[bytes]:
    """Returns the TLVs of a typical switch or host, 280 octets on average."""
    system = rng.choice([
        b"Debian GNU/Linux 12 (bookworm) Linux 6.1.0-18-amd64 #1 SMP PREEMPT_DYNAMIC x86_64",
        b"Cisco IOS Software, C3750E Software (C3750E-UNIVERSALK9-M), Version 15.2(4)E8, RELEASE SOFTWARE (fc3)",
        b"Juniper Networks, Inc. ex4300-48t Ethernet Switch, kernel JUNOS 18.4R2.7"])
    said = [tlv(4, b"Interface %d as GigabitEthernet" % rng.randrange(999)),
            tlv(5, b"sw-%d.lab.example.net" % rng.randrange(999)),
            tlv(6, system), tlv(7, b"\0\x14\0\x04"), tlv(8, b"\x05\x01\xc0\0\x02\x01\x02\0\0\0\x02\0"),
            tlv(8, b"\x11\x02" + bytes(rng.randrange(256) for _ in range(16)) + b"\x02\0\0\0\x02\0")]
    own = [b"\x00\x80\xc2\x01\0\x64", b"\x00\x80\xc2\x03\0\x64\x07VLAN100", b"\x00\x12\x0f\x01\x03\xec\x03\0\x1e",
           b"\x00\x12\x0f\x04\x05\xdc", b"\x00\x12\x0f\x03\x01\0\0\0\0", b"\x00\x12\xbb\x01\0\x3f\x03",
           b"\x00\x12\xbb\x02\x01\x40\x65\xae", b"\x00\x12\xbb\x0a" + b"serial-%08d" % rng.randrange(10**8)]
    return said + [tlv(127, body) for body in own if rng.random() < 0.7]


def mix(count: int, names: int) -> list[bytes]:
    """Returns `count` frames from `names` senders in turn."""
    rng = random.Random(1)
    return [frame(*name(i % names), common_tlvs(rng)) for i in range(count)]


def least(names: int) -> list[bytes]:
    """Returns a frame of 36 octets, the least length, from each of `names` senders."""
    return [frame(b"\x04" + i.to_bytes(6, "big"), b"\x05e-%02d" % i, []) for i in range(names)]


def greatest(names: int) -> list[bytes]:
    """Returns a frame of 1,514 octets, the greatest length, from each of `names` senders."""
    said = [tlv(127, b"\0\x80\xc2\x63" + bytes(507))] * 2
    room = [1514 - len(frame(*name(i), said)) for i in range(names)]
    return [frame(*name(i), [*said, tlv(127, b"\0\x80\xc2\x63" + bytes(room[i] - 6))]) for i in range(names)]


def own_tags() -> list[bytes]:
    """Returns frames of 128 senders whose names are equally long but have different tags."""
    rng = random.Random(2)
    return [frame(b"\x07" + rng.randbytes(28), b"\x05swp1", []) for _ in range(128)]


def received(frames: list[bytes], port: str = "eth0") -> str:
    """Returns the trace in which a port receives these frames."""
    return "".join(f"rx {port} {octets.hex()}\n" for octets in frames)


def held_everywhere() -> str:
    """Returns a trace that stores 128 neighbors on each of 64 ports."""
    frames = mix(128, 128)
    return LONG + "".join(received(frames, port) for port in PORTS)


@dataclass
class Row:
    """A row of the table: its trace, the programs' arguments, and the measured items per line."""

    title: str
    words: list[str]
    before: str
    line: str
    lines: int
    yardsticks: list[list[str]] = field(default_factory=list)
    per: int = 1

    def traces(self, room: Path, lines: int) -> tuple[Path, Path, int]:
        """Writes files of the trace and of its beginning. Returns both paths and the item count."""
        whole, begin = room / "trace", room / "begin"
        repeats = max(1, lines // self.line.count("\n"))
        begin.write_text(self.before)
        whole.write_text(self.before + repeats * self.line)
        return whole, begin, repeats * self.line.count("\n") * self.per

    def sides(self, program: str, yardstick: str) -> list[list[str]]:
        """Returns the command line of lldpa, then those of the C program."""
        return [[program, *self.words]] + [[yardstick, *words] for words in self.yardsticks]


def both(neighbors: int) -> list[list[str]]:
    """Returns the C program's arguments to read frames, without and with vector instructions."""
    return [["read", str(neighbors)], ["vectors", str(neighbors)]]


def rows_received() -> list[Row]:
    """Returns the rows in which one port receives frames. C with vector instructions compares only
    16 octets of a name, so it does not run the row with long names."""
    many, plain = [*MANY, "eth0"], [["read", "128"]]
    own = own_tags()
    return [
        Row("receive a typical frame, 32 neighbors", ONE_PORT, "", received(mix(992, 32)), 100_000, both(32)),
        Row("receive the shortest frame, 36 octets", ONE_PORT, "", received(least(32)), 200_000, both(32)),
        Row("receive the longest frame, 1,514 octets", ONE_PORT, "", received(greatest(32)), 30_000, both(32)),
        Row("receive a typical frame, 128 neighbors", many, "", received(mix(1024, 128)), 100_000, both(128)),
        Row("refresh the last of 128 neighbors", many, received(own), received(own[-1:]), 200_000, plain),
    ]


def rows_of_ports(program: str, room: Path) -> list[Row]:
    """Returns the rows of 64 ports. In two of them, C only writes what lldpa wrote before."""
    words, held = [*MANY, *PORTS], held_everywhere()
    default, lines = room / "frame", room / "lines"
    sent = subprocess.run([program, "eth0"], input=b"tick\n", capture_output=True, check=True).stdout
    default.write_bytes(bytes.fromhex(sent.decode().split()[2]))
    asked = (held + "show neighbors\n").encode()
    shown = subprocess.run([program, *words], input=asked, capture_output=True, check=True).stdout
    lines.write_bytes(shown)
    return [
        Row("one second of 64 ports without neighbors", PORTS, LONG, "tick\n", 300_000),
        Row("one second of 64 ports with 128 neighbors each", words, held, "tick\n", 60_000),
        Row("print a line of the neighbor table", words, held, "show neighbors\n", 8, [["show", str(lines)]],
            shown.count(b"\n")),
        Row("send a frame", PORTS, "configure lldp tx-interval 1\n", "tick\n", 3_000,
            [["send", str(default)]], 64),
    ]


def rows(program: str, room: Path) -> list[Row]:
    """Returns all rows, and writes the files that the programs read."""
    return rows_received() + rows_of_ports(program, room)
