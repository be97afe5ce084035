"""Tests how packets are read from captures."""

import gzip
import io
import random
import unittest

from lldpa.capture.packets import BadCapture, Packet, interfaces_of, packets_of, reader_of
from made_captures import (ETHERNET, FORMS, LLDP, OTHER, SECOND, START, Frame, block, interface,
                           packet, pcap, pcapng, section, units_of, whole)
from served import GROUP_ADDRESS

FRAMES: list[Frame] = [whole(OTHER), whole(LLDP, START + 1000), (START + SECOND, LLDP[:30], 99),
                       whole(b"", START + SECOND), whole(OTHER * 40, START + 9 * SECOND)]


class Dripping(io.RawIOBase):
    """A file that returns a few octets for each read, as a pipe does."""

    def __init__(self, octets: bytes, most: int) -> None:
        super().__init__()
        self._rest = octets
        self._most = most

    def read(self, size: int = -1) -> bytes:
        count = min(size, self._most)
        octets, self._rest = self._rest[:count], self._rest[count:]
        return octets


def packets(octets: bytes) -> list[Packet]:
    return list(packets_of(io.BytesIO(octets)))


def fault_of(octets: bytes) -> str:
    """Returns the fault of a capture, or an empty text if all of it can be read."""
    try:
        packets(octets)
    except BadCapture as fault:
        return str(fault)
    return ""


class Read(unittest.TestCase):
    """Tests that packets are read as they were written."""

    def test_each_form(self) -> None:
        for name, form in FORMS.items():
            with self.subTest(name):
                got = [(one.time, one.octets, one.length) for one in packets(form(FRAMES))]
                rounded = [(time // 1000 * 1000, *rest) for time, *rest in FRAMES]
                if "binary" in name:
                    unit = SECOND // units_of(128 + 20) + 1
                    apart = [abs(one[0] - frame[0]) for one, frame in zip(got, FRAMES) if one[0]]
                    self.assertEqual([some <= unit for some in apart], [True] * len(FRAMES))
                    got = [(frame[0], *one[1:]) for one, frame in zip(got, rounded)]
                self.assertEqual(got, rounded)

    def test_compressed_or_not_however_few_octets_a_read_gives(self) -> None:
        for name, form in FORMS.items():
            file, want = form(FRAMES), packets(form(FRAMES))
            for octets in (file, gzip.compress(file)):
                for most in (1, 3, 17, 1000, 100_000):
                    with self.subTest(name, most=most):
                        self.assertEqual(list(packets_of(Dripping(octets, most))), want)

    def test_interfaces(self) -> None:
        file = section() + interface(name="swp1") + interface(name="swp2", resolution=9, offset=5)
        file += packet(whole(LLDP), place=1, units=SECOND) + packet(whole(OTHER))
        first, second = packets(file)
        self.assertEqual((first.interface.name, first.interface.link_type), ("swp2", ETHERNET))
        self.assertEqual(first.time, START + 5 * SECOND)
        self.assertEqual((second.interface.name, second.time), ("swp1", START))
        self.assertEqual([one.name for one in interfaces_of(io.BytesIO(file))], ["swp1", "swp2"])
        self.assertEqual(interfaces_of(io.BytesIO(pcap(FRAMES))), [])
        self.assertEqual(interfaces_of(io.BytesIO(b"#!/bin/sh")), [])
        self.assertEqual(packets(pcap(FRAMES))[0].interface.name, None)

    def test_a_packet_without_a_time_stamp(self) -> None:
        simple = block("<", 3, len(LLDP).to_bytes(4, "little") + LLDP)
        (got,) = packets(pcapng([]) + simple)
        self.assertEqual((got.time, got.octets, got.length), (None, LLDP, len(LLDP)))

    def test_a_packet_of_the_old_kind(self) -> None:
        new = packet(whole(LLDP))[8:-4]
        (got,) = packets(pcapng([]) + block("<", 2, new[:2] + b"\7\0" + new[4:]))
        self.assertEqual((got.time, got.octets), (START, LLDP))


class Compressed(unittest.TestCase):
    def test_parts_and_zeros_after_them(self) -> None:
        file = pcap(FRAMES)
        packed = gzip.compress(file[:100]) + gzip.compress(file[100:]) + bytes(512)
        self.assertEqual(packets(packed), packets(file))
        large = pcap([whole(OTHER * 40, START + number) for number in range(5000)])
        self.assertEqual(packets(gzip.compress(large)), packets(large))
        self.assertEqual(packets(gzip.compress(large, 0)), packets(large))

    def test_damage(self) -> None:
        file = pcap([whole(OTHER * 9, START + number) for number in range(999)])
        packed = gzip.compress(file)
        for cut in (2, 10, 500, len(packed) - 1):
            self.assertEqual(fault_of(packed[:cut]), "its gzip data is cut short")
        read: list[Packet] = []
        with self.assertRaises(BadCapture):
            for one in packets_of(io.BytesIO(gzip.compress(file, 0)[:9000])):
                read.append(one)
        self.assertEqual(read, packets(file)[:len(read)])
        self.assertGreater(len(read), 14)
        broken = bytearray(packed)
        broken[60] ^= 255
        self.assertRegex(fault_of(bytes(broken)), "its gzip data is damaged|it ")
        for at, octet in ((10, 0x07), (len(packed) - 5, packed[-5] ^ 255)):
            wrong = packed[:at] + bytes([octet]) + packed[at + 1:]  # a kind of block, and the sum
            self.assertEqual(fault_of(wrong), "its gzip data is damaged")
        self.assertEqual(fault_of(gzip.compress(b"")), "it is empty")
        self.assertIn("it is not a capture", fault_of(gzip.compress(b"#!/bin/sh")))


class InPlace(unittest.TestCase):
    """Tests that a reader finds packets with a given beginning, and each decrease of the times."""

    def random_frames(self, dice: random.Random) -> list[Frame]:
        """Returns frames, some of them LLDP frames, at times that mostly increase."""
        time, frames = START, []
        for _ in range(dice.randrange(60)):
            time += dice.choice([0, 1000, 10**6, SECOND, -1000, -SECOND, 7 * SECOND, -5 * SECOND])
            octets = dice.choice([LLDP, OTHER, OTHER + LLDP, b"", dice.randbytes(30)])
            taken = octets[:dice.choice([3, 20])] if dice.random() < 0.1 else octets
            frames.append((time, taken, len(octets)))
        return frames

    def test_packets_that_begin_so_and_the_times(self) -> None:
        dice = random.Random(28)
        for _ in range(1500):
            form = dice.choice(list(FORMS.values()))
            file = form(self.random_frames(dice))
            everything = [(one.octets, one.time or 0) for one in packets(file)]
            reader = reader_of(Dripping(file, dice.choice([50, 500, 100_000])))
            looked = []
            for _, time, begin, end, _ in reader.looks(GROUP_ADDRESS):
                looked.append((reader.window.octets[begin:end], time or 0))
                self.assertEqual(everything[reader.number - 1], looked[-1])
            begun = [octets for octets, _ in looked if octets[:6] == GROUP_ADDRESS]
            want = [octets for octets, _ in everything if octets[:6] == GROUP_ADDRESS]
            self.assertEqual(begun, want)
            self.assertEqual(looked[-1:], everything[-1:])
            self.assertEqual(self.steps_back(looked), self.steps_back(everything))

    def steps_back(self, timed: "list[tuple[bytes, int]]") -> list["tuple[int, int]"]:
        """Returns each pair of successive times that decrease."""
        times = [time for _, time in timed]
        return [(one, other) for one, other in zip(times, times[1:]) if other < one]


class Damaged(unittest.TestCase):
    """Tests that damaged captures are reported, with the place of the damage."""

    def test_no_captures(self) -> None:
        self.assertEqual(fault_of(b""), "it is empty")
        self.assertIn("not a capture: it begins with 23 21 2f 62", fault_of(b"#!/bin/sh"))
        self.assertIn("compressed by xz: unpack it", fault_of(bytes.fromhex("fd377a585a00")))
        self.assertEqual(fault_of(b"\n\r"), "it ends at octet 2, inside the record at octet 0")

    def test_a_capture_that_is_cut_anywhere(self) -> None:
        for name, form in FORMS.items():
            file = form(FRAMES)
            ends = set()
            for end in range(1, len(file)):
                fault = fault_of(file[:end])
                if fault:
                    self.assertIn(f"it ends at octet {end}, inside the record at octet ", fault)
                else:
                    ends.add(end)
            records = 5 if "pcap," in name or "pcap of" in name else 7
            self.assertLessEqual(len(ends), records + 4, name)

    def test_where_a_record_is_damaged(self) -> None:
        first = pcapng([whole(OTHER)])
        bad = packet(whole(LLDP))
        damages = {
            "a block's two lengths differ": bad[:-4] + b"\0\0\0\0",
            "a block's length is only 8": bad[:4] + b"\x08\0\0\0" + bad[8:],
            "the length of a record is far too large": bad[:4] + b"\xff\xff\xff\x7f" + bad[8:],
            "a field or the interface of a block is invalid": packet(whole(LLDP), place=1),
            "a section has an unknown byte order": section()[:8] + b"abcd" + section()[12:],
        }
        for why, record in damages.items():
            with self.subTest(why):
                told = f"it is damaged at octet {len(first)}: {why}"
                self.assertEqual(fault_of(first + record), told)
        runs_past = bytearray(bad)
        runs_past[20:24] = (len(LLDP) + 40).to_bytes(4, "little")
        self.assertIn(f"octet {len(first)}", fault_of(first + bytes(runs_past) + bad))

    def test_a_pcap_record_of_a_mad_length(self) -> None:
        file = bytearray(pcap([whole(OTHER), whole(LLDP)]))
        at = 24 + 16 + len(OTHER)
        file[at + 8:at + 12] = b"\xff\xff\xff\xff"
        self.assertEqual(fault_of(bytes(file)),
                         f"it is damaged at octet {at}: the length of a record is far too large")

    def test_random_damage_is_told_and_never_more(self) -> None:
        dice = random.Random(5)
        faults = 0
        for _ in range(3000):
            file = bytearray(dice.choice(list(FORMS.values()))(FRAMES))
            for _ in range(dice.randrange(1, 4)):
                file[dice.randrange(len(file))] = dice.choice([0, 1, 255, dice.randrange(256)])
            faults += fault_of(bytes(file)) != ""
        self.assertGreater(faults, 50)
