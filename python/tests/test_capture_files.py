"""Tests captures from a FIFO, with skipped frames, with clocks that were set, and of many ports."""

import os
import random
import subprocess
import threading
import time
from pathlib import Path

from lldpa import read_show
from made_captures import (FORMS, LLDP, OTHER, SECOND, START, TAGGED, Frame, interface, lldp_frame,
                           packet, pcap, section, whole)
from patience import by_the_clock
from served import PROGRAM
from support import FilesCase

RX = f"rx eth0 {LLDP.hex()}\n"
PORTS = [f"swp{number}" for number in range(1, 49)]


class Files(FilesCase):
    def test_fifo(self) -> None:
        fifo = str(self.folder / "fifo")
        os.mkfifo(fifo)
        for _ in range(5):
            writer = threading.Thread(target=Path(fifo).write_bytes, args=[pcap([whole(LLDP)])])
            writer.start()
            self.assertEqual(self.ran(fifo), (RX, "", 0))
            writer.join()

    def test_many_frames_that_are_skipped(self) -> None:
        frames = [whole(TAGGED, START + number * 1000) for number in range(20_000)]
        frames += [(START + SECOND, LLDP[:30], 99)] * 3 + [whole(LLDP, START + SECOND)]
        self.file(pcap(frames), "a")
        out, said, status = self.ran("a")
        self.assertEqual((out, status), (f"tick\n{RX}", 0))
        lines = said.splitlines()
        self.assertEqual(len(lines), 5 + 3 + 1)
        self.assertEqual(lines[4], "lldpa-capture: a: frame 5 is skipped: it is tagged")
        self.assertEqual(lines[5], "lldpa-capture: a: frame 20001 is skipped: it is truncated "
                                   "to 30 of 99 octets")
        self.assertEqual(lines[8], "lldpa-capture: a: 19995 more such notes")


class Clocks(FilesCase):
    """Tests clocks that are set while a capture is made."""

    @by_the_clock
    def test_from_1970_to_now(self) -> None:
        late: Frame = whole(LLDP, START // SECOND * SECOND)
        self.file(pcap([whole(LLDP, 5 * SECOND), late, whole(LLDP, late[0] + 2 * SECOND)]), "a")
        begin = time.monotonic()
        trace, said, _ = self.ran("--show", "a")
        shown = subprocess.run([PROGRAM, "--receive-only", "eth0"], input=trace, text=True,
                               capture_output=True, check=True).stdout
        self.assertLess(time.monotonic() - begin, 5)
        self.assertEqual(trace.splitlines()[:5],
                         [RX.strip(), "tick 65535", RX.strip(), "tick 2", RX.strip()])
        self.assertEqual(said, "lldpa-capture: a: no packet for 1699999995 s (was the clock set?): "
                               "counted as 65535 s, after which every neighbor has aged out\n")
        self.assertIn("lldp.eth0.ageouts=1\n", shown)

    def test_time_in_which_nothing_happens(self) -> None:
        for seconds, ticks in ((65535, "tick 65535"), (65536, "tick 65535"), (300, "tick 300")):
            self.file(pcap([whole(LLDP), whole(OTHER, START + seconds * SECOND)]), "a")
            trace, said, _ = self.ran("a")
            self.assertEqual((trace, said.count("\n")), (f"{RX}{ticks}\n", seconds > 65535))


class Ports(FilesCase):
    """Tests captures of 48 ports that have one neighbor each."""

    def setUp(self) -> None:
        super().setUp()
        self.neighbors = [(port, b"\x02\0\x5e\0\x53" + bytes([number]), f"eth{number % 4}")
                          for number, port in enumerate(PORTS)]

    def frames(self, mac: bytes, peer: str, begin: int) -> list[Frame]:
        """Returns nine frames at a port. The first, fifth and ninth are from the neighbor."""
        octets = lldp_frame(mac, peer.encode())
        return [whole(OTHER if place % 4 else octets, START + (begin + place * 7) * SECOND)
                for place in range(9)]

    def compare(self, *words: str) -> None:
        """Checks that an agent finds all neighbors if it reads the trace from lldpa-capture."""
        trace, *ended = self.ran(*words)
        self.assertEqual(ended, ["", 0])
        shown = subprocess.run([PROGRAM, "--receive-only", *PORTS], text=True, check=True,
                               input=trace + "show neighbors\n", capture_output=True).stdout
        found = {(one.port, one.chassis.text, one.port_id.text)
                 for one in read_show(shown.splitlines()).neighbors}
        self.assertEqual(found, {(port, mac.hex(":"), peer) for port, mac, peer in self.neighbors})

    def test_a_capture_of_each(self) -> None:
        dice = random.Random(48)
        self.compare(*(f"{port}={self.file(form(self.frames(mac, peer, dice.randrange(20))), port)}"
                       for port, mac, peer in self.neighbors
                       for form in [dice.choice(list(FORMS.values()))]))

    def test_one_capture_of_all(self) -> None:
        dice = random.Random(49)
        frames = [(frame, place) for place, (_, mac, peer) in enumerate(self.neighbors)
                  for frame in self.frames(mac, peer, dice.randrange(20))]
        head = section() + b"".join(interface(name=port) for port in PORTS)
        path = self.file(head + b"".join(packet(frame, place=place)
                                         for frame, place in sorted(frames)))
        self.compare(path)
        self.assertEqual(self.ran("--ports", path)[0].split(), PORTS)
