"""Tests what a flood of one port does to a quiet one, to the log, and to memory and open files."""

import os
import random
import signal
import time
from contextlib import suppress

from lldpa import Refused
from loads import Sender, figure
from patience import by_the_clock, eventually
from replays import Moments, differing
from running_live import Live, OnLinks
from served import numbered, tlv
from wires import ip

SPAN, MOMENTS = 20, 10  # seconds, and moments in them
QUIET = 5  # neighbors of the quiet port
LATE = 1.0  # seconds, of one answer
MOST, KEEP = 2, 20  # megabytes of a log file, and of all
LONG = [numbered(number, 600, tlv(5, b"n%d" % number)).ljust(1514, b"\0") for number in range(200)]
ROUNDS, SETTLED = 40, 10  # rounds of unrest, and after how many of them the growth is measured
MOST_GROWTH = 1500  # KiB
REFUSED = ("rx eth1 00", "tick", "no such command", "configure lldp tx-hold 0", "x" * 4096)


def hostile_frames() -> "list[bytes]":
    """Returns frames of 60 neighbors, many of them cut, altered or lengthened."""
    choice, frames = random.Random(1), []
    for number in range(2000):
        octets = bytearray(numbered(100 + number % 60, 600, tlv(5, b"h%d" % number)))
        if number % 2:
            octets[choice.randrange(12, len(octets))] = choice.randrange(256)
        if number % 5 == 1:
            octets = octets[:choice.randrange(14, len(octets))]
        if number % 7 == 1:
            octets += choice.randbytes(choice.randrange(1400))
        frames.append(bytes(octets))
    return frames


class Quiet(OnLinks):
    links = 3

    def open_files(self, live: Live) -> int:
        return len(os.listdir(f"/proc/{live.process.pid}/fd"))

    def lost(self, live: Live, port: str, sent: int) -> "list[str]":
        """Returns what says that frames of a port were lost, of as many as were sent."""
        eventually(lambda: live.told("show statistics", f"lldp.{port}.received") == str(sent))
        wanted = {"show statistics": [f"lldp.{port}.received={sent}"],
                  "live": [f"live.{port}.kernel-drops=0", f"live.{port}.limit-drops=0"]}
        return [line for what, lines in wanted.items() for line in lines
                if line not in live.ask(what)]

    @by_the_clock
    def test_a_quiet_port_and_the_log_lose_nothing_beside_a_flood(self) -> None:
        self.keep_log_in_memory()
        live = self.recorded("eth0", "eth1", "--", "--receive-only", "--max-neighbors", "128",
                             most=MOST, keep=KEEP)
        sender = Sender(self, self.wires, ["peer0"], LONG)
        quiet, moments, sent = self.peer("peer1"), Moments(live), 0
        for moment in range(MOMENTS):
            for number in range(QUIET):
                if number != moment % QUIET:
                    quiet.send(numbered(number, 30, tlv(5, b"moment %d" % moment)))
                    sent += 1
            began = time.monotonic()
            moments.take()
            time.sleep(max(0.0, SPAN / MOMENTS - (time.monotonic() - began)))
        figure(self, f"{sender.rate():,.0f} frames a second, "
                     f"answers within {moments.slowest:.3f} s")
        self.assertIsNone(sender.process.poll())
        sender.process.kill()
        self.assertEqual(self.lost(live, "eth1", sent), [])
        self.assertLess(moments.slowest, LATE)
        self.assertEqual(live.number("record-lines-lost"), 0)
        self.assertLessEqual(sum(path.stat().st_size for path in self.log.iterdir()),
                             KEEP * 1_000_000)
        self.assertEqual(live.ended(signal.SIGTERM), 0)
        self.assertEqual(differing(self.log, moments), [])

    def unrest(self, live: Live, number: int) -> None:
        """Reloads the settings, asks wrong things, changes an address, and replaces the interface
        of a third port."""
        self.assertEqual(live.reload(self.folder / "settings").returncode, 0)
        for line in REFUSED:
            with suppress(Refused, ValueError):
                live.ask(line)
        word = "add" if number % 2 == 0 else "del"
        ip("-n", self.wires.here, "address", word, "192.0.2.77/24", "dev", "eth1")
        if number % 4 == 0:
            self.wires.remove_link("eth2")
            live.comes_to("live.eth2.interface=awaited")
            self.wires.add_link(2)
            live.comes_to("live.eth2.link=up")

    @by_the_clock
    def test_unrest_loses_no_frame_invents_no_neighbor_and_lets_nothing_grow(self) -> None:
        settings = self.folder / "settings"
        settings.write_text("configure lldp tx-interval 17\n")
        live = self.live("--config", str(settings), "eth0", "eth1", "eth2", "--",
                         "--max-neighbors", "128")
        Sender(self, self.wires, ["peer0"], hostile_frames(), 1000)
        quiet, sent, files, memory = self.peer("peer1"), 0, 0, 0
        for number in range(ROUNDS):
            for one in range(QUIET):
                quiet.send(numbered(one, 600))
                sent += 1
            self.unrest(live, number)
            if number == SETTLED:
                files, memory = self.open_files(live), live.resident()
        self.assertEqual(self.lost(live, "eth1", sent), [])
        self.assertEqual(live.neighbors("eth1"), QUIET)
        self.assertEqual(live.neighbors("eth2"), 0)
        figure(self, f"{live.resident() - memory} KiB more in {ROUNDS - SETTLED} rounds")
        self.assertTrue(eventually(lambda: self.open_files(live) <= files),
                        (self.open_files(live), files))
        self.assertLess(live.resident() - memory, MOST_GROWTH)
