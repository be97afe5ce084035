"""Tests a record on a slow disk: seconds, own frames, held neighbors, answers, signs of life and
the end wait for none of its writes.

strace delays each write of the recorder. The whole test, at 5,000 frames a second on each port
and with 60 looks, takes nine minutes and two processors:

    LLDPA_LOOKS=60 LLDPA_FLOOD=80000 python3 -m unittest test_slow_record.Slow
"""

import contextlib
import os
import shutil
import signal
import time
import unittest
from typing import Sequence

from heard import Heard
from loads import Sender, Signs, figure, goodbyes, stamp_of, stamped
from patience import by_the_clock, eventually
from replays import Moments, differing
from running_live import Live, OnLinks
from served import numbered, tlv
from slowed import slow_calls
from wires import Peer, ttl_of

LOOKS = int(os.environ.get("LLDPA_LOOKS", "10"))  # one a second, for each delay and rate
FLOODED = 16  # ports
QUIET = FLOODED  # the number of a port without strangers
RATES = (1_600, int(os.environ.get("LLDPA_FLOOD", "5000")))  # frames a second, on all of them
DELAYS = (0, 0.01, 0.1, 0.3)  # seconds of a write
HANGS = 3.0  # seconds of a write that is too slow
HELD = 90
TTL = 4
WATCHDOG = 4  # seconds; a sign of life is due four times in them
LATE = 1.0  # seconds
END = 3.0  # seconds
# ten strangers on each port, whose LLDPDU differs in each of their frames of the greatest length
STRANGERS = [numbered(number % 10, 120, tlv(5, b"%04d" % number)).ljust(1514, b"\0")
             for number in range(2_000)]


class Looks:
    """What is seen of an lldpa-live, once a second."""

    def __init__(self, case: "Slow", live: Live) -> None:
        self.case, self.live, self.signs = case, live, Signs(case.heard)
        self.began, self.counted = time.monotonic(), live.number("seconds")
        self.missing, self.late, self.slowest = 0, 0.0, 0.0

    def look(self) -> None:
        """Lets the held neighbors speak, and a moment later looks at the seconds and for them."""
        for number in (0, FLOODED - 1, QUIET):
            self.case.peers[number].send(numbered(HELD, TTL))
        time.sleep(0.2)
        asked = time.monotonic()
        lines = self.live.ask("live")
        now = time.monotonic()
        told = dict(line.split("=", 1) for line in lines)
        seconds = int(told["live.seconds"]) - self.counted
        self.late = max(self.late, asked - self.began - seconds - 1)
        self.slowest = max(self.slowest, now - asked)
        self.missing += 3 - sum(line.endswith(f"ifname=p{HELD}") for line in lines)
        self.signs.take()


def silence(peer: Peer, began: float) -> float:
    """Returns the longest time without a frame of lldpa-live, from `began` to the last one."""
    moments, count = [began], 0
    peer.socket.settimeout(0)
    try:
        while True:
            octets, notes, _, address = peer.socket.recvmsg(2000, 100)
            if address[2] != 4 and ttl_of(octets):  # PACKET_OUTGOING
                moments.append(stamp_of(notes[0][2]))
                count += 1
    except BlockingIOError:
        moments.append(time.time())
    return max(after - before for before, after in zip(moments, moments[1:]))


@unittest.skipUnless(shutil.which("strace"), "strace: it is not installed")
class Slow(OnLinks):
    links = FLOODED + 1

    def setUp(self) -> None:
        super().setUp()
        self.heard = Heard(self.folder)
        self.addCleanup(self.heard.close)
        self.peers = [self.peer(f"peer{number}") for number in range(FLOODED + 1)]
        for peer in self.peers:
            stamped(peer)

    def begun(self, *words: str) -> Live:
        live = self.recorded(*words, *(f"eth{number}" for number in range(FLOODED + 1)), "--",
                             "--max-neighbors", "32", env=self.heard.environment(WATCHDOG))
        live.ask("configure lldp tx-interval 1")
        return live

    def sender(self, rate: int, ports: int = FLOODED) -> Sender:
        """Starts strangers with so many frames a second on all of these ports together."""
        ends = [f"peer{number}" for number in range(ports)]
        return Sender(self, self.wires, ends, STRANGERS, rate // ports)

    def holds(self, live: Live, delay: float, rates: Sequence[int]) -> None:
        """Looks at lldpa-live while each write takes so long."""
        for rate in rates:
            sender, looks = self.sender(rate), Looks(self, live)
            silence(self.peers[QUIET], 0)  # reads what came before
            began = time.time()
            for number in range(LOOKS):
                time.sleep(max(0, looks.began + number + 1 - time.monotonic()))
                looks.look()
            sender.stop()
            quiet, lost = silence(self.peers[QUIET], began), live.number("record-lines-lost")
            signs = looks.signs.longest() - WATCHDOG / 4
            figure(self, f"writes of {1000 * delay:.0f} ms, {FLOODED} times {sender.rate():.0f} "
                         f"frames a second: seconds {looks.late:.2f} s late, own frames "
                         f"{max(0, quiet - 1):.2f}, signs of life {max(0, signs):.2f}, answers in "
                         f"{looks.slowest:.2f} s, {looks.missing} of {3 * LOOKS} missing, {lost} "
                         f"lines lost")
            self.assertEqual(looks.missing, 0)
            self.assertLess(max(looks.late, quiet - 1, signs, looks.slowest), LATE)
            assert live.recorder is not None
            said = lambda: "lines are lost, a new file begins" in live.recorder.said()
            self.assertTrue(eventually(lambda: said() == (lost > 0)))

    @by_the_clock
    def test_nothing_waits_for_writes_of_0_10_100_and_300_milliseconds(self) -> None:
        live, moments = self.begun(), None
        for delay in DELAYS:
            with self.slow_disk(live, delay):
                self.holds(live, delay, RATES)
                if delay == DELAYS[-1]:
                    moments = Moments(live)
                    moments.take()
                    self.assertLess(moments.slowest, LATE)
                    self.assertTrue(eventually(lambda: self.has_recorded(moments), 60))  # an end waits for no disk
                    for peer in self.peers:
                        silence(peer, 0)  # makes room for the shutdown frames
                    began = time.time()
                    live.signal(signal.SIGTERM)
                    self.assertEqual(live.process.wait(END), 0, live.errors())
        self.assertEqual(live.ends(), 0)  # and the record is whole
        byes = goodbyes(self.peers, began)
        figure(self, f"{len(byes)} shutdown frames in {max(byes, default=99):.2f} s")
        self.assertEqual(len(byes), FLOODED + 1)
        self.assertLess(max(byes), LATE)
        assert moments is not None
        self.assertEqual(differing(self.log, moments), [])

    def test_a_recorder_that_hangs_loses_lines_and_begins_a_whole_file(self) -> None:
        live = self.begun()
        assert live.recorder is not None
        with self.slow_disk(live, HANGS):
            self.sender(RATES[1])
            self.assertTrue(eventually(lambda: live.number("record-lines-lost") > 1000))
            self.assertEqual(live.neighbors(), 10)
        self.assertTrue(live.recorder.says("lines are lost, a new file begins"))
        moments = Moments(live)
        moments.take()
        self.assertEqual(live.ended(), 0)
        self.assertEqual(differing(self.log, moments), [])

    def has_recorded(self, moments: Moments) -> bool:
        logs = [log.read_text() for log in self.log.iterdir()]
        return all(any(f"\n{line}\n" in log for log in logs) for line in moments.answers)

    def slow_disk(self, live: Live, seconds: float) -> "contextlib.AbstractContextManager[None]":
        assert live.recorder is not None
        return slow_calls(live.recorder.process.pid, seconds)
