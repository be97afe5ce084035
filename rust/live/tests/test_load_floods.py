"""Tests floods: a neighbor that is held stays, and one that is new gets in. LLDPA_LOOKS=60 tests a minute of each."""

import os
import re
import subprocess
import time
from pathlib import Path

from loads import Beside, Sender, figure, worked
from patience import by_the_clock, eventually
from running_live import Live, OnLinks
from served import GROUP_ADDRESS, numbered, tlv
from wires import Peer

LOOKS = int(os.environ.get("LLDPA_LOOKS", "30"))  # one a second
BETWEEN = 5  # seconds between two frames of a held neighbor
TTL = 20
HELD, CHANGING, NEW = 90, 91, 100  # numbers of neighbors; NEW is the first of several
FRAMES_OF_A_NEWCOMER = 3
STEADY = 5_000  # frames a second
MOST = 1 / 3  # of a processor
STARVED = 0.3  # of the time: so long lldpa-live waits for a processor only beside other work
MOST_OF_OTHERS = 1 / 10  # of a processor, if the frames are not LLDP

# ten strangers whose LLDPDU differs in each of 20,000 frames
STRANGERS = [numbered(number % 10, 120, tlv(5, b"%010d" % number)) for number in range(20_000)]


class Neighbors:
    """Neighbors at a flooded port: one that repeats itself, one that does not, and newcomers."""

    def __init__(self, peer: Peer, live: Live) -> None:
        self.peer, self.live = peer, live
        self.missing: list[str] = []
        self.tries: list[int] = []  # how many frames each newcomer has sent until it was there
        self.newcomer, self.sent = NEW, 0
        self.starved = 0  # frames that may be lost since lldpa-live had no processor
        self.before = self.counted()

    def counted(self) -> "tuple[float, float, int]":
        """Returns the time, how long lldpa-live has waited for a processor, and how many frames
        the kernel has dropped at eth0."""
        waited = Path(f"/proc/{self.live.process.pid}/schedstat").read_text().split()[1]
        drops = self.live.told("live", "live.eth0.kernel-drops")
        return time.monotonic(), int(waited) / 1e9, int(drops)

    def is_starved(self) -> bool:
        """True if, since the last call, the kernel dropped frames while other programs kept
        lldpa-live from running."""
        span, waited, drops = (now - then for now, then in zip(self.counted(), self.before))
        self.before = self.counted()
        return drops > 0 and waited > STARVED * span

    def speak(self, look: int) -> None:
        """Sends what is due before this look: held neighbors speak each five seconds."""
        if look % BETWEEN == 0:
            self.peer.send(numbered(HELD, TTL))
        if look % BETWEEN == 2:
            self.peer.send(numbered(CHANGING, TTL, tlv(5, b"look %d" % look)))
        self.peer.send(numbered(self.newcomer, TTL))
        self.sent += 1

    def look(self, look: int) -> None:
        there = {line.rpartition("ifname=p")[2] for line in self.live.ask("live")}
        self.missing += [f"{number} at look {look}" for number in (HELD, CHANGING)
                         if str(number) not in there]
        if self.is_starved() and str(self.newcomer) not in there:
            self.sent -= 1
            self.starved += 1
        if str(self.newcomer) in there or self.sent > FRAMES_OF_A_NEWCOMER:
            self.tries.append(self.sent)
            self.newcomer, self.sent = self.newcomer + 1, 0


class Floods(OnLinks):
    """Tests with a flood at eth0, at which lldpd listens too if it is installed."""

    links = 2

    def begun(self, *words: str) -> Live:
        """Starts lldpa-live, and lldpd beside it. Both learn the neighbors that must stay."""
        live = self.live("--events", *words, "eth0", "eth1", "--", "--receive-only",
                         "--max-neighbors", "128")
        self.lldpd = Beside(self, self.wires, ["eth0"])
        peer = self.peer()
        peer.send(numbered(HELD, TTL))
        peer.send(numbered(CHANGING, TTL))
        self.assertTrue(eventually(lambda: live.neighbors() == 2))
        return live

    def stay(self, live: Live, rate: int) -> Sender:
        """Checks during a flood that the neighbors stay, and what it costs."""
        neighbors = Neighbors(self.peer(), live)
        sender = Sender(self, self.wires, ["peer0"], STRANGERS, rate)
        self.assertTrue(eventually(lambda: live.neighbors() >= 12))
        began, before, of_lldpd = time.monotonic(), worked(live.process.pid), self.lldpd.worked()
        for look in range(LOOKS):
            neighbors.speak(look)
            time.sleep(max(0, began + look + 1 - time.monotonic()))
            neighbors.look(look)
        span = time.monotonic() - began
        ours, theirs = worked(live.process.pid) - before, self.lldpd.worked() - of_lldpd
        figure(self, f"{sender.rate():,.0f} frames a second; {100 * ours / span:.1f} % of a "
                     f"processor, lldpd {100 * theirs / span:.1f} %; {len(neighbors.missing)} "
                     f"missing; newcomers after {neighbors.tries} frames, "
                     f"without {neighbors.starved} for want of a processor; "
                     + self.lldpd.has(f"p{HELD}", f"p{CHANGING}"))
        self.assertEqual(neighbors.missing, [])
        self.assertGreaterEqual(len(neighbors.tries), LOOKS // (FRAMES_OF_A_NEWCOMER + 1))
        self.assertLessEqual(max(neighbors.tries), FRAMES_OF_A_NEWCOMER)
        self.assertLess(ours / span, MOST)
        self.assertIsNone(sender.process.poll())
        return sender

    @by_the_clock
    def test_of_5000_frames_a_second(self) -> None:
        self.stay(self.begun(), STEADY)

    @by_the_clock
    def test_of_as_many_frames_as_can_be_sent(self) -> None:
        live = self.begun()
        sender = self.stay(live, 0)
        self.assertGreater(sender.rate(), STEADY)
        self.assertLessEqual(live.errors().count("eth0 changed: "), 100 * 2)

    @by_the_clock
    def test_with_links_that_go_and_forget(self) -> None:
        live = self.begun("--forget-on-down")
        flapping = f"for i in $(seq {LOOKS}); do ip link set peer1 down; sleep 0.5; ip link set " \
                   "peer1 up; sleep 0.5; done"
        other = subprocess.Popen(["ip", "netns", "exec", self.wires.there, "sh", "-c", flapping])
        self.addCleanup(other.wait)
        self.addCleanup(other.kill)
        self.stay(live, 0)
        self.assertEqual(live.neighbors("eth1"), 0)
        self.assertTrue(re.search("eth1: the link is down", live.errors()))

    @by_the_clock
    def test_of_frames_that_are_not_lldp(self) -> None:
        live = self.begun()
        frames = [GROUP_ADDRESS + one[6:12] + kind + one[14:] for one in STRANGERS[:1000]
                  for kind in (b"\x08\0", b"\x86\xdd", b"\x88\x8e")]
        sender = Sender(self, self.wires, ["peer0"], frames)
        time.sleep(1)
        began, before, of_lldpd = time.monotonic(), worked(live.process.pid), self.lldpd.worked()
        time.sleep(10)
        span = time.monotonic() - began
        used, theirs = worked(live.process.pid) - before, self.lldpd.worked() - of_lldpd
        figure(self, f"{sender.rate():,.0f} frames a second; {100 * used / span:.1f} % of a "
                     f"processor, lldpd {100 * theirs / span:.1f} %")
        self.assertLess(used / span, MOST_OF_OTHERS)
