"""Tests LLDPDUs that are dear to compare: 200 TLVs that all change, on many ports at once."""

import signal
import subprocess
import time

from heard import Heard
from loads import Beside, Sender, Signs, full_load, dear, figure, goodbyes, stamped
from patience import by_the_clock, eventually
from running_live import Live, OnLinks
from served import CTL

PORTS = 16
A_SECOND = 100  # frames on each port
WATCHDOG = 30  # seconds, as in the service; a sign of life is due four times in them
DUE = WATCHDOG / 4
LATE = 1.0  # seconds after it is due, for an answer, and for all shutdown frames
SLOWER = 3  # times, on two processors beside a full load
SPAN = 17  # seconds


class Dear(OnLinks):
    """Tests that signs of life, answers and the end come in time meanwhile."""

    links = PORTS

    def setUp(self) -> None:
        super().setUp()
        self.heard = Heard(self.folder)
        self.addCleanup(self.heard.close)
        self.peers = [self.peer(f"peer{number}") for number in range(PORTS)]
        for peer in self.peers:
            stamped(peer)

    def loaded(self) -> Live:
        """Starts an lldpa-live like the service's, and the senders."""
        live = self.live("--events", "--forget-on-down", *(f"eth{one}" for one in range(PORTS)),
                         env=self.heard.environment(WATCHDOG))
        self.sender = Sender(self, self.wires, [f"peer{one}" for one in range(PORTS)],
                             [dear(number) for number in range(200)], A_SECOND)
        return live

    def asks_for(self, live: Live, seconds: float, signs: Signs) -> float:
        """Asks again and again. Returns the longest time of an answer."""
        last, slowest = time.monotonic() + seconds, 0.0
        while (begin := time.monotonic()) < last:
            live.ask("show statistics")
            slowest = max(slowest, time.monotonic() - begin)
            signs.take()
            time.sleep(0.1)
        return slowest

    def holds(self, live: Live, most: float) -> None:
        """Checks that nothing is later than this many seconds, and prints what was measured."""
        signs = Signs(self.heard)
        slowest = self.asks_for(live, SPAN, signs)
        silence, rate = signs.longest() - DUE, self.sender.rate()
        taken = int(live.told("show statistics", "lldp.eth0.received")) / SPAN
        began = time.time()
        live.signal(signal.SIGTERM)
        status = live.ends()
        byes = goodbyes(self.peers, began)
        figure(self, f"{PORTS} times {rate:.0f} frames a second, {taken:.0f} for the agent; signs "
                     f"of life at most {max(0, silence):.2f} s late, answers in {slowest:.2f} s, "
                     f"{len(byes)} shutdown frames in {max(byes, default=99):.3f} s")
        self.assertGreater(rate, 0.8 * A_SECOND)
        self.assertGreater(taken, 1)
        self.assertEqual(status, 0, live.errors()[-500:])
        self.assertLessEqual(silence, most)
        self.assertLessEqual(slowest, most)
        self.assertEqual(len(byes), PORTS)
        self.assertLessEqual(max(byes), most)

    @by_the_clock
    def test_nothing_waits_for_them(self) -> None:
        live, lldpd = self.loaded(), Beside(self, self.wires, [f"eth{one}" for one in range(PORTS)])
        self.holds(live, LATE)
        figure(self, f"lldpd beside it: {lldpd.has('p0')}")

    @by_the_clock
    def test_nothing_waits_while_somebody_watches(self) -> None:
        live = self.loaded()
        lines = self.folder / "watched"
        with lines.open("wb") as file:
            watch = subprocess.Popen([CTL, "--control", live.control, "watch"], stdout=file,
                                     stderr=file)
        self.addCleanup(watch.wait)
        self.addCleanup(watch.kill)
        self.assertTrue(eventually(lambda: " changed: " in lines.read_text()))
        self.holds(live, LATE)

    @by_the_clock
    def test_nothing_waits_long_on_two_busy_processors(self) -> None:
        with full_load(2):
            self.holds(self.loaded(), SLOWER * LATE)

    def test_all_that_changed_is_there(self) -> None:
        live = self.live("--events", "eth0", "--", "--receive-only")
        for number in (1, 2):
            self.peers[0].send(dear(number))
            self.assertTrue(eventually(
                lambda: f"org.000000.1={number:02x}" in "\n".join(live.ask("show neighbors"))))
        shown = [line for line in live.ask("show neighbors") if ".org." in line]
        self.assertEqual({line.rpartition("=")[2] for line in shown}, {"02"})
        self.assertEqual(len(shown), 200)
        self.assertTrue(live.says("eth0 changed: "))
