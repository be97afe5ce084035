"""Tests the memory of lldpa-live at its worst, in a control group with the limit of the unit: 64
ports of 128 hostile neighbors that change all the time, a state, four clients that record, and 60
others, 16 of which watch. Two of these read slowly, and all others read nothing.
LLDPA_SECONDS=600 tests ten minutes; in the gate it is half a minute."""

import os
import signal
import socket
import time

from kept import State
from limited import memory_group
from loads import Sender, figure
from patience import eventually
from running_live import Live, OnLinks
from served import frame, tlv

PORTS, NEIGHBORS = 64, 128
SECONDS = float(os.environ.get("LLDPA_SECONDS", "30"))
LIMIT = 256 << 20
MOST = 200 * 10 ** 6
READERS = 60
RECORDERS = 4
MOST_WATCHING = 16
SLOW = 2  # of those that watch: they read an octet after another
A_SECOND = 20  # frames on each port, after the first ones of all neighbors
FILL = 400  # frames a second on each port until all neighbors are there
CONTROL = b"\x1b"


def hostile(number: int, version: int) -> bytes:
    """Returns a frame of this neighbor whose texts are control characters, as long as it can be."""
    own = b"%03d" % number
    texts = (tlv(kind, b"%d" % version + CONTROL * 250) for kind in (4, 5, 6))
    return frame(b"\x07" + own + CONTROL * 250, b"\x07" + own + CONTROL * 250, 60_000, *texts,
                 tlv(127, b"\0\1\2\3" + bytes(190)))


FRAMES = [hostile(number, version) for version in range(4) for number in range(NEIGHBORS)]


class Budget(OnLinks):
    links = PORTS

    def setUp(self) -> None:
        super().setUp()
        group = memory_group(LIMIT)
        if group is None:
            self.skipTest("memory-cgroups: nobody may limit one here")
        assert group is not None
        self.group = group
        self.addCleanup(group.close)
        self.ends = [f"peer{number}" for number in range(PORTS)]

    def begun(self) -> Live:
        state = State()
        self.addCleanup(state.folder.cleanup)
        live = self.live(*state.words, "--events", "--forget-on-down",
                         *(f"eth{number}" for number in range(PORTS)), "--", "--max-neighbors",
                         str(NEIGHBORS), before=self.group.enter())
        folder = self.log
        for number in range(RECORDERS):  # the last one reads nothing once its head has begun
            self.log = folder / str(number)
            recorder = self.record(live)
        recorder.process.send_signal(signal.SIGSTOP)
        sender = Sender(self, self.wires, self.ends, FRAMES, FILL)
        self.assertTrue(eventually(lambda: self.held(live) == PORTS * NEIGHBORS, 60), live.errors())
        sender.stop()
        return live

    def held(self, live: Live) -> int:
        time.sleep(0.5)
        return sum(".since." in line for line in live.ask("live"))

    def reader(self, live: Live, number: int) -> socket.socket:
        """Opens a client that watches or asks for everything, and reads nothing."""
        client = socket.socket(socket.AF_UNIX)
        client.settimeout(30)
        client.connect(live.control)
        line = b"show neighbors\n" if number % 3 else b"live\n"
        client.sendall(b"watch\n" if number < MOST_WATCHING else line)
        return client

    def watched(self, live: Live) -> int:
        """Returns how many octets are used at most while 60 clients read nothing."""
        most = 0
        readers = [self.reader(live, number) for number in range(READERS)]
        for _ in range(110):  # lldpa-live ends a client that has read nothing for 10 seconds
            self.assertIsNone(live.process.poll(), live.errors()[-500:])
            most = max(most, self.group.used())
            self.assertTrue(all(slow.recv(1) for slow in readers[:SLOW]))
            time.sleep(0.1)
        for reader in readers:
            reader.close()
        return most

    def test_it_stays_below_its_limit(self) -> None:
        live = self.begun()
        Sender(self, self.wires, self.ends, FRAMES, A_SECOND)
        seen, last = [], time.monotonic() + SECONDS
        while time.monotonic() < last:
            seen.append(self.watched(live))
        most = max(seen)
        told = dict(line.split("=", 1) for line in live.ask("live") if ".since." not in line)
        resident = live.resident("VmHWM") / 1024
        figure(self, f"at most {most / 1e6:.0f} MB in {SECONDS:.0f} s, {resident:.0f} MB of them "
                     f"of the process; {told['live.record-lines-lost']} lines lost")
        self.assertEqual(self.group.killed(), 0)
        self.assertLess(most, MOST)
