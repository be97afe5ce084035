"""Tests interfaces that come and go all the time: how many log files begin, and which are kept."""

import os
import shutil
import time

from calls import calls_of, needs_strace, watched
from loads import Sender, figure
from patience import eventually
from running_live import OnLinks
from served import numbered, tlv

GUESTS, SECONDS = 40, 32
MOST_HELD = 128  # neighbors that a port can hold
A_FILE = 2  # seconds whose changes are one file


class Guests(OnLinks):
    """Tests guests whose interfaces match a pattern."""

    def churn(self, guests: int, seconds: float) -> float:
        """Lets guests come, speak and go. Returns how many seconds that took."""
        began = time.monotonic()
        for number in range(guests):
            self.wires.add_guest(f"vnet{number}", f"far{number}")
            if number >= 3:
                self.wires.remove_link(f"vnet{number - 3}")
            self.peer().send(numbered(number, 600, tlv(5, b"guest %d" % number)))
            time.sleep(max(0, began + seconds * (number + 1) / guests - time.monotonic()))
        return time.monotonic() - began

    def test_they_begin_few_files_and_no_line_goes(self) -> None:
        self.keep_log_in_memory()
        live = self.recorded("eth0", "vnet*", "--", "--receive-only", "--max-neighbors",
                             str(MOST_HELD), most=1, keep=20)
        span = self.churn(GUESTS, SECONDS)
        live.comes_to(f"live.vnet{GUESTS - 1}.link=up")
        self.assertTrue(eventually(lambda: live.neighbors() == min(GUESTS, MOST_HELD)))
        self.assertEqual(live.number("record-lines-lost"), 0)
        self.assertEqual(live.ended(), 0)
        texts = [path.read_text() for path in sorted(self.log.iterdir())]
        figure(self, f"{GUESTS} guests in {span:.0f} s: {len(texts)} files")
        self.assertLessEqual(len(texts), span / A_FILE)
        for number in range(GUESTS):
            name = (b"guest %d" % number).hex()
            self.assertTrue(any(name in text for text in texts), number)

    def test_a_guest_is_a_port_at_once_and_goes_soon(self) -> None:
        live = self.live("eth0", "vnet*", "--", "--receive-only")
        self.wires.add_guest("vnet1", "far1")
        began = time.monotonic()
        live.comes_to("live.vnet1.link=up")
        self.assertLess(time.monotonic() - began, 10)
        self.peer("far1").send(numbered(1))
        self.assertTrue(eventually(lambda: live.neighbors("vnet1") == 1))
        self.wires.remove_link("vnet1")
        self.assertTrue(eventually(lambda: "vnet1" not in "\n".join(live.ask("live"))))


class OldFiles(OnLinks):
    """Tests a folder with many older log files."""

    def old(self, count: int, octets: int) -> None:
        self.log.mkdir()
        for number in range(count):
            path = self.log / f"20200101T000000Z-{number + 1}.trace"
            path.write_bytes(b"#" * (octets - 1) + b"\n")
        shutil.chown(self.log, "nobody")

    @needs_strace
    def test_the_folder_is_listed_once(self) -> None:
        self.old(3000, 10)
        calls, live = self.folder / "calls", self.live("eth0")
        self.record(live, most=1, before=watched(calls, "getdents64"))
        self.assertTrue(eventually(lambda: len(os.listdir(self.log)) > 3000))
        live.spend(1)
        listed = len(calls_of(calls, "getdents64"))
        long = [numbered(one % 25, 600 + one, tlv(5, b"n%d" % one)).ljust(1514, b"\0")
                for one in range(500)]
        Sender(self, self.wires, ["peer0"], long, 100)
        self.assertTrue(eventually(lambda: len(os.listdir(self.log)) > 3003, 60))
        self.assertEqual(len(calls_of(calls, "getdents64")), listed)

    def test_they_go_when_their_octets_are_needed_and_not_before(self) -> None:
        self.keep_log_in_memory()
        self.old(20, 100_000)  # 2 MB
        live = self.recorded("eth0", "--", "--receive-only", most=1, keep=3)
        self.assertTrue(eventually(lambda: len(os.listdir(self.log)) == 21))
        peer, sent = self.peer(), 0
        while len(os.listdir(self.log)) > 15:
            for number in range(20):
                peer.send(numbered(number, 600, tlv(5, b"n%d" % sent)).ljust(1500, b"\0"))
                sent += 1
            live.spend(1)
            self.assertEqual(live.number("record-lines-lost"), 0)
            sizes = [path.stat().st_size for path in self.log.iterdir()]
            self.assertLessEqual(sum(sizes), 3_000_000)
            if len(sizes) < 21:  # some were removed: then without one of them less would be free
                self.assertGreater(sum(sizes), 3_000_000 - 100_000 - 120_000)
        left = sorted(int(path.name.split("-")[1].split(".")[0]) for path in
                      self.log.glob("20200101*"))
        self.assertEqual(left, list(range(21 - len(left), 21)))  # the oldest are gone
