"""Tests that a new lldpa-live continues with the state that the previous lldpa-live left."""

import os
import signal
import time
from datetime import datetime

from asking import since_of
from lldpa import Neighbor
from patience import eventually
from kept import WithState, forged
from replaced import LONG
from replays import Moments, differing
from served import numbered


class Restarts(WithState):
    """Tests what an lldpa-live restores."""

    def ended(self) -> tuple[list[Neighbor], float, dict[tuple[str, str], str]]:
        """Starts an lldpa-live and ends it. Returns the neighbors, the moment at which they were
        read, and since when lldpa-live has heard each neighbor."""
        live = self.begun(*self.state.words)
        since = since_of(live.ask("live"))
        neighbors, moment = self.neighbors(live), time.monotonic()
        self.assertEqual(live.ended(), 0)
        return neighbors, moment, since

    def test_no_neighbor_is_lost_and_their_seconds_go_on(self) -> None:
        before, began, since = self.ended()
        self.assertEqual([path.stat().st_mode & 0o777 for path in self.state.files], [0o600] * 2)
        time.sleep(2)
        live = self.recorded(*self.state.words, "eth0", "eth1")
        self.stays(before, began, live)
        self.assertEqual(since_of(live.ask("live")), since)
        moments = Moments(live)
        moments.take()
        self.peers[0].send(numbered(1, 0))
        self.assertTrue(eventually(lambda: live.neighbors() == 2))
        moments.take()
        self.assertEqual(live.ended(), 0)
        self.assertEqual(differing(self.log, moments), [])
        live = self.live(*self.state.words, "eth0")
        self.assertEqual(live.neighbors(), 2)

    def test_a_port_whose_link_is_down_can_forget(self) -> None:
        self.ended()
        self.wires.set_link("peer0", "down")
        live = self.live(*self.state.words, "--forget-on-down", "eth0", "eth1")
        self.assertEqual([live.neighbors(port) for port in ("eth0", "eth1")], [0, 1])

    def test_a_state_that_cannot_be_used_is_told(self) -> None:
        self.ended()
        whole = self.state.read()
        first, rest = whole.split(b"\n", 1)
        *words, wall, moment = first.split(b" ")
        head, (wall_clock, boot_clock) = b" ".join(words), (float(wall), float(moment))
        old = b"%s %.3f %.3f\n" % (head, wall_clock - LONG - 10, boot_clock - LONG - 10)
        booted = b"%s %.3f %.3f\n" % (head, wall_clock + 1000, boot_clock + 1000)
        for octets, why in ((whole[:-3], "or damaged"), (b"x" * 99, "or damaged"),
                            (old + rest, "can still be present"),
                            (first.replace(b".", b"0", 1) + b"\n" + rest, "or damaged"),
                            (booted + rest, "rebooted since"),
                            (whole.replace(b"rx ", b"update\nrx ", 1), "a malformed line"),
                            (whole.replace(b"rx eth0", b"rx eth7", 1), "when each neighbor came"),
                            (b"\xff" + whole, "or damaged")):
            self.state.write(octets)
            live = self.live(*self.state.words, "eth0", "eth1")
            self.assertTrue(live.says("the state is not used: "), why)
            self.assertIn(why, live.errors())
            self.assertEqual(live.neighbors(), 0)
            live.process.kill()
            live.process.wait()

    def test_within_one_boot_the_clock_may_be_set_meanwhile(self) -> None:
        before, began, since = self.ended()
        first, rest = self.state.read().split(b"\n", 1)
        *words, wall, moment = first.split(b" ")
        for step in (-3600, 3600, 10 ** 8):  # the clock now shows so much more than then
            head = [*words, b"%.3f" % (float(wall) - step), moment]
            self.state.write(b" ".join(head) + b"\n" + rest)
            live = self.live(*self.state.words, "eth0", "eth1")
            self.assertEqual(live.errors(), "")
            self.stays(before, began, live)
            came = [datetime.fromisoformat(one.replace("Z", "+00:00")).timestamp()
                    for one in since_of(live.ask("live")).values()]
            then = [datetime.fromisoformat(one.replace("Z", "+00:00")).timestamp()
                    for one in since.values()]
            for now, one in zip(sorted(came), sorted(then)):
                self.assertAlmostEqual(now - one, step, delta=1.1)
            live.process.kill()
            live.process.wait()

    def test_a_state_of_somebody_else_is_not_used(self) -> None:
        self.ended()
        kept, first = self.state.read(), self.state.files[0]
        other = first.parent / "other"
        other.write_text("of root")
        other.chmod(0o600)
        for change in (lambda: os.chown(first, 12345, -1),
                       lambda: os.chmod(first, 0o644),
                       lambda: os.link(first, f"{first}.2"),
                       lambda: (first.unlink(), first.symlink_to(other)),
                       lambda: (first.unlink(), os.mkfifo(first, 0o600))):
            self.state.write(kept)
            change()
            live = self.live(*self.state.words, "eth0", "eth1")
            self.assertTrue(live.says("the state is not used: "))
            self.assertEqual(live.neighbors(), 0)
            self.assertEqual(live.ended(), 0)
        self.assertEqual(other.read_text(), "of root")

    def test_a_state_on_a_disk_is_not_used(self) -> None:
        if os.statvfs(self.folder).f_fsid == os.statvfs("/dev/shm").f_fsid:
            self.skipTest("loop-mounts: this folder is in memory")
        live = self.live("--state", str(self.folder / "state"), "eth0")
        self.assertTrue(live.says("the state is not used: it must be in memory (tmpfs)"))

    def test_it_is_written_each_minute_so_that_a_crash_loses_little(self) -> None:
        live = self.begun(*self.state.words)
        before, began, since = self.neighbors(live), time.monotonic(), since_of(live.ask("live"))
        self.assertTrue(eventually(lambda: self.state.count() == 4, 75))
        self.assertEqual(live.ended(signal.SIGKILL), -signal.SIGKILL)
        for _ in range(2):  # also after a kill in the first minute
            live = self.live(*self.state.words, "eth0", "eth1")
            self.stays(before, began, live)
            self.assertEqual(since_of(live.ask("live")), since)
            self.assertEqual(live.ended(signal.SIGKILL), -signal.SIGKILL)

    def test_neighbors_that_were_kept_are_no_news(self) -> None:
        self.ended()
        live = self.live(*self.state.words, "--events", "eth0", "eth1")
        self.peers[1].send(numbered(4, LONG))
        self.assertTrue(live.says("eth1 came: 02:00:00:00:00:04 p4"))
        self.assertEqual(live.errors().count("came"), 1)
        self.peers[1].send(numbered(9, 0))
        self.assertTrue(live.says("eth1 gone: 02:00:00:00:00:09 p9"))

    def test_8192_neighbors_of_one_port_take_less_than_a_second(self) -> None:
        self.state.write(b"".join(forged(8192)))
        live = self.live(*self.state.words, "eth0", "eth1", "--", "--max-neighbors", "128")
        self.assertEqual((live.errors(), live.neighbors()), ("", 128))
        self.assertLess(live.used(), 1)

    def test_a_state_of_very_many_seconds_holds_nothing_up(self) -> None:
        first, lines, end = forged(1)
        self.state.write(first + lines + b"tick 60000\n" * 100_000 + end)
        began = time.monotonic()
        live = self.live(*self.state.words, "eth0", "eth1")
        self.assertIn("the state is not used: ", live.errors())
        self.assertLess(time.monotonic() - began, 10)
