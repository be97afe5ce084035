"""Tests lldpa-ctl with a real lldpa-live, whose ports are links to a namespace."""

import re
import select
import signal
import subprocess
import time

from running_live import OnLinks
from patience import SECONDS, eventually
from served import CTL, numbered, tlv


class OnARealLink(OnLinks):

    links = 2

    def test_the_table_and_the_metrics(self) -> None:
        live = self.live("eth0", "eth1")
        sent = time.monotonic()
        self.peer("peer0").send(numbered(1, 300, tlv(5, b"\x1b[2Jswitch")))
        self.assertTrue(eventually(lambda: live.neighbors("eth0")))
        lines = live.ctl().splitlines()
        found = re.fullmatch(r"eth0  \\x1b\[2Jswitch  p1 +(\d+) s", lines[1])
        self.assertTrue(found, lines[1])
        self.assertTrue(300 >= int(found[1]) > 300 - (time.monotonic() - sent) - 1, lines[1])
        self.assertEqual(lines[2], "1 neighbor on 2 ports.")
        metrics = live.ctl("metrics")
        for sample in ('lldpa_neighbors{port="eth0"} 1', 'lldpa_received_total{port="eth0"} 1',
                       'lldpa_kernel_drops_total{port="eth0"} 0',
                       'lldpa_kernel_drops_total{port="eth1"} 0'):
            self.assertIn(sample + "\n", metrics)
        self.assertIn("live.eth1.kernel-drops=0\n", live.ctl("live"))

    def test_watch_prints_changes_and_ends_with_lldpa_live(self) -> None:
        live = self.live("eth0", "eth1")
        peer = self.peer("peer1")
        watch = subprocess.Popen([CTL, "--control", live.control, "watch"],
                                 stdout=subprocess.PIPE, text=True)
        self.addCleanup(watch.communicate)
        self.addCleanup(watch.kill)
        assert watch.stdout is not None
        count = 0

        def prints() -> bool:
            nonlocal count
            count += 1
            peer.send(numbered(9, 120, tlv(5, b"change %d" % count)))
            return bool(select.select([watch.stdout], [], [], 0)[0])
        self.assertEqual(watch.stdout.readline(), "no neighbors on 2 ports.\n")
        self.assertTrue(eventually(prints))
        self.assertRegex(watch.stdout.readline(), r" eth1 (came|changed): change \d+ p9")
        peer.send(numbered(9, 0))
        self.assertTrue(any(" eth1 gone: " in line for line in watch.stdout))
        live.signal(signal.SIGTERM)
        self.assertEqual((live.ends(), watch.wait(SECONDS)), (0, 1))

    def test_why_a_port_has_no_neighbor(self) -> None:
        live = self.live("eth0", "eth1")
        self.assertEqual(live.ctl(), "no neighbors on 2 ports.\n")
        self.peer("peer1").send(numbered(1, 300))
        live.ctl("configure", "ports", "eth0", "lldp", "status", "disabled")
        self.wires.set_link("peer1", "down")

        def says(*lines: str) -> bool:
            return bool(eventually(lambda: live.ctl().splitlines()[-len(lines):] == [*lines]))
        self.assertTrue(says("1 neighbor on 2 ports.", "eth0 is disabled", "eth1 has no link"))
        live.ctl("configure", "ports", "eth0", "lldp", "status", "rx-and-tx")
        self.wires.set_link("peer0", "down")
        self.assertTrue(says("1 neighbor on 2 ports.", "eth0, eth1 have no link"))
        self.wires.remove_link("peer0")
        self.assertTrue(says("1 neighbor on 2 ports.", "eth0: no interface that can be used",
                             "eth1 has no link"))

    def test_what_is_configured_goes_out(self) -> None:
        peer = self.peer("peer0")
        live = self.live("eth0", "eth1")
        self.assertIsNotNone(peer.hears())
        live.ctl("configure", "system", "hostname", "of the room below")
        is_told = lambda: b"of the room below" in (peer.hears(2) or b"")
        self.assertTrue(eventually(is_told, 15))  # the next regular frame is due after 30
