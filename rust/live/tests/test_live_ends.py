"""Tests how lldpa-live ends, even if something hinders it."""

import contextlib
import os
import signal
import socket
import struct
import subprocess
import sys
import time
from typing import Optional

from running_live import OnLinks
from patience import by_the_clock, eventually
from served import numbered
from wires import Peer, ttl_of

SO_TIMESTAMPNS = 35  # asm-generic/socket.h


class TestEnds(OnLinks):
    """Tests that lldpa-live ends soon, after it has sent shutdown frames."""

    @by_the_clock
    def test_each_signal_sends_shutdown_frames(self) -> None:
        for number, statuses in ((signal.SIGINT, {0}), (signal.SIGTERM, {0}),
                                 (signal.SIGTERM, {0, -signal.SIGTERM})):
            peer, live = self.peer(), self.live("eth0")
            self.assertIsNotNone(peer.hears(), number)
            live.signal(number)
            self.assertIsNotNone(peer.hears(2, ttl=0), (number, live.errors()))
            if len(statuses) > 1:
                live.signal(number)
            self.assertIn(live.ends(2), statuses, number)
            self.assertEqual(live.errors(), "")

    def test_by_nohup_a_hangup_reads_no_settings(self) -> None:
        live = self.live("eth0", preexec_fn=lambda: signal.signal(signal.SIGHUP, signal.SIG_IGN))
        live.signal(signal.SIGHUP)
        time.sleep(0.3)
        self.assertTrue(live.ask_quietly())
        self.assertEqual(live.errors(), "")

    def test_standard_input_is_not_read(self) -> None:
        for options in ({"stdin": subprocess.DEVNULL}, {"stdin": subprocess.PIPE},
                        {"preexec_fn": lambda: os.close(0), "stdin": None}):
            live = self.live("eth0", **options)
            if live.process.stdin is not None:
                live.process.stdin.write(b"configure lldp tx-hold 9\n")
                live.process.stdin.close()
            live.spend(1)
            self.assertIn("configuration.tx-hold=4", live.ask("show configuration"))

    @by_the_clock
    def test_errors_that_nobody_reads_do_not_hold_the_end(self) -> None:
        reading, writing = os.pipe()
        os.set_blocking(writing, False)
        with contextlib.suppress(BlockingIOError):  # once the pipe is full
            while True:
                os.write(writing, b"x" * 4096)
        os.set_blocking(writing, True)
        live = self.live("eth0", "eth9", stderr=writing)
        live.signal(signal.SIGTERM)
        self.assertEqual(live.ends(2), 0)
        os.close(reading)
        os.close(writing)


def stamped(peer: Peer) -> Optional[float]:
    """Returns when a shutdown frame reached a peer (wall clock), or None if none came."""
    peer.socket.settimeout(0.01)
    with contextlib.suppress(OSError):
        while True:
            octets, notes, _, _ = peer.socket.recvmsg(2000, 100)
            if ttl_of(octets) == 0:
                return float(struct.unpack("ll", notes[0][2])[0]
                             + struct.unpack("ll", notes[0][2])[1] / 1e9)
    return None


class TestManyEnds(OnLinks):
    """Tests how an lldpa-live with 64 ports and full tables ends on a busy host."""

    links = 64

    @by_the_clock
    def test_64_full_ports_take_leave_in_time_beside_a_full_load(self) -> None:
        live = self.live(*(f"eth{number}" for number in range(64)))
        peers = [self.peer(f"peer{number}") for number in range(64)]
        for peer in peers:
            peer.socket.setsockopt(socket.SOL_SOCKET, SO_TIMESTAMPNS, 1)
            for number in range(32):
                peer.send(numbered(number, 600))
        self.assertTrue(eventually(lambda: sum(live.neighbors(f"eth{number}")
                                               for number in range(64)) == 64 * 32))
        busy = [subprocess.Popen([sys.executable, "-c", "while True: pass"])
                for _ in range(2 * len(os.sched_getaffinity(0)))]
        for one in busy:
            self.addCleanup(one.wait)
            self.addCleanup(one.kill)
        time.sleep(1)
        began = time.time()
        live.signal(signal.SIGTERM)
        self.assertEqual(live.ends(), 0, live.errors())
        came = [stamp for stamp in map(stamped, peers) if stamp is not None]
        self.assertEqual(len(came), 64)
        self.assertLess(max(came) - began, 1.5)
        self.assertEqual(live.errors(), "")
