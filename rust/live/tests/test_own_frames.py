"""Tests what lldpa-live asks of the kernel for its sockets and its state, and faults that last."""

import signal
import time

from calls import calls_of, needs_strace, watched
from patience import by_the_clock
from running_live import OnLinks
from served import numbered
from test_rights import sockets_of
from kept import State, forged

SOL_PACKET, PACKET_IGNORE_OUTGOING = 263, 23  # linux/if_packet.h


class Calls(OnLinks):
    def test_packets_of_this_host_are_not_copied(self) -> None:
        live = self.live("eth0", "eth7")
        found = sockets_of(live)
        self.assertEqual(len(found), 2)
        for one in found:
            self.assertEqual(one.getsockopt(SOL_PACKET, PACKET_IGNORE_OUTGOING), 1)
            one.close()

    @needs_strace
    def test_the_state_is_read_without_rights(self) -> None:
        calls, state = self.folder / "calls", State()
        self.addCleanup(state.folder.cleanup)
        state.write(b"".join(forged(10)))
        live = self.live(*state.words, "--no-domain", "eth0",
                         before=watched(calls, "read,pread64,setresuid,capset"))
        self.assertEqual(live.neighbors(), 10)
        lines = calls_of(calls, "read", "pread64", "setresuid", "capset")
        reads = [place for place, line in enumerate(lines) if f"<{state.files[0]}>" in line]
        given_up = [place for place, line in enumerate(lines)
                    if line.startswith(("setresuid(", "capset("))]
        self.assertTrue(reads and given_up)
        self.assertGreater(min(reads), max(given_up))

    @needs_strace
    @by_the_clock
    def test_a_fault_of_receiving_that_lasts_holds_nothing_up(self) -> None:
        before = watched(self.folder / "calls", "recvmmsg,recvmsg,recvfrom",
                         "recvmmsg:error=EIO:when=1+")
        live, peer = self.live("eth0", before=before), self.peer()
        peer.send(numbered(1))
        time.sleep(1)
        began = time.monotonic()
        live.ask("live")
        self.assertLess(time.monotonic() - began, 1)
        used = live.used()
        time.sleep(2)
        self.assertLess(live.used() - used, 1)
        self.assertTrue(live.says("eth0"), live.errors())
        while peer.hears(0.1):
            pass
        live.signal(signal.SIGTERM)
        self.assertIsNotNone(peer.hears(2, ttl=0))
        self.assertEqual(live.ends(2), 0)
