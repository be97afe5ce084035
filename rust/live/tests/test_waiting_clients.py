"""Tests how clients wait for a change of a neighbor, with a real lldpa-live."""

import select
import signal
import socket
import subprocess
import time

from patience import SECONDS, eventually
from running_live import OnLinks
from served import BIN, CTL, numbered, tlv

MOST_WATCHING = 16
NO_PLACE = "16 clients watch already"
LLDPCTL = str(BIN / "lldpctl")


def awaits_a_file(number: int) -> bool:
    """Returns whether a process waits in `poll`."""
    with open(f"/proc/{number}/wchan", encoding="ascii") as place:
        return "poll" in place.read()


class Waiting(OnLinks):
    """Each client waits until the count of changes is another one than the one that it knows."""

    def asking(self, control: str, line: str) -> socket.socket:
        connection = socket.socket(socket.AF_UNIX)
        self.addCleanup(connection.close)
        connection.connect(control)
        connection.sendall(f"{line}\n".encode())
        return connection

    def answer(self, connection: socket.socket) -> bytes:
        connection.settimeout(SECONDS)
        return connection.recv(4096)

    def test_a_client_waits_until_a_neighbor_comes_changes_or_leaves(self) -> None:
        live, peer = self.live("eth0"), self.peer("peer0")
        frames = (numbered(1), numbered(1, 120, tlv(5, b"a")), numbered(1, 0))
        for count, frame in enumerate(frames):
            self.assertEqual(live.ask("changes"), [f"live.changes={count}"])
            connection = self.asking(live.control, f"changes {count}")
            self.assertFalse(select.select([connection], [], [], 0.5)[0], "nothing has changed")
            peer.send(frame)
            self.assertEqual(self.answer(connection), b"=1\nlive.changes=%d\n" % (count + 1))
        peer.send(numbered(2))
        self.assertTrue(eventually(lambda: live.ask("changes") == ["live.changes=4"]))
        peer.send(numbered(2))
        answer = self.answer(self.asking(live.control, "changes 7"))
        self.assertEqual(answer, b"=1\nlive.changes=4\n")
        self.assertFalse(select.select([self.asking(live.control, "changes 4")], [], [], 1)[0])

    def test_some_may_wait_and_others_are_still_answered(self) -> None:
        live = self.live("eth0")
        waiting = [self.asking(live.control, "changes 0") for _ in range(MOST_WATCHING)]
        self.assertTrue(eventually(lambda: self.is_refused(live.control, 0)))
        self.assertEqual(live.ask("changes"), ["live.changes=0"])
        waiting[0].sendall(b"live\n")
        self.assertEqual(self.answer(waiting[0]), b"", "it did not wait")
        waiting.pop().close()
        place = self.asking(live.control, "changes 0")
        self.assertFalse(select.select([place], [], [], 0.5)[0])
        self.peer("peer0").send(numbered(1))
        told = (*waiting[1:], place)
        for one in told:
            self.assertEqual(self.answer(one), b"=1\nlive.changes=1\n")
        last = self.asking(live.control, "changes 1")
        self.assertTrue(self.is_refused(live.control, 1), "those that were told keep their places")
        for one in told:
            one.sendall(b"changes 1\n")
        self.assertFalse(select.select([*told, last], [], [], 0.5)[0])

    def is_refused(self, control: str, count: int) -> bool:
        answer = self.answer(self.asking(control, f"changes {count}"))
        return answer == f"=1\nerror: {NO_PLACE}\n".encode()

    def test_a_watch_for_which_there_is_no_place_ends(self) -> None:
        live = self.live("eth0")
        places = [self.asking(live.control, "changes 0") for _ in range(MOST_WATCHING)]
        self.assertTrue(eventually(lambda: self.is_refused(live.control, 0)))
        asks = [CTL, "--control", live.control]
        programs = (("lldpa-ctl", [*asks, "watch"]), ("lldpa-ctl", [*asks, "--json", "watch"]),
                    ("lldpctl", [LLDPCTL, "-u", live.control, "watch"]))
        for name, words in programs:
            ran = subprocess.run(words, capture_output=True, text=True, check=False,
                                 timeout=SECONDS)
            self.assertEqual((ran.returncode, ran.stdout, ran.stderr),
                             (1, "", f"{name}: {NO_PLACE}\n"))
        places.pop().close()
        watch = subprocess.Popen([CTL, "--control", live.control, "watch"], stdout=subprocess.PIPE)
        self.addCleanup(watch.communicate)
        self.addCleanup(watch.kill)
        self.assertTrue(eventually(lambda: self.sleeps(watch.pid)))
        self.assertTrue(self.is_refused(live.control, 0))

    def test_watches_whose_readers_have_gone_leave_their_places(self) -> None:
        live = self.live("eth0")
        asks = [CTL, "--control", live.control]
        for words in ([*asks, "watch"], [*asks, "--json", "watch"],
                      [LLDPCTL, "-u", live.control, "watch"]):
            watching = [subprocess.Popen(words, stdout=subprocess.PIPE)
                        for _ in range(MOST_WATCHING)]
            for one in watching:
                self.addCleanup(one.wait)
                self.addCleanup(one.kill)
            numbers = [one.pid for one in watching]
            self.assertTrue(eventually(lambda: all(map(awaits_a_file, numbers))
                                       and self.sleeps(*numbers)))
            self.assertTrue(self.finds_no_place(live.control))
            for one in watching:
                assert one.stdout is not None
                one.stdout.close()
            self.assertEqual({one.wait(SECONDS) for one in watching}, {1})
            self.assertTrue(eventually(lambda: not self.finds_no_place(live.control)))

    def finds_no_place(self, control: str) -> bool:
        """Returns whether a client that waits for a change is refused. Ends its wait."""
        connection = self.asking(control, "changes 0")
        is_refused = bool(select.select([connection], [], [], 0.2)[0])
        connection.close()
        return is_refused

    def test_a_quiet_watch_costs_nothing(self) -> None:
        live, peer = self.live("eth0"), self.peer("peer0")
        peer.send(numbered(1, 600))
        self.assertTrue(eventually(lambda: live.neighbors("eth0")))
        watch = subprocess.Popen([CTL, "--control", live.control, "watch"], stdout=subprocess.PIPE,
                                 text=True)
        self.addCleanup(watch.communicate)
        self.addCleanup(watch.kill)
        assert watch.stdout is not None
        while watch.stdout.readline() != "1 neighbor on 1 port.\n":
            self.assertIsNone(watch.poll())
        self.assertTrue(eventually(lambda: self.sleeps(watch.pid)))
        before = self.woken(watch.pid)
        for _ in range(3):
            peer.send(numbered(1, 600))
            self.assertFalse(select.select([watch.stdout], [], [], 1)[0])
        self.assertEqual(self.woken(watch.pid), before)
        peer.send(numbered(1, 0))
        self.assertRegex(watch.stdout.readline(), " eth0 gone: 02:00:00:00:00:01 p1\n$")
        watch.send_signal(signal.SIGINT)
        self.assertEqual(watch.wait(SECONDS), 130)

    def sleeps(self, *numbers: int) -> bool:
        before = [self.woken(number) for number in numbers]
        time.sleep(1)
        return [self.woken(number) for number in numbers] == before

    def woken(self, number: int) -> int:
        """Returns how often a process has begun to wait."""
        with open(f"/proc/{number}/status", encoding="ascii") as lines:
            return next(int(line.split()[1]) for line in lines
                        if line.startswith("voluntary_ctxt_switches"))
