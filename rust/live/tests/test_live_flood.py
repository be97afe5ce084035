"""Tests that floods of frames and many ports delay no answer, and that memory does not grow."""

import contextlib
import re
import subprocess
import time

from asking import Client
from kept import State
from patience import by_the_clock, eventually, mostly
from running_live import Live, OnLinks
from served import numbered
from wires import flood

WITHOUT_END = 1_000_000_000
QUESTIONS = 100
# an answer is late if lldpa-live uses more than this many seconds of processor time for it
LATE = 0.1
MOST_LATE = QUESTIONS // 10
MOST_KIB = 8 * 1000
A_SECOND, AT_ONCE = 64, 1024  # limits for frames that may change a port's table
A_STOP = 150_000  # frames, more than a socket of 64 MB has room for

FRAMES = [numbered(number) for number in range(200)]


def numbers(live: Live) -> dict[str, int]:
    """Returns how many frames the kernel dropped, the limit dropped, and the agent received."""
    shown = "\n".join(live.ask("live") + live.ask("show statistics"))
    return {name: int(re.search(rf"[.]{name}=(\d+)$", shown, re.M)[1])
            for name in ("kernel-drops", "limit-drops", "received")}


class TestFlood(OnLinks):
    """Tests that lldpa-live withstands neighbors that send as fast as they can."""

    def flooded(self, frames: list[bytes]) -> "tuple[Live, subprocess.Popen[bytes]]":
        """Starts an lldpa-live and an endless flood, and waits for the first frames."""
        live = self.live("eth0", "--", "--receive-only")
        sender = flood(self.wires, "peer0", frames, WITHOUT_END)
        self.addCleanup(sender.wait)
        self.addCleanup(sender.kill)
        self.assertTrue(eventually(lambda: numbers(live)["received"] > AT_ONCE
                                   or live.number("eth0.other-frames") > AT_ONCE))
        return live, sender

    @by_the_clock
    def test_questions_are_answered_meanwhile(self) -> None:
        live, sender = self.flooded(FRAMES)
        marks = [(time.monotonic(), live.used())]
        with contextlib.closing(Client(live.control)) as client:
            for _ in range(QUESTIONS):
                client.ask("show statistics")
                marks.append((time.monotonic(), live.used()))
        self.assertIsNone(sender.poll())
        times, worked = ([after[at] - before[at] for before, after in zip(marks, marks[1:])]
                         for at in range(2))
        late = sorted(seconds for seconds in worked if seconds > LATE)
        self.assertLessEqual(len(late), MOST_LATE, late)
        self.assertLess(mostly(times), 1)
        self.assertLess(live.resident("VmHWM"), MOST_KIB)

    def test_frames_of_other_kinds_hold_no_second_up(self) -> None:
        live, _ = self.flooded([one[:12] + b"\x81\0\0\5" + one[12:] for one in FRAMES])
        began, told = time.monotonic(), live.number("seconds")
        time.sleep(5)
        passed = live.number("seconds") - told
        self.assertGreaterEqual(passed, int(time.monotonic() - began) - 1)

    def test_what_the_kernel_dropped_is_told_once_a_minute(self) -> None:
        live = self.live("eth0", "--", "--receive-only")
        for count in (A_STOP, 2 * A_STOP):
            with live.stopped():
                flood(self.wires, "peer0", FRAMES, A_STOP).wait()
            self.assertTrue(live.says("the kernel has dropped"))
            eventually(lambda: sum(numbers(live).values()) == count)
            told = numbers(live)
            self.assertEqual(sum(told.values()), count, told)
            self.assertGreater(told["kernel-drops"], count // 4)
            live.spend(2)
        self.assertEqual(live.errors().count("the kernel has dropped"), 1)
        self.assertTrue(live.says("frames over the limit of 64 a second for a port were dropped:"
                                  " eth0 ") or not told["limit-drops"])

    def test_no_more_than_64_a_second_reach_the_agent(self) -> None:
        live, peer = self.receiving()
        began = time.monotonic()
        for _ in range(50):
            for octets in FRAMES[:100]:
                peer.send(octets)
            time.sleep(0.02)
        self.assertTrue(eventually(lambda: sum(numbers(live).values()) == 5000))
        a_second = A_SECOND + live.neighbors()  # one more frame of each neighbor in the table
        most = AT_ONCE + a_second * (time.monotonic() - began + 1)
        self.assertLessEqual(numbers(live)["received"], most)


class TestManyPorts(OnLinks):
    links = 64

    def test_64_full_tables_take_little_and_outlive_a_restart(self) -> None:
        state = State()
        self.addCleanup(state.folder.cleanup)
        words = [*state.words, *(f"eth{number}" for number in range(64)), "--", "--receive-only"]
        live = self.live(*words)
        for port in range(64):
            peer = self.peer(f"peer{port}")
            for number in range(32):
                peer.send(numbered(number, 600).ljust(400, b"\0"))
        full = lambda: sum(int(line.rpartition("=")[2]) for line in live.ask("show neighbors")
                           if ".neighbors=" in line) == 64 * 32
        self.assertTrue(eventually(full))
        self.assertLess(live.resident(), 16_384)
        self.assertEqual(live.ended(), 0)
        live = self.live(*words)
        self.assertTrue(full())
        self.assertLess(live.resident(), 16_384)
        self.assertLess(live.used(), 1)

    def test_frames_of_all_ports_go_in_by_their_stamps(self) -> None:
        live = self.recorded("eth0", "eth1", "eth2", "--", "--receive-only")
        peers = [self.peer(f"peer{number}") for number in range(3)]
        frames = [numbered(number % 250, ttl=1000 + number) for number in range(600)]
        with live.stopped():
            for number, frame in enumerate(frames):
                peers[0 if number < 300 else number % 3].send(frame)

        def told() -> list[str]:
            lines = next(self.log.iterdir()).read_text().splitlines()
            return [line.split()[2] for line in lines if line.startswith("rx")]

        self.assertTrue(eventually(lambda: len(told()) == 600))
        self.assertEqual(told(), [frame.hex() for frame in frames])
