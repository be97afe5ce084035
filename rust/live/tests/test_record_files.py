"""Tests the files of a record: replays, sizes, and disks that must not stop lldpa-live."""

import os
import re
import shutil
import signal
import subprocess

from running_live import Live, OnLinks, Recorder
from patience import by_the_clock, eventually
from replays import Moments, differing
from served import numbered, tlv
from wires import Peer, flood

# frames of 25 neighbors, whose LLDPDU changes with each frame
LONG = [numbered(number % 25, 600 + number, tlv(5, b"n%d" % number)).ljust(1514, b"\0")
        for number in range(200)]


class TestFiles(OnLinks):
    links = 2

    def size(self) -> int:
        return sum(path.stat().st_size for path in self.log.iterdir())

    def test_each_file_replays_alone_to_the_tables_that_were_there(self) -> None:
        live = self.recorded("eth0", "eth1", "--", "--max-neighbors", "20", most=1, keep=9)
        peer, many, moments = self.peer("peer1"), self.peer("peer0"), Moments(live)
        live.ask('configure system description "a log\'s own"')
        live.ask("configure lldp tx-interval 7")
        for number in range(6):
            peer.send(numbered(number, 20 + 40 * number))
        self.assertTrue(eventually(lambda: live.neighbors("eth1") == 6))
        for number in range(12):
            for octets in LONG[:100] if number % 2 else LONG[100:]:
                many.send(octets)
            peer.send(numbered(5 - number % 3, 30 + number))
            live.spend(1)
            moments.take()
            self.assertLessEqual(self.size(), 9_000_000)
        peer.send(numbered(0, ttl=0))
        moments.take()
        self.wires.set_link("eth1", "down")
        live.comes_to("live.eth1.link=down")
        self.assertEqual(live.ended(), 0)
        self.assertGreater(len(list(self.log.iterdir())), 2)
        self.assertTrue(any(line == "lldp.eth0.too-many=yes" for line in
                            list(moments.answers.values())[-1]))
        self.assertEqual(differing(self.log, moments), [])

    def test_oldest_files_give_way(self) -> None:
        self.log.mkdir()
        shutil.chown(self.log, "nobody")
        for hour in range(3):
            old = self.log / f"2020010{hour + 1}T000000Z.trace"
            old.write_bytes(b"#" * 999_999)
        (self.log / "of-somebody-else").write_bytes(b"x")
        live = self.recorded("eth0", most=1, keep=2)
        self.assertTrue(eventually(lambda: not (self.log / "20200101T000000Z.trace").exists()))
        self.assertTrue((self.log / "of-somebody-else").exists())
        flood(self.wires, "peer0", LONG, 5_000).wait()
        self.assertTrue(eventually(lambda: not list(self.log.glob("2020*"))))
        self.assertTrue(live.answers())
        self.assertLessEqual(self.size(), 2_000_001)

    def lost(self, recorder: Recorder) -> int:
        """Waits until a file has begun after a fault. Returns how many lines it says were lost."""
        self.assertTrue(recorder.says("a new file has begun; "))
        return int(re.findall("begun; ([0-9]+) lines? lost meanwhile", recorder.said())[-1])

    def test_file_or_folder_that_is_changed_or_removed_is_told_and_another_file_follows(
            self) -> None:
        live = self.live("eth0")
        recorder = self.record(live)
        os.truncate(next(self.log.iterdir()), 0)
        live.ask("update")  # a line for the record
        self.assertTrue(recorder.says("the file was removed or changed"))
        self.assertGreater(self.lost(recorder), 0)
        self.assertEqual(sorted(path.stat().st_size > 0 for path in self.log.iterdir()),
                         [False, True])
        shutil.rmtree(self.log)
        live.ask("update")
        self.assertTrue(eventually(lambda: recorder.said().count("a new file has begun") == 2))
        self.assertEqual(len(list(self.log.iterdir())), 1)
        self.replays(live)

    def replays(self, live: Live) -> None:
        """Checks that what was recorded leads to the present tables."""
        moments = Moments(live)
        moments.take()
        self.assertEqual(live.ended(), 0)
        self.assertEqual(differing(self.log, moments), [])

    def goes_on(self, live: Live, peer: Peer) -> None:
        """Checks that lldpa-live answers and sends."""
        live.ask("update")
        self.assertIsNotNone(peer.hears())

    @by_the_clock
    def test_a_recorder_that_stands_still_holds_nothing_up(self) -> None:
        peer, live = self.peer(), self.live("eth0", "eth1", "--", "--max-neighbors", "1")
        recorder = self.record(live)
        recorder.process.send_signal(signal.SIGSTOP)
        flood(self.wires, "peer0", LONG, 3_000).wait()
        flood(self.wires, "peer1", LONG, 3_000).wait()  # over 4 MB together, as text
        self.assertTrue(eventually(lambda: live.number("record-lines-lost") > 100))
        self.goes_on(live, peer)
        recorder.process.send_signal(signal.SIGCONT)
        self.assertTrue(recorder.says("lines are lost, a new file begins"))
        self.assertIn(f"{live.number('record-lines-lost')} lines are lost", recorder.said())
        self.replays(live)

    @by_the_clock
    def test_an_end_does_not_wait_for_it(self) -> None:
        peer, live = self.peer(), self.live("eth0")
        recorder = self.record(live)
        self.goes_on(live, peer)
        recorder.process.send_signal(signal.SIGSTOP)
        while peer.hears(0.1):
            pass
        live.signal(signal.SIGTERM)
        self.assertIsNotNone(peer.hears(2, ttl=0))
        self.assertEqual(live.process.wait(2), 0)

    def test_each_of_four_records_all(self) -> None:
        live = self.live("eth0", "eth1", "--", "--max-neighbors", "20")
        folder, recorders = self.log, []
        for number in range(4):
            self.log = folder / str(number)
            recorders.append(self.record(live))
        live.comes_to("live.recorders=4")
        flood(self.wires, "peer0", LONG, 2_000).wait()
        moments = Moments(live)
        moments.take()
        self.assertEqual(live.ended(), 0)
        for number, recorder in enumerate(recorders):
            self.assertTrue(recorder.has_all())
            self.assertEqual(differing(folder / str(number), moments), [], recorder.said())


class Disks(OnLinks):
    """Tests disks that are full, read-only or stand still. Only the recorder waits for them."""

    def mount(self, *words: str) -> None:
        self.log.mkdir(exist_ok=True)
        subprocess.run(["mount", *words, self.log], check=True, capture_output=True)
        self.addCleanup(subprocess.run, ["umount", "-l", self.log], check=False)

    def holds(self, live: Live, peer: Peer) -> None:
        """Checks that lldpa-live answers, sends and counts its seconds."""
        live.ask("update")
        self.assertIsNotNone(peer.hears())
        live.spend(2)
        self.assertIn("lldp.eth0.neighbors=", "\n".join(live.ask("show neighbors")))

    def goes_on(self, live: Live, recorder: Recorder) -> None:
        """Checks that a new file begins, which leads to the present tables."""
        self.assertTrue(recorder.says("a new file has begun; "))
        moments = Moments(live)
        moments.take()
        self.assertEqual(live.ended(), 0)
        self.assertEqual(differing(self.log, moments), [])

    def test_a_full_disk(self) -> None:
        self.mount("-t", "tmpfs", "-o", "size=64k", "none")
        peer, live = self.peer(), self.live("eth0", "--", "--max-neighbors", "60")
        recorder = self.record(live)
        for number in range(60):
            peer.send(numbered(number, 600).ljust(1500, b"\0"))
        self.assertTrue(recorder.says("nothing is recorded for a while: No space left on device"))
        self.holds(live, peer)
        files = set(self.log.iterdir())
        subprocess.run(["mount", "-o", "remount,size=16m", self.log], check=True)
        self.goes_on(live, recorder)
        self.assertEqual(recorder.said().count("No space left"), 1, "said once")
        self.assertEqual(len(set(self.log.iterdir()) - files), 1, "no file is empty")
        self.assertTrue(all(path.read_bytes().endswith(b"\n") for path in self.log.iterdir()))

    def test_a_read_only_disk(self) -> None:
        self.mount("-t", "tmpfs", "-o", "size=16m", "none")
        peer, live = self.peer(), self.live("eth0")
        recorder = self.record(live)
        os.truncate(next(self.log.iterdir()), 0)  # its next file finds the disk as it is then
        live.ask("update")
        remounted = ["mount", "-o", "remount,bind,ro", self.log]
        subprocess.run(["mount", "--bind", self.log, self.log], check=True)
        self.addCleanup(subprocess.run, ["umount", "-l", self.log], check=False)
        subprocess.run(remounted, check=True)
        self.assertTrue(recorder.says("nothing is recorded for a while"))
        self.holds(live, peer)
        subprocess.run(["mount", "-o", "remount,bind,rw", self.log], check=True)
        self.goes_on(live, recorder)

    def test_a_disk_that_stands_still(self) -> None:
        disk = self.folder / "disk"
        with disk.open("wb") as file:
            file.truncate(16_000_000)
        made = subprocess.run(["mkfs.ext4", "-q", disk], capture_output=True)
        try:
            self.mount("-o", "loop", str(disk))
        except subprocess.CalledProcessError:
            self.skipTest("loop-mounts: a file system in a file cannot be mounted here")
        self.assertEqual(made.returncode, 0)
        peer, live = self.peer(), self.live("eth0")
        recorder = self.record(live)
        subprocess.run(["fsfreeze", "-f", self.log], check=True)
        self.addCleanup(subprocess.run, ["fsfreeze", "-u", self.log], capture_output=True)
        self.holds(live, peer)
        subprocess.run(["fsfreeze", "-u", self.log], check=True)
        shutil.rmtree(self.log / "lost+found")
        moments = Moments(live)
        moments.take()
        self.assertEqual(live.ended(), 0)
        self.assertEqual(differing(self.log, moments), [], recorder.said())
