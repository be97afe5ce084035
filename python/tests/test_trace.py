"""Tests the traces that the package and lldpa-capture make from captures."""

import gzip
import os
import random
import re
import select
import subprocess
import sys
from typing import List, Sequence

from lldpa import Source, Told, ports_of, trace_of
from lldpa.capture.trace import TooManyPorts
from made_captures import (FORMS, LLDP, OTHER, SECOND, START, TAGGED, Frame, block, interface,
                           lldp_frame, packet, pcap, pcapng, section, whole)
from served import REPOSITORY
from support import CAPTURE, FilesCase

RX = f"rx eth0 {LLDP.hex()}\n"


def slow_trace(frames: Sequence[Frame]) -> List[str]:
    """Computes the trace of a capture packet by packet, by the rules of lldpa-capture(1): LLDP
    frames, the seconds before each of them, and the seconds at the end."""
    lines, passed, set_back, start, latest = [], 0, 0, frames[0][0], frames[0][0]
    for time, octets, length in [*frames, (frames[-1][0], b"", 0)]:
        if latest - (time + set_back) >= SECOND:
            set_back = latest - time
        latest = max(latest, time + set_back)
        is_frame = octets.startswith(LLDP) and len(octets) == length
        if is_frame or length == 0:
            seconds = (latest - start) // SECOND - passed
            passed += seconds
            lines += [] if not seconds else ["tick"] if seconds == 1 else [f"tick {seconds}"]
        if is_frame:
            lines.append(f"rx eth0 {octets.hex()}")
    return lines


class Traces(FilesCase):
    def trace(self, *sources: Source, seconds: bool = True) -> List[str]:
        """Returns the trace of the sources. `self.notes` and `self.faults` collect the reports."""
        self.notes: List[str] = []
        self.faults: List[str] = []
        return list(trace_of(sources, Told(self.notes.append, self.faults.append), seconds))

    def test_random_times_as_the_page_says(self) -> None:
        dice = random.Random(9)
        steps = [0, 1000, 10**6, SECOND, -1000, -SECOND, 7 * SECOND, -5 * SECOND]
        for _ in range(1000):
            time, frames = START // 1000 * 1000, []
            for _ in range(dice.randrange(1, 40)):
                time += dice.choice(steps)
                frames.append(whole(dice.choice([LLDP, OTHER, OTHER, LLDP + OTHER]), time))
            file = self.file(dice.choice([pcap, pcapng])(frames))
            self.assertEqual(self.trace(Source(file)), slow_trace(frames))

    def test_several_captures_are_one_trace_by_time(self) -> None:
        one = lldp_frame(bytes(6), b"a")
        early = self.file(pcap([whole(one, START), whole(one, START + 4 * SECOND)]), "a")
        late = self.file(pcapng([whole(LLDP, START + 2 * SECOND), whole(OTHER, START + 9 * SECOND)],
                                name="swp7"), "b")
        lines = self.trace(Source(late), Source(early, "swp1"))
        self.assertEqual(lines, [f"rx swp1 {one.hex()}", "tick 2", f"rx swp7 {LLDP.hex()}",
                                 "tick 2", f"rx swp1 {one.hex()}", "tick 5"])
        again = self.trace(Source(late), Source(early, "swp1"), seconds=False)
        self.assertEqual(again, [line for line in lines if line.startswith("rx")])

    def test_two_interfaces_are_two_ports(self) -> None:
        file = section() + interface(name="swp1") + interface(name="swp2")
        file += packet(whole(LLDP), place=1) + packet(whole(LLDP, START + SECOND))
        path = self.file(file)
        digits = LLDP.hex()
        self.assertEqual(self.trace(Source(path)),
                         [f"rx swp2 {digits}", "tick", f"rx swp1 {digits}"])
        self.assertEqual(ports_of([Source(path)]), ["swp1", "swp2"])
        self.assertEqual(self.trace(Source(path, "p")),
                         [f"rx p {digits}", "tick", f"rx p {digits}"])
        self.assertEqual(self.trace(Source(path, None, {"swp2": "x"}))[0], f"rx x {digits}")

    def test_ports(self) -> None:
        a, b = self.file(pcap([]), "a"), self.file(pcapng([], name="eth0.7"), "b")
        self.assertEqual(ports_of([Source(a, "q"), Source(a), Source(a, "q"), Source(b, "p")]),
                         ["q", "eth0", "p"])
        self.assertEqual(ports_of([Source(b)]), [])
        many = section() + b"".join(interface(name=f"swp{i}") for i in range(65))
        heard = [packet(whole(LLDP), place=place) for place in range(65)]
        three = self.file(many + heard[7] + heard[64] + heard[3], "three")
        self.assertEqual(ports_of([Source(three)]), ["swp3", "swp7", "swp64"])
        with self.assertRaisesRegex(TooManyPorts, "65 ports have LLDP frames; the limit is 64"):
            ports_of([Source(self.file(many + b"".join(heard)))])

    def test_interfaces_that_are_none_of_ours(self) -> None:
        file = section() + interface(name="eth0.10") + interface(name="any", link_type=113)
        file += interface(name="eth1") + packet(whole(OTHER)) + packet(whole(LLDP))
        file += packet(whole(LLDP)) + packet(whole(LLDP), place=1) + packet(whole(LLDP), place=2)
        self.assertEqual(self.trace(Source(self.file(file))), [RX.strip().replace("eth0", "eth1")])
        name, link_type = self.faults
        self.assertIn("'eth0.10' cannot be a port", name)
        self.assertIn("--port 'eth0.10=NAME'", name)
        self.assertIn("interface 'any' is LINUX_SLL (113)", link_type)

    def test_interfaces_of_other_link_types(self) -> None:
        """Checks that an interface that is not Ethernet is no port, and that its type is named."""
        file = section() + interface(name="eth0") + interface(name="lo0", link_type=0)
        path = self.file(file + packet(whole(LLDP)) + packet(whole(LLDP), place=1))
        self.assertEqual(ports_of([Source(path)]), ["eth0"])
        self.assertEqual(self.trace(Source(path)), [RX.strip()])
        self.assertIn("interface 'lo0' is NULL (0)", self.faults[0])

    def test_a_link_type_that_comes_up_among_others_is_told(self) -> None:
        file = section() + interface(name="eth0") + interface(name="any", link_type=113)
        others = [packet(whole(OTHER, START + i * SECOND), place=i == 5) for i in range(9)]
        self.assertEqual(self.trace(Source(self.file(file + b"".join(others)))), ["tick 8"])
        self.assertEqual(len(self.faults), 1)
        unused = self.file(file + b"".join(others[:5]))
        self.assertEqual(self.trace(Source(unused)), ["tick 4"])
        self.assertEqual(self.faults, [])

    def test_frames_that_are_passed_over(self) -> None:
        long = LLDP + bytes(1500)
        frames = [whole(OTHER), (START, LLDP[:30], 99), whole(TAGGED), (START, LLDP[:9], 60),
                  whole(long), whole(LLDP[:12]), (START, LLDP[:5], 60), whole(LLDP)]
        for name, form in FORMS.items():
            with self.subTest(name):
                path = self.file(form(frames))
                self.assertEqual(self.trace(Source(path)), [RX.strip()])
                whys = [(2, "truncated to 30 of 99 octets"), (3, "tagged"),
                        (4, "truncated to 9 of 60 octets"), (5, "longer than 1514 octets")]
                want = [f"{path}: frame {number} is skipped: it is {why}"
                        for number, why in whys]
                self.assertEqual((self.notes, self.faults), (want, []))

    def test_packets_without_time_stamps(self) -> None:
        simple = block("<", 3, len(LLDP).to_bytes(4, "little") + LLDP)
        later = packet(whole(LLDP, START + 3 * SECOND))
        file = pcapng([]) + simple + packet(whole(OTHER)) + later + simple
        lines = self.trace(Source(self.file(file)))
        self.assertEqual(lines, [RX.strip(), "tick 3", RX.strip(), RX.strip()])

    def test_a_damaged_capture_is_told_and_the_others_are_read(self) -> None:
        cut = self.file(pcap([whole(LLDP)] * 3)[:-2], "cut")
        good = self.file(pcap([whole(LLDP, START + SECOND)]), "good")
        lines = self.trace(Source(cut, "p1"), Source(good, "p2"), Source("/no/such", "p3"))
        ports = [line.split()[1] for line in lines if line.startswith("rx")]
        self.assertEqual(ports, ["p1", "p1", "p2"])
        self.assertEqual(self.notes, [])
        size = len(pcap([whole(LLDP)] * 3))
        self.assertEqual(sorted(self.faults), sorted([
            f"{cut}: it ends at octet {size - 2}, inside the record at octet "
            f"{size - 16 - len(LLDP)}", "/no/such: No such file or directory"]))


class Program(FilesCase):
    def test_words(self) -> None:
        self.file(pcap([whole(LLDP), whole(LLDP, START + SECOND)]), "a")
        self.file(gzip.compress((self.folder / "a").read_bytes()), "a.gz")
        for name in ("a", "a.gz"):
            self.assertEqual(self.ran(name), (f"{RX}tick\n{RX}", "", 0))
        self.assertEqual(self.ran("a", "--no-seconds"), (RX + RX, "", 0))
        shown = f"{RX}tick\n{RX}show neighbors\nshow statistics\n"
        self.assertEqual(self.ran("--show", "a"), (shown, "", 0))
        named = f"{RX}tick\n{RX}".replace("eth0", "ge-0/0/1")
        self.assertEqual(self.ran("--port", "ge-0/0/1", "a"), (named, "", 0))
        self.assertEqual(self.ran("ge-0/0/1=a"), (named, "", 0))
        self.assertEqual(self.ran("--ports", "x=a", "a"), ("x\neth0\n", "", 0))
        self.assertEqual(self.ran("--ports", "-", octets=b""), ("eth0\n", "", 0))

    def test_modules_that_are_programs(self) -> None:
        """Checks that Python runs each module that `python3 -m lldpa` names."""
        def said(module: str, *words: str) -> str:
            path = f"{REPOSITORY}/python:{REPOSITORY}/audit"
            return subprocess.run([sys.executable, "-m", module, *words], check=True, text=True,
                                  stdout=subprocess.PIPE, env={"PYTHONPATH": path}).stdout
        programs = re.findall("python3 -m ([a-z_.]+) +([a-z-]+)", said("lldpa"))
        self.assertEqual(programs, [("lldpa.commands.capture", "lldpa-capture"),
                                    ("lldpa_audit", "lldpa-audit")])
        for module, program in programs:
            self.assertEqual(said(module, "--version").split()[0], program)

    def test_ports_of_captures_that_cannot_be_read(self) -> None:
        self.file(pcapng([whole(LLDP)], name="swp1"), "a")
        self.file(b"", "empty")
        self.assertEqual(self.ran("--ports", "a", "empty", "p=none", "q=."), (
            "swp1\neth0\np\nq\n", "lldpa-capture: empty: it is empty\n"
            "lldpa-capture: none: No such file or directory\n"
            "lldpa-capture: .: Is a directory\n", 1))

    def test_standard_input(self) -> None:
        file = pcapng([whole(LLDP)], name="swp1")
        self.assertEqual(self.ran("-", octets=file), (RX.replace("eth0", "swp1"), "", 0))
        self.assertEqual(self.ran("p=-", octets=file), (RX.replace("eth0", "p"), "", 0))
        self.assertEqual(self.ran("-", "-", octets=file)[2], 2)

    def test_a_frame_of_a_pipe_is_written_at_once(self) -> None:
        buffered = {name: value for name, value in os.environ.items() if name != "PYTHONUNBUFFERED"}
        with subprocess.Popen([sys.executable, CAPTURE, "-"], stdin=subprocess.PIPE, env=buffered,
                              stdout=subprocess.PIPE, bufsize=0) as running:
            assert running.stdin is not None and running.stdout is not None
            running.stdin.write(pcap([whole(LLDP)]))
            ready, _, _ = select.select([running.stdout], [], [], 30)
            self.assertEqual(ready, [running.stdout])
            self.assertEqual(running.stdout.readline(), RX.encode())
            running.stdin.close()

    def test_words_that_are_wrong(self) -> None:
        self.file(pcap([whole(LLDP)]), "a")
        for words, text in (
                (["--port", "s=eth0.10", "a"], "--port s=eth0.10: 'eth0.10' cannot be a port: a port's name"),
                (["-", "p=-"], "more than one file is -: standard input"),
                (["eth0.10=a"], "'eth0.10' cannot be a port: a port's name has 1 to 15"),
                (["--port", "x" * 16, "a"], "a port's name has 1 to 15"),
                ([f"p{i}=a" for i in range(65)], "65 ports have LLDP frames; the limit is 64"),
                ([], "FILE"), (["--por", "x", "a"], "--por")):
            written, said, status = self.ran(*words)
            with self.subTest(words[:2]):
                self.assertEqual((written, status), ("", 2))
                self.assertIn(text, said)
        self.assertEqual(self.ran(*[f"p{i}=a" for i in range(64)])[2], 0)

    def test_many_interfaces_of_a_file(self) -> None:
        early = b"".join(interface(name=f"swp{i}") for i in range(60))
        late = b"".join(interface(name=f"p{i}") for i in range(5))
        file = section() + early + packet(whole(LLDP)) + late
        path = self.file(file)
        self.assertEqual(self.ran(path), (RX.replace("eth0", "swp0"), "", 0))
        self.assertEqual(self.ran("--ports", path), ("swp0\n", "", 0))
        every = b"".join(packet(whole(LLDP), place=place) for place in range(65))
        path = self.file(file + every)
        self.assertEqual(self.ran(path)[::2], ("", 2))
        self.assertEqual(self.ran("--port", "all", path)[::2], (RX.replace("eth0", "all") * 66, 0))

    def test_files_that_are_no_captures(self) -> None:
        self.file(b"", "empty")
        self.assertEqual(self.ran("empty"), ("", "lldpa-capture: empty: it is empty\n", 1))
        gone = "lldpa-capture: gone: No such file or directory\n"
        self.assertEqual(self.ran("gone"), ("", gone, 1))
        self.assertEqual(self.ran(str(self.folder))[2], 1)
