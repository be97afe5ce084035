"""Tests files that once hung the audit, ended it with a traceback, or took all memory."""
import gzip
import io
import json
import os
import random
import struct
import subprocess
import sys
import tracemalloc
from pathlib import Path
from typing import Callable, Iterator, Tuple

import rack
import shapes
from auditing import AUDIT, HEAD, InAFolder, run
from lldpa.capture.packets import interfaces_of, packets_of
from lldpa.capture.pcapng import MOST_INTERFACES
from lldpa_audit.seen.folders import read_whats
from lldpa_audit.seen.forms import read_list
from lldpa_audit.what import What
from patience import HANGS
from served import REPOSITORY
from shapes import INTERFACE, SECTION
from support import run_capture

PCAP = rack.pcap([])
# a limit far above what linear time takes, and far below quadratic time
SECONDS = 40
TEN = 10  # seconds for any one file


def captures() -> Iterator[Tuple[bytes, int, int]]:
    """Yields captures, each with the number of its interfaces and of its packets."""
    yield SECTION + INTERFACE * 20_000, 20_000, 0
    options = b"\x01\x00\x00\x00" * 1_000_000
    yield SECTION + rack.block(1, struct.pack("<HxxI", 1, 0) + options), 1, 0
    yield SECTION + INTERFACE + rack.block(99, b"") * 300_000, 1, 0
    times_that_go_back = (struct.pack("<IIII", 10**6 - at, 0, 4, 4) for at in range(300_000))
    yield PCAP + b"".join(head + b"abcd" for head in times_that_go_back), 0, 300_000
    yield gzip.compress(PCAP) + gzip.compress(b"\0") * 400_000, 0, 25_000


class Hostile(InAFolder):
    def within(self, body: Callable[[], object], result: object) -> None:
        """Checks what a function returns, and that it takes less than SECONDS at usual speed."""
        before, begin = shapes.slowness(), sum(os.times()[:4])
        self.assertEqual(body(), result)
        used = sum(os.times()[:4]) - begin
        self.assertLess(used * 2 / (before + shapes.slowness()), SECONDS)


class Captures(Hostile):
    def test_long_ones(self) -> None:
        for octets, interfaces, packets in captures():
            with self.subTest(begin=octets[:60]):
                self.within(lambda: len(interfaces_of(io.BytesIO(octets))), interfaces)
                self.within(lambda: sum(1 for _ in packets_of(io.BytesIO(octets))), packets)
                path = self.file("long", octets)
                self.within(lambda: run_capture([path]).returncode, 0)

    def test_gzip_that_unpacks_to_very_much(self) -> None:
        bomb = gzip.compress(PCAP) + gzip.compress(bytes(1 << 20), 9) * 130
        ran = run(self.plan, "--host", "leaf1", f"swp1={self.file('bomb', bomb)}")
        self.assertIn("its gzip data unpacks to more than 134,217,728 octets", ran.stderr)
        self.assertEqual(ran.returncode, 3)

    def test_more_ports_than_an_agent_has(self) -> None:
        """Checks that a note on a capture that several agents read is printed once."""
        frame = rack.lldp_frame("host01", "eth0")
        tagged = frame[:12] + bytes.fromhex("81000005") + frame[12:]
        ports = {f"swp{at}": [frame] for at in range(1, 70)}
        capture = self.file("wide", rack.pcapng({**ports, "swp70": [tagged]}))
        said = run(self.plan, "--host", "leaf1", capture).stderr
        self.assertEqual(said.count("is skipped: it is tagged"), 1, said)

    def test_a_capture_without_packets_is_as_old_as_its_file(self) -> None:
        for limit, said in (("1d", "it does not say when it is from"), ("file:1d", "silent")):
            ran = run(self.plan, "--host", "leaf1", "--stale-after", limit,
                      f"swp1={self.file('empty', PCAP)}")
            self.assertRegex(ran.stdout, f"swp1  .*{said}")

    def test_ports_that_a_shell_would_hand_on_as_options(self) -> None:
        named = rack.pcapng({"--listen": rack.frames("swp1"), "18123": rack.frames("swp2")})
        ran = run_capture(["--ports", self.file("named", named)])
        self.assertEqual((ran.returncode, ran.stdout), (2, ""))
        self.assertIn("port '--listen' looks like an option", ran.stderr)


    def test_too_many_interfaces(self) -> None:
        """Checks that interfaces are counted over all sections, and that so many are refused."""
        named = rack.block(1, struct.pack("<HxxIHH4sI", 1, 0, 2, 4, b"swp1", 0))
        half = SECTION + named * (MOST_INTERFACES // 2)
        for octets, lines in ((half * 2, 1), (half * 2 + SECTION + named, 2)):
            path = self.file("wide", gzip.compress(octets, 1))
            ran = shapes.measured(["--host", "leaf1", self.plan, f"leaf1:{path}"])
            said = f"lldpa-audit: {path}: it describes more than 262,144 interfaces\n"
            self.assertEqual((ran.faults, ran.output.count(said)), ([], lines - 1), ran)
            self.assertLess(ran.seconds, TEN)


class Lists(Hostile):
    def test_gzip_that_unpacks_to_very_much(self) -> None:
        """Checks that a small file may unpack to 4 MB, and any file to 128 times its size."""
        for text, octets in (("[" + "{}," * 10**6 + "{}]", 0),
                             ("[" + "{}," * 10**7 + "{}]", 4 << 20)):
            packed = gzip.compress(text.encode(), 9)
            ran = run(self.plan, f"leaf1:{self.file('leaf1.gz', packed)}")
            said = f"its gzip data unpacks to more than {octets:,} octets"
            self.assertEqual(said in ran.stderr, octets > 0, ran.stderr)
        rng = random.Random(5)
        noise = "".join(rng.choices("abcdefgh", k=200_000))
        for times, is_read in ((40, True), (400, False)):
            heard = [{"hostname": noise, "port": "p" * 75_000 * times}]
            text = json.dumps({"swp1": [], "x": heard})
            packed = gzip.compress(text.encode(), 9)
            self.assertEqual(len(text) < 128 * len(packed), is_read)
            ran = run(self.plan, f"leaf1:{self.file('leaf1.gz', packed)}")
            self.assertEqual(f"more than {128 * len(packed):,} octets" in ran.stderr, not is_read)

    def test_what_a_size_warrants(self) -> None:
        """Checks that a list that needs much for its size is refused in one line."""
        for name, text in (("xml", f"<rpc-reply>{'<a/>' * 10**6}</rpc-reply>"),
                           ("json", "[" + "[]," * 5 * 10**6 + "[]]")):
            path = self.file(name, text)
            most = 64 + 10 * (len(text) >> 20)
            ran = shapes.measured([self.plan, f"leaf1:{path}"])
            self.assertEqual(ran.faults, [])
            self.assertIn(f"lldpa-audit: {path}: it needs more than {most} MB of memory\n",
                          ran.output)
            self.assertLess(ran.seconds, TEN)
            self.assertLess(ran.megabytes, 300)

    def test_two_protocols_at_one_port(self) -> None:
        heard = [{"name": "eth0", "via": "LLDP" if at % 2 else "CDPv2",
                  "chassis": {"id": {"type": "local", "value": f"c{at}"}},
                  "port": {"id": {"type": "local", "value": f"p{at}"}}} for at in range(30_000)]
        text = json.dumps({"lldp": {"interface": heard}}).encode()
        self.within(lambda: len(read_list(text).ports["eth0"]), 30_000)

    def test_an_address_of_many_parts(self) -> None:
        tree = {"eth0": [{"remote_chassis_id": "0d:" * 1_000_000, "remote_port": "1"}]}
        text = json.dumps(tree)
        tracemalloc.start()
        self.addCleanup(tracemalloc.stop)
        self.assertEqual(list(read_list(text.encode()).ports), ["eth0"])
        self.assertLess(tracemalloc.get_traced_memory()[1], 50_000_000)

    def test_folders_in_folders(self) -> None:
        """Checks that folders may be nested more deeply than calls of functions."""
        inner = self.folder / "seen" / "leaf1" / "/".join("d" * 300)
        inner.mkdir(parents=True)
        (inner / "list").touch()
        self.addCleanup(sys.setrecursionlimit, sys.getrecursionlimit())
        sys.setrecursionlimit(200)
        found = list(read_whats([f"{self.folder}/seen"], "", self.fail))
        self.assertEqual(found, [What("leaf1", "", f"{inner}/list", True)])

    def test_many_unplanned_hosts(self) -> None:
        rows = "".join(f"sw{at},1,sw{at},2\n" for at in range(3000))
        plan = self.file("many", f"{HEAD}{rows}")
        for at in range(400):
            self.file(f"seen/x{at}.show", "")
        self.within(lambda: run(plan, f"{self.folder}/seen").returncode, 2)


class Shapes(InAFolder):
    """Files that once took too much time or memory. audit/tools/try-damage.py tries larger ones."""

    def test_small_ones(self) -> None:
        for name, write in shapes.SMALL.items():
            with self.subTest(shape=name):
                self.assertEqual(shapes.measured(write(self.folder)).faults, [])

    def test_large_ones(self) -> None:
        """Checks that large files are read, or refused in one line, in TEN seconds and 300 MB."""
        for name in ("1,000,000 aliases", "6,000,000 interface blocks"):
            with self.subTest(shape=name):
                ran = shapes.measured(shapes.LARGE[name](self.folder))
                self.assertEqual((ran.faults, ran.output.count("\n")), ([], 1))
                self.assertLess(ran.seconds, TEN)
                self.assertLess(ran.megabytes, 300)

    def test_limits_name_the_file(self) -> None:
        """Checks that a file that needs too much memory is reported in one line."""
        leaf1 = self.file("leaf1", "[" + "[]," * 10_000_000 + "[]]")
        leaf2 = self.file("leaf2", shapes.napalm("swp1 host02 eth0"))
        plan = self.file("plan", shapes.PLAN + "leaf2,swp1,host02,eth0\n")
        ran = shapes.measured([plan, leaf1, leaf2])
        self.assertEqual(ran.faults, [])
        self.assertIn(f"lldpa-audit: {leaf1}: it needs more than 344 MB of memory\n", ran.output)
        self.assertIn("1 right", ran.output)

    def test_memory_that_the_machine_lacks(self) -> None:
        """Checks that an audit with too little memory says so in one line, wherever that ends."""
        said = set()
        for hosts in (9, 99):
            rows = [f"s{at % hosts},p{at},h{at},e\n" for at in range(60_000)]
            plan = self.file("plan", HEAD + "".join(rows))
            for host in range(hosts):
                self.file(f"seen{hosts}/s{host}", shapes.napalm("".join(
                    f"p{at} h{at} e\n" for at in range(host, 60_000, hosts))))
            for megabytes in range(40, 130, 15):
                ran = subprocess.run(
                    ["prlimit", f"--data={megabytes << 20}", sys.executable, AUDIT, plan,
                     f"{self.folder}/seen{hosts}", "--json"],
                    capture_output=True, text=True, check=False, timeout=HANGS)
                with self.subTest(megabytes=megabytes, hosts=hosts):
                    self.assertNotIn("Traceback", ran.stderr)
                    self.assertIn((ran.returncode, len(ran.stderr.splitlines())),
                                  [(0, 0), (2, 1)])
                said.add(ran.stderr.rpartition(": ")[2])
        self.assertIn("there is not enough memory for it\n", said)

    def test_memory_that_a_limit_forbids(self) -> None:
        """Checks that a plan is not blamed if `ulimit` leaves less than its size warrants."""
        plan = self.file("plan", HEAD + "".join(f"s,p{at},h{at},e\n" for at in range(60_000)))
        leaf1 = self.file("leaf1", "{}")
        for limit in ("as", "data"):
            ran = subprocess.run(["prlimit", f"--{limit}={48 << 20}", sys.executable, AUDIT, plan,
                                  leaf1], capture_output=True, text=True, check=False)
            self.assertEqual((ran.returncode, ran.stderr), (
                2, f"lldpa-audit: {plan}: there is not enough memory for it\n"))

    def test_memory_to_start(self) -> None:
        """Checks that a program that cannot be loaded says so in one line, and no traceback."""
        program = self.file("bin/lldpa-audit", (REPOSITORY / "bin" / "lldpa-audit").read_text())
        for fault, status, said in (
                ("MemoryError", 2, "lldpa-audit: there is not enough memory to start\n"),
                ("ImportError('x.so: cannot map')", 2, "lldpa-audit: x.so: cannot map\n"),
                ("OSError(24, 'Too many open files')", 2,
                 "lldpa-audit: [Errno 24] Too many open files\n"),
                ("KeyboardInterrupt", 130, "")):
            self.file("audit/lldpa_audit/command.py", f"raise {fault}\n")
            ran = subprocess.run([sys.executable, "-I", program], capture_output=True, text=True,
                                 check=False)
            self.assertEqual((ran.returncode, ran.stderr), (status, said))


class Texts(Hostile):
    """Names that could change how a terminal, a page or a picture shows other text."""

    NAMES = ("a\x1b[2J", "\u3164\u3164", "e" + "\u0301" * 9, "\u202eabc", "\u05d0\u05d1", "<b>")

    def test_names(self) -> None:
        rows = "".join(f"leaf1,{at},{name},1\n" for at, name in enumerate(self.NAMES))
        seen = {at: [] for at, _ in enumerate(self.NAMES)}  # type: ignore[var-annotated]
        page = str(self.folder / "page")
        ran = run(self.file("p", f"{HEAD}{rows}"), f"leaf1:{self.file('l', json.dumps(seen))}",
                  "--html", page)
        self.assertEqual((ran.returncode, ran.stderr), (1, ""))
        texts = [ran.stdout, Path(page).read_text(encoding="utf-8")]
        for text in texts:
            self.assertFalse({"\x1b", "\u3164", "\u202e"} & set(text))
            self.assertNotIn("\u0301" * 3, text)
        self.assertIn("<bdi>\u05d0\u05d1</bdi>", texts[1])
