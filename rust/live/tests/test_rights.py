"""Tests what an attacker who takes over lldpa-live can still do, and what the kernel refuses."""

import array
import ctypes
import os
import signal
import socket
import struct
import subprocess
import sys
import unittest
from pathlib import Path

from patience import eventually
from running_live import Live, OnLinks
from served import numbered
from wires import inside

SO_ATTACH_FILTER, SO_DETACH_FILTER, SO_LOCK_FILTER = 26, 27, 44
SOL_PACKET, PACKET_ADD_MEMBERSHIP, PACKET_RX_RING = 263, 1, 5
PACKET_MR_PROMISC = 1
CAP_NET_RAW = 13
SYS_PIDFD_OPEN, SYS_PIDFD_GETFD = 434, 438


def what_is_refused(packets: socket.socket) -> list[str]:
    """Returns which of three calls the kernel refuses. Each call would let a socket read more."""
    code = array.array("B", struct.pack("HBBI", 6, 0, 0, 0xFFFF))
    program = struct.pack("HP", 1, code.buffer_info()[0])
    refused = []
    for name, number, value in (("detach", SO_DETACH_FILTER, struct.pack("i", 0)),
                                ("attach", SO_ATTACH_FILTER, program),
                                ("unlock", SO_LOCK_FILTER, struct.pack("i", 0))):
        try:
            packets.setsockopt(socket.SOL_SOCKET, number, value)
        except PermissionError:
            refused.append(name)
    return refused


def sockets_of(live: Live) -> list[socket.socket]:
    """Returns duplicates of the packet sockets of an lldpa-live."""
    libc = ctypes.CDLL(None, use_errno=True)
    pid = libc.syscall(SYS_PIDFD_OPEN, live.process.pid, 0)
    found = []
    for name in os.listdir(f"/proc/{live.process.pid}/fd"):
        number = libc.syscall(SYS_PIDFD_GETFD, pid, int(name), 0)
        if number >= 0:
            try:
                one = socket.socket(fileno=number)
            except OSError:
                os.close(number)
                continue
            if one.family == socket.AF_PACKET:
                found.append(one)
            else:
                one.close()
    os.close(pid)
    return found


def status_of(pid: int) -> dict[str, str]:
    """Returns the fields of /proc/PID/status."""
    lines = Path(f"/proc/{pid}/status").read_text().splitlines()
    return dict(line.split(":\t", 1) for line in lines if ":\t" in line)


class TestFilter(OnLinks):
    """Tests the filter of a packet socket, which nobody can remove, and what is still possible."""

    links = 2

    def test_kernel_refuses_on_the_sockets_of_a_running_lldpa_live(self) -> None:
        live = self.live("eth0", "eth7", "--", "--receive-only")  # there is no eth7 yet
        found = sockets_of(live)
        self.assertEqual(len(found), 2)
        for one in found:
            self.assertEqual(what_is_refused(one), ["detach", "attach", "unlock"])
            one.close()
        self.becomes_neighbor(live)

    def socket(self) -> socket.socket:
        """Starts an lldpa-live, and returns a duplicate of its packet socket."""
        self.watched = self.live("eth0", "--", "--receive-only")
        one = sockets_of(self.watched)[0]
        self.addCleanup(one.close)
        return one

    def test_bound_to_another_interface_it_reads_lldp_frames_alone(self) -> None:
        one = self.socket()
        self.watched.signal(signal.SIGSTOP)  # it would read the frame from the same socket
        with inside(self.wires.here):
            one.bind(("eth1", 3))
        sender = self.peer("peer1")
        sender.send(bytes.fromhex("ffffffffffff02005e0053770800") + b"a secret" * 9)
        sender.send(numbered(1))
        one.settimeout(5)
        self.assertEqual(one.recv(2000), numbered(1))

    def test_what_is_left_is_to_send_any_frame(self) -> None:
        one = self.socket()
        with inside(self.wires.there):
            listener = socket.socket(socket.AF_PACKET, socket.SOCK_RAW, socket.htons(0x0800))
        self.addCleanup(listener.close)
        listener.bind(("peer1", 0x0800))
        listener.settimeout(5)
        with inside(self.wires.here):
            one.bind(("eth1", 3))
        no_lldp = bytes.fromhex("ffffffffffff02005e0053770800") + b"anything" * 9
        one.send(no_lldp)
        self.assertEqual(listener.recv(2000), no_lldp)

    def test_what_is_left_is_a_packet_ring_and_promiscuous_mode(self) -> None:
        one = self.socket()
        with inside(self.wires.here):
            number = socket.if_nametoindex("eth1")
            show = ["ip", "-d", "link", "show", "dev", "eth1"]
            self.assertIn("promiscuity 0", subprocess.check_output(show, text=True))
            one.setsockopt(SOL_PACKET, PACKET_ADD_MEMBERSHIP,
                           struct.pack("iHH8s", number, PACKET_MR_PROMISC, 0, b""))
            self.assertIn("promiscuity 1", subprocess.check_output(show, text=True))
        one.setsockopt(SOL_PACKET, PACKET_RX_RING, struct.pack("IIII", 4096, 1024, 2048, 2048))


class TestSets(OnLinks):
    def test_bounding_set_is_empty(self) -> None:
        live = self.live("eth0")
        pid = live.process.pid
        asker, = Path(f"/proc/{pid}/task/{pid}/children").read_text().split()  # for the host's domain
        self.assertTrue(eventually(lambda: status_of(int(asker))["NoNewPrivs"].strip() == "1"
                                   and "0" not in status_of(int(asker))["Uid"].split()))
        for one in (*os.listdir(f"/proc/{pid}/task"), asker):
            self.keeps_nothing(int(one), "65534")

    def test_another_user_can_be_named(self) -> None:
        self.keeps_nothing(self.live("--user", "daemon", "eth0").process.pid, "1")

    def test_a_user_of_its_own_is_taken_if_there_is_one(self) -> None:
        users = self.folder / "passwd"
        own = "_lldpa:x:23457:23458::/nonexistent:/usr/sbin/nologin\n"
        users.write_text(Path("/etc/passwd").read_text() + own)
        live = self.live("eth0", before=[
            "unshare", "--mount", "sh", "-c",
            'mount --bind "$1" /etc/passwd && shift && exec "$@"', "sh", str(users)])
        status = status_of(live.process.pid)
        self.assertEqual(set(status["Uid"].split()), {"23457"})
        self.assertEqual(set(status["Gid"].split()), {"23458"})

    def test_a_capability_left_in_the_bounding_set_cannot_be_regained(self) -> None:
        self.folder.chmod(0o777)
        live = self.live("eth0", before=[  # the rights that the service's unit gives
            "setpriv", "--reuid=1", "--regid=1", "--clear-groups", "--inh-caps=+net_raw",
            "--ambient-caps=+net_raw", "--bounding-set=-all,+net_raw"])
        for thread in os.listdir(f"/proc/{live.process.pid}/task"):
            status = status_of(int(thread))
            self.assertEqual(int(status["CapBnd"], 16), 1 << CAP_NET_RAW)
            for kind in ("CapInh", "CapPrm", "CapEff", "CapAmb"):
                self.assertEqual(int(status[kind], 16), 0, kind)
            self.assertEqual(status["NoNewPrivs"].strip(), "1")
        self.becomes_neighbor(live)

    def keeps_nothing(self, thread: int, user: str) -> None:
        """Checks that a thread has no capabilities, and has this user and group."""
        status = status_of(thread)
        for kind in ("CapBnd", "CapInh", "CapPrm", "CapEff", "CapAmb"):
            self.assertEqual(int(status[kind], 16), 0, kind)
        self.assertEqual(status["Groups"].strip(), "")
        self.assertEqual(status["NoNewPrivs"].strip(), "1")
        for kind in ("Uid", "Gid"):
            self.assertEqual(set(status[kind].split()), {user}, kind)

    def test_groups_are_dropped_where_it_is_not_root(self) -> None:
        self.folder.chmod(0o777)
        live = self.live("eth0", before=[
            "setpriv", "--reuid=1", "--regid=1", "--groups=4,24", "--inh-caps=+net_raw,+setgid",
            "--ambient-caps=+net_raw,+setgid"])
        status = status_of(live.process.pid)
        self.assertEqual(status["Groups"].strip(), "")
        for kind in ("CapInh", "CapPrm", "CapEff", "CapAmb"):
            self.assertEqual(int(status[kind], 16), 0, kind)
        self.becomes_neighbor(live)

    def test_no_other_process_of_its_user_reaches_into_it(self) -> None:
        self.folder.chmod(0o777)
        user = ["setpriv", "--reuid=1", "--regid=1", "--clear-groups"]
        live = self.live("eth0", before=[*user, "--inh-caps=+net_raw", "--ambient-caps=+net_raw"])
        for name in ("mem", "environ"):
            looked = subprocess.run([*user, sys.executable, "-c", "import sys; open(sys.argv[1])",
                                     f"/proc/{live.process.pid}/{name}"],
                                    capture_output=True, text=True, check=False)
            self.assertIn("PermissionError", looked.stderr, name)
