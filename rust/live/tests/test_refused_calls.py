"""Tests the filter of system calls, which is in force once everything is open."""

import errno
import os
import signal
import socket
import struct
import subprocess
from pathlib import Path
from typing import Callable, Dict, Optional, Tuple

from asking import Client
from patience import eventually
from running_live import Live, OnLinks
from seized import Seized, can_seize

# numbers of x86-64 (asm/unistd_64.h), and values of the kernel's headers
WRITE, SOCKET, SETSOCKOPT, CLONE, EXECVE, PTRACE, MKNOD, KEYCTL = 1, 41, 54, 56, 59, 101, 133, 250
MKNODAT, UNSHARE, BPF, EXECVEAT, IO_URING = 259, 272, 321, 322, 425
OPENAT, MKDIR, RENAME, DUP = 257, 83, 82, 32
CONNECT, SENDTO, SENDMSG, RECVMSG, SENDMMSG, PIDFD_GETFD = 42, 44, 46, 47, 307, 438
SOL_PACKET, PACKET_RX_RING, PACKET_TX_RING, PACKET_VERSION, PACKET_FANOUT = 263, 5, 13, 10, 18
CLONE_NEWUSER = 0x10000000
PACKET_ADD_MEMBERSHIP, PACKET_MR_PROMISC = 1, 1
FIFO = 0o10600
RING = struct.pack("IIII", 4096, 1, 2048, 2)
# takes a function that puts octets into lldpa-live's memory; returns a call and its arguments
Call = Callable[[Callable[[bytes], int]], Tuple[int, ...]]


def packet_socket(live: Live) -> int:
    """Returns the descriptor of a packet socket of an lldpa-live."""
    process = Path(f"/proc/{live.process.pid}")
    lines = process.joinpath("net/packet").read_text().splitlines()[1:]
    sockets = {f"socket:[{line.split()[8]}]" for line in lines}
    names = os.listdir(process / "fd")
    return next(int(name) for name in names if os.readlink(process / "fd" / name) in sockets)


@can_seize
class RefusedCalls(OnLinks):
    """Tests what code that takes lldpa-live over may ask of the kernel, and what is refused."""

    def setUp(self) -> None:
        super().setUp()
        self.folder.chmod(0o777)

    def begun(self) -> "Tuple[Live, Seized]":
        live = self.live("eth0")
        self.addCleanup(live.signal, signal.SIGKILL)  # a seized one does not end otherwise
        self.packet_socket = packet_socket(live)
        return live, Seized(live)

    def test_a_filter_is_in_force_for_its_one_thread_also_by_hand(self) -> None:
        for words in (["eth0"], ["--user", "daemon", "eth0"], ["eth7"]):
            live = self.live(*words, awaits=words != ["eth7"])
            self.assertTrue(eventually(lambda: live.has("live.agent=running")
                                       or live.has("live.agent=waiting")))
            status, = Path(f"/proc/{live.process.pid}/task").glob("*/status")
            self.assertIn("\nSeccomp:\t2\n", status.read_text(), words)
            live.close()

    def not_refused(self, calls: "Dict[str, Call]") -> "Dict[str, Optional[int]]":
        """Makes these calls in one lldpa-live. Returns the results of those that are not refused,
        and checks that lldpa-live goes on if all are."""
        live, thread = self.begun()
        results = {}
        for name, call in calls.items():
            result = results[name] = thread.call(*call(thread.put))
            if name.startswith("a process") and result and result > 0:
                os.kill(result, signal.SIGKILL)
            if result is None:
                return results
        wrong = {name: result for name, result in results.items() if result != -errno.EPERM}
        if not wrong:
            thread.release()
            self.becomes_neighbor(live)
            self.assertEqual(live.ended(), 0)
        return wrong

    def test_other_calls_are_refused(self) -> None:
        made = f"{self.folder}/made\0".encode()
        self.assertEqual(self.not_refused({
            "mknod": lambda put: (MKNOD, put(made), FIFO, 0),
            "mknodat": lambda put: (MKNODAT, -100, put(made), FIFO, 0),
            "a user namespace": lambda _: (UNSHARE, CLONE_NEWUSER),
            "a process": lambda _: (CLONE, signal.SIGCHLD, 0, 0, 0, 0),
            "a process in a user namespace":
                lambda _: (CLONE, signal.SIGCHLD | CLONE_NEWUSER, 0, 0, 0, 0),
            "a keyring": lambda _: (KEYCTL, 1, 0),
            "io_uring": lambda put: (IO_URING, 1, put(bytes(120))),
            "ptrace": lambda _: (PTRACE, 0, 0, 0, 0),
            "bpf": lambda put: (BPF, 0, put(bytes(64)), 64),
            "a file": lambda put: (OPENAT, -100, put(b"/etc/passwd\0"), 0, 0),
            "a folder": lambda put: (MKDIR, put(made), 0o777),
            "a name": lambda put: (RENAME, put(made), put(made)),
            "execveat": lambda put: (EXECVEAT, -100, put(b"/bin/none\0"), 0, 0, 0),
            "execve": lambda put: (EXECVE, put(b"/bin/true\0"), 0, 0)}), {})
        self.assertFalse(os.path.exists(f"{self.folder}/made"))

    def test_other_kinds_of_sockets_are_refused(self) -> None:
        kinds = ((socket.AF_INET, socket.SOCK_STREAM, 0), (socket.AF_INET, socket.SOCK_DGRAM, 0),
                 (socket.AF_INET6, socket.SOCK_STREAM, 0), (socket.AF_NETLINK, socket.SOCK_RAW, 12),
                 (socket.AF_ALG, socket.SOCK_SEQPACKET, 0),
                 (socket.AF_VSOCK, socket.SOCK_STREAM, 0))
        self.assertEqual(self.not_refused({f"{one}": lambda _, kind=one: (SOCKET, *kind)
                                           for one in kinds}), {})

    def test_no_open_file_can_be_given_away(self) -> None:
        """An accomplice listens, with whom a packet socket would leave the filter."""
        with socket.socket(socket.AF_UNIX, socket.SOCK_DGRAM) as accomplice:
            accomplice.bind(path := str(self.folder / "accomplice"))
            os.chmod(path, 0o777)
            address = struct.pack("H", socket.AF_UNIX) + path.encode() + b"\0"
            client = Client(self.begun_with().control)
            self.addCleanup(client.close)
            live, thread = self.watched, Seized(self.watched)
            ours = min(int(name) for name in os.listdir(f"/proc/{live.process.pid}/fd")
                       if self.is_stream(live, name))
            for socket_ in (ours, self.packet_socket):
                message = self.with_file(thread, self.packet_socket)
                self.assertEqual(thread.call(SENDMSG, socket_, message, 0), -errno.EPERM)
            self.assertEqual(thread.call(CONNECT, ours, thread.put(address), len(address)),
                             -errno.EPERM)
            self.assertEqual(thread.call(SENDTO, ours, thread.put(b"x"), 1, 0,
                                         thread.put(address), len(address)), -errno.EPERM)
            for call in (SENDMMSG, RECVMSG, DUP, PIDFD_GETFD):
                self.assertEqual(thread.call(call, ours, 0, 0, 0), -errno.EPERM, call)
            thread.release()
            accomplice.settimeout(0)
            with self.assertRaises(BlockingIOError):
                accomplice.recvmsg(100, 100)
        self.becomes_neighbor(live)

    def begun_with(self) -> Live:
        self.watched = self.live("eth0")
        self.addCleanup(self.watched.signal, signal.SIGKILL)
        self.packet_socket = packet_socket(self.watched)
        return self.watched

    def is_stream(self, live: Live, name: str) -> bool:
        """True if a descriptor is a socket of AF_UNIX."""
        target = os.readlink(f"/proc/{live.process.pid}/fd/{name}")
        lines = Path(f"/proc/{live.process.pid}/net/unix").read_text().splitlines()
        numbers = {line.split()[6] for line in lines[1:]}
        return target.removeprefix("socket:[").rstrip("]") in numbers

    def with_file(self, thread: Seized, descriptor: int) -> int:
        """Puts a message with an open file into lldpa-live's memory, as unix(7) says."""
        piece = thread.put(struct.pack("PN", thread.put(b"x"), 1))
        note = struct.pack("NiiiI", 20, socket.SOL_SOCKET, socket.SCM_RIGHTS, descriptor, 0)
        return thread.put(struct.pack("PIxxxxPNPNixxxx", 0, 0, piece, 1, thread.put(note),
                                      len(note), 0))

    def test_a_packet_ring_and_other_options_are_refused(self) -> None:
        options = {"a ring": (PACKET_RX_RING, RING), "a ring to send": (PACKET_TX_RING, RING),
                   "a version": (PACKET_VERSION, struct.pack("i", 2)),
                   "a fanout": (PACKET_FANOUT, struct.pack("i", 7))}
        self.assertEqual(self.not_refused({
            name: lambda put, option=option, value=value: (
                SETSOCKOPT, self.packet_socket, SOL_PACKET, option, put(value), len(value))
            for name, (option, value) in options.items()}), {})

    def test_what_is_left_is_promiscuous_mode(self) -> None:
        live, thread = self.begun()
        show = ["ip", "-n", self.wires.here, "-d", "link", "show", "dev", "eth0"]
        index = int(subprocess.check_output(show, text=True).split(":")[0])
        wanted = struct.pack("iHH8s", index, PACKET_MR_PROMISC, 0, b"")
        self.assertEqual(thread.call(SETSOCKOPT, self.packet_socket, SOL_PACKET,
                                     PACKET_ADD_MEMBERSHIP, thread.put(wanted), len(wanted)), 0)
        self.assertIn("promiscuity 1", subprocess.check_output(show, text=True))
        thread.release()
        self.assertTrue(eventually(live.ask_quietly))

    def test_what_it_needs_is_allowed(self) -> None:
        live, thread = self.begun()
        self.assertEqual(thread.call(WRITE, 9999, 0, 0), -errno.EBADF)
        thread.release()
        self.becomes_neighbor(live)
