"""Runs lldpa as a child process, or connects to an lldpa that listens on 127.0.0.1."""
from __future__ import annotations

import select
import socket
import time
from contextlib import suppress
from typing import Callable, Iterable, List, Mapping, Optional, Sequence

from .child import PATIENCE, PROGRAM, Child, Option, words_of
from .framing import MARK, MARK_ANSWER, Closed, Ended, Line, Refused, checked, command, rx, ticks
from .show import Counters, Neighbor, Show, read_show
from ..limits import REFUSAL

END = b"\n" + MARK_ANSWER + b"\n"
MOST_OCTETS = 64 * 1024 * 1024  # of one answer
HOST = "127.0.0.1"
AT_ONCE = 65536
NO_ANSWER = "the agent does not answer; over TCP, it may already have another client"
SILENCE = "the agent does not answer"
NO_CONNECTION = "the agent ended the connection"
NOT_READ = "the last answer was not read completely, so nothing more can be asked"

FrameCallback = Callable[[str, bytes], object]


class Agent:
    """A running agent. Only one thread at a time may use it.

    If a call makes ports send frames, it passes each frame to `on_frame(port, octets)` before it
    returns. After `close`, each call raises Closed. A call raises Ended if the agent has ended,
    does not answer within `timeout` seconds (None: no limit), or answers with more than 64 MB.
    """

    def __init__(self, connection: socket.socket, child: Optional[Child],
                 on_frame: Optional[FrameCallback], timeout: Optional[float] = PATIENCE) -> None:
        """Uses a connected socket. Call `start` or `connect` instead."""
        self.timeout = timeout
        self._socket = connection
        self._child = child
        self._on_frame = on_frame
        self._over: Optional[Ended] = None  # the error that each further call raises
        connection.setblocking(False)
        try:
            self._exchange([], PATIENCE if timeout is None else timeout, NO_ANSWER)
        except BaseException:
            self.close(patience=0)
            raise

    @classmethod
    def start(cls, ports: Sequence[str], program: str = PROGRAM, *,
              on_frame: Optional[FrameCallback] = None, timeout: Optional[float] = PATIENCE,
              **options: Option) -> Agent:
        """Runs an agent with these ports and the program's options, such as `max_neighbors=4`.

        Raises OSError if the program does not exist, and Ended if it refuses its arguments.
        """
        child = Child(words_of(ports, program, options))
        return cls(child.socket, child, on_frame, timeout)

    @classmethod
    def connect(cls, number: int, *, on_frame: Optional[FrameCallback] = None,
                timeout: Optional[float] = PATIENCE) -> Agent:
        """Connects to the agent that listens on this TCP port of 127.0.0.1.

        Raises OSError if none listens, and Ended if the agent does not answer in `timeout` seconds.
        """
        return cls(socket.create_connection((HOST, number), timeout), None, on_frame, timeout)

    @property
    def pid(self) -> Optional[int]:
        """Returns the process ID of the child, or None if the agent is not a child."""
        return None if self._child is None else self._child.pid

    def ask(self, line: Line) -> List[str]:
        """Sends a line and returns its answer. Raises Refused, Ended or ValueError."""
        answer = self.tell([line])
        if answer and answer[0].startswith(REFUSAL):
            raise Refused(answer[0][len(REFUSAL):])
        return answer

    def tell(self, lines: Iterable[Line]) -> List[str]:
        """Sends lines and returns all their answers, including the errors of refused lines."""
        told = []
        for line in self._exchange(lines, self.timeout):
            if not line.startswith("tx "):
                told.append(line)
            elif self._on_frame is not None:
                _, port, digits = line.split(" ")
                self._on_frame(port, bytes.fromhex(digits))
        return told

    def frame(self, port: str, octets: bytes) -> None:
        """Reports a received frame to the agent, which ignores all frames except LLDP frames."""
        self.ask(rx(port, octets))

    def tick(self, seconds: int = 1) -> None:
        """Reports to the agent that this many seconds have passed."""
        for line in ticks(seconds):
            self.ask(line)

    def link(self, port: str, up: bool) -> None:
        """Reports to the agent that the link of a port came up (`up`) or went down."""
        self.ask(f"{'up' if up else 'down'} {port}")

    def configure(self, *words: str) -> None:
        """Changes a setting: `configure("system", "hostname", "sw 1")`."""
        self.ask(command("configure", *words))

    def update(self) -> None:
        """Makes each port announce the current state of this host at once."""
        self.ask("update")

    def show(self, what: str) -> Show:
        """Returns the contents of `show neighbors`, `statistics`, `chassis` or `configuration`."""
        return read_show(self.ask(command("show", what)))

    def neighbors(self) -> List[Neighbor]:
        """Returns the neighbors of all ports."""
        return self.show("neighbors").neighbors

    def statistics(self) -> Mapping[str, Counters]:
        """Returns the counters of each port by its name."""
        return self.show("statistics").counters

    def close(self, patience: float = PATIENCE) -> None:
        """Closes the agent's input. Kills a child that has not ended after `patience` seconds.

        To make peers forget a port at once, disable it first: `configure("ports", "eth0", "lldp",
        "status", "disabled")`.
        """
        self._over = Closed()
        last = time.monotonic() + patience
        with self._socket, suppress(OSError):
            self._socket.shutdown(socket.SHUT_WR)
            while (left := last - time.monotonic()) > 0:
                self._socket.settimeout(left)
                if not self._socket.recv(AT_ONCE):
                    break
        if self._child is not None:
            self._child.end(max(last - time.monotonic(), 0))

    def __enter__(self) -> Agent:
        return self

    def __exit__(self, *_: object) -> None:
        self.close()

    def _exchange(self, lines: Iterable[Line], seconds: Optional[float],
                  silence: str = SILENCE) -> List[str]:
        """Sends lines while reading, so that neither side blocks. Returns the answer."""
        unsent = memoryview(b"".join(checked(line) + b"\n" for line in lines) + MARK + b"\n")
        if self._over is not None:
            raise self._over
        self._over = Ended(None, NOT_READ)
        last = None if seconds is None else time.monotonic() + seconds
        answer = bytearray(b"\n")  # so that END is also found after an empty answer
        try:
            while not answer.endswith(END):
                event = self._wait(bool(unsent), last, silence)
                if event & select.POLLOUT:
                    unsent = unsent[self._socket.send(unsent):]
                if event & ~select.POLLOUT:
                    received = self._socket.recv(AT_ONCE)
                    if not received:
                        raise ConnectionError
                    answer += received
                if len(answer) > MOST_OCTETS:
                    raise Ended(None, "an answer of the agent has more than 64 MB")
        except ConnectionError:
            no_connection = Ended(None, NO_CONNECTION)
            self._over = no_connection if self._child is None else self._child.end()
            raise self._over from None
        self._over = None
        return answer[:-len(END)].decode("ascii").split("\n")[1:]

    def _wait(self, wants_to_write: bool, last: Optional[float], silence: str) -> int:
        """Returns what the socket is ready for. Raises Ended if it is not ready in time."""
        poller = select.poll()
        poller.register(self._socket, select.POLLIN | (select.POLLOUT if wants_to_write else 0))
        left = None if last is None else 1000 * (last - time.monotonic())
        ready = poller.poll(left) if left is None or left > 0 else []
        if not ready:
            raise Ended(None, silence)
        return ready[0][1]
