"""Tests what a client costs whose lldpa-live was taken over: at most 30 seconds. test_evil_memory
and test_evil_watch test how much memory."""

import os
import socket
import subprocess
import tempfile
import threading
import time
import unittest
from contextlib import suppress
from pathlib import Path
from typing import Dict, Iterable, Iterator, List, NamedTuple, Optional

from patience import by_the_clock
from served import BIN, CTL
from support import FilesCase

LLDPCTL = str(BIN / "lldpctl")
MOST_MEMORY = 100_000  # kB
MOST_SECONDS = 30.0
FOR_A_LOADED_MACHINE = 10.0  # seconds more
NUMBERS = {b"tx-interval": 30, b"tx-hold": 4, b"ttl": 121, b"reinit-delay": 2, b"tx-fast-init": 4,
           b"tx-credit-max": 5, b"max-neighbors": 128, b"ports": 64}
OF_PORT = 129  # pieces of its table: the beginning, and each neighbor
PORTS = [b"interface-%05d" % number for number in range(64)]
Answers = Dict[bytes, List[bytes]]
ASK, CLI = f"{CTL} --control PATH", f"{LLDPCTL} -u PATH"


class Cost(NamedTuple):
    memory: int  # kB
    seconds: float
    status: int
    said: str
    octets: int  # of standard output


def neighbors(said: bytes, ports: int = 64) -> Iterator[bytes]:
    """Yields `show neighbors` of ports with 128 neighbors, each of which said this."""
    for port in PORTS[:ports]:
        front = b"lldp.%b." % port
        yield front + b"neighbors=128\n" + front + b"octets=1\n" + front + b"too-many=no\n"
        for place in range(1, 129):
            of_one = b"chassis.local=%d\nport.local=1\nttl=120\nexpires=100\n" % place + said
            head = front + b"%d." % place
            yield b"".join(head + line + b"\n" for line in of_one.splitlines())


def answer(pieces: List[bytes]) -> Iterator[bytes]:
    """Yields an answer of these pieces, each of whole lines."""
    yield b"=%d\n" % sum(piece.count(b"\n") for piece in pieces)
    yield from pieces


def settings() -> List[bytes]:
    lines = [b"configuration.%b=%d\n" % one for one in NUMBERS.items()]
    return lines + [b"configuration.%b.status=rx-and-tx\n" % port for port in PORTS]


def statistics() -> Iterator[bytes]:
    keys = b"sent shutdowns received discarded errors tlvs-discarded unrecognized ageouts drops"
    for port in PORTS:
        yield b"".join(b"lldp.%b.%b=0\n" % (port, key) for key in keys.split())


def chassis() -> List[bytes]:
    return [b"local-chassis.%b\n" % one for one in (b"mac=02:00:00:00:00:01", b"name=a", b"descr=b",
                                                     b"caps=Station:on")]


def live() -> Iterator[bytes]:
    yield b"live.began=2026-11-25T09:30:00Z\nlive.agent=running\n"
    for port in PORTS:
        since = b"live.%b.since.%%d=2026-11-25T09:30:00Z local=%%d local=1\n" % port
        yield from (since % (place, place) for place in range(1, 129))


def of_agent(shown: Iterable[bytes]) -> Answers:
    """Returns the answers of an agent with these neighbors."""
    shown = list(shown)
    return {b"show neighbors": shown, b"watch": shown, b"live": list(live()),
            b"show chassis": chassis(), b"show configuration": settings(),
            b"show statistics": list(statistics())}


class Evil(FilesCase):
    """A service that answers each question with what a test wants, and a client of it."""

    def served(self, answers: Answers, pause: float = 0) -> str:
        """Returns the path of a socket. An answer is sent in pieces, with pauses between them."""
        path = str(self.folder / f"control-{len(os.listdir(self.folder))}")
        self.folder.chmod(0o755)
        listening = socket.socket(socket.AF_UNIX)
        self.addCleanup(listening.close)
        listening.bind(path)
        os.chmod(path, 0o666)
        listening.listen()

        def serve() -> None:
            connection, _ = listening.accept()
            with connection, suppress(OSError), connection.makefile("rb") as lines:
                for line in lines:
                    pieces = answers.get(line.strip(), answers.get(b"", []))
                    size = OF_PORT if line.startswith(b"watch") else len(pieces) or 1
                    for begin in range(0, len(pieces) or 1, size):
                        for piece in answer(pieces[begin:begin + size]):
                            connection.sendall(piece)
                            time.sleep(pause)
        threading.Thread(target=serve, daemon=True).start()
        return path

    def cost(self, *words: str) -> Cost:
        """Runs a client, and returns what it has cost."""
        with tempfile.TemporaryFile() as errors, tempfile.TemporaryFile() as output:
            began, most = time.monotonic(), 0
            child = subprocess.Popen(words, stdout=output, stderr=errors)
            self.addCleanup(child.wait)
            self.addCleanup(child.kill)
            while child.poll() is None:
                most = max(most, memory_of(child.pid) or 0)
                time.sleep(0.003)
            errors.seek(0)
            return Cost(most, time.monotonic() - began, child.returncode,
                        errors.read().decode(), os.fstat(output.fileno()).st_size)

    def holds(self, answers: Answers, programs: List[str],
              status: Optional[int] = None) -> List[Cost]:
        """Checks what each program costs, and its status if one is given."""
        costs = []
        for program in programs:
            path = self.served(answers)
            cost = self.cost(*[path if word == "PATH" else word for word in program.split()])
            costs.append(cost)
            told = f"{program}: {cost}"
            self.assertLess(cost.memory, MOST_MEMORY, told)
            self.assertLess(cost.seconds, MOST_SECONDS + FOR_A_LOADED_MACHINE, told)
            self.assertNotIn("Traceback", cost.said, told)
            if status is not None:
                self.assertEqual(cost.status, status, told)
        return costs


def memory_of(number: int) -> Optional[int]:
    """Returns the most memory that a process has used so far, in kB."""
    with suppress(OSError, StopIteration, ValueError):
        lines = Path(f"/proc/{number}/status").read_text().splitlines()
        return int(next(line.split()[1] for line in lines if line.startswith("VmHWM:")))
    return None


class Time(Evil):
    @by_the_clock
    def test_all_answers_of_a_command_come_in_one_time(self) -> None:
        """Each answer alone takes 16 seconds."""
        answers = {line: [*[b""] * 15, b"".join(pieces)]
                   for line, pieces in of_agent(neighbors(b"", 2)).items()}
        costs: List[Cost] = []

        def run(program: str, path: str) -> None:
            costs.append(self.cost(*[path if word == "PATH" else word for word in program.split()]))
        programs = (f"{ASK} neighbors", f"{ASK} --json neighbors", f"{CLI} -f json", f"{ASK} watch")
        paths = [self.served(answers, 1) for _ in programs]
        threads = [threading.Thread(target=run, args=pair) for pair in zip(programs, paths)]
        for thread in threads:
            thread.start()
        for thread in threads:
            thread.join()
        self.assertEqual(len(costs), len(programs))
        for cost in costs:
            self.assertIn("no complete answer within 30 seconds", cost.said)
            self.assertLess(cost.seconds, MOST_SECONDS + FOR_A_LOADED_MACHINE)


if __name__ == "__main__":
    unittest.main()
