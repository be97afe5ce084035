"""Asks the built program questions over a connection, and checks how soon it answers."""
import contextlib
import os
import pathlib
import socket
import subprocess
import time

from compare import asked, connected, free_port
from model import COUNTERS
from patience import by_the_clock

TOP = pathlib.Path(__file__).resolve().parents[2]
PROGRAM = os.environ.get("LLDPA") or TOP / "crates/lldpa/out/lldpa"
PORTS = [f"p{place}" for place in range(64)]
QUESTIONS = 100

# The second line is refused, and its refusal marks the end of an answer.
QUESTION = b"show statistics\nx\n"
END = b"error: unknown command\n"

# An answer is late after this many seconds. Some may be late, since a machine may be busy.
LATE = 0.02
MOST_LATE = QUESTIONS // 4


@contextlib.contextmanager
def listening(*words):
    """Runs the program, and yields it with the number of its port."""
    number = free_port()
    with subprocess.Popen([PROGRAM, "--listen", number, *words], stdin=subprocess.DEVNULL) as program:
        try:
            yield number, program
        finally:
            program.kill()


def answer(client):
    """Receives an answer, including the mark at its end."""
    octets = b""
    while not octets.endswith(END):
        piece = client.recv(65536)
        assert piece, octets
        octets += piece
    return octets


@by_the_clock
def test_answers_come_at_once():
    """Without TCP_NODELAY the last piece of an answer would wait about 40 milliseconds, until the piece
    before is acknowledged."""
    late = 0
    with listening("--receive-only", *PORTS) as (number, program), connected(number, program) as client:
        client.setsockopt(socket.IPPROTO_TCP, socket.TCP_NODELAY, 1)
        for _ in range(QUESTIONS):
            begin = time.perf_counter()
            client.sendall(QUESTION)
            assert answer(client).count(b"\n") == len(COUNTERS) * len(PORTS) + 1
            late += time.perf_counter() - begin > LATE
    assert late <= MOST_LATE


def test_a_program_that_may_serve_the_most_connections_serves_some():
    with listening("--connections", "65535", "--receive-only", "eth0") as (number, program):
        for _ in range(5):
            assert asked(connected(number, program), b"x\n") == END
        assert program.poll() is None
