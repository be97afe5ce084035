"""Tests agents of the package: as a child process, and over a connection."""

import doctest
import os
import signal
import socket
import subprocess
import tracemalloc
import unittest
from pathlib import Path
from typing import List, Optional, Tuple
from unittest import mock

import lldpa
from lldpa.agent.framing import Closed, Ended, Refused, command, ticks
from lldpa.agent.synchronous import Agent
from lldpa.agent.shown import Counters
from lldpa.limits import LONGEST_LINE
from made_captures import LLDP, OTHER
from patience import eventually
from served import PROGRAM
from support import FilesCase

NO_ANSWER = "the agent does not answer; over TCP, it may already have another client"
# the frame that port eth0 sends without options
DEFAULT_FRAME = bytes.fromhex(
    "0180c200000e02000000000188cc02070402000000000104050565746830060200790804657468300a096c6f63"
    "616c686f73740c056c6c6470610e04008000800000")


def started(*ports: str, **options: lldpa.agent.synchronous.Option) -> Agent:
    """Starts an agent with these ports, by default eth0."""
    return Agent.start(ports or ["eth0"], PROGRAM, **options)


class Asked(unittest.TestCase):
    def test_the_names_of_the_package(self) -> None:
        """Checks that each public name is there, and that the names loaded later are public."""
        self.assertEqual([name for name in lldpa.__all__ if not hasattr(lldpa, name)], [])
        later = {name for names in lldpa.LATER.values() for name in names}
        self.assertEqual(later - {*lldpa.__all__}, set())

    def test_the_example_of_the_package(self) -> None:
        path = f"{Path(PROGRAM).parent}{os.pathsep}{os.environ['PATH']}"
        with mock.patch.dict(os.environ, PATH=path):
            result = doctest.testmod(lldpa)
        self.assertEqual((result.failed, result.attempted), (0, 3))

    def test_a_neighbor_comes_and_goes(self) -> None:
        with started(receive_only=True) as agent:
            agent.frame("eth0", OTHER)
            self.assertEqual(agent.neighbors(), [])
            agent.frame("eth0", LLDP)
            agent.tick(20)
            (neighbor,) = agent.neighbors()
            self.assertEqual((neighbor.port, neighbor.ttl, neighbor.expires), ("eth0", 120, 100))
            self.assertEqual(agent.statistics()["eth0"].received, 1)
            agent.link("eth0", False)
            agent.frame("eth0", LLDP)
            self.assertEqual(agent.statistics()["eth0"].received, 1)
            agent.link("eth0", True)
            agent.tick(70000)
            self.assertEqual(agent.neighbors(), [])
            self.assertEqual(agent.statistics()["eth0"].ageouts, 1)

    def test_answers_are_whole(self) -> None:
        with started("p1", "p2") as agent:
            self.assertEqual(agent.ask("# nothing"), [])
            self.assertEqual(agent.ask(""), [])
            self.assertEqual(len(agent.ask("show neighbors")), 6)
            self.assertEqual(len(agent.ask("show statistics")), 2 * len(Counters._fields))

    def test_a_refused_line_is_told_with_its_text(self) -> None:
        with started() as agent:
            for line, text in (("rx eth9 00", "no such port"), ("tick 65536", "out of range"),
                               (b"\xff", "unknown command"), ("rx eth0 abc", "bad hexadecimal")):
                with self.assertRaises(Refused) as refused:
                    agent.ask(line)
                self.assertEqual(refused.exception.text, text)
            self.assertEqual(len(agent.ask("show chassis")), 4)

    def test_a_line_that_is_none_is_not_written(self) -> None:
        with started() as agent:
            for line in ("show chassis\ntick", "#" * (LONGEST_LINE + 1)):
                with self.assertRaises(ValueError):
                    agent.ask(line)
            self.assertEqual(agent.ask("# so long".ljust(LONGEST_LINE)), [])
            self.assertEqual(agent.statistics()["eth0"].sent, 0)

    def test_frames_that_ports_send(self) -> None:
        frames: List[Tuple[str, bytes]] = []
        with Agent.start(["eth0"], PROGRAM, on_frame=lambda *frame: frames.append(frame)) as agent:
            self.assertEqual(agent.ask("tick"), [])
            self.assertEqual(frames, [("eth0", DEFAULT_FRAME)])
            agent.update()
            self.assertEqual(len(frames), 2)
            agent.configure("system", "hostname", "sw 1")
            self.assertIn(b"\x0a\x04sw 1", frames[2][1])
            self.assertEqual(agent.show("configuration").configuration.statuses,
                             {"eth0": "rx-and-tx"})

    def test_much_is_told_and_answered_at_once(self) -> None:
        lines = 20_000
        with started() as agent:
            told = agent.tell(["show chassis"] * lines)
        self.assertEqual(len(told), lines * 4)

    def test_words_and_seconds_as_lines(self) -> None:
        self.assertEqual(command("x", "", "sw 1", "#y"), 'x "" "sw 1" "#y"')
        self.assertEqual([ticks(0), ticks(1)], [[], ["tick"]])
        self.assertEqual(ticks(131072), ["tick 65535", "tick 65535", "tick 2"])
        with self.assertRaises(ValueError):
            ticks(-1)

    def test_options(self) -> None:
        with started(max_neighbors=3, hostname="-x y", receive_only=False, mac=None) as agent:
            self.assertEqual(agent.show("configuration").configuration.max_neighbors, 3)
            self.assertEqual(agent.show("chassis").chassis.name, "-x y")


class EndedAgents(FilesCase):
    """Tests agents that have ended or do not exist."""

    def test_bad_words(self) -> None:
        for words, text in ((["a.b"], "lldpa: bad port name"), ([], "lldpa: no ports")):
            with self.assertRaises(Ended) as ended:
                Agent.start(words, PROGRAM)
            self.assertEqual((ended.exception.status, ended.exception.text), (2, text))
        with self.assertRaises(FileNotFoundError):
            Agent.start(["eth0"], "/no/such/program")

    def test_a_killed_agent_is_told_by_its_signal(self) -> None:
        with started() as agent:
            os.kill(agent.pid, signal.SIGKILL)
            with self.assertRaises(Ended) as ended:
                agent.ask("tick")
            self.assertEqual(ended.exception.status, -signal.SIGKILL)
            self.assertIn("SIGKILL", ended.exception.text)
            for call in (lambda: agent.ask("tick"), agent.neighbors, agent.update,
                         lambda: agent.frame("eth0", bytes(60)), lambda: agent.tell([])):
                with self.assertRaises(Ended) as later:
                    call()
                self.assertEqual((later.exception.status, later.exception.text),
                                 (ended.exception.status, ended.exception.text))

    def test_a_name_is_no_list_of_ports(self) -> None:
        for ports in ("eth0", b"eth0"):
            with self.assertRaisesRegex(TypeError, "list of names"):
                Agent.start(ports, PROGRAM)

    def test_a_program_that_does_not_answer(self) -> None:
        with self.assertRaises(Ended) as ended:
            Agent.start(["60"], "sleep", timeout=0.2)
        self.assertEqual((ended.exception.status, ended.exception.text), (None, NO_ANSWER))

    def test_an_agent_that_stops_is_waited_for_no_longer_than_its_timeout(self) -> None:
        with started() as agent:
            agent.timeout = 0.5
            os.kill(agent.pid, signal.SIGSTOP)
            with self.assertRaises(Ended) as ended:
                agent.neighbors()
            self.assertEqual(ended.exception.text, "the agent does not answer")
            os.kill(agent.pid, signal.SIGCONT)

    def test_a_program_that_talks_without_end(self) -> None:
        self.addCleanup(tracemalloc.stop)
        tracemalloc.start()
        for stream, seconds, text in ((1, 60, "an answer of the agent has more than 64 MB"),
                                      (2, 1, NO_ANSWER)):
            program = self.file(f"#!/bin/sh\nyes >&{stream}\n".encode())
            os.chmod(program, 0o755)
            with self.assertRaises(Ended) as ended:
                Agent.start(["y"], program, timeout=seconds)
            self.assertEqual(ended.exception.text, text)
        _, most = tracemalloc.get_traced_memory()
        self.assertLess(most, 200_000_000)

    def test_an_agent_that_was_closed(self) -> None:
        agent = started()
        number = agent.pid
        agent.close()
        with self.assertRaises(ProcessLookupError):
            os.kill(number, 0)
        for call in (lambda: agent.ask("tick"), agent.neighbors, agent.update):
            with self.assertRaisesRegex(Closed, "the agent was closed"):
                call()
        agent.close()

    def test_an_answer_that_was_broken_off(self) -> None:
        def broken(port: str, octets: bytes) -> None:
            raise KeyError(port)
        with Agent.start(["eth0"], PROGRAM, on_frame=broken) as agent:
            with self.assertRaises(KeyError):
                agent.ask("tick")
            self.assertEqual(agent.statistics()["eth0"].sent, 1)


class Listening(unittest.TestCase):
    """Tests an agent that serves connections."""

    def setUp(self) -> None:
        with socket.create_server(("127.0.0.1", 0)) as free:
            self.number = free.getsockname()[1]
        words = [PROGRAM, "--receive-only", "--listen", str(self.number), "--connections", "3"]
        self.process = subprocess.Popen([*words, "eth0"])
        self.addCleanup(self.process.wait)
        self.addCleanup(self.process.kill)
        self.first = eventually(self.connected)
        self.addCleanup(self.first.close)

    def connected(self) -> Optional[Agent]:
        """Returns a connection to the agent, or None if the agent does not listen yet."""
        try:
            return Agent.connect(self.number)
        except ConnectionRefusedError:
            return None

    def test_what_one_client_tells_the_next_one_is_shown(self) -> None:
        self.first.frame("eth0", LLDP)
        with self.assertRaises(Ended) as ended:
            Agent.connect(self.number, timeout=0.2)
        self.assertIn("another client", ended.exception.text)
        self.first.close()
        with Agent.connect(self.number) as second:
            self.assertEqual(len(second.neighbors()), 1)

    def test_a_listening_agent_that_ends(self) -> None:
        self.process.kill()
        with self.assertRaises(Ended) as ended:
            self.first.ask("tick")
        self.assertIsNone(ended.exception.status)
