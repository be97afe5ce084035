"""Tests bin/lldpa-model, which shows neighbors where lldpa is not built."""

import subprocess
import unittest
from typing import List

from served import REPOSITORY

MODEL = str(REPOSITORY / "bin" / "lldpa-model")
SWITCH = bytes.fromhex("0180c200000e02005e00530288cc020704" "02005e005302" "040505" "73777031"
                       "06020078" "0a08" "7377697463682d32" "0000")


def told(words: List[str], trace: bytes = b"") -> "subprocess.CompletedProcess[bytes]":
    return subprocess.run([MODEL, *words], input=trace, capture_output=True, check=False)


class Model(unittest.TestCase):
    def test_answers_a_line_before_the_next_one_comes(self) -> None:
        with subprocess.Popen([MODEL, "--receive-only", "eth0"], stdin=subprocess.PIPE,
                              stdout=subprocess.PIPE) as model:
            assert model.stdin is not None and model.stdout is not None
            model.stdin.write(f"rx eth0 {SWITCH.hex()}\nshow neighbors\n".encode())
            model.stdin.flush()
            self.assertEqual(model.stdout.readline(), b"lldp.eth0.neighbors=1\n")
            model.stdin.close()
            self.assertIn(b"lldp.eth0.1.chassis.name=switch-2\n", model.stdout.readlines())
        self.assertEqual(model.returncode, 0)

    def test_says_what_is_wrong_with_its_arguments(self) -> None:
        """Behind the line of lldpa, if the model knows it, it names the argument and what to do."""
        for words, line, said in (
                ([], "lldpa: no ports", "name one or more ports"),
                ([str(one) for one in range(65)], "lldpa: too many ports", "there are 65, "),
                (["eth0", "docs/lab.pcap"], "lldpa: bad port name", "'docs/lab.pcap': a name has 1 to 15 "),
                (["eth0", "eth1", "eth1"], "lldpa: same port twice", "eth1: name each port once"),
                (["--mac", "00:11", "eth0"], "lldpa: bad --mac", "--mac '00:11': it has six pairs "),
                (["--management=::1", "eth0"], "lldpa: bad --management", "--management '::1': it has four numbers "),
                (["--hostname=a\tb", "eth0"], "lldpa: bad text", "--hostname 'a\\tb': it has at most 255 "),
                (["eth0\udcff"], "lldpa: no memory", "an argument is not UTF-8"),
                (["--max-neighbors=129", "eth0"], "", "--max-neighbors '129': it is a number from 1 to 128;"),
                (["--max-neighbors", "9" * 5000, "eth0"], "", "--max-neighbors '999"),
                (["--role", "switch", "eth0"], "", "--role 'switch': it is one of bridge, router, station;"),
                (["eth0", "--mac"], "", "--mac needs a value;"),
                (["--receive-only", "eth0", "--receive-only"], "", "--receive-only is given twice;"),
                (["--receive-only=yes", "eth0"], "", "'--receive-only=yes': --receive-only has no value;"),
                (["--tick=1", "eth0"], "", "there is no option '--tick';")):
            ended = told(words)
            self.assertEqual((ended.returncode, ended.stdout), (2, b""))
            front = f"{line}\nlldpa-model: " if line else "lldpa-model: "
            self.assertTrue(ended.stderr.decode().startswith(front + said), ended.stderr)

    def test_serves_no_connections(self) -> None:
        ended = told(["--listen", "7000", "eth0"])
        self.assertEqual((ended.returncode, ended.stdout), (1, b""))
        self.assertIn(b"serves no connections: leave out --listen", ended.stderr)

    def test_has_the_help_of_lldpa(self) -> None:
        shown = told(["--help"])
        self.assertTrue(shown.stdout.endswith((REPOSITORY / "examples" / "help.txt").read_bytes()))
        self.assertEqual(told(["--version"]).stdout.split()[0], b"lldpa-model")

    def test_ends_quietly_if_nobody_reads(self) -> None:
        command = f"yes tick | head -n 50000 | {MODEL} eth0 | head -n 1"
        ended = subprocess.run(["sh", "-c", command], capture_output=True, check=True)
        self.assertEqual((len(ended.stdout.splitlines()), ended.stderr), (1, b""))


if __name__ == "__main__":
    unittest.main()
