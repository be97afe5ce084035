"""Compares what the agent and lldpa-ctl write with the files by which the audit's own tests read it.

`python3 audit/tests/samples/agent/record.py` writes the files anew. Then run `make audit`.
"""
import sys
import unittest

from served import REPOSITORY

AGENT = REPOSITORY / "audit" / "tests" / "samples" / "agent"
sys.path.append(str(AGENT))
from record import recorded  # noqa: E402


class Formats(unittest.TestCase):
    def test_each(self) -> None:
        for name, text in recorded().items():
            with self.subTest(name):
                self.assertEqual(text, (AGENT / name).read_text())
