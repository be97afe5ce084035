"""Compares the built program with the model on altered frames and on full tables.

Each LLDPDU is received cut after each octet, and with each octet changed to each different value:
once with an empty table, and once with the neighbor of the first LLDPDU stored, to see which
neighbor a shutdown frame removes. After each frame the neighbors and counters are compared, and the
table is emptied. Eight random traces have more neighbors than fit, and shutdown frames. Two more
have neighbors whose names have one tag in lldpa's table, so that whole names are compared.
"""
import os
import pathlib

import pytest

import compare
from made_frames import LLDPDUS, alike_trace, altered_trace, random_trace

TOP = pathlib.Path(__file__).resolve().parents[2]
PROGRAM = os.environ.get("LLDPA") or TOP / "crates/lldpa/out/lldpa"
WORDS = ["--receive-only", "--max-neighbors", "128", "eth0"]


def agree(lines):
    assert compare.difference(PROGRAM, WORDS, list(lines)) is None


@pytest.mark.parametrize("pdu", LLDPDUS, ids=bytes.hex)
def test_altered(pdu):
    agree(altered_trace(pdu))


@pytest.mark.parametrize("seed", range(1, 9))
def test_random(seed):
    agree(random_trace(seed))


@pytest.mark.parametrize("part", ["chassis", "port"])
def test_names_alike(part):
    agree(alike_trace(part))
