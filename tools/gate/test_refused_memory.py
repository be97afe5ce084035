"""Refuses memory to the built program, by a library that is loaded before the C library (refuse.c).

A run whose memory is refused ends with status 2, `lldpa: no memory` on standard error and nothing on
standard output. If one request alone is refused, it may also end as usual: the standard library asks
for the room that an iterator hints at and, if this is refused, for less.
"""
import os
import subprocess
from pathlib import Path
from typing import NamedTuple

import pytest

import examples

TOP = Path(__file__).resolve().parents[2]
PROGRAM = Path(os.environ.get("LLDPA") or TOP / "crates/lldpa/out/lldpa").absolute()
STORED = TOP / "crates/lldpa"
MANY = ["--hostname", "sw1", "--mac", "00:00:5e:00:53:01", "--management", "192.0.2.1", "--role", "bridge",
        "--max-neighbors", "128", *(f"port{number}" for number in range(64))]
CHASSIS = b"""\
local-chassis.mac=00:00:5e:00:53:01
local-chassis.name=sw1
local-chassis.descr=lldpa
local-chassis.caps=Bridge:on
local-chassis.mgmt=192.0.2.1,1,0,
"""
RUNS = {"stored run": ((STORED / "args").read_text().splitlines(), (STORED / "stdin").read_bytes(),
                       (STORED / "stdout").read_bytes()),
        "64 ports of 128 neighbors": (MANY, b"show chassis\n", CHASSIS)}
TRANSCRIPTS = [(name, words, trace) for name, words, _, trace, _ in examples.transcripts()]


class Ended(NamedTuple):
    status: int
    written: bytes
    said: bytes


NO_MEMORY = Ended(2, b"", b"lldpa: no memory\n")


@pytest.fixture(scope="module")
def library(tmp_path_factory):
    built = tmp_path_factory.mktemp("refuse") / "refuse.so"
    subprocess.run(["cc", "-O1", "-shared", "-fPIC", "-o", built, TOP / "tools/gate/refuse.c"], check=True)
    return built


def run(library, words, given, **refused):
    """Returns how a run ended, and how often it asked for memory."""
    told = library.with_suffix(".told")
    ran = subprocess.run([PROGRAM, *words], input=given, capture_output=True, timeout=60,
                         env={**os.environ, "LD_PRELOAD": str(library), "TELL_TO": str(told), **refused})
    return Ended(ran.returncode, ran.stdout, ran.stderr), int(told.read_text())


@pytest.mark.parametrize("words,given,wanted", RUNS.values(), ids=RUNS)
def test_each_request(library, words, given, wanted):
    """All requests but one of a run end it, and that one is for the list of all arguments."""
    usual, requests = run(library, words, given)
    assert usual == Ended(0, wanted, b"") and requests > 0
    survived = 0
    for number in range(1, requests + 1):
        assert run(library, words, given, REFUSE_AT=str(number), REFUSE_LATER="1")[0] == NO_MEMORY, number
        alone, _ = run(library, words, given, REFUSE_AT=str(number))
        assert alone in (NO_MEMORY, usual), number
        survived += alone == usual
    assert survived <= 1


@pytest.mark.parametrize("name,words,trace", TRANSCRIPTS, ids=[row[0] for row in TRANSCRIPTS])
def test_lines_ask_for_none(library, name, words, trace):
    """A transcript asks as often as empty input, and runs if all requests after the opening are refused."""
    _, opening = run(library, words, b"")
    usual, requests = run(library, words, trace)
    assert opening == requests > 0
    assert run(library, words, trace, REFUSE_AT=str(opening + 1), REFUSE_LATER="1")[0] == usual
