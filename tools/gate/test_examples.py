"""Runs the transcripts, the rows and the blocks of the pages (examples.py) on the built program."""
import os
import shutil
import signal
import subprocess

import pytest

import examples
from examples import SHOW, TOP

PROGRAM = os.environ.get("LLDPA") or TOP / "crates" / "lldpa" / "out" / "lldpa"
PRLIMIT = shutil.which("prlimit")
PORTS = [f"eth{place}" for place in range(64)]
MOST = "most", ["--max-neighbors", "128", *PORTS], (TOP / "crates/lldpa/stdin").read_bytes()
RUNS = [(name, words, texts, way, runs) for name, words, texts, trace, steps in examples.transcripts()
        if not isinstance(steps, str) for way, runs in examples.ways(trace, steps)]
BLOCKS = [(name, lines) for name, lines in examples.blocks() if lines and lines[0].startswith("$ ")]


@pytest.mark.parametrize("name,steps", [(one[0], one[4]) for one in examples.transcripts()])
def test_files_agree(name, steps):
    assert not isinstance(steps, str), steps


@pytest.mark.parametrize("name,words,texts,way,runs", RUNS, ids=[f"{one[0]}, {one[3]}" for one in RUNS])
def test_transcript(name, words, texts, way, runs):
    for run in runs:
        assert examples.fault_of_run(PROGRAM, words, texts, run) is None, f"first piece {len(run[0][0])} octets"


@pytest.mark.parametrize("name,words,trace", [MOST, *((one[0], one[1], one[3]) for one in examples.transcripts())])
def test_stack_of_64_kb_suffices(name, words, trace):
    """docs/CLAIMS.md says this. The environment is on the stack, too."""
    ran = subprocess.run([PRLIMIT, "--stack=65536", PROGRAM, *words], env={}, input=trace, capture_output=True)
    assert (ran.returncode, ran.stderr) == (0, b"")


def test_stack_of_40_kb_does_not_suffice():
    ran = subprocess.run([PRLIMIT, "--stack=40960", PROGRAM, "eth0"], env={}, stdin=subprocess.DEVNULL)
    assert ran.returncode == -signal.SIGSEGV


@pytest.mark.parametrize("name,values,found", examples.rows(), ids=lambda one: one if isinstance(one, str) else "")
def test_row(name, values, found):
    assert not isinstance(found, str), found
    texts = [f"lldp.eth0.{counter}=" for counter, _ in values]
    wanted = "".join(f"{text}{value}\n" for text, (_, value) in zip(texts, values))
    assert examples.fault_of_run(PROGRAM, found[1], texts, ([found[3] + SHOW], wanted.encode())) is None


@pytest.mark.parametrize("name,lines", BLOCKS, ids=[f"{name} ({lines[0]})" for name, lines in BLOCKS])
def test_block(name, lines, tmp_path):
    as_root = {command.startswith(examples.AS_ROOT) for command in examples.commands(lines)}
    assert len(as_root) == 1, "only some of its commands begin with sudo"
    if as_root == {False}:
        (tmp_path / "lldpa").symlink_to(PROGRAM)
        assert examples.fault_of_block(lines, tmp_path) is None
