"""Runs lldpa-audit for tests, in a folder with the plan of the six ports of rack.py."""
import json
import os
import re
import subprocess
import sys
import tempfile
import traceback
import unittest
from pathlib import Path
from typing import Any, List, Mapping, NamedTuple, NoReturn, Optional, Sequence, Tuple

import rack
from patience import HANGS
from served import PROGRAM, REPOSITORY

sys.path.append(str(REPOSITORY / "audit"))
from lldpa_audit.command import main  # noqa: E402

HEAD = "host,port,peer,peer_port\n"
AUDIT = os.environ.get("LLDPA_AUDIT") or str(REPOSITORY / "bin" / "lldpa-audit")
# the agent that reads captures, and lldpa-ctl, are found on the search path
WITH_AGENT = {**os.environ, "PATH": f"{os.path.dirname(PROGRAM)}:{REPOSITORY}/bin:"
              f"{os.environ['PATH']}"}


class Row(NamedTuple):
    """An audit in a folder: its files and arguments, the status that it must have, and the lines
    that it must print (standard error first), without ages and without columns in brackets."""

    name: str
    files: Mapping[str, Any]
    words: str
    status: int
    lines: Sequence[str]


def audited(row: Row) -> Tuple[int, List[str]]:
    """Runs an audit, and returns its status and its lines."""
    with tempfile.TemporaryDirectory() as folder:
        for name, content in row.files.items():
            write(Path(folder, name), content)
        ran = run(*row.words.split(), folder=folder)
    lines = (ran.stderr.replace("lldpa-audit: ", "") + ran.stdout).splitlines()
    return ran.returncode, [re.sub(r" \[[^]]*\]$", "", line) for line in lines]


def write(path: Path, content: Any) -> None:
    """Writes octets, a text, or a value as JSON to a file. A function writes the file itself."""
    path.parent.mkdir(parents=True, exist_ok=True)
    if callable(content):
        content(path)
    elif isinstance(content, bytes):
        path.write_bytes(content)
    else:
        path.write_text(content if isinstance(content, str) else json.dumps(content))


def run(*words: str, folder: Optional[str] = None) -> "subprocess.CompletedProcess[str]":
    """Runs the program with these arguments, and removes the ages from its output."""
    ran = run_whole(*words, folder=folder)
    ran.stdout = without_ages(ran.stdout)
    return ran


def without_ages(text: str) -> str:
    """Returns the output of an audit without the ages of its sources."""
    return re.sub(r"; sources [^\n<]*$", "", text, flags=re.M)


def run_whole(*words: str, folder: Optional[str] = None) -> "subprocess.CompletedProcess[str]":
    """Runs the program. A copy of this process does, unless LLDPA_AUDIT names another program: to
    start Python and to load the modules would take most of the time of most tests."""
    if "LLDPA_AUDIT" in os.environ:
        return subprocess.run([sys.executable, AUDIT, *words], env=WITH_AGENT, cwd=folder,
                              capture_output=True, text=True, timeout=HANGS, check=False)
    with tempfile.TemporaryFile("w+") as out, tempfile.TemporaryFile("w+") as err:
        child = os.fork()
        if child == 0:
            end_as_the_program(words, folder, out.fileno(), err.fileno())
        status = os.waitstatus_to_exitcode(os.waitpid(child, 0)[1])
        out.seek(0)
        err.seek(0)
        return subprocess.CompletedProcess([*words], status, out.read(), err.read())


def end_as_the_program(words: Sequence[str], folder: Optional[str], out: int, err: int) -> NoReturn:
    """Does what the program does, in this process, and ends it."""
    status = 70
    try:
        os.dup2(os.open(os.devnull, os.O_RDONLY), 0)
        os.dup2(out, 1)
        os.dup2(err, 2)
        sys.stdout, sys.stderr = sys.__stdout__, sys.__stderr__
        os.environ.update(WITH_AGENT)
        os.chdir(folder or ".")
        status = main([*words])
    except BaseException:
        os.write(2, traceback.format_exc().encode())
    finally:
        os._exit(status)


def neighbor(port: str, host: str, port_id: str, descr: str = "", kind: str = "ifname",
             aggregate: int = 0, size: int = 0, tlvs: Sequence[str] = ()) -> str:
    """Returns what `show neighbors` prints for a port with one neighbor that sent these TLVs."""
    lines = ["neighbors=1", "octets=99", "too-many=no", f"1.chassis.local={host}",
             f"1.port.{kind}={port_id}", "1.ttl=120", "1.expires=99"]
    lines += [f"1.port.descr={descr}"] if descr else []
    lines += [f"1.org.00120f.3=03{aggregate:08x}"] if aggregate else []
    lines += [f"1.org.00120f.4={size:04x}"] if size else []
    lines += [f"1.org.{tlv}" for tlv in tlvs]
    return "".join(f"lldp.{port}.{line}\n" for line in lines)


def hears_two(port: str, *heard: Tuple[str, str]) -> str:
    """Returns what `show neighbors` prints for a port with several neighbors."""
    text = f"lldp.{port}.neighbors={len(heard)}\nlldp.{port}.octets=99\nlldp.{port}.too-many=no\n"
    for number, (host, its) in enumerate(heard, 1):
        lines = neighbor(port, host, its).splitlines(keepends=True)[3:]
        text += "".join(line.replace(f"{port}.1.", f"{port}.{number}.") for line in lines)
    return text


class InAFolder(unittest.TestCase):
    """Gives each test a folder of its own, which has the plan of the six ports."""

    def setUp(self) -> None:
        holder = tempfile.TemporaryDirectory()
        self.addCleanup(holder.cleanup)
        self.folder = Path(holder.name)
        self.plan = self.file("plan.csv", rack.csv_plan())

    def file(self, name: str, content: Any) -> str:
        """Writes a file and returns its name."""
        write(self.folder / name, content)
        return str(self.folder / name)
