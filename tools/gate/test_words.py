"""Runs the program with right and wrong arguments and streams: its status, and what it says and writes."""
import os
import random
import subprocess
import sys
from fnmatch import fnmatchcase
from pathlib import Path

import pytest

TOP = Path(__file__).resolve().parents[2]
PROGRAM = Path(os.environ.get("LLDPA") or TOP / "crates/lldpa/out/lldpa").absolute()
MODEL = TOP / "tools/model/model.py"
FRAME = ("0180c200000e02000000000188cc02070402000000000104050565746830060200790804657468300a096c6f63616c686f7374"
         "0c056c6c6470610e04008000800000")
CHASSIS = """\
local-chassis.mac=00:00:5e:00:53:01
local-chassis.name=last
local-chassis.descr=lldpa
local-chassis.caps=Router:on"""
UNREAD = """\
mkfifo gone; { read -r _ < gone; echo tick; } | { lldpa eth0; echo $? > ended; } | { exec <&-; echo > gone; }
until [ -s ended ]; do sleep 0.1; done; exit "$(cat ended)\""""

# The status, standard error, a command with empty input, and standard output unless it is empty. A text that begins
# with `*` is a pattern. The specification asks for the first nine.
ROWS = [
    (2, "lldpa: no ports", "lldpa"),
    (2, "lldpa: same port twice", "lldpa eth0 eth0"),
    (2, "lldpa: bad port name", "lldpa a.b"),
    (2, "lldpa: bad --mac", "lldpa --mac 00:11 eth0"),
    (2, "lldpa: bad --management", "lldpa --management 192.0.2.01 eth0"),
    (2, "*--max-neighbors*", "lldpa --max-neighbors 129 eth0"),
    (2, "*cannot be used multiple times*", "lldpa --hostname a --hostname a eth0"),
    (2, "*--listen*", "lldpa --listen 0 eth0"),
    (2, "*--listen*", "lldpa --listen 70000 eth0"),
    # ports and texts
    (2, "lldpa: no ports", "lldpa --receive-only --"),
    (2, "lldpa: too many ports", "lldpa $(seq 65)"),
    (2, "lldpa: too many ports", "lldpa a.b $(seq 64)"),
    (2, "lldpa: too many ports", "lldpa $(yes p | head -n 65)"),
    (2, "lldpa: same port twice", "lldpa $(yes p | head -n 64)"),
    (0, "", "lldpa $(seq 64)"),
    (2, "lldpa: bad port name", "lldpa ''"),
    (2, "lldpa: bad port name", "lldpa 'eth 0'"),
    (2, "lldpa: bad port name", "lldpa 0123456789abcdef"),
    (0, "", "lldpa 0123456789abcde"),
    (0, "", "lldpa -- -a - Gi0/1 x_y:z"),
    (2, "lldpa: same port twice", "lldpa -- --listen --listen"),
    (2, "lldpa: bad port name", "lldpa eth0 eth0 a.b"),
    (2, "lldpa: same port twice", "lldpa eth0 eth1 eth0"),
    (2, "lldpa: bad text", "lldpa --hostname \"$(printf %256s)\" eth0"),
    (0, "", "lldpa --hostname \"$(printf %255s)\" eth0"),
    (2, "lldpa: bad text", "lldpa --hostname \"a$(printf '\\t')b\" eth0"),
    (2, "lldpa: bad text", "lldpa --hostname \"caf$(printf '\\303\\251')\" eth0"),
    (0, "", "lldpa --hostname '' eth0"),
    (2, "lldpa: no memory", "lldpa \"$(printf '\\377')\""),
    (2, "*unexpected argument '--no-such' found*", "lldpa $(seq 64) --no-such"),
    (2, "*invalid value 'switch'*--role*", "lldpa $(seq 64) --role switch"),
    (2, "lldpa: bad --mac", "lldpa $(seq 64) --mac 1"),
    (2, "lldpa: too many ports", "lldpa $(seq 70) --hostname last"),
    (0, "", "echo show chassis | lldpa $(seq 64) --mac 00:00:5e:00:53:01 --hostname last --role router", CHASSIS),
    (2, "lldpa: bad port name", "printf 'tick\\n' | { lldpa a.b; kept=$?; cat; exit $kept; }", "tick"),
    # addresses
    *((2, "lldpa: bad --mac", f"lldpa --mac '{mac}' eth0") for mac in (
        "00:11", "00:11:22:33:44", "00:11:22:33:44:55:66", "00:11:22:33:44:55:", ":00:11:22:33:44:55",
        "00:11:22:33:44:5", "00:11:22:33:44:555", "00:11:22:33:44:5g", "00:11:22:33:44x55", "00-11-22-33-44-55",
        "001122334455", " 00:11:22:33:44:55", "0:11:22:33:44:55", "0:11:22:33:44:055", "")),
    *((2, "lldpa: bad --management", f"lldpa --management '{address}' eth0") for address in (
        "192.0.2", "192.0.2.1.1", "192.0.2.1.", ".192.0.2.1", "192.0.2.256", "192.0.2.01", "192.0.2.00", "192.0..1",
        "192.0.2.", "192.0.2.+1", "192.0.2.-1", "192.0.2.1 ", " 192.0.2.1", "0xc0.0.2.1", "1000.0.2.1", "::1", "none",
        "")),
    (0, "", "echo show chassis | lldpa --mac aB:Cd:eF:12:0a:F3 eth0", "*local-chassis.mac=ab:cd:ef:12:0a:f3*"),
    (0, "", "echo show chassis | lldpa --management 0.255.10.0 eth0", "*local-chassis.mgmt=0.255.10.0,1,0,"),
    (2, "lldpa: bad --mac", "lldpa --mac 00:11"),
    (2, "lldpa: bad --management", "lldpa --management '' a.b"),
    (2, "lldpa: bad --mac", "lldpa --management x --mac x --hostname \"$(printf %256s)\" a.b"),
    (2, "lldpa: bad --management", "lldpa --management x --hostname \"$(printf %256s)\" a.b"),
    # options; test_help.py has the ends of their ranges
    *(row for name in ("--max-neighbors", "--tx-credit-max", "--tx-fast-init", "--reinit-delay", "--connections")
      for row in (
        *((0, "", f"lldpa {name} {value} eth0") for value in ("+1", "01")),
        *((2, f"*{name}*", f"lldpa {name} '{value}' eth0") for value in (
            "one", "1.0", "0x1", "", "4294967297", "18446744073709551617", "99999999999999999999")),
        (2, "*", f"lldpa {name}=-1 eth0"),
        (2, f"*{name}*", f"lldpa eth0 {name}"))),
    *((2, "*--listen*", f"lldpa --listen '{value}' eth0") for value in ("x", "")),
    *((2, "*cannot be used multiple times*", f"lldpa {given} eth0 {given}") for given in (
        "--max-neighbors 1", "--mac 02:00:00:00:00:01", "--hostname a", "--management 192.0.2.1", "--role bridge",
        "--tx-credit-max 1", "--tx-fast-init 1", "--reinit-delay 1", "--listen 1", "--connections 1",
        "--receive-only")),
    *((2, "*unexpected argument*", f"lldpa {word} 1 eth0") for word in (
        "--listening", "--no-such", "-p", "-x", "--max")),
    *((2, "*", f"lldpa eth0 {words}") for words in (
        "--role", "--role switch", "--role Bridge", "--receive-only=yes", "--mac")),
    *((0, "", f"lldpa {word} --no-such", (TOP / "examples/help.txt").read_text()[:-1]) for word in ("--help", "-h")),
    *((2, "", f"lldpa {words} 2>&-") for words in ("a.b", "--no-such", "--mac=1")),
    (0, "", "lldpa --help > help && ! grep -n '.\\{81\\}' help"),
    # streams
    (0, "", "lldpa eth0"),
    (0, "", "printf '\\n\\n' | lldpa eth0"),
    (0, "", "printf tick | lldpa eth0", f"tx eth0 {FRAME}"),
    (0, "", "(printf ti; sleep 0.2; printf 'ck\\nti'; sleep 0.2; echo ck) | lldpa eth0", f"tx eth0 {FRAME}"),
    (0, "", "printf 'tick\\r\\n' | lldpa eth0", "error: unknown command"),
    (0, "", "printf 'tick\\0\\n' | lldpa eth0", "error: unknown command"),
    (0, "", "printf '\\357\\273\\277tick\\n' | lldpa eth0", "error: unknown command"),
    (0, "", "printf '%4096s\\n' | lldpa eth0"),
    (0, "", "printf '%4097s\\n' | lldpa eth0", "error: line too long"),
    (0, "", "printf '#%4095s\\n' | lldpa eth0"),
    (0, "", "printf '#%4096s\\n' | lldpa eth0", "error: line too long"),
    (0, "", "printf 'show neighbors%4082s' | lldpa eth0", "*neighbors=0*"),
    (0, "", "printf %40000s | tr ' ' x | lldpa eth0", "error: line too long"),
    (0, "", "printf %40000s | tr ' ' '\\n' | lldpa eth0"),
    (0, "", "printf '%3000000s\\ntick\\n' | lldpa eth0", f"error: line too long\ntx eth0 {FRAME}"),
    (1, "lldpa: read failed", "lldpa eth0 < folder"),
    (1, "lldpa: read failed", "lldpa eth0 <&-"),
    (1, "", "lldpa eth0 < folder 2>&-"),
    (0, "", "lldpa eth0 >&-"),
    (1, "lldpa: write failed", "echo tick | lldpa eth0 >&-"),
    (1, "lldpa: write failed", "lldpa --help >&-"),
    (1, "lldpa: write failed", "lldpa --version >&-"),
    (1, "", "echo tick | lldpa eth0 >&- 2>&-"),
    (1, "lldpa: write failed", UNREAD),
    (0, "", "lldpa eth0 > /dev/full"),
    (1, "lldpa: write failed", "echo tick | lldpa eth0 > /dev/full"),
    (1, "lldpa: write failed", "echo show chassis | lldpa eth0 > /dev/full"),
    (1, "lldpa: write failed", "echo x | lldpa eth0 > /dev/full"),
    (1, "lldpa: write failed", "lldpa --help > /dev/full"),
    (1, "lldpa: write failed", "lldpa --version > /dev/full"),
    (2, "", "lldpa a.b 2> /dev/full"),
    (2, "", "lldpa --role x 2> /dev/full"),
    (1, "", "echo tick | lldpa eth0 > /dev/full 2> /dev/full"),
]


def holds(text, octets):
    """Returns whether these octets are the text and a line feed, or match it if it begins with `*`."""
    told = octets.decode("latin-1")
    if text.startswith("*"):
        return told != "" and fnmatchcase(told.rstrip("\n"), text)
    return told == (f"{text}\n" if text else "")


@pytest.mark.parametrize("row", ROWS, ids=[row[2][:60] for row in ROWS])
def test_row(row, tmp_path):
    status, said, command, written = *row, *[""] * (4 - len(row))
    (tmp_path / "bin").mkdir()
    (tmp_path / "folder").mkdir()
    (tmp_path / "bin/lldpa").symlink_to(PROGRAM)
    path = f"{tmp_path}/bin{os.pathsep}{os.environ['PATH']}"
    ran = subprocess.run(["sh", "-c", command], cwd=tmp_path, env={**os.environ, "PATH": path}, timeout=60,
                         stdin=subprocess.DEVNULL, capture_output=True)
    assert ran.returncode == status, ran
    assert holds(said, ran.stderr), ran.stderr[:300]
    assert holds(written, ran.stdout), ran.stdout[:300]


@pytest.mark.parametrize("file", [PROGRAM, MODEL, None], ids=["program", "model", "random"])
def test_binary_input(file):
    """The answers to binary input are the model's."""
    given = file.read_bytes() if file else random.Random(1).randbytes(2000000)
    model = subprocess.run([sys.executable, MODEL, "eth0"], input=given, capture_output=True, check=True)
    ran = subprocess.run([PROGRAM, "eth0"], input=given, capture_output=True, timeout=60)
    assert (ran.returncode, ran.stderr) == (0, b"")
    assert ran.stdout == model.stdout
