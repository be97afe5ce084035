"""Runs the examples of docs/LIBRARY.md and of examples/ with the library, for test_library.py.

    python3 tools/library/library_examples.py --hear|--meet PROGRAM [WORD ..]

Both need a network namespace of their own. With --hear it runs a receive loop of examples/ at one
end of a link. At the other end it sends frames until the loop has reported each change. With --meet
it runs an agent at each end, and then ends one of them.
"""
from __future__ import annotations

import os
import pathlib
import re
import select
import shutil
import socket
import subprocess
import sys
import time
from typing import Callable, Mapping, Sequence

from library_parts import SECONDS, TOP, Counts, Library, fault_of, ran, skip

CAPTURE = TOP / "docs" / "lab.pcap"
EXAMPLES = TOP / "examples"
PAGE = TOP / "docs" / "LIBRARY.md"
LINK = ("link add here type veth peer name there", "link set here up", "link set there up")

# The LLDPDUs of a neighbor, each with what the receive loop must print for it. With an empty LLDPDU
# nothing is sent. PAUSE is a wait in seconds, longer than the time to live of the next LLDPDU.
KEY = "02070400112233445504050565746830"
PAUSE = "4.5"
HEARD = ((KEY + "06020078", b"new"), (KEY + "060200780a03737731", b"changed"), (KEY + "06020000", b"gone"),
         (KEY + "06020001", b"new"), ("", b"aged out"), (PAUSE, b""), (KEY + "06020003", b"new"),
         (KEY + "060200780a03737731", b"changed"))
SENDER = b" chassis.mac=00:11:22:33:44:55 port.ifname=eth0\n"

# The input of examples/c/sd_lldp_rx.c, and the output that it must write.
PLAYED = ((KEY + "06020003", "added eth0", "due in 3"), (KEY + "06020003", "refreshed eth0", "due in 3"),
          ("tick 2", "", "due in 1"), (KEY + "060200050a03737731", "updated eth0", "due in 5"),
          ("tick 4", "", "due in 1"), ("tick 9", "removed eth0", "nothing is due"),
          (KEY + "06020003", "added eth0", "due in 3"), (KEY + "06020000", "removed eth0", "nothing is due"))


def frame_of(pdu: str) -> bytes:
    """Returns a frame with this LLDPDU (in hexadecimal) and an End TLV."""
    return bytes.fromhex(f"0180c200000e00112233445588cc{pdu}0000").ljust(60, b"\0")


def check_example(name: str, command: Sequence[object], wanted: str, counts: Counts,
                  cwd: pathlib.Path | None = None, env: Mapping[str, str] | None = None) -> None:
    ended = ran(command, cwd, env)
    if ended.returncode != 0 or ended.stderr:
        counts.judge(f"status {ended.returncode}, {ended.stderr[-1500:]}", name)
    else:
        counts.judge(None if ended.stdout == wanted else f"it writes {ended.stdout}", name)


def loading(library: Library) -> dict[str, str]:
    """Returns the environment of a program that loads the shared object."""
    return os.environ | {"LLDPA_LIB_DIR": str(library.folder)}


def check_page(library: Library, counts: Counts) -> None:
    """Runs the C programs of docs/LIBRARY.md. Its Rust programs are tests of the crate."""
    programs = re.findall(r"^```c\n(.*?)^```\n\n```text\n(.*?)^```$", PAGE.read_text(), re.M | re.S)
    for at, (text, wanted) in enumerate(programs):
        source = library.room / f"page-{at}.c"
        source.write_text(text)
        counts.judge(library.compiled(source, f"page-{at}"), f"building docs/LIBRARY.md, {at}")
        check_example(f"docs/LIBRARY.md in C, {at}", [library.room / f"page-{at}"], wanted, counts)


def follow(heard: subprocess.Popen[bytes], send: Callable[[bytes], object]) -> bool:
    """Sends frames until a receive loop reports each change or ends. Returns False if too late."""
    told, end = b"", time.monotonic() + SECONDS
    assert heard.stdout is not None
    os.set_blocking(heard.stdout.fileno(), False)
    for pdu, word in HEARD:
        at = len(told)
        if pdu == PAUSE:
            time.sleep(float(PAUSE))
            continue
        while word + SENDER not in told[at:] and time.monotonic() < end and heard.poll() is None:
            if pdu:
                send(frame_of(pdu))
            select.select([heard.stdout], [], [], 0.2)
            told += heard.stdout.read() or b""
    is_told = time.monotonic() < end
    if not is_told:
        sys.stderr.write(told.decode())
    return is_told


def hear(command: list[str]) -> int:
    """Returns 0 if a receive loop reports all changes of a neighbor and ends on SIGTERM, else 1."""
    for words in LINK:
        subprocess.run(["ip", *words.split()], check=True)
    with socket.socket(socket.AF_PACKET, socket.SOCK_RAW) as sender, \
            subprocess.Popen([*command, "here"], stdout=subprocess.PIPE) as heard:
        sender.bind(("there", 0))
        is_told = follow(heard, sender.send)
        heard.terminate()
    return 0 if is_told and heard.returncode == 0 else 1


def next_line(heard: subprocess.Popen[bytes]) -> str:
    """Returns the next line of a program, or an empty text if none comes in time."""
    assert heard.stdout is not None
    is_there = select.select([heard.stdout], [], [], SECONDS)[0]
    return heard.stdout.readline().decode().rstrip() if is_there else ""


def met(here: subprocess.Popen[bytes], there: subprocess.Popen[bytes], end: Callable[[], object],
        names: tuple[str, str], send: Callable[[bytes], object]) -> str | None:
    """Returns None if two agents report each other, one a third neighbor, whose frame is sent to it
    and which soon ages out, and the other's goodbye. Otherwise, what they said."""
    told = [next_line(here), next_line(there)]
    send(frame_of(KEY + "06020001"))
    told += [next_line(here), next_line(here)]
    end()
    told += [next_line(here), str(there.wait(SECONDS))]
    neighbor = r"(\w+ )?{} chassis\.mac=\S+ port\.ifname={}"
    words = (("new", names[1]), ("new", names[0]), ("new", "eth0"), ("aged out", "eth0"), ("gone", names[1]))
    wanted = [*(neighbor.format(*pair) for pair in words), "0"]
    return None if all(map(re.fullmatch, wanted, told)) else f"{told}"


def meet(command: list[str]) -> int:
    """Returns 0 if two agents at the ends of a link report each other, and one the other's goodbye."""
    for words in LINK:
        subprocess.run(["ip", *words.split()], check=True)
    with socket.socket(socket.AF_PACKET, socket.SOCK_RAW) as sender, \
            subprocess.Popen([*command, "here"], stdout=subprocess.PIPE) as here, \
            subprocess.Popen([*command, "there"], stdout=subprocess.PIPE) as there:
        sender.bind(("there", 0))
        fault = met(here, there, there.terminate, ("here", "there"), sender.send)
        here.terminate()
    if fault is not None:
        sys.stderr.write(fault)
    return 0 if fault is None and here.returncode == 0 else 1


def check_sd_lldp_rx(library: Library, counts: Counts) -> None:
    """Checks that sd_lldp_rx.c reports each event, and in how many seconds something is due."""
    source = EXAMPLES / "c" / "sd_lldp_rx.c"
    counts.judge(library.compiled(source, "sd_lldp_rx"), "building examples/c/sd_lldp_rx.c")
    lines = [given if " " in given else f"rx {frame_of(given).hex()}" for given, _, _ in PLAYED]
    wanted = "".join(f"{line}\n" for _, *told in PLAYED for line in told if line)
    ended = subprocess.run([library.room / "sd_lldp_rx"], input="\n".join([*lines, ""]), text=True,
                           stdout=subprocess.PIPE, timeout=SECONDS, check=False)
    counts.judge(None if ended.stdout == wanted else f"it writes {ended.stdout}", "examples/c/sd_lldp_rx.c")


def check_receive(library: Library, counts: Counts) -> None:
    """Checks that the receive loops see a neighbor on a link, and that agents see each other, if a
    namespace can be made."""
    for name in ("receive", "agent"):
        counts.judge(library.compiled(EXAMPLES / "c" / f"{name}.c", name), f"building examples/c/{name}.c")
    if shutil.which("ip") is None or fault_of(["unshare", "--net", "true"]) is not None:
        skip("ip" if shutil.which("ip") is None else "link-veth", "receiving on a link")
        return
    python = [sys.executable, EXAMPLES / "python" / "receive.py"]
    for name, how, example in (("c/receive.c", "--hear", [library.room / "receive"]),
                               ("c/agent.c", "--meet", [library.room / "agent"]),
                               ("python/receive.py", "--hear", python)):
        command = ["unshare", "--net", sys.executable, __file__, how, *example]
        ended = ran(command, env=loading(library))
        counts.judge(ended.stderr[-1500:] + ended.stdout if ended.returncode else None, f"examples/{name} on a link")


def check_who(library: Library, counts: Counts) -> None:
    """Checks that who.c and who.py print who.expect for a capture."""
    wanted = (EXAMPLES / "c" / "who.expect").read_text()
    counts.judge(library.compiled(EXAMPLES / "c" / "who.c", "who"), "building examples/c/who.c")
    check_example("examples/c/who.c", [library.room / "who", CAPTURE], wanted, counts)
    command = [sys.executable, EXAMPLES / "python" / "who.py", CAPTURE]
    check_example("examples/python/who.py", command, wanted, counts, env=loading(library))


if __name__ == "__main__":
    parts = {"--hear": hear, "--meet": meet}
    sys.exit(parts[sys.argv[1]](sys.argv[2:]) if sys.argv[1:2] and sys.argv[1] in parts else 2)
