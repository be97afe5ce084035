"""Runs tools/library/c/transcript.c and vectors.c on transcripts and rows, for test_library.py."""
from __future__ import annotations

import pathlib
import re
import subprocess
import sys
from itertools import zip_longest
from typing import Any, Iterable, List, Sequence, Tuple

from library_parts import SECONDS, TOP, Counts, ran

sys.path += [str(TOP / "tools" / name) for name in ("gate", "model")]
import examples  # noqa: E402
import made_frames  # noqa: E402
import model  # noqa: E402

ROWS = TOP / "examples" / "vectors.rows"
HEADER = TOP / "crates" / "lldpa_c" / "include" / "lldpa.h"
# Causes in order, each with how often it occurs, and the frame to send. The frames were worked out
# by hand for a credit of 5, bursts of 4, a wait of 2 and the greatest interval.
CAUSES = """CHANGE:1:QUIET TICK:1:ORDINARY CHANGE:1:ORDINARY NEIGHBOR:1:ORDINARY TICK:3:ORDINARY
TICK:1:QUIET NOTHING:1:QUIET DOWN:1:QUIET TICK:1:QUIET CHANGE:1:QUIET UP:1:QUIET TICK:1:ORDINARY
TICK:3599:QUIET TICK:1:ORDINARY STOP:1:SHUTDOWN STOP:1:QUIET ALLOW:1:QUIET TICK:1:QUIET
TICK:1:ORDINARY"""
ROLES = ("station", "bridge", "router")
Steps = Sequence[Tuple[bytes, List[bytes]]]  # input lines, each with its output lines


def words_of(agent: model.Agent) -> list[str]:
    """Returns the arguments with which transcript.c opens an agent with the same options."""
    options = agent.options
    address = agent.management()[2:6].hex() if options.management else ""
    numbers = (ROLES.index(options.role), options.max_neighbors, options.tx_credit_max,
               options.tx_fast_init, options.reinit_delay, int(options.receive_only))
    return [agent.mac.hex(), address, options.hostname, *map(str, numbers),
            *(port.name for port in agent.ports)]


def event_of(agent: model.Agent, line: bytes, is_refused: bool) -> bytes | None:
    """Returns a line as transcript.c reads it, or None if lldpa does not pass it to its agent: a
    comment, or an event that lldpa refuses."""
    text = line.decode("latin-1")
    if len(line) > 4096 or text.lstrip(" \t")[:1] in ("", "#"):
        return None
    try:
        form, *words = model.Words(text).left
    except model.RefusedLine:
        form, words = "", []
    if form not in ("tick", "rx", "up", "down"):
        return b"command " + line
    if is_refused:
        return None
    if form == "tick":
        return f"tick {int(words[0]) if words else 1}".encode()
    port = [port.name for port in agent.ports].index(words[0])
    wanted = f"rx {port} {words[1].lower()}" if form == "rx" else f"link {port} {int(form == 'up')}"
    return wanted.encode()


def fault_of_events(command: Sequence[str], words: Sequence[str], steps: Steps,
                    texts: Sequence[str] = ()) -> str | None:
    """Returns how the output differs, or None. With `texts`, compares only lines that have one."""
    agent = model.opened(words)
    given = [(event_of(agent, line, b"".join(written).startswith(b"error: ")), written)
             for line, written in steps]
    given += leaving(agent, [line for line, _ in steps])
    events = b"".join(event + b"\n" for event, _ in given if event is not None)
    wanted = b"".join(line for event, written in given if event is not None for line in written)
    ended = subprocess.run([*command, *words_of(agent)], input=events, capture_output=True,
                           timeout=SECONDS, check=False)
    if ended.returncode != 0 or ended.stderr:
        return f"status {ended.returncode}, {ended.stderr[-1500:]!r}"
    shown, wanted = (examples.lines_with(written, texts) for written in (ended.stdout, wanted))
    return None if shown == wanted else examples.difference(shown, wanted)


def written_by(agent: model.Agent, line: bytes) -> list[bytes]:
    """Returns what the model writes for a line."""
    return [f"{one}\n".encode("latin-1") for one in model.answer(agent, line.decode("latin-1"))]


def leaving(agent: model.Agent, lines: Iterable[bytes]) -> Steps:
    """Returns steps to add after these lines: leaving twice, then a show of the configuration."""
    for line in lines:
        written_by(agent, line)
    disable = [f"configure ports {port.name} lldp status disabled" for port in agent.ports]
    frames = [frame for line in disable for frame in written_by(agent, line.encode())]
    show = b"show configuration"
    return [(b"leave", frames), (b"leave", []), (b"command " + show, written_by(agent, show))]


def check_transcripts(command: Sequence[str], counts: Counts) -> None:
    """Runs each transcript of examples/, and compares whole shows with the model."""
    for name, words, texts, _, steps in examples.transcripts():
        fault = steps if isinstance(steps, str) else fault_of_events(command, words, steps, texts)
        counts.judge(fault, f"transcript {name}")
    for ports, neighbors in ((64, 2), (1, 128)):
        fault = fault_of_events(command, *whole_shows(ports, neighbors))
        counts.judge(fault, f"shows of {ports} ports with {neighbors} neighbors")


def whole_shows(ports: int, neighbors: int) -> tuple[list[str], Steps]:
    """Returns arguments and lines with many neighbors on each port, and what the model writes."""
    names = [f"p{port}" for port in range(ports)]
    frames = [made_frames.frame_of(number, 120).hex() for number in range(neighbors)]
    lines = [f"rx {name} {frame}" for name in names for frame in frames]
    lines += ["down p40" if ports > 1 else "", "tick", *(f"show {show}" for show in model.SHOWS)]
    words = ["--max-neighbors", "128", *names]
    agent = model.opened(words)
    return words, [(line.encode(), written_by(agent, line.encode())) for line in lines]


def check_rows(command: Sequence[str], room: pathlib.Path, counts: Counts) -> None:
    """Checks the rows of vectors.rows, all causes, and cut and altered LLDPDUs."""
    rows = [line for line in ROWS.read_text().splitlines() if not line.startswith("#")]
    rows.append(row_of_causes())
    for row, found in zip_longest(rows, written_rows(command, rows, room)):
        counts.judge(None if found == row else f"{found}", row)
    altered = [b"", *(pdu for whole in made_frames.LLDPDUS for pdu in made_frames.altered(whole))]
    counts.judge(fault_of_rows(command, map(row_of, altered), room), "cut and altered LLDPDUs")


def row_of_causes() -> str:
    """Returns a row with all causes, as the numbers that lldpa.h gives them."""
    numbers = dict(re.findall(r"#define LLDPA_(?:CAUSE_)?(\w+) (\d+)", HEADER.read_text()))
    steps = [step.split(":") for step in CAUSES.split()]
    played = [f"{numbers[cause]}:{times}:3600:{numbers[mark]}" for cause, times, mark in steps]
    return "\t".join(["machine", "all causes", "5", *played])


def written_rows(command: Sequence[str], rows: Iterable[str], room: pathlib.Path) -> list[str]:
    """Returns what vectors.c writes for these rows, and its errors if it fails."""
    path = room / "rows"
    path.write_text("".join(f"{row}\n" for row in rows))
    ended = ran([*command, path])
    is_well = ended.returncode == 0 and not ended.stderr
    return ended.stdout.splitlines() + ([] if is_well else [f"{ended.returncode}, {ended.stderr}"])


def fault_of_rows(command: Sequence[str], rows: Iterable[str], room: pathlib.Path) -> str | None:
    """Returns the first difference between these rows and those of the library, or None."""
    wanted = list(rows)
    pairs = zip_longest(wanted, written_rows(command, wanted, room))
    return next((f"{found}, not {row}" for row, found in pairs if found != row), None)


def row_of(pdu: bytes) -> str:
    """Returns what the model reads in an LLDPDU, as a row like those of vectors.rows."""
    fields: list[Any] = ["examine", "altered", pdu.hex() or "-"]
    try:
        told = model.Lldpdu(pdu)
        fields += ["told", told.ttl, *(name.hex() for name in told.name)]
        fields += ([len(told.extent), told.discarded, told.unrecognized] if told.ttl else [0, 0, 0])
        fields += [f"{tlv.kind}:{tlv.body.hex() or '-'}" for tlv in (told.kept if told.ttl else [])]
    except model.UnsoundLldpdu as fault:
        fields += ["fault", *fault.args]
    return "\t".join(map(str, fields))
