"""lldpa-capture: writes the LLDP frames of captures as a trace for lldpa, or prints neighbors."""

import argparse
import os
import subprocess
import sys
import tempfile
from contextlib import suppress
from pathlib import Path
from typing import IO, Dict, List, Mapping, Optional, Sequence, Tuple

from .. import output
from ..agent.child import PROGRAM, path_of
from ..agent.show import read_show
from ..output import complain
from ..capture.packets import BadCapture, reader_of
from ..capture.source import PORT_NAME_RULE, STANDARD_INPUT, Source, is_stream, opened
from ..capture.trace import Told, TooManyPorts, ports_of, trace_of
from ..limits import MOST_NEIGHBORS, MOST_PORTS, is_port_name
from ..table import table_lines
from ..version import add_version

NAME = "lldpa-capture"
SUMMARY = """Writes the LLDP frames of captures as a trace for lldpa, with the seconds between them.
With --table prints the neighbors instead."""
FILE_HELP = """an Ethernet capture in pcap or pcapng format, or - for standard input; with
PORT=FILE, PORT is the port of all its frames"""
PORT_HELP = """use NAME as the port of all frames; INTERFACE=NAME applies only to frames of that
interface (default: the interface's name in a pcapng file, or eth0)"""
EPILOG = """\
examples: lldpa-capture --table lab.pcap
          lldpa-capture --show lab.pcap | lldpa --receive-only eth0
lldpa-capture(1) describes which packets are skipped, and the exit statuses.
"""
SHOWS = ("show neighbors", "show statistics")
ANY_INTERFACE = ""
# The reference in Python, which gives the same answers. Only a clone or a release has it.
MODEL = Path(__file__).resolve().parents[3] / "bin" / "lldpa-model"
NOT_CUT = 1_000_000  # a width


def note(text: str) -> None:
    """Writes a line to standard error."""
    complain(NAME, text)


def parser_of_words() -> argparse.ArgumentParser:
    parser = argparse.ArgumentParser(
        prog=NAME, description=SUMMARY, epilog=EPILOG, allow_abbrev=False,
        formatter_class=argparse.RawDescriptionHelpFormatter)
    parser.add_argument("files", metavar="FILE", nargs="+", help=FILE_HELP)
    parser.add_argument("--port", metavar="NAME", action="append", default=[], help=PORT_HELP)
    kinds = parser.add_mutually_exclusive_group()
    kinds.add_argument("--table", action="store_true",
                       help="print the neighbors at the end of the captures instead of a trace")
    kinds.add_argument("--show", action="store_true",
                       help="end the trace with show neighbors and show statistics")
    kinds.add_argument("--ports", action="store_true",
                       help="print the names of the ports instead of a trace")
    parser.add_argument("--no-seconds", action="store_true",
                        help="omit the seconds, so that no neighbor ages out")
    add_version(parser)
    return parser


def renamed(word: str) -> Tuple[str, str]:
    """Splits an argument of --port into the interface (empty for all) and the port's name."""
    interface, _, port = word.rpartition("=")
    if not is_port_name(port):
        raise ValueError(f"--port {word}: {port!r} cannot be a port: {PORT_NAME_RULE}")
    return interface, port


def source_of(word: str, names: Mapping[str, str]) -> Source:
    """Returns the capture that an argument FILE or PORT=FILE names."""
    front, mark, file = word.partition("=")
    if mark and is_port_name(front):
        return Source(file, front)
    if mark and not os.path.exists(word):
        raise ValueError(f"no file {word!r}, and {front!r} cannot be a port: {PORT_NAME_RULE}")
    return Source(word, names.get(ANY_INTERFACE), names)


def write_trace(sources: List[Source], seconds: bool, trace: IO[str]) -> int:
    """Writes the trace. Returns 1 if it is incomplete, else 0."""
    faults: List[str] = []
    is_live = not all(os.path.isfile(source.file) for source in sources)

    def fault(text: str) -> None:
        faults.append(text)
        note(text)

    for line in trace_of(sources, Told(note, fault), seconds):
        trace.write(line + "\n")
        if is_live:
            trace.flush()
    return 1 if faults else 0


def print_table(sources: List[Source], seconds: bool) -> int:
    """Prints the neighbors at the end of the captures, or of what was read until Ctrl-C. Returns 1
    if a capture could not be read completely."""
    status = 0
    with tempfile.TemporaryFile("w+") as trace:
        with suppress(KeyboardInterrupt):  # it also ends the tcpdump from which a stream comes
            status = write_trace(sources, seconds, trace)
        trace.write(SHOWS[0] + "\n")
        trace.seek(0)
        ports = ports_in(trace, sources)
        os.lseek(trace.fileno(), 0, os.SEEK_SET)
        agent = [sys.executable, "-I", str(MODEL)] if MODEL.exists() else [path_of(PROGRAM)]
        words = ["--receive-only", f"--max-neighbors={MOST_NEIGHBORS}", "--", *ports]
        ran = subprocess.run([*agent, *words], stdin=trace, stdout=subprocess.PIPE, check=False)
    if ran.returncode:
        note(f"the agent {agent[-1]} failed with status {ran.returncode}")
        return 1
    for line in table_lines(read_show(ran.stdout.decode("ascii").splitlines()), terminal_width()):
        print(line)
    return status


def ports_in(trace: IO[str], sources: List[Source]) -> List[str]:
    """Returns the ports of all captures. Those of a stream are known by their frames alone, so one
    without frames counts only if there is no other port."""
    heard = dict.fromkeys(line.split(" ")[1] for line in trace if line.startswith("rx "))
    files = ports_of([source for source in sources if os.path.isfile(source.file)])
    ports = list(dict.fromkeys([*files, *heard])) or ports_of(sources)
    if len(ports) <= MOST_PORTS:
        return ports
    if len(heard) > MOST_PORTS:
        raise TooManyPorts(f"{len(heard)} ports have LLDP frames; the limit is {MOST_PORTS}")
    return list(heard)


def terminal_width() -> int:
    """Returns the width of the terminal, or a great one if standard output is none."""
    try:
        return os.get_terminal_size(sys.stdout.fileno()).columns or NOT_CUT
    except OSError:
        return NOT_CUT


def run(given: argparse.Namespace) -> int:
    """Writes the trace, or prints the neighbors or the ports. Returns the status."""
    names: Dict[str, str] = dict(renamed(word) for word in given.port)
    sources = [source_of(word, names) for word in given.files]
    if [source.file for source in sources].count(STANDARD_INPUT) > 1:
        raise ValueError("more than one file is -: standard input can be read only once")
    if given.table:
        try:
            return print_table(sources, not given.no_seconds)
        except OSError as error:
            note(f"--table needs {error.filename or 'a temporary file'}: {error.strerror or error}")
            return 1
    if not given.ports:
        status = write_trace(sources, not given.no_seconds, sys.stdout)
        sys.stdout.writelines(f"{line}\n" for line in SHOWS if given.show)
        sys.stdout.flush()
        return status
    ports = ports_of(sources)
    for one in ports:
        if one.startswith("-"):  # other programs could take it for an option
            raise ValueError(f"port {one!r} looks like an option: rename it (--port='{one}=NAME')")
    print("\n".join(ports), flush=True)
    faults = [f"{source.file}: {why}" for source in sources if (why := fault_of(source.file))]
    for fault in faults:
        note(fault)
    return 1 if faults else 0


def fault_of(file: str) -> str:
    """Returns why a capture cannot be read, or an empty text. Does not open streams."""
    try:
        if file == STANDARD_INPUT or is_stream(os.stat(file).st_mode):
            return ""
        with opened(file) as octets:
            reader_of(octets)
    except BadCapture as why:
        return str(why)
    except OSError as error:
        return error.strerror or str(error)
    return ""


def main(words: Optional[Sequence[str]] = None) -> int:
    """Runs the program with these arguments, and returns its status."""
    return output.run(NAME, lambda: status_of(words), 1, errors="backslashreplace")


def status_of(words: Optional[Sequence[str]]) -> int:
    """Runs the program and returns its status. The caller reports errors of standard output."""
    parser = parser_of_words()
    given = parser.parse_args(words)
    try:
        return run(given)
    except (TooManyPorts, ValueError) as fault:
        parser.error(str(fault))
    except KeyboardInterrupt:
        return 130


if __name__ == "__main__":
    sys.exit(main())
