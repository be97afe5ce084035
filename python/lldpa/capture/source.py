"""Opens captures, and names the ports of their frames."""

import os
import shutil
import stat
import tempfile
from typing import IO, BinaryIO, Dict, Mapping, NamedTuple, Optional

from .packets import CaptureInterface

PORT_NAME_RULE = "a port's name has 1 to 15 ASCII letters, digits, -, _, / and :"
UNNAMED = "eth0"
STANDARD_INPUT = "-"


class Source(NamedTuple):
    """A capture's file (`-`: standard input). If `port` is given, it is the port of all frames.

    Otherwise a port has the name that `names` has for its interface, or else the interface's own
    name (eth0 if it has none). A gzip file may unpack to at most `most_unpacked` octets.
    """
    file: str
    port: Optional[str] = None
    names: Mapping[str, str] = {}
    most_unpacked: Optional[int] = None


def port_of(source: Source, interface: CaptureInterface) -> str:
    """Returns the name of an interface's port. The name may be invalid for a port."""
    if source.port is not None or interface.name is None:
        return source.port or UNNAMED
    return source.names.get(interface.name, interface.name)


# copies of pipes, by name, since a pipe can be read only once
HELD: Dict[str, IO[bytes]] = {}


def opened(file: str) -> BinaryIO:
    """Opens a file without a buffer, so that its octets are read as soon as they arrive."""
    if file == STANDARD_INPUT:
        return open(0, "rb", buffering=0, closefd=False)
    if file in HELD:
        return open(f"/proc/{os.getpid()}/fd/{HELD[file].fileno()}", "rb", buffering=0)
    return open(file, "rb", buffering=0)


def hold(file: str) -> None:
    """Copies the file if it is a stream, so that it can be opened repeatedly. May raise OSError."""
    if file not in HELD and os.path.exists(file) and is_stream(os.stat(file).st_mode):
        copy = tempfile.TemporaryFile(buffering=0)
        with open(file, "rb", buffering=0) as octets:
            shutil.copyfileobj(octets, copy)
        HELD[file] = copy


def is_stream(mode: int) -> bool:
    """Returns whether a file of this mode is a stream: a FIFO, a socket or a character device."""
    return stat.S_ISFIFO(mode) or stat.S_ISSOCK(mode) or stat.S_ISCHR(mode)
