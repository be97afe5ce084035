"""Reads files of neighbors in any form."""
import os
from typing import BinaryIO, Optional, Sequence

from lldpa.capture.source import opened
from lldpa.capture.unzip import MAGIC, Unzipped
from lldpa.capture.window import Readable
from lldpa.faults import LldpaFault

from ..limits import limited, most_unpacked
from ..names import shown
from ..what import What, platform_of
from .forms import AT_ONCE, is_text, read_list
from .listing import Listing, SeenFault

FRONT = 512
MOST_OCTETS = 32 << 20
SMALL = 1 << 20  # octets of a list that cannot need much


def read_file(what: What, platforms: Sequence[str] = ()) -> Optional[Listing]:
    """Returns what is in a file, None if it is not text. A switch's text is read by the templates
    for its platform. Whatever goes wrong is a fault of this file. Raises OSError unless
    `what.is_found`, and MemoryError."""
    try:
        with opened(what.file) as file:
            stat = os.fstat(file.fileno())
            octets = octets_of(file, stat.st_size)
        if octets is None:
            return None
        platform = platform_of(what.file, platforms)
        if len(octets) < SMALL and not platform:
            return placed(read_list(octets), what.file, stat.st_mtime)
        with limited(*warranted(len(octets))):
            return placed(read_list(octets, platform), what.file, stat.st_mtime)
    except LldpaFault as fault:
        why = str(fault)
    except OSError as fault:
        if not what.is_found:
            raise
        why = fault.strerror or str(fault)
    except MemoryError:
        raise
    except Exception as fault:  # one file must not end the audit of all others
        why = "it cannot be read: " + shown(f"{type(fault).__name__}: {fault}")
    return Listing({}, False, faults=[f"{what.file}: {why}"])


def warranted(octets: int) -> tuple[float, int]:
    """Returns the seconds of processor time and the MB of memory that the size of a list
    warrants."""
    return 4 + octets / (1 << 20), 64 + 10 * (octets >> 20)


def octets_of(file: BinaryIO, size: int) -> Optional[bytes]:
    """Returns the unpacked octets of a text file of this size, or None if it is none. Raises
    BadCapture and SeenFault."""
    front = file.read(FRONT)
    source: Readable = file
    if front.startswith(MAGIC):
        source = Unzipped(file, front, most_unpacked(size))
        front = taken(source, FRONT)
    if not is_text(front):
        return None
    octets = front + taken(source, MOST_OCTETS + 1 - len(front))
    if len(octets) > MOST_OCTETS:
        raise SeenFault(f"it has over {MOST_OCTETS >> 20} MB, the most that a list may have")
    return octets


def taken(source: Readable, size: int) -> bytes:
    """Returns this many octets, or all if there are fewer. Python makes room for all octets that a
    call may return, and to make room for 32 MB takes longer than to read a usual list."""
    parts: list[bytes] = []
    while size > 0 and (part := source.read(min(size, AT_ONCE))):
        parts.append(part)
        size -= len(part)
    return b"".join(parts)


def placed(listing: Listing, file: str, written: float) -> Listing:
    """Adds the file's name to hosts' faults, and its time to the listings."""
    hosts = {host: one._replace(written=written, faults=[
        f"{file}: {shown(host)}: {fault}" for fault in one.faults])
        for host, one in listing.hosts.items()}
    return listing._replace(hosts=hosts, written=written)
