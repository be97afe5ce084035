"""Limits the memory and the processor time for lists and captures, as `ulimit` does. An audit as a
whole has no limit."""
import resource
import signal
import time
from contextlib import contextmanager
from resource import RLIM_INFINITY, RLIMIT_AS, RLIMIT_CPU, RLIMIT_DATA
from typing import Iterator, Optional

from lldpa.faults import LldpaFault

# A file in gzip may unpack to so many times its size, or to so many octets if it is small: real
# lists unpack to 10 to 100 times their size, and hostile ones to 1000 times.
MOST_TIMES, ALWAYS = 128, 4 << 20
NO_MEMORY = "there is not enough memory for it"


class LimitFault(LldpaFault, ValueError):
    """Says which limit a file exceeds."""


class TooSlow(Exception):
    """The processor time is up."""


def most_unpacked(size: int) -> int:
    """Returns to how many octets a file in gzip of this size may unpack."""
    return max(MOST_TIMES * size, ALWAYS)


@contextmanager
def limited(seconds: float, megabytes: Optional[int] = None) -> Iterator[None]:
    """Stops the work on a file that needs too much processor time or, if `megabytes` is given, more
    memory than that beside the most that was in use. Raises LimitFault."""
    before = {limit: resource.getrlimit(limit) for limit in (RLIMIT_CPU, RLIMIT_DATA, RLIMIT_AS)}
    in_use = resource.getrusage(resource.RUSAGE_SELF).ru_maxrss << 10
    most = RLIM_INFINITY if megabytes is None else in_use + (megabytes << 20)
    handler = signal.signal(signal.SIGXCPU, stop)
    try:
        try:
            lower(RLIMIT_CPU, int(time.process_time() + seconds) + 1)
            is_ours = lower(RLIMIT_DATA, most) and before[RLIMIT_AS][0] == RLIM_INFINITY
            yield
            return
        finally:  # before a message is made, which needs memory too
            for limit in (RLIMIT_CPU, RLIMIT_DATA):
                resource.setrlimit(limit, before[limit])
            signal.signal(signal.SIGXCPU, handler)
    except MemoryError:
        why = f"it needs more than {megabytes} MB of memory" if is_ours else NO_MEMORY
    except TooSlow:
        why = f"it needs more than {seconds:.0f} seconds of processor time"
    raise LimitFault(why)


def lower(limit: int, most: int) -> bool:
    """Lowers a limit of this process. Returns whether it was higher, or there was none."""
    soft, hard = resource.getrlimit(limit)
    is_lower = most != RLIM_INFINITY and (soft == RLIM_INFINITY or most < soft)
    if is_lower:
        resource.setrlimit(limit, (most, hard))
    return is_lower


def stop(*_: object) -> None:
    raise TooSlow
