"""For tests: copes with a machine that is busy."""

from __future__ import annotations

import time
from typing import Any, Callable, Sequence

SECONDS = 30.0  # the longest wait for a condition, used up only if it stays false
HANGS = 600.0  # seconds after which a program has hung, even if its host is full


def by_the_clock(test: Callable[[Any], None]) -> Callable[[Any], None]:
    """Marks a test that needs the clock: pytest runs it again if it fails (conftest.py), up to three
    times in all. A fault of the program occurs in each run, so the test still fails."""
    setattr(test, "by_the_clock", True)
    return test


def eventually(holds: Callable[[], Any], seconds: float = SECONDS) -> Any:
    """Calls `holds` until its value is true or this many seconds have passed. Returns the value."""
    last = time.monotonic() + seconds
    while not (found := holds()) and time.monotonic() < last:
        time.sleep(0.02)
    return found


def mostly(seconds: Sequence[float]) -> float:
    """Returns the median. One or two standstills change the median little, but a delay that always
    occurs changes it."""
    return sorted(seconds)[(len(seconds) - 1) // 2]
