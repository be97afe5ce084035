"""Runs an LLDP agent or connects to one, reads its `show` output, reads captures, and asks a
running lldpa-live through lldpa-ctl.

    >>> from lldpa import Agent
    >>> frame = "0180c200000e00112233445588cc02070400112233445504050565746830060200780000"
    >>> with Agent.start(["eth0"], receive_only=True) as agent:
    ...     agent.frame("eth0", bytes.fromhex(frame))
    ...     agent.tick(20)
    ...     for neighbor in agent.neighbors():
    ...         print(neighbor.port, neighbor.id, neighbor.expires)
    eth0 mac=00:11:22:33:44:55 ifname=eth0 100
"""
import sys
from typing import TYPE_CHECKING

if sys.version_info < (3, 9):
    raise ImportError("lldpa: Python 3.9 or later is needed")

from .agent.show import Counters, Neighbor, Port, Show, ShowFault, lines_of, read_show, unescaped
from .faults import LldpaFault

__version__ = "1.0.0"

if TYPE_CHECKING:
    from .agent.framing import Closed, Ended, Refused
    from .agent.synchronous import Agent
    from .capture.packets import BadCapture, Packet, packets_of
    from .capture.trace import Source, Told, ports_of, trace_of
    from .ctl import Ctl, CtlFault

__all__ = ["Agent", "BadCapture", "Closed", "Counters", "Ctl", "CtlFault", "Ended", "LldpaFault",
           "Neighbor", "Packet", "Port", "Refused", "Show", "ShowFault", "Source", "Told",
           "__version__", "lines_of", "packets_of", "ports_of", "read_show", "trace_of",
           "unescaped"]


# modules that are loaded only when one of their names is first used
LATER = {".agent.framing": ("Closed", "Ended", "Refused"),
         ".agent.synchronous": ("Agent",),
         ".capture.packets": ("BadCapture", "Packet", "packets_of"),
         ".capture.trace": ("Source", "Told", "ports_of", "trace_of"),
         ".ctl": ("Ctl", "CtlFault")}


def __getattr__(name: str) -> object:
    """Loads a module when one of its names is first used."""
    for module, names in LATER.items():
        if name in names:
            from importlib import import_module
            return getattr(import_module(module, __name__), name)
    raise AttributeError(f"module {__name__!r} has no attribute {name!r}")
