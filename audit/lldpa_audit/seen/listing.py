"""Defines what each reader returns: the ports of a host, and the neighbors seen at them."""
from __future__ import annotations

from typing import Mapping, NamedTuple, Sequence

from lldpa.faults import LldpaFault
from ..names import Seen

Ports = dict[str, Sequence[Seen]]


class SeenFault(LldpaFault, ValueError):
    """Says what is wrong with a list of neighbors."""


class Listing(NamedTuple):
    """The neighbors of ports. If `has_all_heard`, the host's other ports have no neighbor. If a
    file is of several hosts, `hosts` has a listing for each. If there are `faults`, nothing is
    known of the ports. `notes` says what was skipped. `time` is when the neighbors were seen, in
    seconds since 1970; 0 if it is not said. `written` is the file's time. `source` is the host
    that was asked, if the file says it. `reasons` says for a port why it has no data, though
    other ports have."""

    ports: Ports
    has_all_heard: bool
    hosts: Mapping[str, Listing] = {}
    faults: Sequence[str] = ()
    notes: Sequence[str] = ()
    time: float = 0.0
    written: float = 0.0
    source: str = ""
    reasons: Mapping[str, str] = {}
