"""Reads an answer of Prometheus' API (https://prometheus.io/docs/prometheus/latest/querying/api/)
with what `lldpa-ctl metrics` wrote at each host: `lldpa_neighbor_info` has the neighbors,
`lldpa_too_many` has all ports, and `node_textfile_mtime_seconds` has the time."""
from collections import defaultdict
from math import inf
from typing import Any, Iterator

from ..ages import moment_of
from ..names import NAMELESS, Seen
from .gnmic import host_of
from .listing import Listing, SeenFault
from .neighbor import neighbor
from .shows import plain

PORTS, TIMES = "lldpa_too_many", "node_textfile_mtime_seconds"
EXPORTED = "exported_"  # precedes lldpa's label if the target has a label of the same name


def read_prometheus(tree: Any) -> Listing:
    """Returns the neighbors of each host. Equal ones at a port count once. A host with several
    services is as old as the oldest of their files. Raises SeenFault."""
    heard: dict[str, dict[str, dict[Any, Seen]]] = {}
    times: dict[str, float] = {}
    whole = set()
    for host, labels, value in samples(tree):
        port, metric = labels["port"], labels["__name__"]
        if metric == TIMES and is_of_agent(labels["file"]):
            times[host] = min(times.get(host, inf), moment_of(str(value)))
        elif metric == PORTS:
            whole.add(host)
            at_port = heard.setdefault(host, {}).setdefault(port, {})
            if value:
                at_port[PORTS] = NAMELESS
        elif "chassis" in labels and "port_id" in labels:
            one = neighbor(labels["chassis"], labels["port_id_kind"], labels["port_id"],
                           labels["name"], labels["port_descr"], [labels["management"]])
            heard.setdefault(host, {}).setdefault(port, {})[one] = one
    if not heard:
        raise SeenFault("it is an answer of Prometheus without lldpa_neighbor_info: see "
                        "lldpa-audit(1)")
    return Listing({}, True, {
        host: Listing({port: tuple(some.values()) for port, some in ports.items()},
                      host not in whole, time=times.get(host, 0.0))
        for host, ports in heard.items()})


def samples(tree: Any) -> Iterator[tuple[str, dict[str, str], float]]:
    """Yields the host, the labels and the value of each series. Raises SeenFault."""
    try:
        for one in tree["data"]["result"]:
            host = host_of(one["metric"]["instance"])
            labels = {name: plain(text) for name, text in one["metric"].items()}
            ours = {name[len(EXPORTED):]: text for name, text in labels.items()
                    if name.startswith(EXPORTED)}
            if host:
                yield host, defaultdict(str, {**labels, **ours}), float(one["value"][1])
    except (AttributeError, IndexError, KeyError, TypeError, ValueError):
        raise SeenFault("it is an answer of Prometheus, but a series in it lacks a value, or "
                        "the label instance") from None


def is_of_agent(file: str) -> bool:
    """Returns whether `lldpa-ctl metrics` wrote this file in node_exporter's folder."""
    name = file.rpartition("/")[2]
    return "lldpa" in name and "audit" not in name
