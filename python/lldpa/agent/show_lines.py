"""Writes output of lldpa's `show` commands."""

from typing import Iterator, List

from .shown import Configuration, Neighbor, Port, Show


def shown_key(name: str) -> str:
    """Returns a field's key in `show` output: `tx_hold` is `tx-hold`, and `statuses` is `ports`."""
    return "ports" if name == "statuses" else name.replace("_", "-")


def lines_of(show: Show) -> List[str]:
    """Returns the lines of `show` output with these contents, without line feeds."""
    lines = [line for port in show.ports for line in port_lines(port)]
    for name, counters in show.counters.items():
        lines += [f"lldp.{name}.{shown_key(key)}={number}"
                  for key, number in counters._asdict().items()]
    if show.chassis is not None:
        values = show.chassis._asdict().items()
        lines += [f"local-chassis.{key}={value}" for key, value in values if value is not None]
    if show.configuration is not None:
        lines += configuration_lines(show.configuration)
    return lines


def port_lines(port: Port) -> Iterator[str]:
    """Returns the lines of one port of `show neighbors`."""
    yield f"lldp.{port.name}.neighbors={port.neighbors_held}"
    yield f"lldp.{port.name}.octets={port.octets}"
    yield f"lldp.{port.name}.too-many={'yes' if port.too_many else 'no'}"
    for neighbor in port.neighbors:
        yield from neighbor_lines(neighbor)


def neighbor_lines(neighbor: Neighbor) -> Iterator[str]:
    front = f"lldp.{neighbor.port}.{neighbor.place}."
    yield f"{front}chassis.{neighbor.chassis}"
    yield f"{front}port.{neighbor.port_id}"
    yield f"{front}ttl={neighbor.ttl}"
    yield f"{front}expires={neighbor.expires}"
    for key, value in neighbor.said:
        yield f"{front}{key}={value}"


def configuration_lines(configuration: Configuration) -> Iterator[str]:
    for name, value in configuration._asdict().items():
        yield f"configuration.{shown_key(name)}={len(value) if name == 'statuses' else value}"
    for name, status in configuration.statuses.items():
        yield f"configuration.{name}.status={status}"


def counted(number: int, what: str) -> str:
    """Returns a number with its noun: `no neighbors`, `1 neighbor`, `2 neighbors`."""
    return f"{number or 'no'} {what}{'' if number == 1 else 's'}"
