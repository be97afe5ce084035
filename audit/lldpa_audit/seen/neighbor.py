"""Makes a neighbor from its fields in a list of neighbors."""
import ipaddress
from contextlib import suppress
from functools import lru_cache
from typing import Iterable, Sequence

from ..names import Seen

LONGEST = 512
MOST_KEPT = 32768


def neighbor(chassis: str, kind: str, port_id: str, name: str = "", descr: str = "",
             addresses: Iterable[str] = (), aggregated: bool = False) -> Seen:
    """Returns a neighbor with all names of its host and port. A field that it does not announce is
    empty. `kind` is lldpcli's word for the type of its Port ID. The host's first name is the
    System Name; the port's is the Port Description, or the Port ID if that names an interface."""
    hosts, chassis = names_of_host(name, chassis, *addresses)
    ports, port_id, is_named = names_of_port(kind, port_id, descr)
    return Seen(hosts, ports, chassis, port_id, aggregated, is_named)


# many neighbors have the same texts: each text is kept only once
@lru_cache(MOST_KEPT)
def names_of_host(name: str, chassis: str, *addresses: str) -> tuple[tuple[str, ...], str]:
    """Returns the names of a host, and its chassis ID. In `show neighbors`, an address ends at the
    first comma."""
    chassis = clean(chassis)
    addresses = (chassis, *[clean(address.partition(",")[0]) for address in addresses])
    return texts(name, *[form for one in addresses for form in names_of_address(one)]), chassis


@lru_cache(MOST_KEPT)
def names_of_port(kind: str, port_id: str, descr: str) -> tuple[tuple[str, ...], str, bool]:
    """Returns the names of a port, its Port ID, and whether that names an interface."""
    port_id = clean(port_id)
    is_named = kind in ("ifname", "ifalias") and port_id != ""
    return texts(port_id, descr) if is_named else texts(descr, port_id), port_id, is_named


@lru_cache(MOST_KEPT)
def texts(*names: str) -> tuple[str, ...]:
    """Returns the names that are not empty, each cleaned, or one empty name."""
    return tuple([clean(name) for name in names if name]) or ("",)


@lru_cache(MOST_KEPT)
def clean(text: str) -> str:
    """Returns a text whose only surrogates are those of octets that are not UTF-8. A text that is
    too long for LLDP is cut, but remains longer than any planned name."""
    text = text[:LONGEST]
    try:
        text.encode(errors="surrogateescape")
        return text
    except UnicodeEncodeError:
        return text.encode("utf-16", "surrogatepass").decode("utf-16", "replace")


def names_of_address(address: str) -> Sequence[str]:
    """Returns an address and, for IPv6, also its full and its short form."""
    is_mac = address.count(":") == 5 and len(address) == 17
    if ":" in address and not is_mac:
        with suppress(ValueError):
            found = ipaddress.IPv6Address(address)
            return tuple(dict.fromkeys([address, found.exploded, found.compressed]))
    return (address,)
