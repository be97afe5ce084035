"""Reads from the TLVs of a neighbor whether its port is a member of an aggregate."""
from typing import Iterable

KINDS = ("0080c2.7", "00120f.3")  # Link Aggregation of IEEE 802.1 and of IEEE 802.3
LENGTH = 5  # octets: a status, and the number of the aggregated port
IS_CAPABLE, IS_AGGREGATED = 1, 2  # bits of the status; the others mean nothing


def is_aggregated(texts: Iterable[str]) -> bool:
    """Returns whether TLVs of `KINDS`, whose octets are given in hexadecimal, say that the port is
    a member of an aggregate. Those that are malformed or contradict each other say nothing."""
    said = set()
    for text in texts:
        octets = octets_of(text)
        if len(octets) == LENGTH:
            said.add((octets[0] & (IS_CAPABLE | IS_AGGREGATED), octets[1:]))
    return len(said) == 1 and bool(said.pop()[0] & IS_AGGREGATED)


def octets_of(text: str) -> bytes:
    """Reads octets in hexadecimal. Returns none for a text that no agent writes."""
    try:
        return bytes.fromhex(text)
    except ValueError:
        return b""
