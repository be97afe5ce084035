"""For tests: a TLV of each organizationally specific kind whose meaning lldpa-ctl knows."""

from typing import Dict, List, Tuple

from served import REPOSITORY

FILE = REPOSITORY / "rust" / "people" / "tests" / "expected" / "said.txt"
# masks of the bits that mean nothing
IGNORED: Dict[str, str] = {
    "0080c2.2": "f90000", "0080c2.7": "fc00000000", "0080c2.9": "38" + "00" * 20,
    "0080c2.10": "ff" + "00" * 20, "0080c2.11": "3000", "0080c2.12": "ff180000180000",
    "00120f.1": "fc00000000", "00120f.3": "fc00000000",
    "00120f.2": "f000000c" + "00" * 14 + "f00000f8000000", "0012bb.2": "00200000"}


def samples() -> List[Tuple[str, bytes]]:
    """Returns the kind and the octets of each sample."""
    heads = (line[2:].split() for line in FILE.read_text().splitlines() if line.startswith("> "))
    return [(kind, bytes.fromhex(digits)) for kind, digits in heads]


SAMPLES = samples()


def has_ignored_bits(kind: str, octets: bytes) -> bool:
    """Returns whether a bit is set that means nothing."""
    return any(one & mask for one, mask in zip(octets, bytes.fromhex(IGNORED.get(kind, ""))))


def changed(octets: bytes) -> List[bytes]:
    """Returns all variants of these octets that differ in one octet."""
    return [octets[:at] + bytes([value]) + octets[at + 1:]
            for at in range(len(octets)) for value in range(256) if value != octets[at]]
