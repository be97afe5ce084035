"""For tests: compares what lldpcli and tshark show for frames with what lldpctl and --json say."""

import json
import subprocess
from typing import Any, Dict, Iterable, Iterator, List, NamedTuple, Sequence, Tuple

from by_tshark import compared, told_of, unknown_octets, wanted
from lldpa import read_show
from people import objects_of
from served import BIN, Served, tlv

Pair = Tuple[str, Any]
# beginnings of lldpcli's keys about organizationally specific TLVs
PARTS = ("port.mfs", "port.aggregation", "port.auto-negotiation", "port.power", "vlan", "ppvid",
         "pi", "lldp-med", "unknown-tlvs")
# keys whose values in lldpcli's output differ from the standard, with the reason
SLIPS = {
    "port.power.source.value": "of a PSE it names the sources of a PD, and of a PD those of a PSE",
    "port.power.power-type-ext.value": "it names other numbers than the standard, and tshark does",
}
AT_ONCE = 100  # frames of different neighbors, at one port


class Judged(NamedTuple):
    """A frame, lldpcli's keys and values for it, and tshark's for each organizational TLV."""
    name: str
    frame: str
    lldpcli: List[Pair]
    tshark: List[List[Pair]]


class Read(NamedTuple):
    """What lldpctl says of a frame in the form json0, and each organizational TLV with its kind,
    its octets in hexadecimal, and what JSON has of it alone."""
    lldpctl: List[Pair]
    tlvs: List[Tuple[str, str, Any]]


def flat(told: Any, path: str = "") -> Iterator[Pair]:
    """Yields the values of an object from JSON, each with the path of keys to the value."""
    if isinstance(told, dict):
        for key, value in told.items():
            yield from flat(value, f"{path}.{key}".lstrip("."))
    elif isinstance(told, list):
        for value in told:
            yield from flat(value, path)
    else:
        yield path, told


def leaves(pairs: List[Pair]) -> Iterator[Pair]:
    """Yields the pairs whose values are not lists, also those inside lists at any depth."""
    for key, value in pairs:
        if isinstance(value, list):
            yield from leaves(value)
        else:
            yield key, value


def sender_of_frame(octets: bytes) -> bytes:
    """Returns a shutdown frame of the sender of this frame."""
    rest, kept = octets[14:], octets[:14]
    for _ in range(2):
        length = 2 + int.from_bytes(rest[:2], "big") % 512
        kept, rest = kept + rest[:length], rest[length:]
    return kept + b"\x06\x02\0\0" + b"\0\0"


def with_chassis(octets: bytes, number: int) -> bytes:
    """Returns a frame with another chassis ID, which this number makes."""
    rest = octets[16 + (int.from_bytes(octets[14:16], "big") & 511):]
    return octets[:14] + tlv(1, b"\x04\x02\0\0\x05" + number.to_bytes(2, "big")) + rest


def read_all(frames: Sequence[bytes]) -> List[Read]:
    """Returns what lldpctl and JSON say of each frame."""
    found: List[Read] = []
    for begin in range(0, len(frames), AT_ONCE):
        found += read_some(frames[begin:begin + AT_ONCE])
    return found


def read_some(frames: Sequence[bytes]) -> List[Read]:
    with Served(max_neighbors=128) as served:
        for number, octets in enumerate(frames):
            served.frame("eth0", with_chassis(octets, number))
        told = subprocess.run([BIN / "lldpctl", "-u", served.path, "-f", "json0"],
                              stdout=subprocess.PIPE, check=True).stdout
        neighbors = read_show(served.ask(b"show neighbors")).neighbors
    of_lldpctl = {number_in(one["chassis"][0]["id"][0]["value"]): list(flat(one))
                  for one in json.loads(told)["lldp"][0]["interface"]}
    found: Dict[int, Read] = {}
    for one in neighbors:
        objects = objects_of([[shown] for shown in one.org])
        tlvs = [(*shown, said) for shown, said in zip(one.org, objects)]
        number = number_in(one.chassis.text)
        found[number] = Read(of_lldpctl[number], tlvs)
    return [found[number] for number in range(len(frames))]


def number_in(chassis: str) -> int:
    """Returns the number that made a chassis ID."""
    return int(chassis.replace(":", "")[-4:], 16)


def compare(judged: Sequence[Judged]) -> Tuple[int, List[str]]:
    """Returns how many values are equal, and texts about the differences."""
    return compare_read(judged, read_all([bytes.fromhex(one.frame) for one in judged]))


def compare_read(judged: Iterable[Judged], all_read: Iterable[Read]) -> Tuple[int, List[str]]:
    equal, differences = 0, []
    for one, read in zip(judged, all_read):
        for theirs, ours, count, where in of_frame(one, read):
            if theirs == ours:
                equal += max(count, 1)
            else:
                differences.append(f"{one.name}: {where}: {theirs}, and read is {ours}")
    return equal, differences


def of_frame(one: Judged, read: Read) -> Iterator[Tuple[Any, Any, int, str]]:
    """Yields what lldpcli or tshark shows, what is read, how many values, and the program."""
    ours = of_tlvs(read.lldpctl)
    yield of_tlvs(one.lldpcli), ours, len(ours), "lldpcli"
    yield len(one.tshark), len(read.tlvs), 1, "tshark"
    for (kind, digits, said), pairs in zip(read.tlvs, one.tshark):
        if said["organizational"]:
            octets = bytes.fromhex(digits).hex(":")
            yield unknown_octets(pairs), octets, 1, f"tshark {kind}"
        else:
            count = len(compared(pairs))
            yield shown_value(kind, pairs), told_of(kind, said), count, f"tshark {kind}"


def shown_value(kind: str, pairs: Sequence[Pair]) -> Any:
    """Returns what JSON must have by what tshark shows, or what tshark shows that nothing reads."""
    try:
        return wanted(kind, pairs)
    except (AssertionError, KeyError, ValueError) as fault:
        return f"{fault!r}: {pairs}"


def of_tlvs(pairs: Iterable[Pair]) -> List[Pair]:
    """Returns the pairs about organizationally specific TLVs, without the keys in `SLIPS`."""
    return [(key, value) for key, value in pairs if key.startswith(PARTS) and key not in SLIPS]
