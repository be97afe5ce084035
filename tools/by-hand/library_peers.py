"""Compares what the model and other decoders read in frames, by the rules of docs/STANDARD.md."""
from __future__ import annotations

import subprocess
from typing import Callable

import model

OUIS_READ = (b"\x00\x80\xc2", b"\x00\x12\x0f", b"\x00\x12\xbb", b"\x00\x1b\x21")
TEXTS = {4: "pdescr", 5: "name", 6: "descr"}


class Frame:
    """A frame, its TLVs, and what the model reads in it."""

    def __init__(self, octets: bytes):
        self.octets = octets
        self.pdu = octets[14:]
        tlvs, _ = model.cut(self.pdu)
        self.end = next((tlv for tlv in tlvs if tlv.kind == 0), None)
        self.inside = tlvs if self.end is None else tlvs[:tlvs.index(self.end)]
        self.kinds = [tlv.kind for tlv in self.inside]
        is_to_bridge = octets[:6] == model.NEAREST_BRIDGE and octets[12:14] == model.ETHERTYPE
        self.is_ours = is_to_bridge and 14 <= len(octets) <= 1514
        try:
            self.told: model.Lldpdu | None = model.Lldpdu(self.pdu) if self.is_ours else None
        except model.UnsoundLldpdu:
            self.told = None

    def optional(self, kind: int) -> list[bytes]:
        return [tlv.body for tlv in self.inside if tlv.kind == kind]

    def is_shutdown(self) -> bool:
        """Returns whether the model accepts the frame with a time to live of 0."""
        return self.told is not None and self.told.ttl == 0


LLDPD, SD_LLDP, BOTH = {"lldpd"}, {"sd-lldp"}, {"lldpd", "sd-lldp"}

# The text of a rule, the peers that do not follow it, and whether it applies to a frame.
Reason = tuple[str, set[str], Callable[[Frame], bool]]

# Rules by which the library accepts a frame that a peer refuses.
TAKEN: list[Reason] = [
    ("it may be missing", BOTH, lambda frame: frame.end is None),
    ("one with a length above 0 ends the LLDPDU too", BOTH,
     lambda frame: frame.end is not None and frame.end.body != b""),
    ("a reserved subtype is accepted", LLDPD,
     lambda frame: any(not 1 <= tlv.body[0] <= 7 for tlv in frame.inside[:2] if tlv.body)),
    ("only the first two octets of a longer one are read", SD_LLDP,
     lambda frame: len(frame.inside[2].body) > 2),
    ("A TLV in error is discarded and counted; the others are used", BOTH,
     lambda frame: frame.told is not None and frame.told.ttl > 0 and frame.told.discarded > 0),
    ("A TTL of 0 deletes the sender's entry; the rest of the LLDPDU does not matter", BOTH,
     Frame.is_shutdown),
    ("Their organization defines what they mean", LLDPD,
     lambda frame: any(body[:3] in OUIS_READ for body in frame.optional(127))),
    ("1 to 31 octets of address", LLDPD,  # more than 16 octets, or not an IP address
     lambda frame: any(body[:1] > b"\x11" or body[1:2] not in (b"\1", b"\2")
                       for body in frame.optional(8))),
]

# Rules by which the library refuses or ignores a frame that a peer accepts.
REFUSED: list[Reason] = [
    ("Frames are sent to one of three group addresses", BOTH,
     lambda frame: frame.octets[:6] != model.NEAREST_BRIDGE),
    ("it has 14 to 1,514 octets", BOTH, lambda frame: not 14 <= len(frame.octets) <= 1514),
    ("It begins with Chassis ID, Port ID and Time To Live, in this order", SD_LLDP,
     lambda frame: frame.kinds[:3] != [1, 2, 3]),
]


class Told:
    """A peer's answer about a frame."""

    def __init__(self, line: str):
        words = line.split(" ")
        self.is_accepted = words[0] == "accept"
        self.fields = dict(word.split("=", 1) for word in words if "=" in word)

    def identifiers(self) -> tuple[bytes, ...]:
        """Returns the Chassis ID and the Port ID with their subtypes."""
        return tuple(bytes([int(self.fields[f"{name[0]}type"])]) + bytes.fromhex(self.fields[name])
                     for name in ("chassis", "port"))


def verdicts(command: list[str]) -> list[Told]:
    ran = subprocess.run(command, capture_output=True, text=True, check=True)
    return [Told(line) for line in ran.stdout.splitlines()]


def plain(body: bytes) -> bool:
    """Returns whether peers show this text unchanged."""
    is_plain = all(0x20 <= octet < 0x7f and octet not in b"\"'\\" for octet in body)
    return is_plain and 0 < len(body) <= 255


def fault_of_texts(frame: Frame, told: Told) -> str | None:
    """Returns how a peer's text differs, or None. Compares plain texts of TLVs that occur once."""
    for kind, name in TEXTS.items():
        bodies = frame.optional(kind)
        if len(bodies) == 1 and plain(bodies[0]) and told.fields.get(name) != bodies[0].hex():
            return f"{name} is {told.fields.get(name)} and not {bodies[0].hex()}"
    return None


def compared(peer: str, frame: Frame, theirs: Told) -> str:
    """Returns "the same", the rule that explains a difference, or `?` and the difference."""
    ours = frame.told
    if (ours is not None) != theirs.is_accepted:
        rules = [rule for rule, peers, holds in (REFUSED if ours is None else TAKEN)
                 if peer in peers and holds(frame)]
        answer = "refuses" if ours is None else "accepts"
        return rules[0] if rules else f"? the library {answer} it"
    if ours is None:
        return "the same"
    if ours.name != theirs.identifiers() or ours.ttl != int(theirs.fields["ttl"]):
        return "? another sender or another time to live"
    if frame.is_shutdown():
        return "the same"
    fault = fault_of_texts(frame, theirs)
    return f"? {fault}" if fault else "the same"
