#!/usr/bin/env python3
"""Compares how lldpa, lldpcli and tshark read organizationally specific TLVs of the same frames.

    tools/by-hand/try-details.py [--save FILE] [--octets]

Some frames are from real senders: lldpd, ladvd and lldpad (saved in rust/people/tests/judged.json), and
lldpds that this script configures. Others are made up, with a TLV of each kind and each value that
has a name. Each frame is sent to an lldpd, which lldpcli asks (-f json0), and is read by tshark.
The values of both must equal those that lldpa reads, except the values that judges.py and
by_tshark.py of rust/people/tests list with a reason. --save writes the frames with both answers to FILE
for test_judged.py. --octets also compares lldpa and tshark on a TLV of each kind: on its first N
octets for each N, and on copies with one octet changed to each other value.
Needs Linux, root, and Debian's lldpd, iproute2 and tshark. The last line is `N passed, M failed`.
"""
import argparse
import json
import os
import pathlib
import struct
import subprocess
import sys

TOP = pathlib.Path(__file__).resolve().parents[2]
sys.path[:0] = [str(TOP / name) for name in ("python", "python/tests", "rust/live/tests", "rust/people/tests")]
from by_tshark import is_left_out, told_of  # noqa: E402
from judges import PARTS, Judged, compare, flat, leaves, sender_of_frame, shown_value  # noqa: E402
from patience import eventually  # noqa: E402
from people import objects_of  # noqa: E402
from real_lldpd import Lldpd  # noqa: E402
from samples import SAMPLES, changed, has_ignored_bits  # noqa: E402
from senders import SENDERS  # noqa: E402
from served import frame, tlv  # noqa: E402
from wires import Peer, Wires  # noqa: E402

JUDGED = TOP / "rust" / "people" / "tests" / "judged.json"


def sent_by_lldpd(wires):
    """Yields the name of each configured lldpd, and a frame that it sends."""
    hearing = Peer(wires, "eth0")
    for name, commands in SENDERS.items():
        sender = Lldpd(wires.there, wires.folder, "-M", "4", "-S", "a real peer", "-I", "peer0")
        for command in commands:
            sender.tell(command)
        while hearing.hears(0.01):
            pass
        sender.ask("update")
        yield name, hearing.hears()
        sender.close()
    hearing.close()


def made():
    """Yields names and bodies of made-up TLVs: each kind, and each value that has a name."""
    for number, (kind, octets) in enumerate(SAMPLES):
        yield f"{kind}-{number}", body_of(kind, octets)
    for number in range(146):
        yield f"mau-{number}", bytes.fromhex("00120f01036c01") + number.to_bytes(2, "big")
    for bit in range(16):
        yield f"advertised-{bit}", bytes.fromhex("00120f0103") + (1 << bit).to_bytes(2, "big") + b"\0\x1e"
    for number in range(64):
        yield f"power-{number}", bytes.fromhex("00120f02") + bytes([number >> 2 & 15, number & 3, number % 7])
        yield f"power-at-{number}", (bytes.fromhex("00120f020f0103") + bytes([number << 2 & 0xF0 | number & 3])
                                     + bytes.fromhex("00ff00c8"))
        yield f"med-power-{number}", bytes.fromhex("0012bb04") + bytes([number << 2 & 0xF0 | number & 3]) + b"\0\x32"
    for number in range(16):
        yield f"policy-{number}", bytes.fromhex("0012bb02") + bytes([number, 0x43, 0xE9 & ~1 | number >> 2 & 1,
                                                                     number << 6 & 0xC0 | 46])
        yield f"power-bt-{number}", (bytes.fromhex("00120f020601045200ff00c8") + bytes.fromhex("0064006500660067")
                                     + bytes([number << 4 | number & 3 << 2 | number >> 2, number << 4 | number, number])
                                     + bytes.fromhex("03e7") + bytes([number & 7]) + bytes.fromhex("74003c"))
        yield f"med-class-{number}", bytes.fromhex("0012bb01") + bytes([0, 1 << number & 0x3F | 1, number])
    for kind in (*range(7), *range(16, 30), 128):
        body = b"\x02NL" + bytes([kind, 2]) + b"ab"
        yield f"civic-{kind}", bytes.fromhex("0012bb0302") + bytes([len(body)]) + body


def with_tlv(body):
    """Returns a frame with this organizationally specific TLV. lldpd ignores a TLV of LLDP-MED
    unless an LLDP-MED Capabilities TLV comes first, so the frame has one before such a TLV."""
    is_of_med = body.startswith(bytes.fromhex("0012bb")) and body[3] > 1
    before = [tlv(127, bytes.fromhex("0012bb01003f03"))] if is_of_med else []
    return frame(b"\x04\x02\0\0\0\0\1", b"\x05p1", 120, tlv(5, b"made"), *before, tlv(127, body))


def shown_by_tshark(frames, room):
    """Yields for each frame what tshark shows of its organizationally specific TLVs."""
    path = os.path.join(room, "frames.pcap")
    with open(path, "wb") as file:
        file.write(struct.pack("<IHHiIII", 0xA1B2C3D4, 2, 4, 0, 0, 65535, 1))
        for octets in frames:
            file.write(struct.pack("<IIII", 0, 0, len(octets), len(octets)) + octets)
    told = subprocess.run(["tshark", "-r", path, "-T", "json"], capture_output=True, check=True).stdout
    for one in json.loads(told.decode("utf-8", "replace"), object_pairs_hook=lambda pairs: pairs):
        layers = dict(dict(dict(one)["_source"])["layers"])
        bodies = [body for _, body in layers["lldp"] if isinstance(body, list)]
        yield [list(leaves(body)) for body in bodies if ("lldp.tlv.type", "127") in body]


def shown_by_lldpcli(frames, wires):
    receiver = Lldpd(wires.here, wires.folder, "-r", "-M", "4", "-I", "eth0")
    sending = Peer(wires, "peer0")
    try:
        for octets in frames:
            sending.send(octets)
            shown, = eventually(receiver.neighbors)
            yield shown
            sending.send(sender_of_frame(octets))
            eventually(lambda: not receiver.neighbors())
    finally:
        sending.close()
        receiver.close()


def compare_octets(room):
    """Compares how lldpa and tshark read beginnings and changed versions of TLVs. Returns how many
    are equal, and the differences. Skips TLVs that lldpa shows in hexadecimal, that have
    reserved bits, or that have a text with a NUL (tshark cuts it there) or not in UTF-8."""
    equal, differences = 0, []
    for kind, octets in SAMPLES:
        variants = [some for some in [*(octets[:end] for end in range(1, len(octets))), *changed(octets)]
                    if not has_ignored_bits(kind, some)]
        all_said = objects_of([[(kind, some.hex())] for some in variants])
        read = [(some, said) for some, said in zip(variants, all_said)
                if not said["organizational"] and not has_odd_text(said)]
        frames = [frame(b"\x04\x02\0\0\0\0\1", b"\x05p1", 120, tlv(127, body_of(kind, some))) for some, _ in read]
        for (some, said), (shown,) in zip(read, shown_by_tshark(frames, room)):
            theirs, ours = shown_value(kind, shown), told_of(kind, said)
            equal += theirs == ours
            if theirs != ours:
                differences.append(f"{kind} {some.hex()}: tshark shows {theirs}, lldpa reads {ours}")
    return equal, differences


def has_odd_text(said):
    """Returns whether a text has a NUL, or is not UTF-8."""
    text = json.dumps(said)
    return "\\u0000" in text or '"octets": {' in text


def body_of(kind, octets):
    """Returns the body of a TLV of this kind, such as 0080c2.1."""
    oui, _, subtype = kind.partition(".")
    return bytes.fromhex(oui) + bytes([int(subtype)]) + octets


def run(given, wires):
    saved = json.loads(JUDGED.read_text()) if JUDGED.exists() else []
    frames = {one["name"]: bytes.fromhex(one["frame"]) for one in saved if one["name"].startswith("real-")}
    frames.update(sent_by_lldpd(wires))
    frames.update((f"made-{name}", with_tlv(body)) for name, body in made())
    told = zip(frames.items(), shown_by_tshark(frames.values(), wires.folder), shown_by_lldpcli(frames.values(), wires))
    judged = [Judged(name, octets.hex(), [pair for pair in flat(lldpcli) if pair[0].startswith(PARTS)],
                     [[pair for pair in pairs if not is_left_out(pair[0])] for pairs in tshark])
              for (name, octets), tshark, lldpcli in told]
    if given.save:
        lines = [json.dumps(one._asdict()) for one in judged]
        pathlib.Path(given.save).write_text("[\n" + ",\n".join(lines) + "\n]\n")
    return judged


def main():
    parser = argparse.ArgumentParser(description=__doc__, formatter_class=argparse.RawDescriptionHelpFormatter)
    parser.add_argument("--save", metavar="FILE")
    parser.add_argument("--octets", action="store_true")
    given, wires = parser.parse_args(), Wires()
    os.chmod(wires.folder, 0o755)
    try:
        equal, differences = compare(run(given, wires))
        more, others = compare_octets(wires.folder) if given.octets else (0, [])
    finally:
        wires.close()
    for text in differences + others:
        print(f"FAILED: {text}")
    print(f"{equal + more} passed, {len(differences + others)} failed")
    return 1 if differences or others or not equal else 0


if __name__ == "__main__":
    sys.exit(main())
