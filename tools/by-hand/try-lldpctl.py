#!/usr/bin/env python3
"""Compares what lldpctl prints for lldpa-live with what lldpcli prints for lldpd on the same links.

    tools/by-hand/try-lldpctl.py

At the far end, an lldpd sends TLVs of IEEE 802.1, IEEE 802.3 and LLDP-MED, and custom TLVs. Then
the frames of rust/people/tests/judged.json are sent, and frames with every octet in their texts. At the
near end, `lldpd -r` and lldpa-live receive the same frames. Each command runs in the forms plain,
keyvalue, json and json0. All keys and values are compared, except ages. A difference fails unless
docs/LLDPD.md lists it. It needs Linux, root, and Debian's packages lldpd and iproute2.
"""
import argparse
import collections
import contextlib
import json
import os
import pathlib
import re
import socket
import subprocess
import sys
import unicodedata

TOP = pathlib.Path(__file__).resolve().parents[2]
sys.path[:0] = [str(TOP / folder) for folder in ("python", "python/tests", "rust/live/tests",
                                                 "rust/people/tests", "audit/tests", "tools/gate")]
from counts import Counts  # noqa: E402
from running_live import Live  # noqa: E402
from judges import flat, sender_of_frame, with_chassis  # noqa: E402
from lldpa.texts import escaped, printable  # noqa: E402
from lldpcli_lists import shortened  # noqa: E402
from patience import eventually  # noqa: E402
from real_lldpd import Lldpd  # noqa: E402
from senders import SENDERS  # noqa: E402
from served import frame, tlv  # noqa: E402
from wires import Wires, inside, ip  # noqa: E402

PAGE = TOP / "docs" / "LLDPD.md"
HEADING = "## `lldpctl`, in lldpcli's place"
JUDGED = TOP / "rust" / "people" / "tests" / "judged.json"
FORMS = ("plain", "keyvalue", "json", "json0")
COMMANDS = ("show neighbors", "show neighbors details", "show neighbors summary", "show neighbors details ports eth1",
            "show neighbors ports eth0,eth1", "show interfaces", "show interfaces summary", "show interfaces ports eth0",
            "show chassis", "show chassis summary", "show statistics", "show statistics summary",
            "show statistics ports eth1", "show configuration")
OF_NEIGHBORS = ("show neighbors details",)
LINE = "-" * 79
BATCH = 60  # at two ports; lldpd keeps at most 32 neighbors of a port
SIGN = re.compile(r"-(?=\d)|(?<=\d)[NSEW]")
IDENTIFIER = re.compile(r"(chassis|port)\.(mac|ip|ifname|ifalias|local|unhandled|id|id\.type)|ChassisID|PortID")
AGE = re.compile(r"Time: \d+ days?, [0-9:]+")
COORDINATES = [(degrees, resolution) for degrees in (0, 48.8566613, -33.8567844, 0.5, -0.5, -1, 89.9999999, -0.001)
               for resolution in (0, 5, 9, 10, 15, 22, 25, 34)]
PLAIN_HOST = ("configure system description \"two words\"", "configure lldp portidsubtype ifname",
              "configure lldp custom-tlv add oui 33,44,55 subtype 254")
# settings with which the near lldpd shows the same as lldpa-live
ALIKE = ("configure lldp portidsubtype ifname", "configure system description alike",
         "configure system ip management pattern 192.0.2.1")


class Comparison:
    """Counts equal values, listed differences, and other differences."""

    def __init__(self):
        self.counts = Counts()
        self.listed = collections.Counter()
        self.rows = listed_keys(PAGE.read_text())

    def compare(self, where, theirs, ours):
        for name in dict.fromkeys([*theirs, *ours]):
            of_theirs, of_ours = by_key(theirs.get(name, [])), by_key(ours.get(name, []))
            for key in dict.fromkeys([*of_theirs, *of_ours]):
                self.compare_values(where, name, key, of_theirs.get(key, []), of_ours.get(key, []))
            common = [key for key in dict.fromkeys(key for key, _ in theirs.get(name, [])) if key in of_ours]
            if common != [key for key in of_ours if key in of_theirs]:
                self.counts.judge("the keys have another order", f"{where}: {name}")

    def compare_values(self, where, name, key, theirs, ours):
        if theirs == ours:
            return
        row = self.row_of(where, key, theirs, ours)
        if row is None:
            self.counts.judge(f"lldpcli {theirs}, lldpctl {ours}", f"{where}: {name}: {key}")
        else:
            self.listed[row] += max(len(theirs), len(ours))

    def row_of(self, where, key, theirs, ours):
        """Returns the row of docs/LLDPD.md that lists a difference, or None."""
        if escaped_alike(theirs) == escaped_alike(ours) and ("neighbors", "a text") in self.rows:
            return "a text"
        if [SIGN.sub("", str(value)) for value in theirs] == [SIGN.sub("", str(value)) for value in ours]:
            return "coordinates" if ("neighbors", "coordinates") in self.rows else None
        return next((row for show, row in self.rows if f": show {show}" in where
                     and (key == row or key.startswith(row + "."))), None)


def listed_keys(page):
    """Returns the pairs of a show command and a key in the page's table of differences."""
    table = page.partition(HEADING)[2].partition("\n## ")[0]
    rows = [line.split("|")[1:3] for line in table.splitlines() if line.startswith("|")]
    return [(show, key) for shows, keys in rows for show in re.findall("`([^`]*)`", shows)
            for key in (re.findall("`([^`]*)`", keys) or [keys.strip()])]


def escaped_alike(values):
    """Returns the values as texts that are escaped in the same way for all forms."""
    return [printable(one_line(str(value))) for value in values]


def one_line(text):
    """Returns a text in one line, as lldpctl prints it. Line feeds become spaces, and what controls a
    terminal is escaped."""
    return "".join(" " if letter == "\n" else escaped(letter) if is_control(letter) else letter for letter in text)


def is_control(letter):
    kind = unicodedata.category(letter)
    return kind in ("Zl", "Zp") or kind[0] == "C" and kind not in ("Cf", "Co", "Cn") and letter != "\t"


def by_key(pairs):
    found = {}
    for key, value in pairs:
        found.setdefault(key, []).append(value)
    return found


def blocks_of(form, octets):
    """Returns the keys and values of each block of an answer, by the name of the block."""
    if form == "plain":
        return named(plain_blocks(octets.decode("utf-8", "surrogateescape")))
    if form == "keyvalue":
        return named(keyvalue_blocks(octets.decode("utf-8", "surrogateescape")))
    return named(json_blocks(json.loads(octets)))


def named(blocks):
    """Returns the blocks by name. A name has the port and, for a neighbor, the identifiers."""
    found = {}
    for port, pairs in blocks:
        of = [one_line(str(value)) for key, value in pairs if IDENTIFIER.fullmatch(key)]
        found.setdefault(" ".join([port, *of]), []).extend(pairs)
    return found


def plain_blocks(text):
    """Yields a plain answer's blocks. A line's key is the text before its colon, or `further`."""
    title, *blocks = AGE.sub("Time", text).split(LINE + "\n")[1:]
    yield "title", [("title", title)]
    for block in filter(None, blocks):
        pairs = []
        for line in block.split("\n")[:-1]:
            label, mark, value = line.partition(":")
            pairs.append((label.strip(), value) if mark and not line.startswith(" " * 14) else ("further", line))
        yield block.split("\n", 1)[0].split(",")[0], pairs


def keyvalue_blocks(text):
    blocks = []
    for line in text.split("\n")[:-1]:
        key, _, value = line.partition("=")
        root, _, rest = key.partition(".")
        port, _, inner = rest.partition(".") if root == "lldp" else ("", "", rest)
        if not blocks or blocks[-1][0] != f"{root} {port}" or inner == "via":
            blocks.append((f"{root} {port}", []))
        if inner != "age":
            blocks[-1][1].append((inner, value))
    return blocks


def json_blocks(told):
    (root, inner), = told.items()
    inner = inner[0] if isinstance(inner, list) else inner
    some = inner.get("interface", inner)
    for one in some if isinstance(some, list) else [some]:
        name = one["name"] if "name" in one else next(iter(one)) if len(one) == 1 and root == "lldp" else ""
        pairs = [(key.partition(f"{name}.")[2] if key.startswith(f"{name}.") else key, value) for key, value in flat(one)]
        chassis = one.get(name, one).get("chassis") if isinstance(one.get(name, one), dict) else None
        names = list(chassis) if isinstance(chassis, dict) and len(chassis) == 1 else []
        yield f"{root} {name}", [(unnamed(key, names).removesuffix(".value"), value) for key, value in pairs
                                 if key != "age"]


def unnamed(key, names):
    """Returns a key without the chassis name. Keys of a chassis with a name contain the name."""
    front = f"chassis.{names[0]}." if names and names != ["id"] else None
    return "chassis." + key[len(front):] if front and key.startswith(front) else key


class Lab:
    """Two links, with senders at the far end, and an lldpd and an lldpa-live that receive."""

    def __init__(self):
        self.last = None
        self.wires = Wires(2)
        for side, interface, address in (("here", "eth0", 1), ("there", "peer0", 2)):
            ip("-n", getattr(self.wires, side), "address", "add", f"192.0.2.{address}/24", "dev", interface)
        os.chmod(self.wires.folder, 0o755)
        self.lldpd = Lldpd(self.wires.here, self.wires.folder, "-r", "-I", "eth0,eth1")
        self.live = Live(self.wires, "eth0", "eth1", "--no-description", "--", "--receive-only",
                         "--management=192.0.2.1")
        self.live.ask("configure system description alike")
        for command in ALIKE:
            self.lldpd.tell(command)
        with inside(self.wires.there):
            self.sending = [socket.socket(socket.AF_PACKET, socket.SOCK_RAW) for _ in range(2)]
            for number, one in enumerate(self.sending):
                one.bind((f"peer{number}", 0))

    def lldpctl(self, form, command, name="lldpcli"):
        done = subprocess.run([str(TOP / "bin" / name), "-u", self.live.control, "-f", form, *command.split()],
                              capture_output=True, check=False)
        if done.returncode or done.stderr:
            raise SystemExit(f"{name} {command}: {done.stderr.decode()}")
        return done.stdout

    def compare(self, comparison, where, commands):
        for command in commands:
            for form in FORMS:
                theirs, ours = self.both(form, command)
                try:
                    of_theirs = blocks_of(form, theirs)
                except ValueError:  # lldpcli leaves keys and one control character unescaped
                    whole = json.loads(self.lldpd.ask("-f", "json0", *command.split()), strict=False)
                    short = {root: shortened(inner) for root, inner in whole.items()}
                    of_theirs = named(json_blocks(short if form == "json" else whole))
                    comparison.listed["an answer of lldpcli that is not JSON"] += 1
                comparison.compare(f"{where}: {command} -f {form}", of_theirs, blocks_of(form, ours))

    def both(self, form, command):
        """Returns what both programs print. Asks again if the counters changed in between."""
        words = ("-f", form, *command.split())
        while True:
            theirs, ours = self.lldpd.ask(*words), self.lldpctl(form, command)
            if "statistics" not in command or theirs == self.lldpd.ask(*words):
                return theirs, ours

    def keys(self):
        """Returns how many neighbors lldpcli shows, and how many lldpctl shows."""
        return [blocks.count(b".port.ttl=") for blocks in (self.lldpd.ask("-f", "keyvalue", "show", "neighbors"),
                                                           self.lldpctl("keyvalue", "show neighbors"))]

    @contextlib.contextmanager
    def hearing(self, name, commands):
        """Runs an lldpd at the far end. The `with` block begins when both receivers show it."""
        sender = Lldpd(self.wires.there, self.wires.folder, "-M", "4", "-S", "a real peer", "-I", "peer0,peer1")
        try:
            for command in commands:
                sender.tell(command)
            sender.tell("update")
            if not eventually(self.is_still):
                raise SystemExit(f"{name} was not received by both: {self.keys()}")
            yield
        finally:
            sender.close()
        eventually(lambda: self.keys() == [0, 0])

    def is_still(self):
        """Returns whether both show two neighbors, and nothing changed since the last call."""
        before, self.last = self.last, (AGE.sub("", self.lldpd.ask("show", "neighbors", "details").decode()),
                                        self.lldpctl("json0", "show statistics"))
        return before == self.last and self.keys() == [2, 2]

    def close(self):
        for one in self.sending:
            one.close()
        self.live.close()
        self.lldpd.close()
        self.wires.close()


def configured(lab, comparison):
    for name, commands in {**SENDERS, "a plain host": PLAIN_HOST}.items():
        with lab.hearing(name, commands):
            lab.compare(comparison, name, COMMANDS)
    lab.compare(comparison, "nobody", COMMANDS)


def sent(lab, comparison, name, frames):
    """Sends these frames in batches, and compares what both programs show of each batch."""
    for at in range(0, len(frames), BATCH):
        some = frames[at:at + BATCH]
        for number in range(2):  # one port after the other, so that the order is fixed
            for octets in some[number::2]:
                lab.sending[number].send(octets)
            count = len(some[::2]) if number == 0 else len(some)
            if not eventually(lambda: lab.keys() == [count, count]):
                raise SystemExit(f"{name} {at}: {lab.keys()} of {count} are shown")
        lab.compare(comparison, f"{name} {at}", OF_NEIGHBORS)
        print(f"compared: {name} frames up to {at + len(some)}", flush=True)
        for number, octets in enumerate(some):
            lab.sending[number % 2].send(sender_of_frame(octets))
        eventually(lambda: lab.keys() == [0, 0])


def judged_frames():
    """Yields the frames of judged.json, each with a chassis ID of its own."""
    for number, one in enumerate(json.loads(JUDGED.read_text())):
        yield with_chassis(bytes.fromhex(one["frame"]), number)


def place_of(degrees, resolution):
    value, altitude = round(degrees * (1 << 25)), round(degrees * 256)
    bits = (resolution << 122 | (value & (1 << 34) - 1) << 88 | resolution << 82 | (value & (1 << 34) - 1) << 48
            | (resolution % 4) << 44 | min(resolution, 30) << 38 | (altitude & (1 << 30) - 1) << 8 | resolution % 5)
    return bits.to_bytes(16, "big")


def odd_frames():
    """Yields frames with every octet in texts, unusual texts, and identifiers of each kind."""
    def chassis(number):
        return b"\x04\x02\0\0\x09" + number.to_bytes(2, "big")
    for number in range(1, 256):
        octet = bytes([number])
        yield frame(chassis(number), b"\x05p1", 120, tlv(4, octet + b"x"), tlv(5, b"a" + octet + b"b"), tlv(6, b"c" + octet))
    texts = (b"", b"\0", b"a\0b", b"l1\nlldp.eth0.rid=7\r\nl3\n", "caf\u00e9 \u20ac \U0001f600".encode(), b"\xed\xa0\x80",
             b"\xe2\x82", "a\u2028b\u2029\u0085c".encode(), "\u202eabc\u200b".encode(), b'"}\\u0041', b"on", b"yes", b"id")
    for number, text in enumerate(texts, 300):
        yield frame(chassis(number), b"\x05p1", 120, *(tlv(kind, text) for kind in (4, 5, 6)))
    med = tlv(127, bytes.fromhex("0012bb01003f03"))
    for number, (degrees, resolution) in enumerate(COORDINATES, 400):
        yield frame(chassis(number), b"\x05p1", 120, med, tlv(127, bytes.fromhex("0012bb0301") + place_of(degrees, resolution)))
    for kind in range(1, 8):
        for number, body in enumerate((b"abc", b"\x01\x0a\0\0\x01", b"\x02" + bytes(15) + b"\x01")):
            yield frame(bytes([kind]) + body + bytes([kind]) * (kind in (1, 2, 6, 7)), bytes([kind]) + body, 1000 + number)


def main():
    argparse.ArgumentParser(description=__doc__, formatter_class=argparse.RawDescriptionHelpFormatter).parse_args()
    os.makedirs("/run/lldpd", exist_ok=True)
    comparison, lab = Comparison(), Lab()
    try:
        configured(lab, comparison)
        sent(lab, comparison, "judged", list(judged_frames()))
        sent(lab, comparison, "odd", list(odd_frames()))
    finally:
        lab.close()
    for row, count in comparison.listed.items():
        print(f"{count} differences that the page lists: {row}")
    return comparison.counts.end()


if __name__ == "__main__":
    sys.exit(main())
