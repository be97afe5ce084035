"""Compares what lldpctl prints with what lldpcli printed for the same frames."""

import json
import re
import subprocess
import unittest
from typing import Dict, Iterable, List, Sequence, Tuple
from xml.etree import ElementTree

import lldpd_heard
from judges import SLIPS, flat
from lldpa import read_show
from served import BIN, LIVE_LINES, Served, frame, is_built, tlv, told_by

AGE = re.compile(r"[0-9]+ days?, [0-9:]{8}")
PORTS = ("swp1", "swp2")
FORMS = ("plain", "keyvalue", "json", "json0", "xml")
DETAILS = ("show", "neighbors", "details")


def lldpctl(path: str, *words: str) -> bytes:
    return subprocess.run([BIN / "lldpctl", "-u", path, *words], stdout=subprocess.PIPE,
                          check=True).stdout


def numbered_lines(served: Served) -> List[bytes]:
    """Returns the lines of `live`, with a time of each neighbor and a number of each chassis."""
    lines, numbers = list(LIVE_LINES), {}  # type: List[bytes], Dict[str, int]
    for place, one in enumerate(read_show(served.ask(b"show neighbors")).neighbors, 1):
        lines.append(f"live.{one.port}.since.{place}=2026-11-25T09:30:00Z {one.id}".encode())
        numbers.setdefault(one.id.partition(" ")[0], len(numbers) + 1)
    return lines + [f"live.chassis.{number}={who}".encode() for who, number in numbers.items()]


def written(frames: Iterable[Tuple[str, bytes]], forms: Sequence[str] = FORMS) -> Dict[str, str]:
    """Returns what lldpctl prints in some forms of an agent that received these frames."""
    with Served(PORTS, max_neighbors=128) as served:
        for port, octets in frames:
            served.frame(port, octets)
        served.live_lines = numbered_lines(served)
        return {form: lldpctl(served.path, "-f", form, *DETAILS).decode().removesuffix("\n")
                for form in forms}


@is_built
class BesideLldpcli(unittest.TestCase):
    """Compares the output in each form, for frames that a real lldpd received."""

    def compare(self, told: Dict[str, str], name: str) -> None:
        for form, text in told.items():
            ours, theirs = AGE.sub("", text), AGE.sub("", lldpd_heard.sample(name, form).decode())
            if form.startswith("json"):
                theirs = theirs.replace('"ho\\01', '"ho\\\\01')  # lldpcli does not escape keys
                self.assertEqual(json.loads(ours), json.loads(theirs, strict=False))
                continue
            theirs = theirs.replace("\r", "\\x0d")
            if form == "plain":
                theirs = theirs.replace("\ty", "y").replace("\ttab", "\\x09tab")
            self.assertEqual(ours.split("\n"), theirs.rstrip("\n").split("\n"))

    def test_clean_ones(self) -> None:
        heard = [("swp1", one) for one in lldpd_heard.CLEAN] + [("swp2", lldpd_heard.CLEAN[0])]
        told = written(heard)
        self.assertEqual(len(json.loads(told["json"])["lldp"]["interface"]), 13)
        self.compare(told, "clean")

    def test_nobody(self) -> None:
        self.compare(written([]), "none")

    def test_odd_names(self) -> None:
        self.compare(written([("swp1", one) for one in lldpd_heard.ODD], ["json0"]), "odd")

    def test_what_lldpcli_names_otherwise(self) -> None:
        for octets, source, kind in (("070104" "12" "00ff00c8", "Primary power source", None),
                                     ("070104" "22" "00ff00c8", "Backup source", None),
                                     ("060104" "52" "00ff00c8", "PSE", None),
                                     ("060104" "72" "00ff00c8", "PSE + Local", None),
                                     ("060104" "5200ff00c8" "0064006500660067" "0000" "02" "03e7"
                                      "00" "000000", "PSE", "Type 4 PSE")):
            power = tlv(127, bytes.fromhex("00120f02" + octets))
            octets_of = frame(b"\x04\x02\0\0\0\0\1", b"\x05p1", 120, power)
            told = json.loads(written([("swp1", octets_of)], ["json0"])["json0"])
            values = dict(flat(told["lldp"][0]["interface"][0]))
            self.assertEqual([values.get(key) for key in SLIPS], [source, kind])


@is_built
class Alike(unittest.TestCase):
    """Neighbors that sent the same TLVs are told alike, each at its place."""

    def test_each_is_written_at_its_depth(self) -> None:
        capabilities = tlv(7, b"\0\x14\0\4")
        med = tlv(127, bytes.fromhex("0012bb01003f03"))
        told = [*lldpd_heard.SETTINGS, capabilities, med]
        octets = frame(lldpd_heard.mac(1), b"\x05p1", 120, *told)
        one, two = [("swp1", octets)], [("swp1", octets), ("swp2", octets)]
        texts = [AGE.sub("", written(frames, ["json"])["json"]) for frames in (one, two)]
        for text in texts:
            self.assertEqual(text, json.dumps(json.loads(text), indent=2))
        of_one, of_two = (json.loads(text)["lldp"]["interface"] for text in texts)
        self.assertEqual([next(iter(one)) for one in of_two], list(PORTS))
        self.assertEqual([*of_one.values()] * 2, [next(iter(one.values())) for one in of_two])


@is_built
class Texts(unittest.TestCase):
    """Tests names with each octet, and names that could deceive a reader."""

    def forms_of(self, name: bytes) -> Dict[str, str]:
        """Returns the output for a neighbor with this name, in each form."""
        octets = frame(b"\x04\x02\0\0\0\0\1", b"\x05p1", 120, tlv(5, name), tlv(6, name))
        return written([("swp1", octets)])

    def test_each_octet(self) -> None:
        frames = [("swp1" if number < 128 else "swp2",
                   frame(b"\x04\x02\0\0\0\1" + bytes([number]), b"\x05p1", 120,
                         tlv(5, b"<" + bytes([number]) + b">")))
                  for number in range(1, 256)]
        told = written(frames)
        names = [next(iter(next(iter(one.values()))["chassis"]))
                 for one in json.loads(told["json"])["lldp"]["interface"]]
        wanted = [f"<{chr(number)}>" if number < 128 else "<\ufffd>" for number in range(1, 256)]
        self.assertEqual(names, wanted)
        self.assertEqual(len(json.loads(told["json0"])["lldp"][0]["interface"]), 255)
        found = ElementTree.fromstring(told["xml"].encode("utf-8"))
        shown = [one.text for one in found.iter("name")]
        self.assertEqual(shown[:8], [f"<\\x{number:02x}>" for number in range(1, 9)])
        self.assertEqual(shown[8:10] + shown[12:13], ["<\t>", "<\n>", "<\r>"])
        self.assertEqual(shown[31:127], [f"<{chr(number)}>" for number in range(32, 128)])
        self.assertEqual({*shown[127:]}, {"<\ufffd>"})
        lines = told["keyvalue"].splitlines()
        self.assertEqual(len(lines), 255 * 7)
        self.assertTrue(all(line.startswith("lldp.swp") for line in lines))

    def test_nobody_forges_a_line(self) -> None:
        forged = b"x\nlldp.swp1.port.ttl=1\rlldp.swp1.rid=9\xe2\x80\xa8lldp.swp1.via=\x85\x1b[2J"
        told = self.forms_of(forged)
        shown = r"x lldp.swp1.port.ttl=1\x0dlldp.swp1.rid=9\xe2\x80\xa8lldp.swp1.via=\x85\x1b[2J"
        self.assertIn(f"lldp.swp1.chassis.name={shown}\n", told["keyvalue"])
        self.assertEqual(len(told["keyvalue"].splitlines()), 8)
        self.assertTrue(told["plain"].isascii() and "\x1b" not in told["plain"])
        self.assertIn("\n" + " " * 18 + "lldp.swp1.port.ttl=1", told["plain"])

    def test_nothing_in_xml_is_obeyed_by_a_terminal(self) -> None:
        text = "\u202e\u200b\x1b]0;<a b='\"'>&\uffff\x9b2J"
        told = self.forms_of(text.encode())["xml"]
        self.assertRegex(told, "^[ -~\n]*$")
        name = ElementTree.fromstring(told).find(".//name")
        assert name is not None
        wanted = text.replace("\x1b", "\\x1b").replace("\uffff", r"\xef\xbf\xbf")
        self.assertEqual(name.text, wanted)

    def test_a_name_that_json_has_for_something_else(self) -> None:
        for name in ("id", "name", "value", "on", 'a"b\\', "\u00e9\U0001f600"):
            told = json.loads(self.forms_of(name.encode())["json"])
            self.assertEqual([*told["lldp"]["interface"]["swp1"]["chassis"]], [name])

    def test_a_text_ends_at_a_nul(self) -> None:
        told = self.forms_of(b"a\0b")["keyvalue"]
        self.assertIn("lldp.swp1.chassis.name=a\n", told)


@is_built
class Commands(unittest.TestCase):
    """Tests words of lldpcli, which may be shortened."""

    def setUp(self) -> None:
        self.served = Served(PORTS)
        self.addCleanup(self.served.close)
        for number, port in enumerate(PORTS, 1):
            self.served.frame(port, frame(lldpd_heard.mac(number), b"\x05p1", 120, tlv(6, b"d"),
                                          *lldpd_heard.SETTINGS))

    def run_it(self, line: str) -> "subprocess.CompletedProcess[str]":
        return subprocess.run([BIN / "lldpcli", "-u", self.served.path, *line.split()], text=True,
                              capture_output=True, check=False)

    def test_short_forms(self) -> None:
        shown = set()
        for words, full in (
                ("sh neigh", "show neighbors"), ("sh neigh det", "show neighbors details"),
                ("show neighbors ports swp1,swp2 summary", "show neighbors summary"),
                ("show neighbors hidden details", "show neighbors details"),
                ("sh int po swp1", "show interfaces ports swp1"),
                ("sh chassis sum", "show chassis summary"), ("sh conf", "show configuration"),
                ("show stat ports swp1 summary", "show statistics summary ports swp1")):
            told = self.run_it(words)
            self.assertEqual((told.returncode, told.stderr), (0, ""), words)
            self.assertEqual(told.stdout, self.run_it(full).stdout)
            shown.add(told.stdout)
        self.assertEqual(len(shown), 7)
        for words, asked in (("u", b"update"), ("conf lldp tx-h 4", b"configure lldp tx-hold 4")):
            self.assertEqual(self.run_it(words).returncode, 0, words)
            self.assertIn(asked, self.served.asked)

    def test_what_there_is_not(self) -> None:
        for words in ("exit", "watch limit", "watch limit x", "show", "show configuration ports a",
                      "show bogus", "watch ports", "show neighbors details summary",
                      "show neighbors ports", "show chassis ports a", "show statistics details",
                      "show neighbors ports a ports b", "s x", "unconfigure med", "update now",
                      "pause"):
            told = self.run_it(words)
            self.assertEqual((told.returncode, told.stdout), (1, ""), words)
            self.assertRegex(told.stderr, "^lldpcli: [^\n]+\n$")


@is_built
class Numbers(unittest.TestCase):
    def test_coordinates_as_lldpcli_had_them(self) -> None:
        degrees = ((2297118717, 34, "68.4594725"), (2388985412, 30, "71.197313"),
                   (-659250985, 20, "19.647"), (2271165830, 15, "67.6"),
                   (-2744885935, 9, "81.80"), (936189790, 0, "27.90"), (0, 34, "0"),
                   (1, 34, "0.0000000"), (1 << 25, 34, "1"))
        altitudes = ((1006256, 30, "3930.68"), (1847704, 25, "7217.0"),
                     (-833690, 20, "-3256.601562"), (-128, 30, "-0.50"))
        wanted = {}
        with Served(PORTS) as served:
            for number, (value, resolution, text) in enumerate(degrees):
                served.frame("swp1", located(number, (resolution, value), (0, 0)))
                wanted[number] = (text + ("S" if value < 0 else "N"), "0")
            for number, (value, resolution, text) in enumerate(altitudes, len(degrees)):
                served.frame("swp1", located(number, (0, 0), (resolution, value)))
                wanted[number] = ("0N", text)
            told = json.loads(lldpctl(served.path, "-f", "json0", *DETAILS))
        found = {}
        for one in told["lldp"][0]["interface"]:
            values = dict(flat(one))
            number = int(values["chassis.id.value"][-2:], 16)
            found[number] = tuple(values[f"lldp-med.location.{key}.value"]
                                  for key in ("lat", "altitude"))
        self.assertEqual(found, wanted)

    def test_an_identifier_may_lack_its_subtype(self) -> None:
        """A service that was taken over may send such a line."""
        for text, kind, shown in (("", "unhandled", ""), ("03", "mac", ""), ("0401", "ip", "01")):
            lines = ["lldp.p.neighbors=1", "lldp.p.octets=9", "lldp.p.too-many=no",
                     "lldp.p.1.chassis.local=a", f"lldp.p.1.port.unhandled={text}",
                     "lldp.p.1.ttl=9", "lldp.p.1.expires=9"]
            with Served(("p",)) as served, told_by(served, lines):
                told = json.loads(lldpctl(served.path, "-f", "json0", "show", "neighbors"))
            port_id = told["lldp"][0]["interface"][0]["port"][0]["id"]
            self.assertEqual(port_id, [{"type": kind, "value": shown}])


def located(number: int, latitude: Tuple[int, int], altitude: Tuple[int, int]) -> bytes:
    """Returns a frame with coordinates. Latitude and altitude have a resolution and a value."""
    bits = "".join((f"{latitude[0]:06b}", f"{latitude[1] % (1 << 34):034b}", f"{0:040b}",
                    f"{1:04b}", f"{altitude[0]:06b}", f"{altitude[1] % (1 << 30):030b}",
                    f"{1:08b}"))
    place = b"\1" + int(bits, 2).to_bytes(len(bits) // 8, "big")
    tlvs = [tlv(127, bytes.fromhex("0012bb") + body) for body in (b"\1\0\x3f\3", b"\3" + place)]
    return frame(lldpd_heard.mac(number), b"\x05p1", 120, *tlvs)
