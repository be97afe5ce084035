"""Compares what lldpctl and lldpa-ctl print with what they must print, letter for letter.

The folder `expected` has what a second implementation, in Python, made of the same frames: sums.txt
has a checksum of each output, and odd.* have whole outputs for the frames with odd texts.
"""

import hashlib
import json
import re
import subprocess
import unittest
from pathlib import Path
from typing import Dict, Iterator, List, Tuple

from judges import with_chassis
from served import BIN, REPOSITORY, Served, ctl, frame, is_built, tlv

AGE = re.compile(r"[0-9]+ days?, [0-9:]{8}")
JUDGED = REPOSITORY / "rust" / "people" / "tests" / "judged.json"
FOLDER = Path(__file__).parent / "expected"
BATCH = 60
FORMS = ("plain", "keyvalue", "json", "json0", "xml")
DEPTHS = ("", " summary", " details")
SHOWS = ("interfaces", "chassis", "statistics", "configuration")
OF_CTL = ("--json neighbors", "details", "--json interfaces", "--json show chassis",
          "--json show configuration")
TEXTS = (b"", b"\0", b"a\0b", b"l1\nlldp.eth0.rid=7\r\nl3\n", b"\xe2\x82", b"\xed\xa0\x80",
         "caf\u00e9 \u20ac \U0001f600".encode(), "a\u2028b\u2029\u0085c".encode(), b"on",
         "\u202eabc\u200b".encode(), b'"}\\u0041&<>\t', bytes(range(1, 128)),
         bytes(range(128, 256)))
ODD = "odd"


def judged_frames() -> List[bytes]:
    """Returns the frames of judged.json, each with a chassis ID of its own."""
    return [with_chassis(bytes.fromhex(one["frame"]), number)
            for number, one in enumerate(json.loads(JUDGED.read_text()))]


def batches() -> Iterator[Tuple[str, List[bytes]]]:
    """Yields frames that an agent receives together, with their name."""
    frames = judged_frames()
    for begin in range(0, len(frames), BATCH):
        yield f"judged-{begin}", frames[begin:begin + BATCH]
    yield ODD, [frame(b"\x07c%d" % number, b"\x07" + text[:200] + b"p", 120,
                      *(tlv(kind, text) for kind in (4, 5, 6)))
                for number, text in enumerate(TEXTS)]


def questions() -> Iterator[str]:
    """Yields commands of lldpa-ctl, and those of lldpctl after their form."""
    yield from (f"ctl {words}" for words in OF_CTL)
    for form in FORMS:
        yield from (f"{form} show neighbors{depth}" for depth in DEPTHS)
        yield from (f"{form} show {show}" for show in SHOWS)


def printed(path: str, question: str) -> str:
    """Returns what a program prints, without ages."""
    form, *words = question.split()
    if form == "ctl":
        return ctl(path, *words).stdout
    ran = subprocess.run([BIN / "lldpctl", "-u", path, "-f", form, *words], capture_output=True,
                         check=True)
    return AGE.sub("AGE", ran.stdout.decode("utf-8", "surrogateescape"))


def sum_of(text: str) -> str:
    return hashlib.sha256(text.encode("utf-8", "surrogateescape")).hexdigest()


def whole_files() -> Dict[str, Path]:
    """Returns the questions about odd texts whose whole outputs are kept, and their files."""
    files = {f"{form} show neighbors details": FOLDER / f"{ODD}.{form}" for form in FORMS}
    return {**files, "ctl --json neighbors": FOLDER / f"{ODD}.neighbors",
            "ctl details": FOLDER / f"{ODD}.details"}


def wanted_sums() -> Dict[str, str]:
    """Returns the checksum of each output, by the names of the batch and the question."""
    lines = (FOLDER / "sums.txt").read_text().splitlines()
    return {name: digits for digits, _, name in (line.partition(" ") for line in lines)}


def receiving(frames: List[bytes]) -> Served:
    """Returns an agent of two ports that has received these frames, in turn."""
    served = Served(max_neighbors=128)
    for place, octets in enumerate(frames):
        served.frame(("eth0", "eth1")[place % 2], octets)
    return served


@is_built
class Expected(unittest.TestCase):
    maxDiff = 3000

    def test_each_form_of_what_was_sent(self) -> None:
        wanted = wanted_sums()
        for batch, frames in batches():
            with receiving(frames) as served:
                for question in questions():
                    told = printed(served.path, question)
                    self.compare_whole(batch, question, told)
                    name = f"{batch} {question}"
                    self.assertEqual(sum_of(told), wanted.pop(name), name)
        self.assertEqual(wanted, {})

    def compare_whole(self, batch: str, question: str, told: str) -> None:
        file = whole_files().get(question) if batch == ODD else None
        if file is not None:
            self.assertEqual(told, file.read_bytes().decode("utf-8", "surrogateescape"), question)


if __name__ == "__main__":
    unittest.main()
