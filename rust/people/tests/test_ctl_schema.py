"""Tests that the output of `lldpa-ctl --json` conforms to its schema."""

import json
import unittest
from pathlib import Path
from typing import Any

from judges import AT_ONCE, with_chassis
from schemas import LACKS_IT, jsonschema
from served import REPOSITORY, Program, Served, ctl, frame, numbered, tlv

SCHEMA = json.loads((REPOSITORY / "docs" / "lldpa-ctl.schema.json").read_text())
JUDGED = json.loads((Path(__file__).parent / "judged.json").read_text())
COMMANDS = (["show", "neighbors"], ["details"], ["show", "statistics"], ["statistics", "summary"],
            ["show", "chassis"], ["show", "configuration"], ["interfaces"], [])


@unittest.skipIf(jsonschema is None, LACKS_IT)
class Schema(Program):
    """Tests each answer, with frames of real senders and with frames made for tests."""

    def told(self, *words: str) -> Any:
        return json.loads(self.run_ctl("--json", *words))

    def test_answers(self) -> None:
        odd = frame(b"\x04\x02\0\0\0\0\xff", b"\x05p\xff", 120, tlv(5, b"caf\xe9"), tlv(9, b"x"))
        for octets in (numbered(1), odd):
            self.served.frame("eth0", octets)
        for words in COMMANDS:
            with self.subTest(words=words):
                jsonschema.validate(self.told(*words), SCHEMA)
        neighbors = self.told("show", "neighbors")["ports"][0]["neighbors"]
        self.assertEqual(len(neighbors), 2)
        for name in ("chassis", "ttl", "organizational"):
            cut = {key: value for key, value in neighbors[0].items() if key != name}
            port = {"name": "eth0", "neighbors_held": 1, "octets": 1, "too_many": False,
                    "neighbors": [cut]}
            with self.assertRaises(jsonschema.ValidationError):
                jsonschema.validate({"ports": [port]}, SCHEMA)

    def test_neighbors_of_real_senders(self) -> None:
        whole = {**SCHEMA["definitions"]["neighbor"], "definitions": SCHEMA["definitions"]}
        self.assertGreater(len(JUDGED), 20)
        judge: Any = jsonschema.Draft7Validator(whole)
        frames = [bytes.fromhex(one["frame"]) for one in JUDGED]
        for begin in range(0, len(frames), AT_ONCE):
            some = frames[begin:begin + AT_ONCE]
            with Served(max_neighbors=128) as served:
                for number, octets in enumerate(some):
                    served.frame("eth0", with_chassis(octets, number))
                told = json.loads(ctl(served.path, "--json", "neighbors").stdout)
            self.assertEqual(len(told["ports"][0]["neighbors"]), len(some))
            for one in told["ports"][0]["neighbors"]:
                judge.validate(one)
