"""Compares what lldpctl and lldpa-ctl say of organizationally specific TLVs with what lldpcli and
tshark show.

`judged.json` has frames of real senders and frames made for tests, each with the output of
lldpcli 1.0.16 and tshark 4.0.17. `tools/by-hand/try-details.py --save` writes this file.
"""

import json
import unittest

from judges import Judged, compare, compare_read, read_all
from people import is_made
from served import REPOSITORY


@is_made
class BesideOthers(unittest.TestCase):
    """Tests that all values are equal, and that `compare` reports a changed value."""

    def setUp(self) -> None:
        text = (REPOSITORY / "rust" / "people" / "tests" / "judged.json").read_text()
        self.judged = [Judged(**one) for one in json.loads(text)]

    def test_all_values_are_equal(self) -> None:
        equal, differences = compare(self.judged)
        self.assertEqual(differences, [])
        self.assertGreater(equal, 13_000)

    def test_a_difference_is_seen(self) -> None:
        one = next(one for one in self.judged if one.name == "lldpd-custom")
        read = read_all([bytes.fromhex(one.frame)])
        self.assertEqual(compare_read([one], read)[1], [])
        for key in ("vlan.vlan-id", "port.mfs.value", "lldp-med.inventory.software.value"):
            pairs = [[name, "7" if name == key else value] for name, value in one.lldpcli]
            self.assertEqual(len(compare_read([one._replace(lldpcli=pairs)], read)[1]), 1)
        for key in ("lldp.ieee.802_1.port_vlan.id", "lldp.ieee.802_3.max_frame_size"):
            told = [[[name, "7" if name == key else value] for name, value in tlv]
                    for tlv in one.tshark]
            self.assertEqual(len(compare_read([one._replace(tshark=told)], read)[1]), 1)
            further = [[*tlv, ["lldp.further", "1"]] for tlv in one.tshark]
            self.assertGreater(len(compare_read([one._replace(tshark=further)], read)[1]), 8)
