"""Tests how the audit reads that a port is a member of an aggregate."""
import unittest

from lldpa_audit.seen import shows
from lldpa_audit.seen.aggregates import is_aggregated


class Members(unittest.TestCase):
    def test_what_is_said(self) -> None:
        for texts, is_member in (
                ([], False), (["0300000007"], True), (["0200000000"], True),
                (["0100000007"], False), (["0000000007"], False), (["ff00000007"], True),
                (["fd00000007"], False),
                (["0300000007", "0700000007"], True),  # bits that mean nothing
                (["0300000007", "0300000008"], False), (["0300000007", "0200000007"], False),
                (["0100000007", "0100000007"], False)):
            self.assertEqual(is_aggregated(texts), is_member, texts)

    def test_what_is_malformed_says_nothing(self) -> None:
        for text in ("", "03", "03000000", "030000000700", "03000000 x", "0300000007é"):
            self.assertFalse(is_aggregated([text]), text)
            self.assertTrue(is_aggregated([text, "0300000007"]), text)

    def test_which_tlvs_say_it(self) -> None:
        for key, is_member in (("org.0080c2.7", True), ("org.00120f.3", True),
                               ("org.0080c2.3", False), ("org.00120f.7", False),
                               ("org.0080c2.70", False), ("org.001122.3", False),
                               ("chassis.name", False)):
            self.assertEqual(shows.is_aggregated(((key, "0300000007"),)), is_member, key)
