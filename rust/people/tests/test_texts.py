"""Tests how texts of neighbors are read as Unicode, and made safe for a terminal."""

import json
import unicodedata
import unittest
from typing import Any, Dict, List
from unittest import mock

from judges import AT_ONCE, number_in, with_chassis
from lldpa import unescaped
from lldpa.texts import columns_of, is_shown, printable, wrapped
from served import Served, ctl, frame, tlv
from texts_shown import readable, shown_text, width_of

SHOWN = ("a", "é", "ß", "Ω", "ж", "א", "ع", "京", "한", "€", "→", "😀", "½", "\\", "~", "¡")
# characters that are never shown: controls, breaks, spaces, marks that change the writing
# direction, joiners, fillers, selectors, private use and unassigned letters
NEVER = ("\x00", "\x07", "\x1b", "\x7f", "\x80", "\x9b", "\x85", "\xa0", "\xad", "\u034f", "\u061c",
         "\u115f", "\u1160", "\u17b4", "\u17b5", "\u180b", "\u180e", "\u180f", "\u2000", "\u200b",
         "\u200c", "\u200d", "\u200e", "\u200f", "\u2028", "\u2029", "\u202a", "\u202b", "\u202c",
         "\u202d", "\u202e", "\u2060", "\u2066", "\u2067", "\u2068", "\u2069", "\u206f", "\u2800",
         "\u3000", "\u3164", "\ue000", "\ufe00", "\ufe0f", "\ufeff", "\uffa0", "\ufff9", "\uffff",
         "\U000e0001", "\U000e0041", "\U000e0100", "\U000e01ef", "\U0010ffff")


class ForPeople(unittest.TestCase):
    def test_letters_and_signs_are_shown_as_they_are(self) -> None:
        for letter in SHOWN:
            self.assertEqual(readable(shown_text(f"a{letter}b".encode())), f"a{letter}b")

    def test_what_does_something_else_is_escaped(self) -> None:
        for letter in NEVER:
            octets = letter.encode()
            escaped = "".join(f"\\x{octet:02x}" for octet in octets)
            self.assertEqual(readable(shown_text(b"a" + octets + b"b")), f"a{escaped}b")
            self.assertEqual(printable(letter), escaped)

    def test_no_letter_of_all_controls_a_terminal(self) -> None:
        letters = map(chr, (*range(0xD800), *range(0xE000, 0x110000)))
        others = [letter for letter in letters
                  if unicodedata.category(letter)[0] not in "LMNPS" and letter != " "]
        self.assertGreater(len(others), 900_000)
        self.assertEqual([letter for letter in others if is_shown(letter)], [])

    def test_octets_that_are_no_utf8_are_escaped(self) -> None:
        for octet in range(0x80, 0x100):
            text = bytes([octet]).decode(errors="surrogateescape")
            self.assertEqual(printable(text), f"\\x{octet:02x}")
        for octets, shown in ((b"caf\xe9", "caf\\xe9"), (b"\xc3", "\\xc3"),
                              (b"\xff\xfe", "\\xff\\xfe"),
                              (b"\xed\xa0\x80", "\\xed\\xa0\\x80"), (b"\xc0\xaf", "\\xc0\\xaf"),
                              (b"a\xc3\xa9\xe9", "aé\\xe9")):
            self.assertEqual(readable(shown_text(octets)), shown)

    def test_marks_do_not_pile_up(self) -> None:
        mark = "\u0301"
        escaped = "\\xcc\\x81"
        self.assertEqual(printable(f"e{mark}{mark}x"), f"e{mark}{mark}x")
        self.assertEqual(printable(f"e{mark * 4}x"), f"e{mark * 2}{escaped * 2}x")
        self.assertEqual(printable(f"{mark}a"), f"{escaped}a")

    def test_widths(self) -> None:
        widths = (("abc", 3), ("é", 1), ("e\u0301", 1), ("京都", 4), ("", 0), ("ｱ", 1), ("Ａ", 2))
        for text, width in widths:
            self.assertEqual(width_of(text), width, text)

    def test_wrapping(self) -> None:
        for text, width, lines in (("one two three", 7, ["one two", "three"]), ("", 3, []),
                                   ("abcdefgh ij", 3, ["abc", "def", "gh", "ij"]),
                                   ("a bcde", 3, ["a", "bcd", "e"]), ("ab cd", 2, ["ab", "cd"]),
                                   ("京都京都", 3, ["京", "都", "京", "都"]), ("京", 1, ["京"])):
            self.assertEqual(list(wrapped(text, width)), lines)

    def test_wrapping_looks_at_each_letter_a_few_times(self) -> None:
        text = "caf\u00e9 " * 1000 + "\u00e9" * 5000
        for width in (7, 80, 1_000_000):
            with mock.patch("lldpa.texts.columns_of", wraps=columns_of) as looked:
                self.assertEqual("".join(wrapped(text, width)).count("\u00e9"), 6000)
            self.assertLess(looked.call_count, 3 * len(text))


def odd_octets() -> List[bytes]:
    """Returns octets with each first octet, alone and before some that may continue it."""
    return [octets for first in range(256) for octets in (
        bytes([first]), bytes([first, 0x80]), bytes([0x41, first, 0xbf, 0xbf]))]


class ForPrograms(unittest.TestCase):
    def test_what_the_agent_shows_is_unescaped(self) -> None:
        for octets in (b"", b"abc", "café 京 😀".encode(), b"\x00\x1b", b"a\\b", *odd_octets()):
            self.assertEqual(unescaped(shown_text(octets)), octets)

    def test_all_octets_are_valid_json(self) -> None:
        names = odd_octets()
        told: Dict[int, Any] = {}
        for begin in range(0, len(names), AT_ONCE):
            with Served(max_neighbors=128) as served:
                for number, octets in enumerate(names[begin:begin + AT_ONCE], begin):
                    one = frame(b"\x07x", b"\x05p1", 120, tlv(5, octets), tlv(4, octets))
                    served.frame("eth0", with_chassis(one, number))
                text = ctl(served.path, "--json", "neighbors").stdout
            self.assertTrue(text.isascii())
            for found in json.loads(text)["ports"][0]["neighbors"]:
                told[number_in(found["chassis"]["text"])] = found
        self.assertEqual(len(told), len(names))
        for number, octets in enumerate(names):
            self.need(told[number], octets)

    def need(self, told: Any, octets: bytes) -> None:
        """Checks the texts of a neighbor, which are these octets."""
        try:
            text, digits = octets.decode("utf-8"), None
        except UnicodeDecodeError:
            text, digits = shown_text(octets), octets.hex()
        wanted = None if digits is None else {"name": digits, "port_descr": digits}
        self.assertEqual((told["name"], told["port_descr"]), (text, text))
        self.assertEqual(told.get("octets"), wanted)
