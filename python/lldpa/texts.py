"""Makes texts safe to print, and breaks them into lines."""

import unicodedata
from functools import lru_cache
from typing import Iterator

CUT = "…"
MOST_MARKS = 2  # above, below or around one character
MOST_LETTERS = 4096  # whose properties are remembered
# characters that Python counts as printable, but that are invisible on a terminal: fillers,
# joiners, variation selectors, and the empty Braille pattern
HIDDEN = ((0x034F, 0x034F), (0x115F, 0x1160), (0x17B4, 0x17B5), (0x180B, 0x180F), (0x2800, 0x2800),
          (0x3164, 0x3164), (0xFE00, 0xFE0F), (0xFFA0, 0xFFA0), (0xE0100, 0xE01EF))


def printable(text: str) -> str:
    """Escapes everything that controls a terminal, is invisible or changes the direction of
    writing. Only visible characters and spaces remain."""
    if text.isascii() and text.isprintable():
        return text
    parts = []
    marks = MOST_MARKS  # so that a mark at the beginning is escaped
    for letter in text:
        marks = marks + 1 if is_mark(letter) else 0
        parts.append(letter if is_shown(letter) and marks <= MOST_MARKS else escaped(letter))
    return "".join(parts)


@lru_cache(MOST_LETTERS)
def is_mark(letter: str) -> bool:
    """Returns whether a character is written above, below or around the one before it."""
    return unicodedata.category(letter) in ("Mn", "Me")


@lru_cache(MOST_LETTERS)
def is_shown(letter: str) -> bool:
    """Returns whether a character is visible on a terminal and has no other effect."""
    number = ord(letter)
    return letter.isprintable() and not any(first <= number <= last for first, last in HIDDEN)


def escaped(letter: str) -> str:
    """Returns the octets of a character, escaped in hexadecimal as the agent shows them."""
    is_octet = "\udc80" <= letter <= "\udcff"
    octets = letter.encode(errors="surrogateescape" if is_octet else "surrogatepass")
    return "".join(f"\\x{octet:02x}" for octet in octets)


def columns_of(letter: str) -> int:
    """Returns the width of a character: 0 for a mark, 2 for a wide East Asian one, else 1."""
    if is_mark(letter):
        return 0
    return 2 if unicodedata.east_asian_width(letter) in "WF" else 1


def end_of(text: str, begin: int, width: int) -> int:
    """Returns the end of the longest part of a text that starts at `begin` and fits in `width`."""
    if text.isascii():
        return min(begin + width, len(text))
    end = begin
    while end < len(text) and (width := width - columns_of(text[end])) >= 0:
        end += 1
    return end


def wrapped(text: str, width: int) -> Iterator[str]:
    """Yields the text in lines of at most this width, broken between words if possible."""
    begin = 0
    while begin < len(text):
        end = after = max(end_of(text, begin, width), begin + 1)
        if end < len(text) and (space := text.rfind(" ", begin + 1, end + 1)) >= 0:
            end, after = space, space + 1
        yield text[begin:end]
        begin = after
