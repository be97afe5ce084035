"""Defines limits and constants of the agent and its frames that several modules need."""

MOST_PORTS = 64
MOST_NEIGHBORS = 128  # of a port

LONGEST_LINE = 4096  # of a trace, in octets, without its line feed
MOST_TICKS = 65535  # in one line

SHORTEST_FRAME, LONGEST_FRAME = 14, 1514
NEAREST_BRIDGE = bytes.fromhex("0180c200000e")

REFUSAL = "error: "  # the beginning of the answer to a refused line
# the characters that a port's name may have
NAME_LETTERS = frozenset("ABCDEFGHIJKLMNOPQRSTUVWXYZabcdefghijklmnopqrstuvwxyz0123456789_/:-")


def is_port_name(text: str) -> bool:
    """Returns whether this is a valid name for a port."""
    return 1 <= len(text) <= 15 and NAME_LETTERS.issuperset(text)
