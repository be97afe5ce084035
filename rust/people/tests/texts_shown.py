"""For tests: texts as the agent shows them, and as lldpa-ctl must show them to people."""

from lldpa.table import readable as readable, width_of as width_of


def shown_text(octets: bytes) -> str:
    """Returns octets as the agent shows them: printable ASCII as it is, a backslash as two, and any
    other octet as `\\x` and two digits."""
    return "".join(map(shown_octet, octets))


def shown_octet(octet: int) -> str:
    if octet == 0x5C:
        return "\\\\"
    return chr(octet) if 0x20 <= octet <= 0x7E else f"\\x{octet:02x}"
