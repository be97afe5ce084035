"""For tests: frames that a real lldpd received, and lldpcli's output for these frames.

lldpcli 1.0.16 wrote the files in the folder lldpd. `clean.*` show CLEAN, received at swp1, and the
first frame of CLEAN also at swp2. `odd.*` show ODD, received at swp1; odd.xml is empty, since
lldpcli writes no XML if a name is not UTF-8. `none.*` show no neighbor.
"""

from pathlib import Path

from served import frame, tlv

FOLDER = Path(__file__).parent / "lldpd"
FORMS = ("keyvalue", "json", "json0", "xml", "plain")
LOOPBACK = bytes(15) + b"\1"
DOCUMENTED = bytes.fromhex("20010db8") + bytes(11) + b"\1"


def mac(number: int) -> bytes:
    """Returns the body of a Chassis ID that is a MAC address."""
    return b"\x04\x02\0\0\0\0" + bytes([number])


def name(text: bytes) -> bytes:
    return tlv(5, text)


def org(oui: str, subtype: int, content: bytes) -> bytes:
    return tlv(127, bytes.fromhex(oui) + bytes([subtype]) + content)


def management(address: bytes) -> bytes:
    """Returns a Management Address TLV. `address` begins with the subtype of the address."""
    return tlv(8, bytes([len(address)]) + address + b"\x02\0\0\0\1\0")


SETTINGS = [
    org("0080c2", 1, b"\0\x0a"), org("0080c2", 3, b"\0\x0a\x04ten "),
    org("0080c2", 3, b"\0\x14\x06twenty"), org("0080c2", 2, b"\x02\0\x05"),
    org("0080c2", 4, b"\x02ab"), org("0080c2", 7, b"\x03\0\0\0\x07"),
    org("00120f", 1, b"\x03\x80\x36\0\x1e"), org("00120f", 3, b"\x03\0\0\0\x07"),
    org("00120f", 4, b"\x24\0"), org("001122", 9, b"abc")]

CLEAN: list[bytes] = [
    frame(mac(1), b"\x05eth1", 120, tlv(4, b'to "x" \\ y'), name(b"ho\\01 st\xc3\xa9")),
    frame(mac(3), b"\x05eth3", 120, name(b"c"), tlv(6, b"line1\nlldp.swp9.via=LLDP\nline3\r\n")),
    frame(mac(4), b"\x05eth4", 120, tlv(4, b"port four"), name(b"d"), *SETTINGS),
    frame(mac(5), b"\x05eth5", 120),
    frame(mac(6), b"\x05eth6", 120, name(b"id")),
    frame(b"\x05\x01\xc0\0\2\7", b"\x04\x01\xc0\0\2\x08", 120, name(b"ips")),
    frame(b"\x05\x02" + LOOPBACK, b"\x05eth8", 120, name(b"ip6")),
    frame(b"\x07loc al", b"\x0712", 120, name(b"loc")),
    frame(mac(10), b"\x07 10", 120, name(b"comp"), management(b"\x01\xc0\0\2\x09"),
          management(b"\x02" + DOCUMENTED)),
    frame(b"\x02alias", b"\x01palias", 120, name(b"")),
    frame(b"\x06ifn", b"\x03\2\0\0\0\0\x0c", 120, name(b"value")),
    frame(b"\x07zz", b"\x05e=f", 120, name(b"x=y\ttab<&>"),
          org("00120f", 1, b"\x03\x80\x36\0\x10"), org("0080c2", 1, b"\0\0"),
          org("00120f", 3, b"\x01\0\0\0\0")),
]

ODD: list[bytes] = [
    frame(mac(2), b"\x05eth2", 120, name(b"caf\xe9")),
    frame(mac(13), b"\x05e\xff", 120, name(b"a\x01b"), tlv(4, b" spaces ")),
]


def sample(named: str, form: str) -> bytes:
    """Returns the output of lldpcli in the file with this name and this form."""
    return (FOLDER / f"{named}.{form}").read_bytes()
