"""Unifies names that vendors spell in several ways: ports, MAC addresses, IP addresses."""
import ipaddress
import re
import unicodedata
from contextlib import suppress

MAC = re.compile(r"[0-9a-f]{2}(?P<mark>[:-])(?:[0-9a-f]{2}(?P=mark)){4}[0-9a-f]{2}"
                 r"|[0-9a-f]{4}[.][0-9a-f]{4}[.][0-9a-f]{4}|[0-9a-f]{12}", re.I)
DIGITS = re.compile(r"[0-9a-f]{12}")
IP_ADDRESS = re.compile(r"[0-9a-f.:]+", re.I)
LONGEST_ADDRESS = 45

# a port's name: perhaps a speed (Huawei), letters, a number in parts, some with RP or CPU (IOS-XR)
PORT = re.compile(r"((?:10|25|40|50|100|200|400)?[A-Za-z-]*[A-Za-z]) ?"
                  r"([0-9]+(?:[/:.](?:RP|RSP|CPU)?[0-9]+)*)", re.I)

# the short form of a port of SR Linux
SR_LINUX = re.compile(r"e([0-9]+)-([0-9]+)(?:-([0-9]+))?")

# the logical interface of a port, which Junos' agents name in place of the port
UNIT = re.compile(r"((?:[a-z]{2,4}-[0-9]+/[0-9]+/[0-9]+(?::[0-9]+)?)"
                  r"|(?:ae|reth|em|me|fxp)[0-9]+)[.]0")

# the kinds of ports, each with its short forms
KINDS = {
    "ethernet": "et eth",
    "fastethernet": "fa fas fast fasteth",
    "gigabitethernet": "gi gig gige gigethernet gigabit ge",
    "twogigabitethernet": "tw two",
    "fivegigabitethernet": "fi five",
    "tengigabitethernet": "te ten tengig tengige tengigethernet ten-gigabitethernet "
                          "xgigabitethernet xge 10ge",
    "twentyfivegige": "twe twentyfivegigabitethernet twenty-fivegige 25ge wge",
    "fortygigabitethernet": "fo forty fortygig fortygige 40ge fge",
    "fiftygige": "fif fiftygigabitethernet 50ge",
    "hundredgige": "hu hun hundredgig hundredgigabitethernet 100ge hge",
    "twohundredgige": "twohundredgigabitethernet 200ge",
    "fourhundredgige": "fou fh fourhundredgigabitethernet 400ge",
    "appgigabitethernet": "ap",
    "port-channel": "po portchannel",
    "bundle-ether": "be",
    "bridge-aggregation": "bagg",
    "lag": "lag",
    "management": "ma mgmt",
    "mgmteth": "mg",
    "m-gigabitethernet": "mge",
}
LINUX = ("eth", "ETH")  # `ETH0` may be eth0, for people who ignore case
KIND_OF = {form: kind for kind, forms in KINDS.items() for form in [kind, *forms.split()]}

# names of aggregates: of Cisco, Arista, Junos, HPE, Huawei, Linux and BSD
AGGREGATE = re.compile(r"(?:port-?channel|po|bundle-ether|be|ae|trk|bridge-aggregation|bagg|"
                       r"eth-trunk|lag|lagg|bond|team)[-_ ]?[0-9]+(?:[.][0-9]+)?", re.I)


def plain(name: str) -> str:
    """Returns a name in one spelling if it is a MAC address, an IP address or not ASCII."""
    if not name.isascii():
        return unicodedata.normalize("NFC", name)
    if MAC.fullmatch(name):
        digits = re.sub("[:.-]", "", name).lower()
        return ":".join(digits[at:at + 2] for at in range(0, 12, 2))
    if len(name) <= LONGEST_ADDRESS and IP_ADDRESS.fullmatch(name):
        with suppress(ValueError):
            return ipaddress.ip_address(name).compressed
    return name


def plain_port(name: str) -> str:
    """Returns a port's name in one spelling for all vendors. Linux' `eth0` remains as it is, since
    a switch may have both eth0 and Ethernet0."""
    unit = UNIT.fullmatch(name)
    if unit:
        return unit[1]
    short = SR_LINUX.fullmatch(name)
    if short:
        return "ethernet-" + "/".join(part for part in short.groups() if part)
    found = PORT.fullmatch(name)
    kind = KIND_OF.get(found[1].lower()) if found else None
    if found is None or kind is None or (found[1] in LINUX and "/" not in found[2]):
        return plain(name)
    return kind + found[2]


def plain_chassis(name: str) -> str:
    """Returns a chassis ID in one spelling: Cisco's, Windows' and NX-API's of a MAC address are
    equal, and upper and lower case."""
    digits = re.sub("[:. -]", "", name.lower().removeprefix("0x"))
    return plain(digits if DIGITS.fullmatch(digits) else name).casefold()


def is_aggregate(port: str) -> bool:
    return AGGREGATE.fullmatch(port) is not None
