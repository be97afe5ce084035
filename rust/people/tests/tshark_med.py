"""For tests: what lldpa-ctl must say in JSON of TLVs of LLDP-MED, by what tshark shows."""

from typing import Callable, Mapping, Optional

from tshark_shown import Object, Shown, tenths

FRONT = "lldp.media."
# each capability, the least significant bit first: tshark's name, and that in JSON
CAPABILITIES = (("llpd", "capabilities"), ("network_policy", "policy"), ("location_id", "location"),
                ("mdi_pse", "MDI/PSE"), ("mid_pd", "MDI/PD"), ("inventory", "inventory"))
APPLICATIONS = {1: "voice", 2: "voice signaling", 3: "guest voice", 4: "guest voice signaling",
                5: "softphone voice", 6: "video conferencing", 7: "streaming video",
                8: "video signaling"}
SOURCES = (("unknown", "primary", "backup", "reserved"),
           ("unknown", "PSE", "local", "PSE and local"))  # of a PSE, and of a PD
PRIORITIES = ("unknown", "critical", "high", "low")
DEVICES = {0: "PSE", 1: "PD"}
# tshark's names of the inventory, by subtype, and those in JSON
INVENTORY = {5: ("hardware", "hardware"), 6: ("firmware", "firmware"), 7: ("software", "software"),
             8: ("sn", "serial"), 9: ("manufacturer", "manufacturer"), 10: ("model", "model"),
             11: ("asset", "asset")}
ALTITUDES = {1: "meters", 2: "floors"}
DATUMS = {1: "WGS84", 2: "NAD83 (NAVD88)", 3: "NAD83 (MLLW)"}
WHATS = {0: "DHCP server", 1: "switch", 2: "client"}
ELEMENTS = {
    0: "language", 1: "country subdivision", 2: "county", 3: "city", 4: "city division",
    5: "block", 6: "street", 16: "direction", 17: "trailing street suffix", 18: "street suffix",
    19: "number", 20: "number suffix", 21: "landmark", 22: "additional", 23: "name", 24: "ZIP",
    25: "building", 26: "unit", 27: "floor", 28: "room", 29: "place type", 128: "script"}
COORDINATES, CIVIC_ADDRESS, ELIN = 1, 2, 3
DEGREE_BITS, ALTITUDE_BITS = 34, 30


def source_of(device: int, number: int) -> str:
    """Returns the name of the power source of a PSE (0) or a PD (1)."""
    return SOURCES[device][number]


def capabilities(shown: Shown) -> Object:
    front = f"{FRONT}subtype.caps"
    bits = shown.number(front)
    names = [name for key, name in CAPABILITIES if shown.flag(f"{front}.{key}")]
    assert names == [name for place, (_, name) in enumerate(CAPABILITIES) if bits >> place & 1]
    return {"med": {"capabilities": names, "class": shown.number(f"{FRONT}subtype.class")}}


def policy(shown: Shown) -> Object:
    application = shown.number(f"{FRONT}app_type")
    return {"med": {"policies": [{
        "application": application, "name": APPLICATIONS.get(application),
        "unknown": shown.flag(f"{FRONT}policy_flag"), "tagged": shown.flag(f"{FRONT}tag_flag"),
        "vid": shown.number(f"{FRONT}vlan_id"), "priority": shown.number(f"{FRONT}l2_prio"),
        "dscp": shown.number(f"{FRONT}dscp")}]}}


def location(shown: Shown) -> Object:
    form = shown.number(f"{FRONT}loc.data_format")
    read = {COORDINATES: coordinates, CIVIC_ADDRESS: civic_address, ELIN: elin}[form]
    return {"med": {"locations": [read(shown)]}}


def signed(number: int, bits: int) -> int:
    """Returns the signed number in the last bits of a number."""
    number %= 1 << bits
    return number - (1 << bits) if number >> bits - 1 else number


def coordinates(shown: Shown) -> Object:
    """Returns coordinates. tshark's degrees include the six bits of resolution before them."""
    front = f"{FRONT}loc."
    latitude, longitude = (shown.number(front + key) for key in ("latitude", "longitude"))
    resolutions = [shown.number(f"{front}{key}_resolution") for key in ("lat", "long")]
    assert resolutions == [latitude >> DEGREE_BITS, longitude >> DEGREE_BITS]
    return {"form": "coordinates", "latitude": signed(latitude, DEGREE_BITS) / (1 << 25),
            "latitude_resolution": resolutions[0],
            "longitude": signed(longitude, DEGREE_BITS) / (1 << 25),
            "longitude_resolution": resolutions[1],
            "altitude": signed(shown.number(f"{front}altitude"), ALTITUDE_BITS) / (1 << 8),
            "altitude_unit": ALTITUDES.get(shown.number(f"{front}alt_type")),
            "altitude_resolution": shown.number(f"{front}alt_resolution"),
            "datum": DATUMS.get(shown.number(f"{front}datum"))}


def civic_address(shown: Shown) -> Object:
    kinds, lengths = (shown.numbers(f"{FRONT}civic.{key}") for key in ("type", "length"))
    texts = shown.texts(f"{FRONT}civic.value")
    # the first length is that of the whole address
    assert lengths == [3 + sum(2 + length for length in lengths[1:]),
                       *[len(one.encode()) for one in texts]]
    elements = [{"type": kind, "name": ELEMENTS.get(kind), "text": text}
                for kind, text in zip(kinds, texts)]
    return {"form": "civic address", "what": WHATS.get(shown.number(f"{FRONT}civic.what")),
            "country": shown.text(f"{FRONT}civic.country"), "elements": elements}


def elin(shown: Shown) -> Object:
    return {"form": "elin", "digits": shown.text(f"{FRONT}ecs")}


def power(shown: Shown) -> Object:
    device, source, priority = (shown.number(f"{FRONT}power.{key}")
                                for key in ("type", "source", "prio"))
    name: Optional[str] = PRIORITIES[priority] if priority < len(PRIORITIES) else None
    return {"med": {"power": {
        "device": DEVICES.get(device), "priority": name,
        "source": source_of(device, source) if device in DEVICES else None,
        "watts": tenths(shown, f"{FRONT}power.value")}}}


def inventory(theirs: str, ours: str) -> Callable[[Shown], Object]:
    return lambda shown: {"med": {"inventory": {ours: shown.text(FRONT + theirs)}}}


READERS: Mapping[str, Callable[[Shown], Object]] = {
    "0012bb.1": capabilities, "0012bb.2": policy, "0012bb.3": location, "0012bb.4": power,
    **{f"0012bb.{subtype}": inventory(*names) for subtype, names in INVENTORY.items()}}
