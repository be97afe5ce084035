"""For tests: computes what lldpa-ctl must say in JSON of a TLV from what tshark shows of it."""

from typing import Any, Callable, Iterable, List, Mapping, Optional, Sequence, Tuple

import tshark_med as med
from tshark_shown import Object, Shown, tenths

DOT1, DOT3 = "lldp.ieee.802_1.", "lldp.ieee.802_3."
# for each reason, the keys of tshark's output (or parts of keys) that are not compared
LEFT_OUT = {
    "which TLV it is, and its length": (
        "lldp.tlv.", "lldp.orgtlv.oui", "lldp.ieee.802_1.subtype", "lldp.ieee.802_3.subtype",
        "lldp.media.subtype", "lldp.iana.subtype"),
    "tshark's own remarks": ("_ws.", "lldp.tlv_deprecated"),
    "the same bits read in the wrong order, which tshark shows besides": ("caps_inv.",),
    "bits that mean nothing, or are reserved in IEEE 802.1AB": ("reserved", "porttype"),
    "octets whose parts are compared": (
        "lldp.ieee.802_3.bt_power_down", "lldp.ieee.802_3.bt_autoclass",
        "lldp.ieee.802_3.bt_power_status", "lldp.ieee.802_3.bt_system_setup",
        "lldp.ieee.802_3.mdi_power_support", "lldp.ieee.802_3.mac_phy_auto_neg_status",
        "lldp.ieee.802_1.port_and_vlan_id_flag", "lldp.ieee.802_1.aggregation_status",
        "lldp.ieee.802_3.aggregation_status"),
}
KEYS = {key for keys in LEFT_OUT.values() for key in keys}
EXACT = {key for key in KEYS if key.startswith("lldp.") and not key.endswith(".")}
Pairs = Sequence[Sequence[str]]
# each bit of the advertised modes, the most significant first: tshark's name, and that in JSON
MODES = (("other", "other"), ("10base_t", "10BASE-T/half"), ("10base_tfd", "10BASE-T/full"),
         ("100base_t4", "100BASE-T4"), ("100base_tx", "100BASE-TX/half"),
         ("100base_txfd", "100BASE-TX/full"), ("100base_t2", "100BASE-T2/half"),
         ("100base_t2fd", "100BASE-T2/full"), ("fdx_pause", "pause"),
         ("fdx_apause", "asymmetric pause"), ("fdx_spause", "symmetric pause"),
         ("fdx_bpause", "asymmetric and symmetric pause"), ("1000base_x", "1000BASE-X/half"),
         ("1000base_xfd", "1000BASE-X/full"), ("1000base_t", "1000BASE-T/half"),
         ("1000base_tfd", "1000BASE-T/full"))
ALGORITHMS = {0: "strict priority", 1: "credit-based shaper", 2: "enhanced transmission selection",
              255: "vendor specific"}
SELECTORS = {1: "EtherType", 2: "TCP or SCTP port", 3: "UDP or DCCP port",
             4: "TCP, SCTP, UDP or DCCP port"}
POWER_TYPES = ("type 2 PSE", "type 2 PD", "type 1 PSE", "type 1 PD")
# names in JSON of the fields of IEEE 802.3bt, with tshark's names: powers, numbers and flags
POWERS = {"requested_a": "ds_pd_requested_power_value_mode_a",
          "requested_b": "ds_pd_requested_power_value_mode_b",
          "allocated_a": "ds_pse_allocated_power_value_alt_a",
          "allocated_b": "ds_pse_allocated_power_value_alt_b",
          "most_available": "pse_maximum_available_power_value"}
NUMBERS = {"pse_status": "pse_powering_status", "pd_status": "pd_powered_status",
           "pse_pairs": "pse_power_pairs_ext", "class_a": "ds_pwr_class_ext_a",
           "class_b": "ds_pwr_class_ext_b", "power_class": "pwr_class_ext_",
           "down_request": "power_down_request", "down_seconds": "power_down_time"}
FLAGS = {"can_autoclass": "pse_autoclass_support", "has_autoclass": "autoclass_completed",
         "requests_autoclass": "autoclass_request"}
EEE = ("transmit", "receive", "fallback_receive", "echo_transmit", "echo_receive")


def compared(pairs: Iterable[Sequence[str]]) -> List[Tuple[str, str]]:
    """Returns tshark's pairs for a TLV, without the pairs that are not compared."""
    return [(key, value) for key, value in pairs if not is_left_out(key)]


def is_left_out(key: str) -> bool:
    return key in EXACT or any(part in key for part in KEYS - EXACT)


def protocol_vlan(shown: Shown) -> Object:
    front = f"{DOT1}port_"
    return {"vlan": {"protocol_vlans": [{
        "ppvid": shown.number(f"{front}proto_vlan.id"),
        "supported": shown.flag(f"{front}and_vlan_id_flag.supported"),
        "enabled": shown.flag(f"{front}and_vlan_id_flag.enabled")}]}}


def vlan_name(shown: Shown) -> Object:
    name = shown.text(f"{DOT1}vlan.name")
    assert shown.number(f"{DOT1}vlan.name_len") == len(name.encode())
    return {"vlan": {"names": [{"vid": shown.number(f"{DOT1}vlan.id"), "name": name}]}}


def protocol(shown: Shown) -> Object:
    octets = shown.text(f"{DOT1}proto.id").replace(":", "")
    assert 2 * shown.number(f"{DOT1}proto.id_length") == len(octets)
    return {"vlan": {"protocols": [octets]}}


def link_aggregation(front: str) -> Callable[[Shown], Object]:
    return lambda shown: {"link_aggregation": {
        "capable": shown.flag(f"{front}aggregation_status.cap"),
        "aggregated": shown.flag(f"{front}aggregation_status.enabled"),
        "port": shown.number(f"{front}aggregated_port_id")}}


def tables(shown: Shown) -> Object:
    """Returns the tables of ETS."""
    classes, bandwidths, algorithms = ([shown.number(f"lldp.dcbx.{front}{place}")
                                        for place in range(8)] for front in (
        "feature.pg.pgid_prio", "feature.pg.per", "ieee.ets.tsa"))
    return {"classes": classes, "bandwidths": bandwidths,
            "algorithms": [ALGORITHMS.get(one) for one in algorithms]}


def ets(shown: Shown) -> Object:
    return {"dcb": {"ets": {
        "willing": shown.flag("lldp.dcbx.ieee.willing"),
        "credit_based_shaper": shown.flag("lldp.dcbx.ieee.ets.cbs"),
        "most_classes": shown.number("lldp.dcbx.ieee.ets.maxtcs") or 8, **tables(shown)}}}


def pfc(shown: Shown) -> Object:
    enabled = [one for one in range(8) if shown.flag(f"lldp.dcbx.feature.pfc.prio{one}")]
    return {"dcb": {"pfc": {
        "willing": shown.flag("lldp.dcbx.ieee.willing"),
        "macsec_bypass": shown.flag("lldp.dcbx.ieee.pfc.mbc"),
        "most_classes": shown.number("lldp.dcbx.ieee.pfc.numtcs"), "enabled": enabled}}}


def applications(shown: Shown) -> Object:
    parts = [shown.numbers(f"lldp.dcbx.{key}") for key in (
        "ieee.app.prio", "iee.app.sf", "feature.app.proto")]
    assert len({*map(len, parts)}) == 1
    return {"dcb": {"application_priorities": [
        {"priority": priority, "selector": selector, "selector_name": SELECTORS.get(selector),
         "protocol": number} for priority, selector, number in zip(*parts)]}}


def mac_phy(shown: Shown) -> Object:
    """Returns the values without the name, the speed and the duplex mode, which tshark lacks."""
    front = f"{DOT3}pmd_auto_neg_advertised_caps"
    bits = shown.number(front)
    names = [name for key, name in MODES if shown.flag(f"{front}.{key}")]
    assert names == [name for place, (_, name) in enumerate(MODES) if bits >> 15 - place & 1]
    status = f"{DOT3}mac_phy_auto_neg_status."
    return {"mac_phy": {"mau_type": shown.number(f"{DOT3}pmd_mau_type"), "autonegotiation": {
        "supported": shown.flag(f"{status}supported"), "enabled": shown.flag(f"{status}enabled"),
        "advertised": names}}}


def power(shown: Shown) -> Object:
    front = f"{DOT3}mdi_"
    pairs, level = shown.number(f"{front}pse_pair"), shown.number(f"{front}power_class")
    told = {"device": "PSE" if shown.flag(f"{front}power_support.port_class") else "PD",
            "supported": shown.flag(f"{front}power_support.supported"),
            "enabled": shown.flag(f"{front}power_support.enabled"),
            "pair_control": shown.flag(f"{front}power_support.pse_pairs"),
            "pairs": {1: "signal", 2: "spare"}.get(pairs),
            "class": level - 1 if 1 <= level <= 5 else None}
    if shown.has(f"{front}power_type"):
        kind, source = shown.number(f"{front}power_type"), shown.number(f"{front}power_source")
        told.update({"type": POWER_TYPES[kind], "source": med.source_of(kind & 1, source),
                     "priority": med.PRIORITIES[shown.number(f"{front}power_priority")],
                     "requested": tenths(shown, f"{front}pde_requested"),
                     "allocated": tenths(shown, f"{front}pse_allocated")})
    bt = f"{DOT3}bt_"
    if shown.has(f"{bt}power_type_ext"):
        told["bt"] = {**{name: tenths(shown, bt + key) for name, key in POWERS.items()},
                      **{name: shown.number(bt + key) for name, key in NUMBERS.items()},
                      **{name: shown.flag(bt + key) for name, key in FLAGS.items()},
                      "type": shown.number(f"{bt}power_type_ext")}
    return {"power": told}


READERS: Mapping[str, Callable[[Shown], Object]] = {
    "0080c2.1": lambda shown: {"vlan": {"pvid": shown.number(f"{DOT1}port_vlan.id")}},
    "0080c2.2": protocol_vlan, "0080c2.3": vlan_name, "0080c2.4": protocol,
    "0080c2.7": link_aggregation(DOT1), "00120f.3": link_aggregation(DOT3),
    "0080c2.9": ets, "0080c2.10": lambda shown: {"dcb": {"ets_recommendation": tables(shown)}},
    "0080c2.11": pfc, "0080c2.12": applications, "00120f.1": mac_phy, "00120f.2": power,
    "00120f.4": lambda shown: {"max_frame_size": shown.number(f"{DOT3}max_frame_size")},
    "00120f.5": lambda shown: {"eee": {
        name: shown.number(f"{DOT3}eee.{name}") for name in EEE}},
    "00005e.1": lambda shown: {"mud_url": {"text": shown.text("lldp.iana.mudurl")}},
    **med.READERS}
ONLY_NAMED = ("0080c2.5", "0080c2.6")  # tshark shows only the names of these
# what tshark does not show, in JSON's objects
UNSHOWN = {"mac_phy": ("type", "speed", "duplex"), "bt": ("is_isolated",)}


def wanted(kind: str, pairs: Pairs) -> Any:
    """Returns what JSON must have of a TLV of this kind, by all that tshark shows of it. Raises
    KeyError for a value of tshark that nothing reads."""
    shown = Shown(compared(pairs))
    told = {} if kind in ONLY_NAMED else READERS[kind](shown)
    shown.end()
    return meant(told)


def told_of(kind: str, said: Any) -> Any:
    """Returns what JSON has of a TLV of this kind that tshark shows, too."""
    return {} if kind in ONLY_NAMED else meant(said)


def meant(told: Any, name: str = "") -> Any:
    """Returns a part of an object without what is null or empty, and what tshark does not show."""
    if isinstance(told, dict):
        parts = {key: meant(one, key) for key, one in told.items()
                 if key not in UNSHOWN.get(name, ())}
        return {key: one for key, one in parts.items() if one is not None and one not in ({}, [])}
    return [meant(one) for one in told] if isinstance(told, list) else told


def unknown_octets(pairs: Pairs) -> Optional[str]:
    """Returns the octets of a TLV unknown to tshark, or None if tshark shows no such octets."""
    return dict(map(tuple, pairs)).get("lldp.unknown_subtype.content")
