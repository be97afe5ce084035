"""For tests: audits of sources that say when they are from, or do not, and their exit statuses."""
import json
import os
import time
from pathlib import Path
from typing import Any, Callable, Sequence

import table_forms
import vendors
from auditing import HEAD, Row, neighbor
from situations import situation

PLAN = HEAD + "leaf1,swp1,srv1,eth0\n"
PORTS: vendors.Ports = {"swp1": [("srv1", "eth0")]}
DAY = 86400.0
NOW = time.time()
RIGHT = "1 cable: 1 right, 0 wrong"
NOTHING = "1 cable: 0 right, 0 wrong, 1 not looked at (srv1)"


def eos(moment: float) -> Any:
    """Returns EOS' list, in which one neighbor spoke at this moment, and one a while before."""
    tree = vendors.eos({**PORTS, "swp2": [("srv2", "eth0")]})
    for back, port in enumerate(tree["lldpNeighbors"].values()):
        port["lldpNeighborInfo"][0]["lastContactTime"] = moment - 25 * back
    return tree


def gnmic(moment: float) -> Any:
    """Returns two answers of gnmic, each for one interface; the second was asked an hour before."""
    answers = [table_forms.updates([one])[0] for one in table_forms.by_interface(
        {**PORTS, "swp2": [("srv2", "eth0")]})]
    return [{**one, "timestamp": int((moment + 3600 * back) * 1e9)}
            for back, one in enumerate(answers)]


def suzieq(moment: float) -> Any:
    rows = table_forms.suzieq({**PORTS, "swp2": [("srv2", "eth0")]})
    return [{**row, "timestamp": int((moment - 3 * DAY * back) * 1000)}
            for back, row in enumerate(rows)]


def prometheus(*moments: float) -> Any:
    """Returns an answer of Prometheus with a file of metrics for each of these moments."""
    def series(metric: str, value: float, **labels: str) -> Any:
        return {"metric": {"__name__": metric, "instance": "leaf1:9100", **labels},
                "value": [NOW, f"{value}"]}
    files = [series("node_textfile_mtime_seconds", moment, file=f"/var/lib/lldpa{at}.prom")
             for at, moment in enumerate(moments)]
    return {"status": "success", "data": {"resultType": "vector", "result": [
        *files, series("lldpa_too_many", 0, port="swp1"), series(
            "lldpa_neighbor_info", 1, port="swp1", chassis="c", chassis_kind="local",
            port_id="eth0", port_id_kind="ifname", name="srv1", port_descr="", management="")]}}


def dated(name: str, tree: Any, status: int, lines: Sequence[str], words: str = "") -> Row:
    return Row(name, {"plan": PLAN, "leaf1": tree},
               f"--planned-only --stale-after 1d plan leaf1 {words}", status, lines)


def no_data(why: str) -> Sequence[str]:
    return [f"swp1  no data: wants srv1 eth0 (leaf1: {why})", NOTHING]


def aged(days: float) -> Callable[[Path], None]:
    """Returns what writes a list that says no time, into a file that is so many days old."""
    def write(path: Path) -> None:
        path.write_text(json.dumps(vendors.napalm(PORTS)))
        os.utime(path, (time.time() - days * DAY,) * 2)
    return write


UNKNOWN = "it does not say when it is from: see --stale-after"
FUTURE = "it is from 1 day in the future: is a clock wrong?"
FORMS: "dict[str, Callable[[float], Any]]" = {
    "EOS": eos, "gnmic": gnmic, "Suzieq": suzieq, "Prometheus": prometheus}
TIMES = (
    *[dated(f"{form}'s list of now", write(NOW), 0, [RIGHT]) for form, write in FORMS.items()],
    *[dated(f"{form}'s list of old, in a new file", write(NOW - 2 * DAY), 3,
            no_data(f"it is {age} old"))
      for (form, write), age in zip(FORMS.items(), ("2 days", "2 days", "2 days", "2 days"))],
    *[dated(f"{form}'s list of tomorrow", write(NOW + 1.5 * DAY), 3, no_data(FUTURE))
      for form, write in FORMS.items()],
    *[dated(f"a list without a time in a file of {days} days", aged(days), 3, no_data(UNKNOWN))
      for days in (0, 2)],
    *[Row(f"the same by its file's time, of {days} days", {"plan": PLAN, "leaf1": aged(days)},
          "--stale-after file:1d plan leaf1", status, lines)
      for days, status, lines in ((0, 0, [RIGHT]), (2.5, 3, no_data("it is 2 days old")))],
    Row("the data's time comes before the file's", {"plan": PLAN, "leaf1": eos(NOW - 2 * DAY)},
        "--planned-only --stale-after file:1d plan leaf1", 3,
        no_data("it is 2 days old")),
    *[dated(f"two services on a host, the {which} of which is old", prometheus(*moments), 3,
            no_data("it is 2 days old"))
      for which, moments in (("first", (NOW - 2 * DAY, NOW)), ("second", (NOW, NOW - 2 * DAY)))],
    dated("two services of now", prometheus(NOW, NOW - 60), 0, [RIGHT]),
)

JUNOS = vendors.walk({"xe-0/0/0": [("spine1", "et-0/0/1")], "xe-0/0/1": []})
# Junos numbers its ports, and tells the description that people wrote for them
NUMBERED = (JUNOS.replace("1.3.7.1.2.1 = INTEGER: 5", "1.3.7.1.2.1 = INTEGER: 7")
            .replace("1.3.7.1.2.2 = INTEGER: 5", "1.3.7.1.2.2 = INTEGER: 7")
            .replace('STRING: "xe-0/0/0"', 'STRING: "513"')
            .replace('STRING: "xe-0/0/1"', 'STRING: "514"'))
FIRST_OF_REMOTE = NUMBERED.index("iso.0.8802.1.1.2.1.4.")
DESCRIBED = (NUMBERED[:FIRST_OF_REMOTE]
             + 'iso.0.8802.1.1.2.1.3.7.1.4.1 = STRING: "uplink to spine1"\n'
             + 'iso.0.8802.1.1.2.1.3.7.1.4.2 = STRING: "xe-0/0/1"\n' + NUMBERED[FIRST_OF_REMOTE:])
IF_NAMES = "".join(f'iso.3.6.1.2.1.31.1.1.1.1.{at + 513} = STRING: "xe-0/0/{at}"\n' for at in (0, 1))
BY_SNMP = HEAD + "j1,xe-0/0/0,spine1,et-0/0/1\n"
NAMELESS = ("lists/j1: some of its ports have a description in place of a name: let the file begin "
            "with what `snmpwalk .. 1.3.6.1.2.1.31.1.1.1.1` prints")


def by_snmp(name: str, walk: str, status: int, lines: Sequence[str]) -> Row:
    return Row(name, {"plan": BY_SNMP, "lists/j1": walk}, "plan lists", status, lines)


SNMP = (
    by_snmp("Junos by SNMP, with a description of a port", DESCRIBED, 3, [
        NAMELESS, f"xe-0/0/0  no data: wants spine1 et-0/0/1 ({NAMELESS})",
        "1 cable: 0 right, 0 wrong, 1 not looked at (spine1)"]),
    *[by_snmp(f"and with the names of its ports {where}", walk, 0, [RIGHT])
      for where, walk in (("by number", IF_NAMES + DESCRIBED), ("by name", IF_NAMES.replace(
          "iso.3.6.1.2.1.31.1.1.1.1.", "IF-MIB::ifName.") + DESCRIBED))],
    by_snmp("names behind the neighbors may be a neighbor's", DESCRIBED + IF_NAMES, 3, [
        NAMELESS, f"xe-0/0/0  no data: wants spine1 et-0/0/1 ({NAMELESS})",
        "1 cable: 0 right, 0 wrong, 1 not looked at (spine1)"]),
)
TWO = PLAN + "leaf2,swp1,srv1,eth1\n"
SEEN = neighbor("swp1", "srv1", "eth0")
GAP = "2 cables: 1 right, 0 wrong, 1 not looked at (leaf2, srv1)"
STATUSES = (
    situation("a list is missing", TWO, {"leaf1": SEEN}, 3, [GAP]),
    situation("a list is missing, and only what was looked at counts", TWO, {"leaf1": SEEN}, 0,
              [GAP], "--partial"),
    situation("a repair comes before a missing list", TWO, {"leaf1": SEEN.replace("eth0", "eth9")},
              1, ["swp1  wrong: wants srv1 eth0, has srv1 eth9",
                  GAP.replace("1 right, 0 wrong", "0 right, 1 wrong")]),
    situation("a list that cannot be read", PLAN, {"leaf1": "{"}, 3, [
        "lists/leaf1: it begins like JSON, but is not valid JSON",
        "swp1  no data: wants srv1 eth0 (lists/leaf1: it begins like JSON, but is not valid JSON)",
        NOTHING], "--partial"),
)
ROWS = (*TIMES, *SNMP, *STATUSES)
