"""For tests: audits in which a name may stand for two devices, or a weaker name for the cable."""
import json
from typing import Any, Sequence

import vendors
from auditing import HEAD, Row, neighbor
from situations import situation

SITES = "ID,Device A,Termination A,Device B,Termination B,Site A,Site B,Status\n"
LIKE = SITES + "".join(f"{at},leaf1,swp1,srv1,eth0,dc{at},dc{at},Connected\n" for at in (1, 2))
UNLIKE = LIKE.replace("2,leaf1,swp1,srv1", "2,leaf1,swp2,srv2")
TWICE = ("plan: line 3: {0} is a device of dc2, and in line 2 one of dc1: select one with --site")
BOTH = [TWICE.format(host) for host in ("leaf1", "srv1")]
BETWEEN = LIKE + ("3,leaf1,swp9,leaf1,swp9,dc1,dc2,Connected\n"
                  "4,leaf1,swp8,edge1,swp1,dc1,dc2,Connected\n")
OWN_SITES = "site,host,port,peer_site,peer,peer_port\n" + "".join(
    f"dc{at},leaf1,swp1,dc{at},srv1,eth0\n" for at in (1, 2))


def of_the_api(*ids: int) -> str:
    """Returns the API's cables between leaf1 and srv1, for leaf1's IDs; srv1 has the next one."""
    def end(number: int, name: str, port: str) -> Any:
        return [{"object_type": "dcim.interface", "object": {
            "name": port, "device": {"id": number, "name": name, "display": name}}}]
    return json.dumps({"count": len(ids), "next": None, "results": [{
        "id": at, "a_terminations": end(number, "leaf1", f"swp{at}"),
        "b_terminations": end(number + 1, "srv1", f"eth{at}")} for at, number in enumerate(ids)]})


API = ["plan: leaf1 stands for the devices 7 and 9: ask NetBox for one site, with &site=SLUG",
       "plan: srv1 stands for the devices 8 and 10: ask NetBox for one site, with &site=SLUG"]
RIGHT = ["1 cable: 1 right, 0 wrong"]
TO_SRV1 = {"leaf1": "swp1 srv1 eth0"}
SITES_APART = (
    situation("two sites that are wired alike", LIKE, TO_SRV1, 2, BOTH),
    situation("two sites that are wired differently", UNLIKE, TO_SRV1, 2, BOTH[:1]),
    situation("two sites of a CSV of one's own", OWN_SITES, TO_SRV1, 2, BOTH),
    situation("sites in NetBox's form for imports",
              LIKE.replace("Device A,Termination A,Device B,Termination B,Site A,Site B",
                           "side_a_device,side_a_name,side_b_device,side_b_name,side_a_site,"
                           "side_b_site"), TO_SRV1, 2, BOTH),
    *[situation(f"the site {site} alone", UNLIKE, {"leaf1": f"swp{at} srv{at} eth0"}, 0,
                ["plan: 1 cable is left out: 1 of another site", *RIGHT], f"--site {site}")
      for at, site in ((1, "dc1"), (2, "dc2"))],
    situation("the other site's lists", UNLIKE, {"leaf1": "swp2 srv2 eth0"}, 1, [
        "plan: 1 cable is left out: 1 of another site", "swp1  silent: wants srv1 eth0",
        "swp2  unplanned: has srv2 eth0", "1 cable: 0 right, 1 wrong; 1 unplanned port"],
              "--site dc1"),
    situation("cables between two sites", BETWEEN, {
        "leaf1": "swp1 srv1 eth0\nswp9 leaf1 swp9\nswp8 edge1 swp1"}, 3, [
            "plan: 1 cable is left out: 1 of another site",
            "plan: 1 cable cannot be judged, since a device of another site has the name of one "
            "here; the first ends are leaf1 swp9, leaf1 swp9",
            "3 cables: 2 right, 0 wrong, 1 not judged"], "--site dc1"),
    situation("an unknown site", LIKE, TO_SRV1, 2,
              ["plan: it has no cable of the site dc3, only of dc1, dc2"], "--site dc3"),
    situation("a plan without sites", HEAD + "leaf1,swp1,srv1,eth0\n", TO_SRV1, 2,
              ["plan: it does not say the sites of devices, so --site cannot be given"],
              "--site dc1"),
    situation("two sites with different names", SITES + "1,leaf1,swp1,srv1,eth0,dc1,dc1,Connected\n"
              "2,leaf2,swp1,srv2,eth0,dc2,dc2,Connected\n",
              {**TO_SRV1, "leaf2": "swp1 srv2 eth0"}, 0, ["2 cables: 2 right, 0 wrong"]),
    situation("names of two sites that only case tells apart", LIKE.replace(
        "2,leaf1,swp1,srv1", "2,LEAF1,swp1,SRV1"), TO_SRV1, 2, [
            TWICE.format(host) for host in ("LEAF1", "SRV1")], "--ignore-case"),
    situation("two devices of NetBox's API", of_the_api(7, 9), {"leaf1": "swp0 srv1 eth0"}, 2, API),
    situation("the devices of one site by NetBox's API", of_the_api(7, 7),
              {"leaf1": "swp0 srv1 eth0\nswp1 srv1 eth1"}, 0, ["2 cables: 2 right, 0 wrong"]),
    situation("a link that is listed twice", HEAD + "leaf1,swp1,srv1,eth0\nsrv1,eth0,leaf1,swp1\n",
              TO_SRV1, 0, ["plan: 1 link is repeated, such as srv1 eth0 with leaf1 swp1 in lines 2 "
                           "and 3", *RIGHT]),
)


def heard(port: str, name: str, chassis: str, port_id: str, descr: str = "", address: str = "",
          kind: str = "ifname") -> str:
    """Returns what `show neighbors` prints for a port with one neighbor of these names."""
    lines = neighbor(port, chassis, port_id, descr, kind)
    more = [f"chassis.name={name}"] * bool(name) + [f"chassis.mgmt={address},2,1,"] * bool(address)
    return lines + "".join(f"lldp.{port}.1.{line}\n" for line in more)


ONE = HEAD + "leaf1,swp1,srv1,eth0\n"
TWO = ONE + "leaf1,swp2,srv2,eth0\n"
ADDRESSES = HEAD + "leaf1,swp1,10.0.0.1,eth0\n"
EXCHANGED = heard("swp1", "srv2", "srv1", "eth0") + heard("swp2", "srv1", "srv2", "eth0")


def by(name: str, list_of_leaf1: str, text: str, plan: str = ONE, words: str = "") -> Row:
    return situation(name, plan, {"leaf1": list_of_leaf1}, 0,
                     [f"1 cable: 0 right, 1 right by {text}, 0 wrong"], words)


WEAKER: Sequence[Row] = (
    by("an interface name that no plan has", heard("swp1", "srv1", "c", "enp3s0", "eth0"),
       "description"),
    by("a Port ID that is a MAC address", heard("swp1", "srv1", "c", "02:00:00:00:00:01", "eth0",
                                                kind="mac"), "description"),
    situation("two servers exchanged, with old names as chassis IDs", TWO, {"leaf1": EXCHANGED}, 1,
              ["swp1  swapped with swp2: wants srv1 eth0, has srv2 eth0",
               "2 cables: 0 right, 2 wrong"]),
    situation("a chassis ID that is another host's name, beside an address", TWO, {
        "leaf1": heard("swp1", "x", "srv2", "eth0", address="srv1") + EXCHANGED[EXCHANGED.index(
            "lldp.swp2"):].replace("srv1", "srv2")}, 1, [
                "swp1  wrong: wants srv1 eth0, has srv2 eth0 (planned at swp2)",
                "2 cables: 1 right, 1 wrong"]),
    by("a chassis ID beside a System Name that no plan has", heard("swp1", "new1", "srv1", "eth0"),
       "chassis ID"),
    by("who took over an address", heard("swp1", "srv9", "c", "eth0", address="10.0.0.1"),
       "address", ADDRESSES),
    by("an address and a description", heard("swp1", "srv9", "c", "p1", "eth0", "10.0.0.1"),
       "address and description", ADDRESSES),
    by("an aggregate, which may be any port",
       neighbor("swp1", "srv1", "bond0", aggregate=7), "aggregate", words="--vendor-names"),
    situation("a chassis ID alone is the strongest name", ONE,
              {"leaf1": heard("swp1", "", "srv1", "eth0")}, 0, RIGHT),
    situation("the strongest names of one end suffice", ONE, {
        "leaf1": heard("swp1", "srv1", "c", "enp3s0", "eth0"),
        "srv1": heard("eth0", "leaf1", "c", "swp1")}, 0, RIGHT),
    situation("a fault says it, too", ONE, {
        "leaf1": heard("swp1", "srv1", "c", "enp3s0", "eth0"), "srv1": ""}, 1, [
            "leaf1 swp1  one-sided: hears srv1 eth0, is not heard there (by description)",
            "1 cable: 0 right, 1 wrong"]),
)


def eapi(hostname: str) -> str:
    """Returns eAPI's answer to `show hostname` and to `show lldp neighbors detail`."""
    return json.dumps({"jsonrpc": "2.0", "id": "1", "result": [
        {"hostname": hostname, "fqdn": f"{hostname}.example.net"},
        vendors.eos({"swp1": [("srv1", "eth0")]})]})


OTHER = "lists/leaf1: it is of leaf2, not of leaf1"
BOTH_LEAFS = ONE + "leaf2,swp1,srv2,eth0\n"
ASKED = (
    situation("eAPI of this host", ONE, {"leaf1": eapi("leaf1")}, 0, RIGHT),
    situation("eAPI of another host", BOTH_LEAFS, {"leaf1": eapi("leaf2")}, 3, [
        OTHER, f"swp1  no data: wants srv1 eth0 ({OTHER})",
        "2 cables: 0 right, 0 wrong, 2 not looked at (leaf2, srv1, srv2)"]),
)
ROWS = (*SITES_APART, *WEAKER, *ASKED)
