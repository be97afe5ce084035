"""For tests: random networks of one to three sites, and a slow judge of them.

Sites often have devices of the same names, wired alike or not. Servers are exchanged and keep their
old names as chassis IDs, devices are renamed, addresses are taken over, and descriptions are stale.
Lists are of now, old, from the future or without a time, and a host may have two services. Nothing
here is shared with the program.
"""
import json
import random
import time
from typing import Any, Dict, List, NamedTuple, Optional, Set, Tuple

DAY = 86400.0
HEAD = "ID,Device A,Termination A,Device B,Termination B,Site A,Site B,Status\n"


class Port(NamedTuple):
    """A port of a device, which is at a site and has a planned name."""

    site: str
    host: str
    port: str


class Said(NamedTuple):
    """What a device announces at a port."""

    name: str
    chassis: str
    address: str
    port_id: str
    is_named: bool
    descr: str


class Verdict(NamedTuple):
    """What an audit must say of an end: right (by which weaker names), wrong, or no data."""

    state: str
    by: str = ""


class Sites:
    def __init__(self, seed: int) -> None:
        self.dice = dice = random.Random(seed)
        self.now = time.time()
        self.sites = [f"dc{at}" for at in range(1, dice.randint(1, 3) + 1)]
        self.are_alike = dice.random() < 0.6
        self.has_addresses = dice.random() < 0.2
        self.links: List[Tuple[Port, Port]] = []
        for at, site in enumerate(self.sites):
            self.add_site(site, at)
        if len(self.sites) > 1 and dice.random() < 0.5:
            one, other = dice.sample(self.sites, 2)
            self.links.append((Port(one, self.named("leaf0", one), "x1"),
                               Port(other, self.named("leaf0", other), "x1")))
        self.peer = {one: other for pair in self.links for one, other in (pair, pair[::-1])}
        self.box = {device: device for device in {port[:2] for port in self.peer}}
        self.renamed = {device for device in self.box if dice.random() < 0.1}
        self.forms = {device: dice.choice("nnnnpcd") for device in sorted(self.box)}
        for _ in range(dice.choice((0, 0, 1, 1, 2))):
            dice.choice((self.exchange_cables, self.exchange_servers))()
        self.site = dice.choice(self.sites) if dice.random() < 0.7 else ""
        self.limit = dice.choice(("", "", "1d", "file:1d"))
        self.is_partial = dice.random() < 0.3
        chosen = [pair for pair in self.links if not self.site or self.site in (
            pair[0].site, pair[1].site)]
        here = {port.host for pair in self.links for port in pair if port.site == self.site}
        self.unclear = [pair for pair in chosen if self.site and any(
            port.site != self.site and port.host in here for port in pair)]
        self.plan = [pair for pair in chosen if pair not in self.unclear]
        self.wants = {one: other for pair in self.plan for one, other in (pair, pair[::-1])}
        hosts = sorted({port[:2] for port in self.wants})
        self.lists = {host: self.list_of(host) for host in hosts
                      if dice.random() < (0.9 if "leaf" in host[1] else 0.3)}

    def named(self, name: str, site: str) -> str:
        return name if self.are_alike else f"{name}-{site}"

    def add_site(self, site: str, number: int) -> None:
        """Plans the links between two leafs and some servers of a site."""
        for at in range(self.dice.randint(1, 4)):
            server = f"10.{number}.0.{at}" if self.has_addresses else self.named(f"srv{at}", site)
            if self.has_addresses and self.are_alike:
                server = f"10.0.0.{at}"
            for leaf in range(self.dice.randint(1, 2)):
                self.links.append((Port(site, self.named(f"leaf{leaf}", site), f"swp{at}"),
                                   Port(site, server, f"eth{leaf}")))

    def exchange_cables(self) -> None:
        """Exchanges two cables of a site: what is at another site looks the same."""
        one, other = self.dice.sample(sorted(self.peer), 2)
        if other != self.peer[one] and len({port.site for port in (
                one, other, self.peer[one], self.peer[other])}) == 1:
            mine, its = self.peer[one], self.peer[other]
            self.peer.update({one: its, its: one, other: mine, mine: other})

    def exchange_servers(self) -> None:
        """Puts two servers of a site into each other's place, with their names but not with their
        chassis IDs, which are texts that somebody wrote."""
        site, count = self.dice.choice(self.sites), self.dice.randint(1, 2)
        servers = sorted(device for device in self.box
                         if device[0] == site and "leaf" not in device[1]
                         and sum(port[:2] == device for port in self.peer) == count)
        if len(servers) > 1:
            one, other = self.dice.sample(servers, 2)
            self.box[one], self.box[other] = self.box[other], self.box[one]
            self.forms[one] = self.forms[other] = "c"

    def said(self, at: Port) -> Said:
        """Returns what the box in a device's place announces at a port."""
        box = self.box[at[:2]]
        number = sorted(self.box).index(box)
        mac, form = f"02:00:00:00:00:{number:02x}", self.forms[at[:2]]
        is_address = box[1][0].isdecimal()
        name = f"host{number}" if is_address else f"new{number}" if box in self.renamed else box[1]
        # a renamed box keeps its planned name here, since it would have none otherwise
        chassis = box[1] if box in self.renamed else at.host if form == "c" else mac
        address = box[1] if is_address else f"192.0.2.{number}"
        if is_address and form == "c":
            chassis = mac
        if form == "p":
            return Said(name, chassis, address, f"{mac[:-2]}{at.port[-1]}f", False, at.port)
        if form == "d":
            return Said(name, chassis, address, f"enp{at.port[-1]}", True, at.port)
        return Said(name, chassis, address, at.port, True, self.dice.choice(("", "to x", "swp0")))

    def hears(self, end: Port) -> Port:
        """Returns the port to which the cable at a box's port leads, wherever the box is."""
        place = next(place for place, box in self.box.items() if box == end[:2])
        return self.peer[Port(*place, end.port)]

    def list_of(self, device: Tuple[str, str]) -> Dict[str, Any]:
        """Returns a host's list: its form, its time (0 if it does not say one), the file's age, and
        what each port hears."""
        age = self.dice.choice((0.0, 0.0, 0.0, 2.5 * DAY, -2.5 * DAY))
        form = self.dice.choice(("show", "eos", "suzieq", "services"))
        heard = {port: self.said(self.hears(port)) for port in sorted(self.wants)
                 if port[:2] == device}
        file_age = self.dice.choice((0.0, 2.5 * DAY))
        return {"form": form, "heard": heard, "file": self.now - file_age,
                "time": 0.0 if form == "show" else self.now - age}

    # the slow judge

    def is_refused(self) -> bool:
        """Returns whether a name stands for two devices in what the plan says of the site."""
        names: Dict[str, Set[str]] = {}
        for pair in self.plan:
            for port in pair:
                names.setdefault(port.host, set()).add(port.site)
        return any(len(some) > 1 for some in names.values())

    def is_usable(self, one: Dict[str, Any]) -> bool:
        moment = one["time"] or (one["file"] if self.limit.startswith("file") else 0.0)
        return not self.limit or moment != 0.0 and -300 < self.now - moment < DAY

    def judged(self, end: Port) -> Verdict:
        """Returns what must be said of an end, whose host has a usable list."""
        wanted, words = self.wants[end], []
        said = self.lists[end[:2]]["heard"][end]
        planned = {port.host for port in self.wants}
        names = [("", said.name), ("chassis ID", said.chassis), ("address", said.address)]
        by_name, host = next(((kind, name) for kind, name in names if name in planned), ("", ""))
        words += [by_name] if by_name else []
        ports = {port.port for port in self.wants if port.host == host or said.is_named}
        if said.port_id in ports:
            port = said.port_id
        else:
            port, words = said.descr, [*words, "description"]
        if (host, port) != wanted[1:]:
            return Verdict("wrong")
        return Verdict("right", " and ".join(words))

    def verdicts(self) -> Dict[Tuple[str, str], Verdict]:
        """Returns what must be said of each end of the plan. An end is not right if the other end
        has a list and hears somebody else."""
        found = {}
        for end, far in self.wants.items():
            mine, its = self.lists.get(end[:2]), self.lists.get(far[:2])
            if mine is None or not self.is_usable(mine):
                has_far = its is not None and self.is_usable(its)
                state = "no data" if mine is not None else "" if has_far else "not looked at"
                if state:
                    found[end[1:]] = Verdict(state)
                continue
            verdict = self.judged(end)
            if verdict.state == "right" and its is not None and self.is_usable(its) and (
                    self.judged(far).state != "right"):
                verdict = Verdict("wrong")
            found[end[1:]] = verdict
        return found

    def is_joined(self, end: Port) -> bool:
        """Returns whether the planned device is at the other end of an end's cable, by what the
        boxes are called."""
        far = self.hears(end)
        return far.port == self.wants[end].port and self.box[far[:2]] == self.wants[end][:2]

    def status(self) -> int:
        states = {one.state for one in self.verdicts().values()}
        if "wrong" in states:
            return 1
        is_open = "no data" in states or not self.is_partial and (
            "not looked at" in states or bool(self.unclear))
        return 3 if is_open else 0

    # what the audit reads

    def words(self) -> List[str]:
        return [*(["--site", self.site] if self.site else []),
                *(["--stale-after", self.limit] if self.limit else []),
                *(["--partial"] if self.is_partial else [])]

    def plan_file(self) -> str:
        rows = [f"{at},{one.host},{one.port},{other.host},{other.port},{one.site},{other.site},"
                "Connected\n" for at, (one, other) in enumerate(self.links)]
        repeated = self.dice.sample(rows, 1) if self.dice.random() < 0.2 else []
        return HEAD + "".join(rows + repeated)

    def list_file(self, device: Tuple[str, str]) -> str:
        one = self.lists[device]
        write = {"show": show, "eos": eos, "suzieq": suzieq, "services": services}[one["form"]]
        heard = {port.port: said for port, said in one["heard"].items()}
        return write(device[1], heard, one["time"], self.dice)


Heard = Dict[str, Said]


def show(host: str, heard: Heard, moment: float, dice: random.Random) -> str:
    text = ""
    for port, said in heard.items():
        kind = "ifname" if said.is_named else "mac"
        first = "mac" if said.chassis.count(":") == 5 else "local"
        lines = ["neighbors=1", "octets=99", "too-many=no", f"1.chassis.{first}={said.chassis}",
                 f"1.port.{kind}={said.port_id}", "1.ttl=120", "1.expires=99"]
        lines += [f"1.port.descr={said.descr}"] if said.descr else []
        lines += [f"1.chassis.name={said.name}", f"1.chassis.mgmt={said.address},2,1,"]
        text += "".join(f"lldp.{port}.{line}\n" for line in lines)
    return text


def eos(host: str, heard: Heard, moment: float, dice: random.Random) -> str:
    return json.dumps({"lldpNeighbors": {port: {"lldpNeighborInfo": [{
        "chassisId": said.chassis, "systemName": said.name, "lastContactTime": moment - at,
        "managementAddresses": [{"address": said.address}], "neighborInterfaceInfo": {
            "interfaceIdType": "interfaceName" if said.is_named else "macAddress",
            "interfaceId_v2": said.port_id, "interfaceDescription": said.descr}}]}
        for at, (port, said) in enumerate(heard.items())}})


def suzieq(host: str, heard: Heard, moment: float, dice: random.Random) -> str:
    """Returns the answer of gnmic, since Suzieq gives no chassis IDs."""
    return json.dumps([{"source": host, "timestamp": int(moment * 1e9), "updates": [{
        "Path": "lldp/interfaces", "values": {"lldp/interfaces": {
            "openconfig-lldp:interface": [{"name": port, "neighbors": {"neighbor": [{"state": {
                "chassis-id": said.chassis, "system-name": said.name, "port-id": said.port_id,
                "port-id-type": "INTERFACE_NAME" if said.is_named else "MAC_ADDRESS",
                "port-description": said.descr, "management-address": said.address}}]}}
                for port, said in heard.items()]}}}]}])


def services(host: str, heard: Heard, moment: float, dice: random.Random) -> str:
    """Returns Prometheus' answer for a host with one or two services: the oldest file counts, and
    the series are in any order."""
    def series(metric: str, value: float, **labels: str) -> Any:
        return {"metric": {"__name__": metric, "instance": f"{host}:9100", **labels},
                "value": [0, f"{value}"]}
    count = dice.randint(1, 2)
    moments = [moment, max(moment, time.time())][:count]
    rows = [series("node_textfile_mtime_seconds", one, file=f"/x/lldpa{at}.prom")
            for at, one in enumerate(moments)]
    for port, said in heard.items():
        rows.append(series("lldpa_too_many", 0, port=port))
        rows.append(series("lldpa_neighbor_info", 1, port=port, chassis=said.chassis,
                           port_id=said.port_id, name=said.name, port_descr=said.descr,
                           port_id_kind="ifname" if said.is_named else "mac",
                           management=said.address))
    dice.shuffle(rows)
    return json.dumps({"status": "success", "data": {"resultType": "vector", "result": rows}})
