#!/usr/bin/env python3
"""Writes a large network with known faults, as a plan and a file of each switch, and audits it.

    python3 audit/tools/cabling.py FOLDER [--pods 50] [--form show]

FOLDER gets plan.csv and a file of each leaf and spine below FOLDER/seen. Each pod is the fabric of
audit/tests/fabric.py, with 2,000 links, 40 switches and 20 faults.
"""
import argparse
import pathlib
import sys

TOP = pathlib.Path(__file__).resolve().parents[2]
sys.path += [str(TOP / folder) for folder in ("python", "python/tests", "audit", "audit/tests")]
import lldpcli_lists  # noqa: E402
import shapes  # noqa: E402
from fabric import Fabric  # noqa: E402


def write(folder, pods, form="show", hosts=("leaf", "spine")):
    """Writes the plan of the pods and a list of each host whose name begins so. Returns the arguments of an audit."""
    (folder / "seen").mkdir(exist_ok=True)
    with open(folder / "plan.csv", "w") as plan:
        plan.write("host,port,peer,peer_port\n")
        for number in range(pods):
            fabric, front = Fabric(number, 1), f"p{number}-"
            plan.writelines(f"{front}{a},{b},{front}{c},{d}\n" for (a, b), (c, d) in fabric.links)
            for host, ports in fabric.hosts().items():
                if host.startswith(hosts):
                    heard = {port: [(front + name, its) for name, its in some] for port, some in ports.items()}
                    (folder / "seen" / f"{front}{host}").write_text(FORMS[form](heard))
    return [str(folder / "plan.csv"), str(folder / "seen")]


def show_of(ports, tlvs=lambda neighbor: ()):
    """Returns the output of `show neighbors`, with the TLVs that `tlvs` returns for a neighbor."""
    return "".join(f"lldp.{port}.{line}\n" for port, neighbors in ports.items()
                   for line in show_of_port(neighbors, tlvs))


def neighbors_of(ports, tlvs=lambda neighbor: lldpcli_lists.SETTINGS):
    """Returns the neighbors as lldpcli shows them in detail, all received 12 minutes ago."""
    return [lldpcli_lists.neighbor(port, dict(lines_of(place, one)), tlvs(one))
            for port, some in ports.items() for place, one in enumerate(some, 1)]


FORMS = {"show": show_of, **{form: lambda *words, write=write: write(neighbors_of(*words)) for form, write in (
    ("json", lldpcli_lists.short), ("json0", lldpcli_lists.json0))}}


def show_of_port(neighbors, tlvs):
    yield from (f"neighbors={len(neighbors)}", f"octets={110 * len(neighbors)}", "too-many=no")
    for place, one in enumerate(neighbors, 1):
        for key, text in (*lines_of(place, one), *((f"org.{kind}", octets) for kind, octets in tlvs(one))):
            yield f"{place}.{key}={text}"


def lines_of(place, neighbor):
    """Yields the keys and values of a neighbor, without TLVs of organizations."""
    host, port_id = neighbor
    high, low = divmod(sum(map(ord, host)), 256)
    yield from (("chassis.mac", f"02:00:5e:{place:02x}:{high:02x}:{low:02x}"), ("port.ifname", port_id),
                ("ttl", "120"), ("expires", "107"), ("port.descr", "to the fabric"), ("chassis.name", host),
                ("chassis.descr", "Debian GNU/Linux 12 (bookworm) Linux 6.1.0-18-amd64"),
                ("chassis.caps", "Bridge:on,Router:on,Station:off"), ("chassis.mgmt", f"10.0.{high}.{low},2,1,"))


def main():
    parser = argparse.ArgumentParser(description=__doc__.splitlines()[0])
    parser.add_argument("folder", type=pathlib.Path)
    parser.add_argument("--pods", type=int, default=50)
    parser.add_argument("--form", choices=FORMS, default="show")
    given = parser.parse_args()
    ran = shapes.measured(write(given.folder, given.pods, given.form))
    print(f"{2000 * given.pods} links: {ran.seconds:.1f} s of processor time, {ran.megabytes} MB", *ran.faults)


if __name__ == "__main__":
    main()
