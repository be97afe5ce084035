#!/usr/bin/env python3
"""Audits two links by what lldpcli and snmpwalk show of a real lldpd.
The forms json, json0 and snmpwalk must give the same verdicts.

    audit/tools/try-lldpd.py

Two links join two namespaces, leaf1 and host01, each with an lldpd. leaf1 also has an snmpd. Later
a second sender joins. Needs Linux, root, and Debian's packages lldpd, snmp, snmpd and iproute2.
If something is missing, a line says so, and the status is 77.
"""
import argparse
import contextlib
import json
import os
import pathlib
import shutil
import subprocess
import sys

TOP = pathlib.Path(__file__).resolve().parents[2]
sys.path += [str(TOP / folder) for folder in ("tools/gate", "python/tests", "rust/live/tests", "python")]
from counts import Counts  # noqa: E402
from patience import eventually  # noqa: E402
from real_lldpd import Lldpd  # noqa: E402
from served import frame, tlv  # noqa: E402
from wires import Peer, Wires  # noqa: E402

NEEDED = ("lldpd", "lldpcli", "snmpd", "snmpwalk", "ip")
ROGUE = frame(b"\x07rogue", b"\x07p1", 120, tlv(5, b"rogue"))
SNMPD = """master agentx
agentXSocket {0}/agentx
agentaddress udp:127.0.0.1:1161
rocommunity public 127.0.0.1
"""
PLANS = {"right": "leaf1,eth0,host01,peer0\nleaf1,eth1,host01,peer1", "a port with nobody": "leaf1,eth2,host01,peer0",
         "another port": "leaf1,eth0,host01,peer1", "another host": "leaf1,eth0,host02,peer0",
         "another case": "leaf1,eth0,HOST01,peer0", "not planned": "leaf1,eth9,host01,peer0"}


class Trial:
    """The links, the lldpd at leaf1, and the counts of the checks."""

    def __init__(self, wires, leaf1):
        self.wires, self.leaf1, self.room, self.counts = wires, leaf1, pathlib.Path(wires.folder), Counts()

    def lldpcli(self, form):
        return self.leaf1.ask("-f", form, "show", "neighbors", "details")

    def walk(self):
        return subprocess.run(["ip", "netns", "exec", self.wires.here, "snmpwalk", "-v2c", "-c", "public",
                               "127.0.0.1:1161", "1.0.8802.1.1.2.1"], capture_output=True).stdout

    def verdicts(self, plan, octets):
        """Returns the status and the verdicts of an audit of leaf1."""
        (self.room / "plan").write_text(f"host,port,peer,peer_port\n{plan}\n")
        (self.room / "list").write_bytes(octets)
        words = [sys.executable, str(TOP / "bin" / "lldpa-audit"), "--json", f"{self.room}/plan", f"leaf1:{self.room}/list"]
        ran = subprocess.run(words, capture_output=True, text=True)
        told = json.loads(ran.stdout) if ran.stdout else {"ends": [ran.stderr]}
        return ran.returncode, [(one["host"], one["port"], one["verdict"]) for one in told["ends"]]

    def compare(self, state, *names):
        """Waits until lldpcli and snmpwalk show these names. Compares the verdicts of all forms."""
        if not eventually(lambda: all(name in text for name in names for text in (self.lldpcli("json"), self.walk()))):
            sys.exit(f"{names}: not in the data of lldpcli and snmpwalk in time")
        for name, plan in PLANS.items():
            wanted = self.verdicts(plan, self.lldpcli("json"))
            print(f"{state}, {name}: {wanted}")
            for form, octets in (("json0", self.lldpcli("json0")), ("snmpwalk", self.walk())):
                found = self.verdicts(plan, octets)
                self.counts.that(f"{state}, {name}, {form}: {found}", found == wanted)


def main():
    argparse.ArgumentParser(description=__doc__, formatter_class=argparse.RawDescriptionHelpFormatter).parse_args()
    lack = next((f"{name} is not installed" for name in NEEDED if not shutil.which(name)), "")
    if lack or os.geteuid() != 0:
        print(f"skipped: {lack or 'it needs root'}")
        return 77
    with contextlib.ExitStack() as opened:
        wires = opened.enter_context(contextlib.closing(Wires(3)))
        wires.set_link("eth2", "down")
        os.chmod(wires.folder, 0o711)
        conf = pathlib.Path(wires.folder, "snmpd.conf")
        conf.write_text(SNMPD.format(wires.folder))
        snmpd = opened.enter_context(subprocess.Popen(
            ["ip", "netns", "exec", wires.here, "snmpd", "-f", "-Lf", "/dev/null", "-C", "-c", str(conf), "-p",
             f"{wires.folder}/pid"]))
        opened.callback(snmpd.terminate)
        eventually(pathlib.Path(wires.folder, "agentx").exists)
        leaf1 = opened.enter_context(contextlib.closing(
            Lldpd(wires.here, wires.folder, "-x", "-X", f"{wires.folder}/agentx")))
        host01 = opened.enter_context(contextlib.closing(Lldpd(wires.there, wires.folder)))
        leaf1.tell("configure system hostname leaf1")
        host01.tell("configure system hostname host01")
        trial = Trial(wires, leaf1)
        trial.compare("one neighbor", b"host01", b"peer0", b"peer1")
        rogue = opened.enter_context(contextlib.closing(Peer(wires, "peer0")))
        rogue.send(ROGUE)
        trial.compare("two neighbors", b"rogue")
        return trial.counts.end()


if __name__ == "__main__":
    sys.exit(main())
