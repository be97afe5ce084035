"""For tests: lists of the hosts of a network, for an audit without a plan."""
from pathlib import Path
from typing import List, Mapping, Sequence, Tuple

import vendors
from auditing import InAFolder, run
from situations import napalm

End = Tuple[str, str]
Cables = Sequence[Tuple[End, End]]
HEADER = "host,port,peer,peer_port,seen"
# a leaf, two spines and a server, whose lists have forms of three vendors
CABLES: Cables = ((("leaf1", "Ethernet2"), ("spine1", "Ethernet1/1")),
                  (("leaf1", "Ethernet10"), ("srv1", "eth0")),
                  (("leaf1", "Ethernet3"), ("spine2", "xe-0/0/1")),
                  (("spine1", "Ethernet1/2"), ("srv2", "eno1")),
                  (("spine2", "xe-0/0/2"), ("srv2", "eno2")))
VENDORS = {"leaf1": "eos", "spine1": "nxos", "spine2": "junos"}


def heard_by(cables: Cables) -> Mapping[str, Mapping[str, List[End]]]:
    """Returns what each port of each host hears."""
    hosts: dict[str, dict[str, List[End]]] = {}
    for one, other in [*cables, *[cable[::-1] for cable in cables]]:
        hosts.setdefault(one[0], {}).setdefault(one[1], []).append(other)
    return hosts


class Planless(InAFolder):
    def lists(self, name: str, cables: Cables, forms: Mapping[str, str]) -> str:
        """Writes the lists of these hosts into a folder, each in the named form."""
        for host, ports in heard_by(cables).items():
            if host in forms:
                self.file(f"{name}/{host}.json", vendors.FORMS[forms[host]](ports))
        return str(self.folder / name)

    def texts(self, name: str, lists: Mapping[str, str]) -> str:
        """Writes lists whose lines are `PORT HOST PORT [CHASSIS [DESCRIPTION]]`."""
        for host, text in lists.items():
            self.file(f"{name}/{host}", napalm(text))
        return str(self.folder / name)

    def written(self, *words: str, said: str = "") -> Sequence[str]:
        """Writes a plan, and returns its rows. Checks what is said on standard error."""
        plan = self.folder / "written.csv"
        plan.unlink(missing_ok=True)
        ran = run("--write-plan", str(plan), *words)
        self.assertEqual((ran.returncode, ran.stderr), (0, said))
        head, *rows = plan.read_text().splitlines()
        self.assertEqual(head, HEADER)
        self.assertIn(f"{plan}: {len(rows)} link", ran.stdout)
        return rows

    def audited(self, *words: str) -> Tuple[int, Sequence[str]]:
        """Returns the status and the lines of an audit by the plan that was written."""
        ran = run(str(self.folder / "written.csv"), *words)
        return ran.returncode, ran.stdout.splitlines()
