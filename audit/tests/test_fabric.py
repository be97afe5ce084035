"""Audits a fabric of 2,000 links in many forms: its 100 faults are reported, and nothing else."""
import json
import os
import random
import sys
from pathlib import Path
from typing import Any, Dict, List, Sequence, Set, Tuple

import vendors
from auditing import InAFolder, run
from fabric import End, Fabric, csv_plan, panels

sys.path.append(str(Path(__file__).resolve().parents[1] / "tools"))
import cabling  # noqa: E402

SEED = int(os.environ.get("LLDPA_SEED") or random.SystemRandom().randrange(10**6))
MOST_LINES = 160
# the forms of lldpa and lldpcli, which all have frame sizes, and the forms of vendors
FORMS: Dict[str, Any] = {**cabling.FORMS, **vendors.FORMS}


class Faults(InAFolder):
    def setUp(self) -> None:
        super().setUp()
        print(f"test_fabric: seed {SEED}", flush=True)
        self.fabric = fabric = Fabric(SEED)
        kinds = {fault.kind for fault in fabric.faults}
        self.assertEqual((len(fabric.links), len(fabric.faults), len(kinds), len(fabric.lags)),
                         (2000, 100, 20, 640))
        self.words = ["--panels", self.file("panels.csv", panels()), "--vendor-names"]
        self.lags = {(fabric.names.get(end[0], end[0]), fabric.said(end)): number
                     for end, (_, number) in fabric.lags.items()}
        self.write_lists()

    def write_lists(self) -> None:
        """Writes the list of each host, in all forms in turn. The form has LAGs if
        these matter to the host. It is `show neighbors` if a port of the host is hidden."""
        self.assertGreater(len(FORMS), 6)
        fabric = self.fabric
        of_shows = {host for host, _ in fabric.hidden}
        for number, (host, ports) in enumerate(fabric.hosts().items()):
            names_lag = any(port.startswith("bond") for some in ports.values() for _, port in some)
            forms = sorted(cabling.FORMS if names_lag else FORMS)
            form = "show" if host in of_shows else forms[number % len(forms)]
            heard = ports if form == "show" else {one: some for one, some in ports.items() if some}
            words = [self.tlvs] if form in cabling.FORMS else []
            self.file(f"seen/{host}", FORMS[form](heard, *words))

    def tlvs(self, neighbor: End) -> Sequence[Tuple[str, str]]:
        """Returns TLVs with a neighbor's frame size and, if it has one, its LAG's number."""
        lag = self.lags.get(neighbor)
        return [("00120f.4", "2400"), *([] if lag is None else [("00120f.3", f"03{lag:08x}")])]

    def test_faults(self) -> None:
        words = [self.file("plan.csv", csv_plan(self.fabric.links)), *self.words,
                 str(self.folder / "seen")]
        ran = run(*words, "--json")
        self.assertEqual(ran.returncode, 1, ran.stderr)
        told = json.loads(ran.stdout)
        self.need_each_fault(told)
        lines = run(*words).stdout.splitlines()
        self.assertEqual(len(lines), len(told["repairs"]) + 1)
        self.assertLessEqual(len(lines), MOST_LINES)
        self.need_true_neighbors(told)

    def need_each_fault(self, told: Any) -> None:
        """Checks that each repair belongs to one fault, and each fault has 1 to `most` repairs."""
        of_ends = {end: fault for fault in self.fabric.faults for end in fault.ends}
        kinds: Dict[int, List[str]] = {}
        for repair in told["repairs"]:
            mended = {(end["host"], end["port"]) for end in repair["mends"]}
            faults = {id(of_ends.get(end)): of_ends.get(end) for end in mended}
            self.assertEqual(len(faults), 1, repair)
            fault = next(iter(faults.values()))
            assert fault is not None, repair
            self.assertIn(repair["kind"], fault.repairs, (fault.kind, repair))
            kinds.setdefault(id(fault), []).append(repair["kind"])
        for fault in self.fabric.faults:
            count = len(kinds.get(id(fault), ()))
            self.assertTrue(0 < count <= fault.most, (fault, kinds.get(id(fault))))

    def need_true_neighbors(self, told: Any) -> None:
        """Checks the reported neighbors of each end, and that each fault has a wrong end."""
        wrong: Set[Tuple[str, str]] = set()
        for one in told["ends"]:
            end = one["host"], one["port"]
            has = [(name["host_names"][0], name["port_names"][0]) for name in one["has"]]
            heard = [] if end in self.fabric.hidden else self.fabric.heard(end)
            self.assertEqual(sorted(has), sorted(heard), one)
            if one["verdict"] != "right":
                wrong.add(end)
            if one["verdict"] == "one-sided":
                peer = self.fabric.planned[end]
                self.assertFalse(self.fabric.heard(end) and self.fabric.heard(peer)
                                 and peer not in self.fabric.hidden, one)
        for fault in self.fabric.faults:
            self.assertTrue(fault.ends & wrong, fault)
