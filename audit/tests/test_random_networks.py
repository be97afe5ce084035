"""Compares the states of links in random networks with those of a slow judge, by all options.

LLDPA_SEED is the first seed, and LLDPA_NETWORKS the number of networks.
To try more of them by hand, run audit/tools/try-random.py.
"""
import gc
import io
import json
import os
import unittest
from collections import Counter
from contextlib import redirect_stdout
from typing import Any, Dict, FrozenSet

from auditing import InAFolder
from lldpa_audit.command import Audit
from lldpa_audit.names import End
from lldpa_audit.words import read_words
from random_networks import Network

SEED = int(os.environ.get("LLDPA_SEED", "1"))
NETWORKS = int(os.environ.get("LLDPA_NETWORKS", "600"))
FINE = ("right", "no data")


class Quiet(Audit):
    def say(self, text: str) -> None:
        """Writes no notes, since a thousand audits have many."""


class RandomNetworks(InAFolder):
    def audited(self, case: Network) -> Any:
        """Audits a network, and returns what the audit says in JSON, or None without any list."""
        hosts = sorted({end.host for end in case.covered})
        for name, text in case.files().items():
            self.file(name, text)
        words = ["plan", *(f"{case.listed(host)}:{host}" for host in hosts), "--json", "--html",
                 "page", "--junit", "junit", *" ".join(case.options).split(),
                 *([] if case.is_netbox else ["--panels", "panels"])]
        os.chdir(self.folder)
        said = io.StringIO()
        with redirect_stdout(said):
            status = Quiet(read_words(words)).run()
        gc.enable()  # an audit disables it
        told = json.loads(said.getvalue())
        cables = told["cables"]
        has_all_data = not any(end["verdict"] == "no data" for end in told["ends"])
        is_complete = has_all_data and (
            not cables["not_looked_at"] or "--partial" in case.options)
        self.assertEqual(status, 1 if cables["wrong"] or told["unplanned"] else
                         0 if is_complete else 3)
        self.assertEqual(cables["not_judged"], 0)
        moved = sum(one["verdict"] == "moved" and not one["has"] for one in told["ends"])
        unplanned = [end for end in case.covered if case.hears(end) and end not in case.wants]
        if "--planned-only" not in case.options:
            self.assertEqual(told["unplanned"] + moved, len(unplanned))
        return told

    def states(self, case: Network, told: Any) -> Dict[FrozenSet[End], str]:
        """Returns the state of each link, as the audit judges its ends."""
        found: Dict[FrozenSet[End], set[str]] = {frozenset(link): set() for link in case.links}
        for one in told["ends"]:
            end = End(one["host"], one["port"])
            if end in case.wants:
                found[frozenset((end, case.wants[end]))].add(one["verdict"])
        return {link: self.state(verdicts) for link, verdicts in found.items()}

    def state(self, verdicts: "set[str]") -> str:
        if not verdicts <= {*FINE, "not looked at"}:
            return "known" if verdicts <= {*FINE, "not looked at", "known"} else "wrong"
        return "right" if "right" in verdicts else "not looked at"

    def test_each_link(self) -> None:
        counts: Counter[str] = Counter()
        self.addCleanup(os.chdir, os.getcwd())
        for seed in range(SEED, SEED + NETWORKS):
            case = Network(seed)
            if not case.is_looked_at():
                continue
            with self.subTest(seed=seed):
                self.compare(case, self.states(case, self.audited(case)), counts)
        for state in ("right", "wrong", "not looked at"):
            self.assertGreater(counts[state], NETWORKS // 4, counts)

    def compare(self, case: Network, found: Dict[FrozenSet[End], str], counts: "Counter[str]"
                ) -> None:
        for link in case.links:
            state, its = case.state(link), found[frozenset(link)]
            if state is not None and its != "known":
                self.assertEqual((link, its), (link, state))
                counts[state] += 1
            elif its == "known":
                self.assertIn("--known known", case.options)
                self.assertIn(case.servers[0], (link[0].host, link[1].host))
