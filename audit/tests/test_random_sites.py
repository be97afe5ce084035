"""Compares the audit of random networks of several sites with a slow judge.

LLDPA_SEED is the first seed, and LLDPA_SITES the number of networks.
To try more of them by hand, run audit/tools/try-random.py.
"""
import gc
import io
import json
import os
import re
import shutil
from collections import Counter
from contextlib import redirect_stdout
from typing import Any, List

from auditing import InAFolder
from lldpa_audit.command import Audit
from lldpa_audit.plan import PlanFault
from lldpa_audit.words import read_words
from random_sites import Sites

SEED = int(os.environ.get("LLDPA_SEED", "1"))
SITES = int(os.environ.get("LLDPA_SITES", "1000"))


class Quiet(Audit):
    def say(self, text: str) -> None:
        """Writes no notes, since a thousand audits have many."""


class RandomSites(InAFolder):
    def audited(self, case: Sites) -> Any:
        """Audits a network. Returns the status, what it says in JSON, and the lines of its JUnit
        report."""
        folder = self.folder / "case"
        shutil.rmtree(folder, ignore_errors=True)
        self.file("case/plan", case.plan_file())
        words: List[str] = []
        for device, one in case.lists.items():
            name = self.file(f"case/{'-'.join(device)}", case.list_file(device))
            os.utime(name, (one["file"], one["file"]))
            words.append(name if one["form"] == "services" else f"{device[1]}:{name}")
        said = io.StringIO()
        with redirect_stdout(said):
            status = Quiet(read_words([f"{folder}/plan", *words, "--json", "--planned-only",
                                       "--junit", f"{folder}/junit", *case.words()])).run()
        gc.enable()  # an audit disables it
        return status, json.loads(said.getvalue()), (folder / "junit").read_text()

    def test_each_end(self) -> None:
        counts: Counter[str] = Counter()
        for seed in range(SEED, SEED + SITES):
            case = Sites(seed)
            with self.subTest(seed=seed):
                if not case.lists:
                    continue
                if case.is_refused():
                    counts["refused"] += 1
                    with self.assertRaises(PlanFault) as raised:
                        self.audited(case)
                    self.assertRegex(raised.exception.texts[0],
                                     "line [0-9]+: .* and in line [0-9]+ one of dc")
                    continue
                self.compare(case, *self.audited(case), counts)
        for what in ("refused", "right", "wrong", "no data", "not looked at", "by description",
                     "by chassis ID", "by address", "status 0", "status 1", "status 3"):
            self.assertGreater(counts[what], SITES // 100, counts)

    def compare(self, case: Sites, status: int, told: Any, junit: str, counts: "Counter[str]"
                ) -> None:
        verdicts, found = case.verdicts(), {}
        for one in told["ends"]:
            state = one["verdict"]
            if state not in ("right", "no data", "not looked at"):
                state = "wrong"
            found[one["host"], one["port"]] = (state, one["by"] or "")
            counts[state] += 1
            counts[f"by {one['by']}"] += 1
        self.assertEqual({end: state for end, (state, _) in found.items()},
                         {end: one.state for end, one in verdicts.items()})
        for end in case.wants:
            one = verdicts.get(end[1:])
            if one is not None and one.state == "right":
                self.assertEqual(found[end[1:]][1], one.by, end)
                if not one.by:
                    self.assertTrue(case.is_joined(end), end)
            elif one is not None and one.state == "wrong":
                self.assertFalse(case.is_joined(end) and case.is_joined(case.wants[end]), end)
        self.assertEqual(told["cables"]["not_judged"], len(case.unclear))
        self.assertEqual(status, case.status())
        self.assertEqual("<failure" in junit, status == 1)
        self.assertEqual("<failure" in junit or "<error" in junit, status != 0)
        self.assertEqual(len(re.findall("right by ", junit)),
                         sum(1 for state, by in found.values() if state == "right" and by))
        counts[f"status {status}"] += 1
