"""Runs without a plan: writes a plan of the links that are seen, or reports which have changed."""
import gc
import sys
from typing import Sequence

from .ages import ages_of
from .changes import compared
from .heard import links_of
from .names import Names
from .plan import Plan
from .report.changed import json_of, lines_of
from .run import Run, harmless
from .seen.folders import hold_pipes, read_whats
from .seen.tables import Tables
from .what import placed
from .writing import need_new, rows_of, summary_of, write_new


class Planless(Run):
    def run(self) -> int:
        """Does what --write-plan or --since says. Returns the exit status."""
        gc.disable()  # all objects live to the end
        return self.write_plan() if self.given.write_plan else self.compare()

    def write_plan(self) -> int:
        """Writes a plan of the links that are seen, and prints how many there are."""
        file = self.given.write_plan
        need_new(file)
        tables = self.read(self.given.what, self.names())
        rows, notes = rows_of(links_of(tables), tables)
        self.say_all(notes)
        if not rows:
            raise ValueError("no link was seen, so no plan is written")
        write_new(file, rows)
        print(harmless(summary_of(file, rows, ages_of(tables.times))))
        return self.status(False, True)

    def compare(self) -> int:
        """Reports the links that have changed since the earlier lists."""
        before = self.read([self.given.since], self.names(), is_now=False)
        now = self.read(self.given.what, self.names())
        found = compared(before, now)
        if self.given.json:
            sys.stdout.writelines(json_of(found))
        else:
            print("\n".join(map(harmless, lines_of(found))))
        return self.status(bool(found.changes), self.given.partial or not found.hosts)

    def read(self, words: Sequence[str], names: Names, is_now: bool = True) -> Tables:
        """Reads what is seen. Raises ValueError if it is of no host."""
        plan = Plan("", (), names)
        whats = [placed(what, plan, self.given.host)
                 for what in read_whats(words, self.given.host, self.say)]
        hold_pipes(whats)
        tables = self.gather(whats, plan, is_now)
        if not tables.hosts:
            raise ValueError(f"no file has neighbors of a host: {' '.join(words)}")
        tables.names = names.with_planned(tables.ends)  # a Port ID that is a listed port is meant
        return tables
