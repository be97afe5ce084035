"""What all runs of lldpa-audit do: compare names, read what is seen, and say what is wrong."""
import argparse
from math import inf
from typing import Iterable, Sequence

from lldpa import output
from lldpa.ctl import CtlFault
from lldpa.texts import printable

from .aliases import read_aliases
from .names import NO_ALIASES, Names
from .plan import Plan
from .seen.files import read_file
from .seen.gather import Gathering
from .seen.tables import Tables
from .what import What, of_hosts

NAME = "lldpa-audit"
REPAIR, WRONG, AGAIN = 1, 2, 3  # exit statuses
PROGRAM = "lldpa"  # the agent that reads captures


class Run:
    def __init__(self, given: argparse.Namespace) -> None:
        self.given = given
        self.damaged: list[str] = []  # what is wrong with sources
        self.twice: list[str] = []  # which sources overlap

    def status(self, needs_repair: bool, is_complete: bool) -> int:
        """Returns the exit status: wrong arguments come before repairs, and these before sources
        that must be collected again."""
        if self.twice:
            return WRONG
        if needs_repair:
            return REPAIR
        return 0 if is_complete and not self.damaged else AGAIN

    def names(self) -> Names:
        """Returns the rules by which names are compared."""
        given = self.given
        rules = given.ignore_case, given.short_names, given.vendor_names
        aliases = read_aliases(given.aliases, Names(*rules)) if given.aliases else NO_ALIASES
        return Names(*rules, aliases)

    def gather(self, whats: Sequence[What], plan: Plan, is_now: bool = True) -> Tables:
        """Returns the tables of the audited hosts, from files and from lldpa-live. If not `is_now`,
        the files may be old, and lldpa-live is not asked."""
        given, names, tables = self.given, plan.names, Tables(plan.names)
        oldest = given.stale_after if is_now else given.stale_after._replace(seconds=inf)
        gathering = Gathering(tables, PROGRAM, self.say, oldest, plan.hosts)
        files = (read_file(what, given.platform) for what in of_hosts(whats))
        gathering.add_files(whats, files)
        for what in whats:
            key = names.host(what.host)
            if what.host != given.host and key in plan.hosts and key not in tables.hosts:
                tables.add_reason(what.host, "", f"{what.file}: it has lists of other hosts only")
        if given.live and is_now:
            try:
                gathering.add_live(given.host, given.live, plan, given.wait)
            except CtlFault as fault:
                raise ValueError(str(fault)) from None
        tables.discard_forgotten()
        self.damaged += gathering.damaged
        self.twice += gathering.twice
        return tables

    def say(self, text: str) -> None:
        """Writes a line on standard error."""
        output.complain(NAME, harmless(text))

    def say_all(self, texts: Iterable[str]) -> None:
        for text in texts:
            self.say(text)


def harmless(line: str) -> str:
    """Escapes what is invisible, and what a pipeline's runner would take for a command, such as
    `##vso[..`."""
    line = printable(line).replace("##", "#\\x23")
    return line.replace("::", "\\x3a:", 1) if line.lstrip().startswith("::") else line
