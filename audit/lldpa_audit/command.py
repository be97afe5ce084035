"""The program lldpa-audit: reads a plan and what was seen, and reports what is wrong."""
import datetime
import gc
import os
import sys
from typing import Mapping, NoReturn, Optional, Sequence, Union

from lldpa import output
from lldpa.faults import LldpaFault

from .breakouts import join_lanes
from .comparing import audit
from .known import NOTHING_KNOWN, Known, read_known
from .likely_panels import advice_on_panels
from .limits import NO_MEMORY
from .names import Names, shown
from .plan import Plan, PlanFault
from .planfile import read_plan
from .planless import Planless
from .report.files import need_apart, write
from .report.objects import json_of
from .report.page import page_of
from .report.pipelines import junit_of, metrics_of, write_failure
from .report.report import Report
from .report.whole_hosts import several_chassis
from .run import NAME, WRONG, Run, harmless
from .seen.folders import hold_pipes, read_whats
from .seen.tables import Tables
from .what import placed
from .words import read_words

KEPT: list[object] = []  # what `end` need not free


class Audit(Run):
    def run(self) -> int:
        """Audits, prints the report and writes its files. Returns the exit status."""
        gc.disable()  # all objects live to the end; looking for garbage costs a third of the time
        given = self.given
        plan, known, tables = self.read()
        findings = audit(plan, tables, given.planned_only)
        self.say_all(advice_on_panels(plan, tables, findings))
        if known.rows:
            findings = [known.applied(one, tables.names) for one in findings]
        self.say_all((*known.unplanned(plan), *several_chassis(findings, tables.several)))
        self.report = Report(plan, tables, findings)
        self.show(self.report)
        return self.status(self.report.count.faults > 0,
                           self.report.count.is_complete(given.partial))

    def read(self) -> tuple[Plan, Known, Tables]:
        """Reads the plan, the known faults and what was seen."""
        given, names = self.given, self.names()
        whats = list(read_whats(given.what, given.host, self.say))
        hold_pipes(whats)
        need_apart((given.html, given.junit, given.metrics), (
            given.plan, given.panels, given.known, given.aliases, *(one.file for one in whats)))
        plan = read_plan(given.plan, names, given.columns, given.panels, given.site)
        today = datetime.date.today()
        known = read_known(given.known, plan.names, today) if given.known else NOTHING_KNOWN
        self.say_all((*plan.notes, *known.notes))
        whats = [placed(what, plan, given.host) for what in whats]
        tables = self.gather(whats, plan)
        self.say_all(unplanned_hosts(tables, plan, {plan.names.host(what.host): what.file
                                                    for what in whats}))
        self.say_all(join_lanes(plan, tables))
        return plan, known, tables

    def show(self, report: Report) -> None:
        """Prints the report, and writes the files that were asked for, even if nobody reads what
        is printed."""
        try:
            if self.given.json:
                sys.stdout.writelines(json_of(report))
            else:
                print("\n".join(map(harmless, report.lines())))
        except output.OutputFault:
            self.write_files(report)
            raise
        self.write_files(report)

    def write_files(self, report: Report) -> None:
        given = self.given
        if given.html:
            write(given.html, page_of(report))
        if given.junit:
            write(given.junit, junit_of(report, given.partial, [*self.damaged, *self.twice]))
        if given.metrics:
            write(given.metrics, metrics_of(report))


def unplanned_hosts(tables: Tables, plan: Plan, files: Mapping[str, str]) -> Sequence[str]:
    """Returns notes on audited hosts without planned cables. Raises ValueError if all lack them."""
    if not tables.hosts:
        raise ValueError(f"no file has neighbors of any host in {plan.file}")
    unplanned = {key: host for key, host in tables.hosts.items() if key not in plan.hosts}
    loose = Names(ignore_case=True, short_names=True)
    like = {loose.host(one): one for one in plan.hosts.values()} if unplanned else {}
    notes = [f"{plan.file} has no cable of the host {shown(host)} that can be judged"
            f"{advice(like.get(loose.host(host)), files.get(key, ''), plan)}"
            for key, host in unplanned.items()]
    if len(unplanned) == len(tables.hosts):
        raise ValueError(notes[0])
    return notes


def advice(like: Optional[str], file: str, plan: Plan) -> str:
    """Returns advice for a host that has no planned cable."""
    if like:
        return f", but has the host {shown(like)}: see --host, --ignore-case, --short-names"
    first = next(iter(plan.hosts.values()))
    return (f": if the file is of another host, write HOST:FILE, such as {first}:{file}" if file
            else "")


def status_of(words: Optional[Sequence[str]]) -> int:
    """Runs the program, reports its faults, and returns the exit status."""
    given = read_words(words)
    sys.unraisablehook = lambda _: None  # to close a generator without memory would be told
    program: Union[Audit, Planless] = Planless(given) if given.plan is None else Audit(given)
    first = given.plan or [*given.what, given.live][0]
    why: Sequence[str] = [f"{first}: {NO_MEMORY}"]
    try:
        status = program.run()
        KEPT.append(program)
        return status
    except PlanFault as fault:
        why = fault.texts
    except OSError as fault:
        where = f"{fault.filename}: " if fault.filename else ""
        why = [f"{where}{fault.strerror or fault}"]
    except output.OutputFault:
        raise
    except (LldpaFault, ValueError) as fault:
        why = [str(fault)]
    except MemoryError:
        pass  # what takes the memory becomes free at the end of this block
    except KeyboardInterrupt:
        write_failure(given.junit, ["it was interrupted"])
        raise
    program.say_all(why)
    write_failure(given.junit, why)
    return WRONG


def main(words: Optional[Sequence[str]] = None) -> int:
    """Runs the program. Returns the exit status, as lldpa-audit(1) defines it."""
    return output.run(NAME, lambda: status_of(words), WRONG, errors="backslashreplace")


def end() -> NoReturn:
    """Runs the program and ends the process. To free all objects one by one would take a seventh of
    the time."""
    try:
        status = main()
    except KeyboardInterrupt:  # perhaps a second one, while the first ends the program
        status = 130
    os._exit(status)
