"""Defines the command line of lldpa-audit."""
import argparse
import re
import socket
import sys
from typing import NoReturn, Optional, Sequence

from lldpa.texts import printable
from lldpa.version import add_version

from . import __version__
from .ages import Limit, limit_of, seconds_of
from .columns import COLUMNS
from .report.pipelines import write_failure

# options for an audit by a plan
OF_PLANS = ("columns", "panels", "site", "wait", "known", "planned_only", "junit", "metrics",
            "html")
LIVE, DEFAULT_PATH = "--live", "/run/lldpa/control"
WORDS = """\
PLAN is CSV, the cables that NetBox exports or its API returns, or a topology in DOT. Each WHAT is:
  FOLDER          files of many hosts, each named after its host: leaf1.json, or files in leaf1/
  HOST:FILE       a host's list of neighbors: the JSON of a switch (EOS, NX-OS, Junos, Cumulus),
                  NAPALM, lldpcli, networkctl, OpenConfig, Prometheus or lldpa; rows of
                  ntc-templates; the output of snmpwalk; or a capture that names its interfaces
  HOST:FOLDER     several files of a host
  FILE            a list or capture of the host that the file is named after or, if the plan has
                  no such host, of this host
  PORT=FILE       a capture taken at a port of this host; HOST:PORT=FILE for another host

The exit status is 0 if each cable is right or known, 1 if something needs a repair or has changed,
3 if something must be collected again (a cable was not looked at or cannot be judged or compared,
or a file is damaged or old), and 2 for a wrong argument or plan, two lists of one host, or a file
that cannot be read or written. With --partial, only cables that were looked at count.

examples:
  lldpa-audit --vendor-names cables.csv lists/
  lldpa-audit --partial --live --wait 60 wiring.csv
  lldpa-audit --write-plan plan.csv lists/
  lldpa-audit --since lists-of-yesterday/ lists/

The manual page lldpa-audit(1) describes the verdicts.
"""


class Parser(argparse.ArgumentParser):
    """Reports wrong arguments with invisible letters escaped, also in the JUnit report `junit`."""

    junit = ""

    def error(self, message: str) -> NoReturn:
        write_failure(self.junit, [f"wrong arguments: {message}"])
        super().error(printable(message))


def read_words(words: Optional[Sequence[str]]) -> argparse.Namespace:
    """Reads the command line. If it is wrong, ends the program with status 2."""
    parser = Parser(
        prog="lldpa-audit", allow_abbrev=False, epilog=WORDS,
        usage="lldpa-audit [OPTION ..] PLAN [WHAT ..]\n"
              "       lldpa-audit --write-plan FILE [OPTION ..] [WHAT ..]\n"
              "       lldpa-audit --since OLD [OPTION ..] [WHAT ..]",
        description="Compares a plan of the cabling with the neighbors seen at each port, and "
                    "prints one line for each repair.",
        formatter_class=argparse.RawDescriptionHelpFormatter)
    parser.add_argument("plan", metavar="PLAN", nargs="?", help="the planned cables, see below")
    parser.add_argument("what", metavar="WHAT", nargs="*", help="what was seen, see below; "
                        "may be omitted with --live")
    add_words_of_input(parser)
    add_words_of_report(parser)
    add_version(parser, __version__)
    words = sys.argv[1:] if words is None else words
    parser.junit = junit_in(words)
    given = parser.parse_intermixed_args([f"{LIVE}={DEFAULT_PATH}" if word == LIVE else word
                                          for word in words])
    if given.write_plan or given.since:
        need_no_plan(parser, given)
    elif given.plan is None:
        parser.error("the following arguments are required: PLAN")
    if not given.what and not given.live:
        parser.error("nothing to audit: give captures, lists of neighbors, or --live")
    return given


def junit_in(words: Sequence[str]) -> str:
    """Returns the value of --junit in words that may be wrong, or an empty text."""
    found = re.search("\0--junit[=\0]([^\0]*)", "\0".join(["", *words]))
    return found[1] if found else ""


def need_no_plan(parser: argparse.ArgumentParser, given: argparse.Namespace) -> None:
    """Takes all arguments for what was seen. Refuses options that are of use with a plan only."""
    option = "--write-plan" if given.write_plan else "--since"
    given.what = [word for word in (given.plan, *given.what) if word is not None]
    given.plan = None
    others = [*OF_PLANS, "partial", "json", "since"] if given.write_plan else OF_PLANS
    for name in others:
        if getattr(given, name) != parser.get_default(name):
            parser.error(f"{option} cannot be given with --{name.replace('_', '-')}")


def add_words_of_input(parser: argparse.ArgumentParser) -> None:
    """Adds the options for the plan, for what is seen, and for comparing names."""
    add = parser.add_argument
    add("--columns", metavar="NAMES", type=columns,
        help="how the plan names its columns, such as "
             "host=device,port=interface,peer=to,peer_port=to_port")
    add("--panels", metavar="FILE",
        help="the pairs of ports that panels join, such as NetBox's export of front ports")
    add("--site", metavar="NAME", default="",
        help="read only the plan's cables of this site")
    add("--platform", metavar="NAME", action="append", default=[],
        help="read the text of switches by ntc-templates' template for NAME, such as cisco_ios "
             "or \"cisco_ios=show lldp neighbors detail\"; a file named leaf1.cisco_ios.txt says "
             "its own")
    add(LIVE, metavar="[=PATH]", type=not_empty,
        help="read this host's neighbors from lldpa-live, perhaps at another control socket than "
             f"{DEFAULT_PATH}")
    add("--wait", metavar="TIME", type=seconds_of, default=0.0,
        help="with --live, wait up to TIME until each planned port has a neighbor")
    add("--stale-after", metavar="[file:]TIME", type=limit_of, default=Limit(),
        help="ignore sources older than TIME: 90 (seconds), 15m, 12h, 1d; after file:, those that "
             "do not say when they are from are as old as their files")
    add("--host", metavar="NAME", default=socket.gethostname(),
        help="this host's name in the plan (default: the system's name)")
    add("--ignore-case", action="store_true", help="ignore case when comparing names")
    add("--short-names", action="store_true",
        help="compare hosts' domains only if both names have one")
    add("--vendor-names", action="store_true",
        help="treat vendors' spellings as equal, such as Gi1/0/1 and GigabitEthernet1/0/1")
    add("--aliases", metavar="FILE",
        help="other names of hosts and ports, in CSV with the columns host,port,alias")


def add_words_of_report(parser: argparse.ArgumentParser) -> None:
    add = parser.add_argument
    add("--write-plan", metavar="FILE", type=not_empty,
        help="write a plan of the links that are seen, instead of an audit by a PLAN")
    add("--since", metavar="OLD", type=not_empty,
        help="report the links that changed since OLD, such as a FOLDER with earlier lists, "
             "instead of an audit by a PLAN")
    add("--partial", action="store_true",
        help="do not ask for data of cables that were not looked at, or cannot be judged or "
             "compared")
    add("--known", metavar="FILE",
        help="faults to excuse, in CSV with the columns host,port,reason,until[,verdict]")
    add("--planned-only", action="store_true", help="do not report ports that are not planned")
    add("--json", action="store_true", help="print repairs and verdicts as JSON")
    add("--junit", metavar="FILE",
        help="write a JUnit report with a test case for each port that has a verdict")
    add("--metrics", metavar="FILE", help="write metrics for node_exporter's textfile collector")
    add("--html", metavar="FILE", help="write a page with the repairs and the faults of each host")


def not_empty(text: str) -> str:
    """Returns the name of a file. Raises ArgumentTypeError if it is empty."""
    if not text:
        raise argparse.ArgumentTypeError("the name of a file is missing")
    return text


def columns(text: str) -> "dict[str, str]":
    """Reads the value of `--columns`, such as `host=device,port=interface`."""
    pairs = [part.partition("=") for part in text.split(",")]
    given = {name.strip(): column.strip() for name, _, column in pairs}
    if len(given) == len(pairs) and set(given) <= set(COLUMNS) and all(given.values()):
        return given
    raise argparse.ArgumentTypeError(
        f"{text!r} is not like host=NAME,port=NAME,peer=NAME,peer_port=NAME")
