"""Lists the programs of the package: `python3 -m lldpa`."""

from . import __version__

TEXT = f"""\
lldpa {__version__}, the Python package of an LLDP agent

  python3 -m lldpa.commands.capture  lldpa-capture, converts captures to a trace
  python3 -m lldpa_audit             lldpa-audit, checks cabling against a plan

Each prints help with --help. In Python, use `from lldpa import Agent` to run an agent, and
`from lldpa import Ctl` to ask a running lldpa-live.
"""

if __name__ == "__main__":
    print(TEXT, end="")
