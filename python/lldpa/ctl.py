"""Asks a running lldpa-live through the program lldpa-ctl, which also reads the TLVs about VLANs,
frame sizes, power and more.

    from lldpa import Ctl
    for neighbor in Ctl().neighbors("eth0"):
        print(neighbor["name"], neighbor["vlan"]["pvid"], neighbor["since"])
"""

from __future__ import annotations

import json
import subprocess
from typing import Any, Dict, List, Optional

from .faults import LldpaFault

NAME = "lldpa-ctl"
MOST_OCTETS = 64 * 1024 * 1024  # of an output that is kept


class CtlFault(LldpaFault):
    """lldpa-ctl failed. `text` is its message, and `status` its exit status, 1 if lldpa-live does
    not answer or refuses the command; None if it printed more than 64 MB."""

    def __init__(self, status: Optional[int], text: str) -> None:
        super().__init__(text)
        self.status = status
        self.text = text


class Ctl:
    """Runs lldpa-ctl once for each question. `control` is the path of the control socket, if it is
    not the usual one. Its methods raise CtlFault, and OSError if lldpa-ctl cannot be run."""

    def __init__(self, control: Optional[str] = None, program: str = NAME) -> None:
        self.front = [program, *([] if control is None else ["--control", control])]

    def neighbors(self, *ports: str) -> List[Dict[str, Any]]:
        """Returns the neighbors of these ports (all if none is named), as objects."""
        told = self.object("neighbors", *ports)
        return [one for port in told.get("ports", ()) for one in port["neighbors"]]

    def object(self, *words: str) -> Dict[str, Any]:
        """Returns what a command prints with --json: `object("statistics", "summary")`."""
        told: Dict[str, Any] = json.loads(self.text("--json", *words))
        return told

    def lines(self, *words: str) -> List[str]:
        """Returns the lines that a command prints: `read_show(ctl.lines("show", "neighbors"))`."""
        return self.text(*words).split("\n")[:-1]

    def text(self, *words: str) -> str:
        """Returns what lldpa-ctl prints. It ends by itself if lldpa-live is silent."""
        with subprocess.Popen([*self.front, *words], stdin=subprocess.DEVNULL,
                              stdout=subprocess.PIPE, stderr=subprocess.PIPE) as ran:
            assert ran.stdout is not None and ran.stderr is not None
            printed = ran.stdout.read(MOST_OCTETS + 1)
            if len(printed) > MOST_OCTETS:
                ran.kill()
                raise CtlFault(None, f"{NAME} prints more than 64 MB: ask for one port")
            said = ran.stderr.read().decode("utf-8", "replace")
        if ran.returncode != 0:
            message = said.strip().rpartition("\n")[2].partition(f"{NAME}: ")
            raise CtlFault(ran.returncode, message[2] or message[0])
        return printed.decode("utf-8", "replace")
