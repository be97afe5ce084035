"""For tests and scripts: runs a real lldpd beside this repository's programs."""

import json
import os
import re
import shutil
import subprocess
import unittest
from pathlib import Path
from typing import Any, Sequence

from patience import eventually

beside_lldpd = unittest.skipUnless(shutil.which("lldpd"), "lldpd: it is not installed")


class Lldpd:
    """A running lldpd in a namespace, with its socket in `folder`."""

    def __init__(self, namespace: str, folder: Path, *words: str, before: Sequence[str] = ()) -> None:
        os.makedirs("/run/lldpd", exist_ok=True)
        self.socket = str(folder / namespace)
        command = [*before, "ip", "netns", "exec", namespace, "lldpd", "-d", "-u", self.socket, "-O",
                   "/dev/null"]
        self.process = subprocess.Popen([*command, *words], stdin=subprocess.DEVNULL,
                                        stdout=subprocess.DEVNULL, stderr=subprocess.DEVNULL)
        if not eventually(lambda: self.ask("-f", "keyvalue", "show", "configuration")):
            raise SystemExit("no lldpd")

    def ask(self, *words: str) -> bytes:
        command = ["lldpcli", "-u", self.socket, *words]
        return subprocess.run(command, capture_output=True, check=False).stdout

    def tell(self, command: str) -> None:
        """Sends a command to lldpd. Words in double quotes stay together."""
        self.ask(*(word.strip('"') for word in re.findall(r'"[^"]*"|\S+', command)))

    def neighbors(self) -> list[Any]:
        """Returns lldpcli's entries of interfaces, one entry for each neighbor of lldpd."""
        shown = json.loads(self.ask("-f", "json0", "show", "neighbors", "details") or "{}")
        return [one for part in shown.get("lldp", []) for one in part.get("interface", [])]

    def values(self, key: str) -> set[str]:
        """Returns the values that lldpcli shows for a key, such as `peer0.chassis.mac`."""
        shown = self.ask("-f", "keyvalue", "show", "neighbors").decode()
        return set(re.findall(rf"^lldp\.{re.escape(key)}=(.*)$", shown, re.M))

    def close(self) -> None:
        self.process.terminate()
        self.process.wait()
