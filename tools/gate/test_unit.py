"""The unit of the service has the lines that SECURITY.md lists, each once, and no other rights."""
import pathlib
import re
import shutil
import subprocess

import pytest

TOP = pathlib.Path(__file__).resolve().parents[2]
UNIT, PAGE = TOP / "share/systemd/lldpa.service", (TOP / "SECURITY.md").read_text()
# what says how the service runs, and not what it may do
HOW = ("Type TimeoutStartSec WatchdogSec WatchdogSignal EnvironmentFile ExecStart ExecReload TimeoutStopSec Restart "
       "RestartSec RestartPreventExitStatus RuntimeDirectory FileDescriptorStoreMax RestartKillSignal Environment").split()


def test_rights():
    service = UNIT.read_text().partition("[Service]\n")[2].partition("\n[")[0]
    lines = [line for line in service.splitlines() if line and not line.startswith("#") and line.split("=")[0] not in HOW]
    table = PAGE.partition("| The unit has | So that |\n|---|---|\n")[2].partition("\n\n")[0]
    listed = [line for row in table.splitlines() for line in re.findall(r"`(\w+=[^`]*)`", row.split(" | ")[0])]
    assert sorted(lines) == sorted(listed) != []


def test_variables():
    for name in ("PORTS", "LIVE_OPTIONS", "AGENT_OPTIONS"):
        assert re.search(f"^{name}=", (TOP / "share/default/lldpa").read_text(), re.M)
        assert re.search(rf"^ExecStart=.* \${name}\b", UNIT.read_text(), re.M)


@pytest.mark.skipif(not shutil.which("systemd-analyze"), reason="systemd-analyze: it is not installed")
def test_rating():
    told = subprocess.run(["systemd-analyze", "security", "--offline=true", UNIT], capture_output=True, text=True)
    found = re.search(r"Overall exposure level for \S+: ([\d.]+)", told.stdout + told.stderr)
    assert found and f"`systemd-analyze security` rates this unit {found[1]} on Debian 12" in PAGE
