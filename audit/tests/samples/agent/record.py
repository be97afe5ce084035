"""The three formats at which the audit meets the agent, of one table: the agent's answer to a trace and
`show neighbors`, `lldpa-ctl --json neighbors`, and `lldpa-ctl metrics`.

The files beside this one are what they were when the audit was last tried with them. The tests of
the agent compare; to write them anew after a change of a format, run

    python3 audit/tests/samples/agent/record.py
"""
import sys
from pathlib import Path
from typing import Dict

HERE = Path(__file__).resolve().parent
TOP = HERE.parents[3]
PORTS = ("eth0", "eth1", "eth2")


def recorded() -> Dict[str, str]:
    """Returns the content of each file, by what a built agent and lldpa-ctl print."""
    from lldpa import Agent
    from served import PROGRAM, Served, ctl
    trace = (HERE / "trace").read_text().splitlines()
    with Agent.start(PORTS, PROGRAM, receive_only=True, max_neighbors=2) as agent:
        agent.tell(trace)
        show = agent.ask("show neighbors")
    with Served(PORTS, max_neighbors=2) as served:
        served.agent.tell(trace)
        return {"show": "".join(f"{line}\n" for line in show),
                "neighbors.json": ctl(served.path, "--json", "neighbors").stdout,
                "metrics": ctl(served.path, "metrics").stdout}


if __name__ == "__main__":
    sys.path[:0] = [str(TOP / folder) for folder in ("python", "python/tests")]
    for name, text in recorded().items():
        (HERE / name).write_text(text)
