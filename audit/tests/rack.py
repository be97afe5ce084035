"""For tests: a switch of six ports with known faults, as captures and `show neighbors` output."""
from functools import partial
from typing import Dict, List, Sequence

import made_captures
from lldpa import Agent
from made_captures import SECOND, interface, packet, section, whole
from served import PROGRAM, frame, tlv

block = partial(made_captures.block, "<")

PORTS = [f"swp{number}" for number in range(1, 7)]
START = 1_700_000_000
HEARD: Dict[str, List[Sequence[str]]] = {
    "swp1": [("host01", "eth0")], "swp2": [("host02", "eth0")], "swp3": [("host01", "eth1")],
    "swp4": [], "swp5": [("host99", "eth0")], "swp6": [("host03", "eth1"), ("rogue", "p1")]}
LINES = ["swp2  swapped with swp3: wants host01 eth1, has host02 eth0",
         "swp4  silent: wants host02 eth1", "swp5  wrong: wants host03 eth0, has host99 eth0",
         "swp6  extra: rogue p1 besides host03 eth1", "6 cables: 1 right, 5 wrong"]


def csv_plan() -> str:
    """Returns the plan in CSV. The peers are host01 eth0, host01 eth1, host02 eth0, and so on."""
    return "host,port,peer,peer_port\n" + "".join(
        f"leaf1,{port},host{at // 2 + 1:02},eth{at % 2}\n" for at, port in enumerate(PORTS))


def lldp_frame(host: str, port: str) -> bytes:
    """Returns a frame that names a host in its System Name and a port in its Port ID."""
    chassis = b"\x04\x02" + host.encode()[-5:]
    return frame(chassis, b"\x05" + port.encode(), 120, tlv(5, host.encode()))


def frames(port: str) -> List[bytes]:
    """Returns the frames captured at a port: two of each neighbor, and two that are not LLDP."""
    other = made_captures.OTHER
    return [other, *[lldp_frame(*neighbor) for neighbor in HEARD[port]] * 2, other]


def pcap(packets: Sequence[bytes], start: int = START) -> bytes:
    """Returns a pcap file, its packets 20 seconds apart."""
    return made_captures.pcap([whole(octets, (start + 20 * number) * SECOND)
                               for number, octets in enumerate(packets)])


def pcapng(packets_of: Dict[str, Sequence[bytes]]) -> bytes:
    """Returns a pcapng file: the first packet of each interface, then the second of each .."""
    file = section() + b"".join(interface(name=name) for name in packets_of)
    for turn in range(max(map(len, packets_of.values()))):
        for place, packets in enumerate(packets_of.values()):
            if turn < len(packets):
                file += packet(whole(packets[turn], (START + 20 * turn) * SECOND), place=place)
    return file


def text_of_show(ports: Sequence[str] = PORTS) -> str:
    """Returns what `show neighbors` prints at a real agent that received the captured frames."""
    with Agent.start(ports, PROGRAM, receive_only=True) as agent:
        for port in ports:
            for octets in frames(port):
                agent.frame(port, octets)
        return "".join(line + "\n" for line in agent.ask("show neighbors"))
