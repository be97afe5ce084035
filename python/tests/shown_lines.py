"""Lines of shows, for tests that read and write them."""

from lldpa.agent.show import Configuration, Counters

NEIGHBORS = """\
lldp.eth0.neighbors=2
lldp.eth0.octets=120
lldp.eth0.too-many=yes
lldp.eth0.1.chassis.mac=00:11:22:33:44:55
lldp.eth0.1.port.ifname=eth 0
lldp.eth0.1.ttl=120
lldp.eth0.1.expires=119
lldp.eth0.1.chassis.name=caf\\xc3\\xa9 = \\\\
lldp.eth0.1.port.descr=
lldp.eth0.1.chassis.caps=Bridge:on,Router:off
lldp.eth0.1.chassis.mgmt=192.0.2.1,2,7,
lldp.eth0.1.chassis.mgmt=fe80:0000:0000:0000:0000:0000:0000:0001,2,7,2b06
lldp.eth0.1.org.00120f.1=0080000036
lldp.eth0.1.unknown.9=00
lldp.eth0.1.chassis.descr=x.y=z
lldp.eth0.2.chassis.local=a b
lldp.eth0.2.port.unhandled=00
lldp.eth0.2.ttl=1
lldp.eth0.2.expires=1
lldp.p1.neighbors=0
lldp.p1.octets=0
lldp.p1.too-many=no
""".splitlines()

# each counter, and each number in NUMBERS, has a different value
COUNTS = {name: number for number, name in enumerate(Counters._fields)}
STATISTICS = [f"lldp.{port}.{name.replace('_', '-')}={number}"
              for port in ("eth0", "p1") for name, number in COUNTS.items()]

CHASSIS = """\
local-chassis.mac=02:00:00:00:00:01
local-chassis.name=localhost
local-chassis.descr=lldpa
local-chassis.caps=Station:on
local-chassis.mgmt=192.0.2.1,1,0,
""".splitlines()

STATUSES = {"eth0": "rx-and-tx", "p1": "disabled"}
NUMBERS = {name: number for number, name in enumerate(Configuration._fields, 30)}
NUMBERS["statuses"] = len(STATUSES)
CONFIGURATION = [f"configuration.{name.replace('_', '-').replace('statuses', 'ports')}={number}"
                 for name, number in NUMBERS.items()]
CONFIGURATION += [f"configuration.{name}.status={status}" for name, status in STATUSES.items()]

ALL = NEIGHBORS + STATISTICS + CHASSIS + CONFIGURATION
