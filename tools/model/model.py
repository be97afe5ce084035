"""A model of lldpa that is short enough to be read in one sitting.

    python3 tools/model/model.py WORDS.. < TRACE

It accepts the arguments of lldpa and a trace, and writes what lldpa must write, on standard output
or over connections. It was written from IEEE 802.1AB-2009 (clauses 8 and 9) and man/lldpa.1, and
shares no code with lldpa. tools/model/fuzz.py compares the two. If lldpa's argument parser answers
(a bad option, --help), the model knows the status but not the text.

The time is the number of ticks since opening. A period is stored as the time of its end.
"""
import re
import sys
from collections import Counter
from types import SimpleNamespace
from typing import NamedTuple

# ------------------------------------------------------------------------------- LLDPDUs and TLVs (clause 8)
NEAREST_BRIDGE = bytes.fromhex("0180c200000e")
ETHERTYPE = bytes.fromhex("88cc")
END, CHASSIS_ID, PORT_ID, TIME_TO_LIVE, PORT_DESCRIPTION, SYSTEM_NAME, SYSTEM_DESCRIPTION = range(7)
CAPABILITIES, MANAGEMENT_ADDRESS, ORGANIZATIONAL = 7, 8, 127

class Tlv(NamedTuple):
    """A type from 0 to 127 and a body of 0 to 511 octets."""
    kind: int
    body: bytes

def spelled(kind, body):
    """Returns a TLV: seven bits of type, nine bits of length, the body."""
    return (kind << 9 | len(body)).to_bytes(2, "big") + body

def number(octets):
    """Returns an unsigned number, most significant octet first."""
    return int.from_bytes(octets, "big")

def cut(octets):
    """Returns the complete TLVs at the beginning, and the octets after them."""
    tlvs, at = [], 0
    while at + 2 <= len(octets):
        header = number(octets[at:at + 2])
        end = at + 2 + (header & 0x1ff)
        if end > len(octets):
            break
        tlvs.append(Tlv(header >> 9, octets[at + 2:end]))
        at = end
    return tlvs, octets[at:]

def management_fields(body):
    """Returns family, address, interface numbering, interface number and OID of a Management
    Address, or None if the two lengths in it do not fit its own length."""
    if not body or not 2 <= body[0] <= 32 or len(body) < body[0] + 7:
        return None
    address, behind = body[1:1 + body[0]], body[1 + body[0]:]
    numbering, interface, oid_length, oid = behind[0], number(behind[1:5]), behind[5], behind[6:]
    is_exact = len(oid) == oid_length <= 128
    return (address[0], address[1:], numbering, interface, oid) if is_exact else None

def is_well_formed(tlv):
    """Returns whether the body of an optional TLV is right for its type."""
    length = len(tlv.body)
    if tlv.kind in (PORT_DESCRIPTION, SYSTEM_NAME, SYSTEM_DESCRIPTION):
        return length <= 255
    if tlv.kind == CAPABILITIES:
        return length == 4 and number(tlv.body[2:]) & ~number(tlv.body[:2]) == 0
    if tlv.kind == MANAGEMENT_ADDRESS:
        return management_fields(tlv.body) is not None
    return length >= 4 or tlv.kind != ORGANIZATIONAL

MANDATORY = ((CHASSIS_ID, 256), (PORT_ID, 256), (TIME_TO_LIVE, 511))

class UnsoundLldpdu(Exception):
    """Raised if an LLDPDU is refused, with the number of the first check that it fails."""

class Lldpdu:
    """An accepted LLDPDU: its MSAP identifier `name` and its `ttl`. If `ttl` is above 0, also
    `extent` (TLVs before End), the `kept` TLVs, and the counts `unrecognized` and `discarded`."""

    def __init__(self, octets):
        tlvs, rest = cut(octets)
        for at, (kind, most) in enumerate(MANDATORY):
            if at == len(tlvs):
                raise UnsoundLldpdu(1)
            if tlvs[at].kind != kind:
                raise UnsoundLldpdu(2 * at + 2)
            if not 2 <= len(tlvs[at].body) <= most:
                raise UnsoundLldpdu(2 * at + 3)
        self.name = (tlvs[0].body, tlvs[1].body)
        self.ttl = number(tlvs[2].body[:2])
        if self.ttl == 0:
            return
        kinds = [tlv.kind for tlv in tlvs]
        inside = tlvs[:kinds.index(END)] if END in kinds else tlvs
        self.extent = b"".join(spelled(*tlv) for tlv in inside)
        self.kept = []
        for tlv in inside[3:]:
            if tlv.kind in (CHASSIS_ID, PORT_ID, TIME_TO_LIVE):
                raise UnsoundLldpdu(8)
            is_second = tlv.kind <= CAPABILITIES and tlv.kind in [earlier.kind for earlier in self.kept]
            if is_well_formed(tlv) and not is_second:
                self.kept.append(tlv)
        was_cut_short = END not in kinds and rest != b""
        self.discarded = len(inside[3:]) - len(self.kept) + was_cut_short
        self.unrecognized = sum(tlv.kind > MANAGEMENT_ADDRESS for tlv in self.kept)

# ------------------------------------------------------------------------ the neighbors of a port (clause 9)
class Table:
    """The neighbors of a port by name, oldest first, each with its last LLDPDU and the time when it
    expires. `too_many_until` is the latest expiry time of the dropped LLDPDUs."""

    def __init__(self):
        self.held = {}
        self.too_many_until = 0

    def learn(self, lldpdu, limit, now):
        """Stores an LLDPDU ("new" or "refreshed"), or drops it for lack of room ("dropped")."""
        expires_at = now + lldpdu.ttl
        is_held = lldpdu.name in self.held
        if not is_held and len(self.held) >= limit:
            self.too_many_until = max(self.too_many_until, expires_at)
            return "dropped"
        self.held[lldpdu.name] = (lldpdu, expires_at)
        return "refreshed" if is_held else "new"

    def age(self, now):
        """Removes the neighbors that have expired, and returns how many there were."""
        gone = [name for name, (_, expires_at) in self.held.items() if expires_at <= now]
        for name in gone:
            del self.held[name]
        return len(gone)

# ------------------------------------------------------------------------------ when a port sends (clause 9)
class Transmitter:
    """Decides when a port sends. Events that can send return "ordinary", "shutdown" or None."""

    def __init__(self, agent):
        self.agent = agent
        self.credit = agent.options.tx_credit_max
        self.is_active = self.is_frame_wanted = False
        self.may_start_at = self.timer_ends_at = self.signals_left = 0

    def tick(self, may_send):
        """Lets a second pass: adds a credit, then starts the port or ends its timer."""
        self.credit = min(self.agent.options.tx_credit_max, self.credit + 1)
        if self.is_active and self.agent.now == self.timer_ends_at:
            self.signals_left = max(0, self.signals_left - 1)
            self.signal()
        elif not self.is_active and may_send and self.agent.now >= self.may_start_at:
            self.is_active = True
            self.signals_left = 0
            self.signal()
        return self.frame_if_due()

    def local_change(self):
        """Handles a local change of what the frames contain, or of how often they are sent."""
        if self.is_active:
            self.signal()
        return self.frame_if_due()

    def new_neighbor(self):
        """Handles a new neighbor: opens a burst if none is open, and uses one of its signals."""
        if self.is_active:
            self.signals_left = (self.signals_left or self.agent.options.tx_fast_init) - 1
            self.signal()
        return self.frame_if_due()

    def signal(self):
        """Requests a frame, and sets the timer: to one second in a burst, else to the interval."""
        self.is_frame_wanted = True
        self.timer_ends_at = self.agent.now + (1 if self.signals_left else self.agent.tx_interval)

    def frame_if_due(self):
        """Returns "ordinary" if a frame is requested and there is credit for it, else None."""
        if not self.is_frame_wanted or self.credit == 0:
            return None
        self.is_frame_wanted = False
        self.credit -= 1
        return "ordinary"

    def stop(self):
        """Forbids transmitting: an active port sends a shutdown frame, and waits to restart."""
        if not self.is_active:
            return None
        self.fall_silent()
        self.may_start_at = self.agent.now + self.agent.options.reinit_delay
        return "shutdown"

    def fall_silent(self):
        """Makes the port inactive, and drops its requests."""
        self.is_active = self.is_frame_wanted = False

# ---------------------------------------------------------------------------------------------------- a port
RECEIVING, TRANSMITTING = ("rx-and-tx", "rx-only"), ("rx-and-tx", "tx-only")
STATUSES = ("rx-and-tx", "rx-only", "tx-only", "disabled")
COUNTERS = ("sent", "shutdowns", "received", "discarded", "errors", "tlvs-discarded", "unrecognized",
            "ageouts", "drops")

class Port:
    """A port: status, link, neighbors, transmitter, counters. Events return the frame to send."""

    def __init__(self, name, agent):
        self.name = name
        self.agent = agent
        self.status = "rx-only" if agent.options.receive_only else "rx-and-tx"
        self.is_up = True
        self.table = Table()
        self.transmitter = Transmitter(agent)
        self.counters = dict.fromkeys(COUNTERS, 0)

    def tick(self):
        self.counters["ageouts"] += self.table.age(self.agent.now)
        return self.transmitter.tick(self.status in TRANSMITTING and self.is_up)

    def hear(self, frame):
        """Handles a frame, if it is an LLDP frame and the port receives."""
        is_lldp = frame[:6] == NEAREST_BRIDGE and frame[12:14] == ETHERTYPE and len(frame) <= 1514
        if not is_lldp or self.status not in RECEIVING or not self.is_up:
            return None
        self.counters["received"] += 1
        try:
            lldpdu = Lldpdu(frame[14:])
        except UnsoundLldpdu:
            self.counters["discarded"] += 1
            self.counters["errors"] += 1
            return None
        if lldpdu.ttl == 0:
            self.table.held.pop(lldpdu.name, None)
            return None
        self.counters["errors"] += lldpdu.discarded > 0
        self.counters["tlvs-discarded"] += lldpdu.discarded
        self.counters["unrecognized"] += lldpdu.unrecognized
        learned = self.table.learn(lldpdu, self.agent.max_neighbors, self.agent.now)
        self.counters["drops"] += learned == "dropped"
        return self.transmitter.new_neighbor() if learned == "new" else None

    def link(self, is_up):
        self.is_up = is_up
        if not is_up:
            self.transmitter.fall_silent()

    def set_status(self, status):
        if self.status in RECEIVING and status not in RECEIVING:
            self.table = Table()
        self.status = status
        return None if status in TRANSMITTING else self.transmitter.stop()

# ------------------------------------------------------------------------------------------------- the agent
ROLES = {"bridge": 0x0004, "router": 0x0010, "station": 0x0080}

DEFAULTS = {"mac": "02:00:00:00:00:01", "hostname": "localhost", "management": "", "role": "station",
            "receive_only": False,
            "max_neighbors": 32, "tx_credit_max": 5, "tx_fast_init": 4, "reinit_delay": 2}

class Range(NamedTuple):
    """The greatest and the initial value of a number that `configure lldp` sets; the least is 1."""
    greatest: int
    at_start: int

# the numbers that `configure lldp` sets, except max-neighbors, whose range depends on its option
SETTINGS = {"tx-interval": Range(3600, 30), "tx-hold": Range(100, 4)}

def attribute(name):
    """Returns the name of the attribute of `Agent` that stores a number."""
    return name.replace("-", "_")

class Agent:
    """The clock, the configuration and the ports."""

    def __init__(self, options, names):
        self.options = options
        self.now = 0
        self.mac = bytes.fromhex(options.mac.replace(":", ""))
        self.hostname, self.description = options.hostname.encode(), b"lldpa"
        self.max_neighbors = options.max_neighbors
        for name, setting in SETTINGS.items():
            setattr(self, attribute(name), setting.at_start)
        self.ports = [Port(name, self) for name in names]

    def ttl(self):
        return min(65535, self.tx_interval * self.tx_hold + 1)

    def capabilities(self):
        """Returns the body of System Capabilities: the bit of the role is available and enabled."""
        return 2 * ROLES[self.options.role].to_bytes(2, "big")

    def management(self):
        """Returns the body of the Management Address: an IPv4 address without interface and OID."""
        return b"\5\1" + bytes(map(int, self.options.management.split("."))) + b"\1\0\0\0\0\0"

    def frame(self, port, kind):
        """Returns the frame that a port sends, "ordinary" or "shutdown"."""
        name, ttl = port.name.encode(), self.ttl() if kind == "ordinary" else 0
        octets = NEAREST_BRIDGE + self.mac + ETHERTYPE + spelled(CHASSIS_ID, b"\4" + self.mac)
        octets += spelled(PORT_ID, b"\5" + name) + spelled(TIME_TO_LIVE, ttl.to_bytes(2, "big"))
        if kind == "ordinary":
            octets += spelled(PORT_DESCRIPTION, name) + spelled(SYSTEM_NAME, self.hostname)
            octets += spelled(SYSTEM_DESCRIPTION, self.description)
            octets += spelled(CAPABILITIES, self.capabilities())
            if self.options.management:
                octets += spelled(MANAGEMENT_ADDRESS, self.management())
        return octets + spelled(END, b"")

    def meet(self, ports, event):
        """Applies an event to the ports in order. Returns the lines of the frames sent."""
        lines = []
        for port in ports:
            kind = event(port)
            if kind:
                port.counters["sent" if kind == "ordinary" else "shutdowns"] += 1
                lines.append(f"tx {port.name} {self.frame(port, kind).hex()}")
        return lines

    def tick(self):
        self.now += 1
        return self.meet(self.ports, Port.tick)

    def local_change(self):
        """Handles a command after which each active port requests a frame."""
        return self.meet(self.ports, lambda port: port.transmitter.local_change())

# ------------------------------------------------------------------------------------- values of shown lines
CHASSIS_KEYS = {1: "component", 2: "ifalias", 3: "portcomp", 4: "mac", 5: "ip", 6: "ifname", 7: "local"}
PORT_KEYS = {1: "ifalias", 2: "component", 3: "mac", 4: "ip", 5: "ifname", 6: "circuit", 7: "local"}
TEXT_KEYS = {PORT_DESCRIPTION: "port.descr", SYSTEM_NAME: "chassis.name",
             SYSTEM_DESCRIPTION: "chassis.descr"}
CAPABILITY_NAMES = ("Other Repeater Bridge Wlan Router Tel Docsis Station Cvlan Svlan Tpmr "
                    "bit11 bit12 bit13 bit14 bit15").split()

def escaped(octets):
    """Returns a text: printable octets unchanged, a backslash doubled, others in hexadecimal."""
    return "".join("\\\\" if octet == 0x5c else chr(octet) if 0x20 <= octet <= 0x7e else f"\\x{octet:02x}"
                   for octet in octets)

def shown_ip(family, octets):
    """Returns an IPv4 or IPv6 address, or None if the octets are neither."""
    if family == 1 and len(octets) == 4:
        return ".".join(str(octet) for octet in octets)
    return octets.hex(":", 2) if family == 2 and len(octets) == 16 else None

def shown_identifier(body, keys):
    """Returns KEY=VALUE of a Chassis ID or Port ID."""
    key, value = keys.get(body[0]), body[1:]
    if key == "mac":
        shown = value.hex(":") if len(value) == 6 else None
    elif key == "ip":
        shown = shown_ip(value[0], value[1:])
    else:
        shown = escaped(value) if key else None
    return f"unhandled={body.hex()}" if shown is None else f"{key}={shown}"

def shown_capabilities(body):
    """Returns the available capabilities, each with whether it is enabled."""
    available, enabled = number(body[:2]), number(body[2:])
    return ",".join(f"{name}:{'on' if enabled >> bit & 1 else 'off'}"
                    for bit, name in enumerate(CAPABILITY_NAMES) if available >> bit & 1)

def shown_management(body):
    """Returns a management address, its interface and its OID."""
    family, address, numbering, interface, oid = management_fields(body)
    shown = shown_ip(family, address) or f"af{family}:{address.hex()}"
    return f"{shown},{numbering},{interface},{oid.hex()}"

def shown_tlv(tlv):
    """Returns KEY=VALUE of a kept TLV."""
    kind, body = tlv
    if kind in TEXT_KEYS:
        return f"{TEXT_KEYS[kind]}={escaped(body)}"
    if kind == CAPABILITIES:
        return f"chassis.caps={shown_capabilities(body)}"
    if kind == MANAGEMENT_ADDRESS:
        return f"chassis.mgmt={shown_management(body)}"
    if kind == ORGANIZATIONAL:
        return f"org.{body[:3].hex()}.{body[3]}={body[4:].hex()}"
    return f"unknown.{kind}={body.hex()}"

# --------------------------------------------------------------------------------------------- show commands
def show_neighbors(agent):
    """Yields the lines of each port's neighbors, in the order of the table."""
    for port in agent.ports:
        held = port.table.held.values()
        yield f"lldp.{port.name}.neighbors={len(held)}"
        yield f"lldp.{port.name}.octets={sum(len(lldpdu.extent) for lldpdu, _ in held)}"
        yield f"lldp.{port.name}.too-many={'yes' if agent.now < port.table.too_many_until else 'no'}"
        for place, (lldpdu, expires_at) in enumerate(held, 1):
            front = f"lldp.{port.name}.{place}."
            yield f"{front}chassis.{shown_identifier(lldpdu.name[0], CHASSIS_KEYS)}"
            yield f"{front}port.{shown_identifier(lldpdu.name[1], PORT_KEYS)}"
            yield f"{front}ttl={lldpdu.ttl}"
            yield f"{front}expires={expires_at - agent.now}"
            yield from (front + shown_tlv(tlv) for tlv in lldpdu.kept)

def show_statistics(agent):
    """Yields each port's counters, which wrap around at 2 to the 32."""
    for port in agent.ports:
        yield from (f"lldp.{port.name}.{name}={port.counters[name] % 2 ** 32}" for name in COUNTERS)

def show_chassis(agent):
    yield f"local-chassis.mac={agent.mac.hex(':')}"
    yield f"local-chassis.name={escaped(agent.hostname)}"
    yield f"local-chassis.descr={escaped(agent.description)}"
    yield f"local-chassis.caps={shown_capabilities(agent.capabilities())}"
    if agent.options.management:
        yield f"local-chassis.mgmt={shown_management(agent.management())}"

def show_configuration(agent):
    """Yields the current numbers, and each port's status."""
    options = agent.options
    numbers = {name: getattr(agent, attribute(name)) for name in SETTINGS}
    numbers |= {"ttl": agent.ttl(), "reinit-delay": options.reinit_delay, "tx-fast-init": options.tx_fast_init,
                "tx-credit-max": options.tx_credit_max, "max-neighbors": agent.max_neighbors,
                "ports": len(agent.ports)}
    yield from (f"configuration.{name}={value}" for name, value in numbers.items())
    yield from (f"configuration.{port.name}.status={port.status}" for port in agent.ports)

SHOWS = {"neighbors": show_neighbors, "statistics": show_statistics, "chassis": show_chassis,
         "configuration": show_configuration}

# ------------------------------------------------------------------------------------------ lines of a trace
WORD = re.compile(r'(?:"([^"]*)"|([^ \t"]+))(?=[ \t]|\Z)')
NUMBER, HEXADECIMAL, TEXT = "[0-9]+", "([0-9a-fA-F]{2})*", "[ -~]{0,255}"

class RefusedLine(Exception):
    """Raised if a line is refused, with the text that follows `error: `."""

class Words:
    """The words of a line, read from left to right. The first wrong word decides the line's fault.
    Each octet is the character with the same number."""

    def __init__(self, line):
        self.left, at = [], 0
        while rest := line[at:].lstrip(" \t"):
            word = WORD.match(line, len(line) - len(rest))
            if not word:
                raise RefusedLine("bad quote")
            self.left.append(word[2] if word[1] is None else word[1])
            at = word.end()

    def next(self, choices=None):
        """Reads the next word. If choices are given, the word must be one of them."""
        if not self.left or choices and self.left[0] not in choices:
            raise RefusedLine("unknown command")
        return self.left.pop(0)

    def spelled(self, pattern, fault):
        """Reads the next word, which must match the pattern."""
        word = self.next()
        if not re.fullmatch(pattern, word):
            raise RefusedLine(fault)
        return word

    def number(self, most):
        """Reads the next word as a number from 1 to `most`."""
        value = int(self.spelled(NUMBER, "not a number"))
        if not 1 <= value <= most:
            raise RefusedLine("out of range")
        return value

    def port(self, agent):
        name = self.next()
        for port in agent.ports:
            if port.name == name:
                return port
        raise RefusedLine("no such port")

    def end(self, value=None):
        """Checks that no word is left, and returns the value."""
        if self.left:
            raise RefusedLine("extra word")
        return value

def obey(agent, words):
    """Executes the words of a line, and returns the lines that it writes."""
    form = words.next(("tick", "rx", "up", "down", "show", "configure", "update"))
    if form == "tick":
        ticks = words.end(words.number(65535) if words.left else 1)
        return (line for _ in range(ticks) for line in agent.tick())
    if form == "rx":
        port = words.port(agent)
        frame = bytes.fromhex(words.end(words.spelled(HEXADECIMAL, "bad hexadecimal")))
        return agent.meet([port], lambda port: port.hear(frame))
    if form in ("up", "down"):
        return agent.meet([words.end(words.port(agent))], lambda port: port.link(form == "up"))
    if form == "show":
        return SHOWS[words.end(words.next(SHOWS))](agent)
    if form == "configure":
        part = words.next(("system", "lldp", "ports"))
        return {"system": set_text, "lldp": set_number, "ports": set_status}[part](agent, words)
    words.end()
    return agent.local_change()

def set_text(agent, words):
    name = words.next(("hostname", "description"))
    setattr(agent, name, words.end(words.spelled(TEXT, "bad text")).encode())
    return agent.local_change()

def set_number(agent, words):
    """Sets a number. max-neighbors cannot be less than the number of neighbors of any port."""
    greatest = {name: setting.greatest for name, setting in SETTINGS.items()}
    greatest["max-neighbors"] = agent.options.max_neighbors
    name = words.next(greatest)
    value = words.end(words.number(greatest[name]))
    if name == "max-neighbors" and any(len(port.table.held) > value for port in agent.ports):
        raise RefusedLine("too many held")
    setattr(agent, attribute(name), value)
    return agent.local_change()

def set_status(agent, words):
    port = words.port(agent)
    words.next(("lldp",))
    words.next(("status",))
    status = words.end(words.next(STATUSES))
    return agent.meet([port], lambda port: port.set_status(status))

def answer(agent, line):
    """Returns the lines that answer a line of a trace."""
    if len(line) > 4096:
        return ["error: line too long"]
    if line.lstrip(" \t")[:1] in ("", "#"):
        return []
    try:
        return obey(agent, Words(line))
    except RefusedLine as fault:
        return [f"error: {fault}"]

# ----------------------------------------------------------------------------------------------- the program
class NoRun(Exception):
    """Raised if no trace is run with these arguments. Has the status and the line on standard error,
    which is None if lldpa's argument parser writes it. `why` says for people what is wrong."""

    def __init__(self, status, complaint, why=""):
        super().__init__(status, complaint)
        self.why = why

# the greatest numbers of the agent's options, and of all options with a number
OPENING = {"max_neighbors": 128, "tx_credit_max": 10, "tx_fast_init": 8, "reinit_delay": 10}
GREATEST = {**OPENING, "listen": 65535, "connections": 65535}
VALUED = (*GREATEST, "mac", "hostname", "management", "role")
MAC, PORT_NAME = "[0-9a-fA-F]{2}(:[0-9a-fA-F]{2}){5}", "[0-9A-Za-z_/:-]{1,15}"
BELOW_256 = "(25[0-5]|2[0-4][0-9]|1[0-9][0-9]|[1-9]?[0-9])"
IPV4 = BELOW_256 + (r"\." + BELOW_256) * 3

def option_word(name):
    """Returns the option with this name, as it is written on a command line."""
    return "--" + name.replace("_", "-")

def option_value(name, word):
    """Returns the value of an option, checked as far as lldpa's argument parser does."""
    digits = re.fullmatch("[+]?0*([0-9]{1,9})", word)
    if name in GREATEST and not (digits and 1 <= int(digits[1]) <= GREATEST[name]):
        raise NoRun(2, None, f"{option_word(name)} {word!r:.60}: it is a number from 1 to {GREATEST[name]}")
    if name == "role" and word not in ROLES:
        raise NoRun(2, None, f"--role {word!r:.60}: it is one of {', '.join(ROLES)}")
    return int(digits[1]) if name in GREATEST else word

def unread(word, option):
    """Returns why a word that begins with `-` is not read."""
    if option == "--receive-only" and word != option:
        return f"{word!r:.60}: {option} has no value"
    is_known = option in map(option_word, (*VALUED, "receive_only"))
    return f"{option} is given twice" if is_known else f"there is no option {option!r:.60}"

def read_words(words):
    """Returns the options by name, and the ports. After a `--` all arguments are ports."""
    given, ports, left = {}, [], list(words)
    while left:
        word = left.pop(0)
        option, is_attached, value = word.partition("=")
        name = option[2:].replace("-", "_")
        if word == "--":
            return given, ports + left
        if word == "-" or not word.startswith("-"):
            ports.append(word)
        elif word in ("--help", "--version") or re.match("-[hV]", word):
            raise NoRun(0, None)
        elif word == "--receive-only" and name not in given:
            given[name] = True
        elif option == option_word(name) and name in VALUED and name not in given:
            if not is_attached and (not left or re.match("-.", left[0])):
                raise NoRun(2, None, f"{option} needs a value")
            given[name] = option_value(name, value if is_attached else left.pop(0))
        else:
            raise NoRun(2, None, unread(word, option))
    return given, ports

def opened(words):
    """Returns the agent of these arguments, or raises the fault of the first check that fails."""
    if re.search("[\ud800-\udfff]", " ".join(words)):
        raise NoRun(2, "lldpa: no memory", "an argument is not UTF-8")
    given, ports = read_words(words)
    options = SimpleNamespace(**{**DEFAULTS, **given})
    bad = [name for name in ports if not re.fullmatch(PORT_NAME, name)]
    twice = [name for name, count in Counter(ports).items() if count > 1]
    for is_well, fault, why in [
            (re.fullmatch(MAC, options.mac), "bad --mac",
             f"--mac {options.mac!r:.60}: it has six pairs of hexadecimal digits, with colons between them"),
            ("management" not in given or re.fullmatch(IPV4, options.management), "bad --management",
             f"--management {options.management!r:.60}: it has four numbers from 0 to 255, with dots between them"),
            (ports, "no ports", "name one or more ports, such as eth0"),
            (len(ports) <= 64, "too many ports", f"there are {len(ports)}, and an agent has at most 64"),
            (not bad, "bad port name", f"{''.join(bad[:1])!r:.60}: a name has 1 to 15 letters, digits, -, _, / and :, "
             "so eth0.12 is eth0:12 here; a capture is read by lldpa-capture --table"),
            (not twice, "same port twice", f"{''.join(twice[:1])}: name each port once"),
            (re.fullmatch(TEXT, options.hostname), "bad text",
             f"--hostname {options.hostname!r:.60}: it has at most 255 characters, from the space to the tilde")]:
        if not is_well:
            raise NoRun(2, f"lldpa: {fault}", why)
    return Agent(options, ports)

def run(words, trace):
    """Returns what lldpa does with these arguments and this trace: its status, its output, and its
    line on standard error (empty if there is none, None if the model does not know it)."""
    try:
        agent = opened(words)
    except NoRun as why:
        status, complaint = why.args
        return status, "", complaint
    lines = trace.decode("latin-1").split("\n")
    return 0, "".join(f"{written}\n" for line in lines for written in answer(agent, line)), ""

def main():
    """Answers each line of standard input at once."""
    try:
        agent = opened(sys.argv[1:])
    except NoRun as why:
        status, complaint = why.args
        lines = [complaint, f"lldpa-model: {why.why}"] if complaint else [f"lldpa-model: {why.why}; see --help"]
        print(*lines, sep="\n", file=sys.stderr)
        return status
    for line in sys.stdin.buffer:
        for written in answer(agent, line.decode("latin-1").removesuffix("\n")):
            print(written, flush=True)
    return 0

if __name__ == "__main__":
    sys.exit(main())
