"""Makes lines with altered frames, full tables and names that are alike."""
import random

from model import spelled

HEADER = bytes.fromhex("0180c200000e00112233445588cc")
CHASSIS = spelled(1, bytes.fromhex("04001122334455"))
PORT = spelled(2, b"\5eth0")
MANDATORY = CHASSIS + PORT + spelled(3, bytes([0, 120]))
END = spelled(0, b"")
# System Capabilities: of five octets; with an enabled bit that is not available; well formed
CAPABILITIES = b"".join(spelled(7, bytes.fromhex(body)) for body in ("0004000400", "00040014", "00140004"))
ADDRESS = spelled(8, bytes.fromhex("110220010db800000000000000000000000102000000") + b"\7\0")
MANY_KINDS = ADDRESS + spelled(127, b"\0\x12\x0f\1") + spelled(9, b"") + spelled(6, b"a\\\0b")

LLDPDUS = (
    MANDATORY + END,
    MANDATORY + spelled(5, b"sw2") + END,
    MANDATORY + spelled(5, b"abc" + bytes(17))[:5],  # its length says 20 octets, and it has 3
    MANDATORY + CHASSIS + END,
    MANDATORY + CAPABILITIES + END,
    MANDATORY + MANY_KINDS + END,
    CHASSIS + PORT + spelled(3, bytes(2)) + CHASSIS + END,
)

LOOK = [b"show neighbors", b"show statistics"]
EMPTY = [b"configure ports eth0 lldp status disabled", b"configure ports eth0 lldp status rx-only"]

NEIGHBORS = 180  # there is room for 128
ROUNDS = 3000
LOOK_EACH = 25

SAME = bytes([1, 225])  # adds 31 + 225, which is 0 modulo 256, to a tag
# of IDs: the shortest, the longest, and some whose names end at about a multiple of 64 octets
LENGTHS = (2, 3, 4, 15, 16, 17, *range(57, 67), *range(121, 130), 186, 188, *range(250, 257))


def altered(frame):
    """Yields each beginning of a frame, and all frames that differ from the frame in one octet."""
    for end in range(1, len(frame) + 1):
        yield frame[:end]
    for place, octet in enumerate(frame):
        for other in range(256):
            if other != octet:
                yield frame[:place] + bytes([other]) + frame[place + 1:]


def heard(frame):
    return b"rx eth0 " + frame.hex().encode()


def frame_of(number, ttl):
    return HEADER + CHASSIS + spelled(2, bytes([7, number])) + spelled(3, ttl.to_bytes(2, "big")) + END


def altered_trace(pdu):
    """Returns lines in which each altered frame is received by an empty and a filled table."""
    known = heard(HEADER + LLDPDUS[0])
    return [line for frame in altered(HEADER + pdu)
            for line in (heard(frame), *LOOK, *EMPTY, known, heard(frame), *LOOK, *EMPTY)]


def random_trace(seed):
    """Yields lines that fill a table, and let its neighbors expire, be refreshed and removed."""
    dice = random.Random(seed)
    for round_ in range(ROUNDS):
        number = dice.randrange(NEIGHBORS)
        kind = dice.randrange(16)
        if kind == 0:
            yield heard(frame_of(number, 0))
        elif kind <= 2:
            yield b"tick %d" % dice.randrange(1, 4)
        else:
            yield heard(frame_of(number, dice.randrange(1, 201)))
        if round_ % LOOK_EACH == 0:
            yield from LOOK
        if round_ == ROUNDS * 2 // 3:
            yield from EMPTY


def alike(length):
    """Returns IDs with one tag: zeros, and for each place zeros with SAME at this place."""
    places = range(length - 1)
    return [bytes(length), *(bytes(at) + SAME + bytes(length - at - 2) for at in places)]


def names_alike(part, length):
    """Returns the first octets of LLDPDUs whose names have one tag, and differ in this part."""
    return [spelled(1, each if part == "chassis" else bytes(2))
            + spelled(2, each if part == "port" else bytes(256)) for each in alike(length)]


def heard_thrice(names):
    """Yields lines in which neighbors with these names are new, are refreshed and are removed."""
    for ttl in (120, 120, 0):
        time_to_live = spelled(3, ttl.to_bytes(2, "big"))
        yield from (heard(HEADER + name + time_to_live + END) for name in names)
        yield LOOK[0]


def alike_trace(part):
    """Yields lines that hold names with one tag together, always with the name of zeros."""
    for length in LENGTHS:
        first, *others = names_alike(part, length)
        for start in range(0, len(others), 127):
            yield from heard_thrice([first, *others[start:start + 127]])
