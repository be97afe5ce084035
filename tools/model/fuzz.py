#!/usr/bin/env python3
"""Compares lldpa with tools/model/model.py on random arguments and traces.

    python3 tools/model/fuzz.py [--program FILE] [--seed N] [--seconds S] [--traces N]

Trace K of a run has the seed N + K, so `--seed SEED --traces 1` runs that trace alone. The first seed
is printed first. The first difference ends the run; the trace is made small and printed with its
seed. Without --seconds and --traces it runs for half a minute.
"""
import argparse
import functools
import pathlib
import random
import re
import shlex
import sys
import time
from concurrent.futures import ProcessPoolExecutor

import model
from compare import FREE_PORT, difference
from examples import words_and_filter

TOP = pathlib.Path(__file__).resolve().parents[2]


# how many traces the processors receive at once
AT_ONCE = 200

# ------------------------------------------------------------------------------------------------ frames
HEADER = bytes.fromhex("0180c200000e00112233445588cc")
PRINTABLE = b"abcXYZ019 .-\\\"#~"
LENGTHS = (0, 0, 1, 2, 3, 4, 5, 6, 7, 9, 16, 17, 30, 128, 254, 255, 256, 257, 507, 511)


class Dice(random.Random):
    def happens(self, one_in):
        """Returns True at random, on average once in `one_in` calls."""
        return self.randrange(one_in) == 0

    def octets(self, length):
        """Returns octets, mostly printable ones, sometimes of any value."""
        if self.happens(3):
            return self.randbytes(length)
        return bytes(self.choices(PRINTABLE, k=length))

    def weighted(self, weights):
        """Returns one of the keys at random, with the values as weights."""
        return self.choices(list(weights), list(weights.values()))[0]


def spelled(kind, body):
    """Returns a TLV. A body that is too long is cut."""
    return model.spelled(kind, body[:511])


def identifier(dice):
    """Returns the body of a Chassis ID or Port ID, mostly one of a few, so that names repeat."""
    if not dice.happens(8):
        return dice.choice([b"\4\0\1\2\3\4" + bytes([dice.randrange(3)]), b"\5p%d" % dice.randrange(4)])
    if dice.happens(2):
        family, length = dice.choice([(1, 4), (2, 16), (1, 16), (2, 4), (3, 6)])
        return bytes([dice.choice([4, 5]), family]) + dice.randbytes(length)
    return bytes([dice.randrange(9)]) + dice.octets(dice.choice(LENGTHS))


def management_address(dice):
    """Returns the body of a Management Address, most often a well-formed one."""
    family, length = dice.choice([(1, 4), (1, 4), (2, 16), (6, 6), (1, 5), (2, 4), (0, 31), (0, 32), (0, 0)])
    oid = dice.octets(dice.choice([0, 0, 0, 1, 7, 128, 129]))
    body = bytes([length + 1, family]) + dice.randbytes(length)
    return body + dice.randbytes(5) + bytes([len(oid)]) + oid


def optional_tlv(dice):
    """Returns a TLV that may follow the first three."""
    kind = dice.weighted({4: 5, 5: 6, 6: 5, 7: 6, 8: 7, 9: 1, 50: 1, 126: 1, 127: 6, 0: 1, 1: 1, 2: 1, 3: 1})
    if dice.happens(6):
        return spelled(kind, dice.octets(dice.choice(LENGTHS)))
    if kind == 7:
        available = dice.randrange(65536)
        enabled = dice.randrange(65536) & (65535 if dice.happens(6) else available)
        return spelled(kind, available.to_bytes(2, "big") + enabled.to_bytes(2, "big"))
    if kind == 8:
        body = management_address(dice)
        return spelled(kind, altered_octets(dice, body) if dice.happens(4) else body)
    if kind == 127:
        return spelled(kind, dice.choice([b"\0\x12\x0f", b"\0\x80\xc2"]) + dice.octets(dice.randrange(9)))
    return spelled(kind, dice.octets(dice.randrange(12)))


def lldpdu(dice):
    """Returns an LLDPDU, most often one that must be accepted."""
    ttl = dice.choice([0, 1, 1, 2, 3, 5, 9, 20, 120, 65535, dice.randrange(65536)])
    time_to_live = ttl.to_bytes(2, "big") + dice.octets(dice.choice([0, 0, 0, 0, 0, 0, 1, 5]))
    parts = [spelled(1, identifier(dice)), spelled(2, identifier(dice)), spelled(3, time_to_live)]
    if dice.happens(20):
        parts[dice.randrange(3)] = spelled(dice.randrange(5), dice.octets(dice.choice(LENGTHS)))
    if dice.happens(30):
        dice.shuffle(parts)
    parts += [optional_tlv(dice) for _ in range(dice.choice([0, 0, 1, 1, 2, 3, 5, 8]))]
    if not dice.happens(5):
        parts.append(b"\0\0" + dice.randbytes(dice.choice([0, 0, 0, 1, 26])))
    return b"".join(parts)


def altered_octets(dice, octets):
    """Returns the octets with some of them changed, removed or added."""
    place = dice.randrange(len(octets) + 1)
    change = dice.choice(["change", "change", "bit", "cut", "drop", "insert"])
    if change == "cut":
        return octets[:place]
    if change == "drop":
        return octets[:place] + octets[place + dice.randrange(4):]
    if change == "insert":
        return octets[:place] + dice.randbytes(1 + dice.randrange(4)) + octets[place:]
    if place == len(octets):
        return octets
    other = octets[place] ^ (1 << dice.randrange(8)) if change == "bit" else dice.randrange(256)
    return octets[:place] + bytes([other]) + octets[place + 1:]


def frame(dice):
    """Returns an Ethernet frame, most often an LLDP frame."""
    octets = HEADER + lldpdu(dice)
    for _ in range(dice.choice([0, 0, 0, 0, 1, 2])):
        octets = altered_octets(dice, octets)
    if dice.happens(40):
        octets = octets.ljust(dice.choice([60, 1513, 1514, 1515, 1600]), b"\0")
    if dice.happens(60):
        octets = octets[:dice.randrange(40)]
    return octets


# ------------------------------------------------------------------------------------------------- lines
STATUSES = [b"rx-and-tx", b"rx-and-tx", b"rx-only", b"tx-only", b"disabled"]
NUMBERS = (b"0 1 2 3 5 30 32 128 129 255 256 65535 65536 00007 +1 -1 1.5 257 4294967297 "
           b"99999999999999999999 18446744073709551617 x").split(b" ")
NUMBERS += [b"%d" % (most + step) for most, _ in model.SETTINGS.values() for step in (0, 1)]
ODD_WORDS = (b"x tick rx up show lldp status neighbors eth9 0 TICK tick\r \xff caf\xc3\xa9 tx-interval "
             b"configure # a#b 00 zz \0 ").split(b" ")


# what begins a comment in other languages, or what other programs ignore
MARKS = [b"//", b"--", b"/*", b";", b"!", b"REM ", b"> ", b"$ ", b"\xef\xbb\xbf"]
UNITS = [b"s", b"sec", b"ms", b"m", b"%"]
KNOWN_WORDS = (b"tick rx up down show configure update neighbors statistics chassis configuration system lldp ports "
               b"hostname description tx-interval tx-hold max-neighbors status rx-and-tx rx-only tx-only disabled").split()


def slip(dice, word):
    """Returns a word with a typing error, in another case, with a unit, or another known word."""
    at = dice.randrange(len(word) + 1)
    front, rest = word[:at], word[at:]
    return dice.choice([
        front + rest[1:], front + rest[1:2] + rest[:1] + rest[2:], front + rest[:1] + rest, front,
        front + bytes([dice.randrange(33, 127)]) + rest, front + bytes([dice.randrange(33, 127)]) + rest[1:],
        word.upper(), word.capitalize(), word.replace(b"-", b"_"), word.replace(b"-", b""), word + word, b"0" + word,
        word + dice.choice(UNITS), dice.choice(KNOWN_WORDS), dice.choice(KNOWN_WORDS)])


def ticks(dice, port_count):
    """Returns a tick line. Long waits are rare, and rarer with many ports: they take time."""
    if port_count > 9:
        return b"tick"
    if dice.happens(20000 * port_count):
        return b"tick %d" % dice.choice([65535, dice.randrange(1, 65536)])
    if dice.happens(120 * port_count):
        return b"tick %d" % dice.randrange(1, 700)
    return dice.choice([b"tick", b"tick", b"tick", b"tick 2", b"tick 3", b"tick %d" % dice.randrange(1, 40)])


def good_line(dice, ports):
    """Returns a line that is most often accepted."""
    form = dice.weighted({"rx": 30, "tick": 25, "show": 8, "update": 6, "status": 8, "link": 6, "number": 5,
                          "text": 3, "limit": 4})
    port = dice.choice(ports) if ports else b"eth0"
    if form == "rx":
        digits = frame(dice).hex().encode()
        return b"rx %s %s" % (port, digits.upper() if dice.happens(9) else digits or b'""')
    if form == "tick":
        return ticks(dice, max(1, len(ports)))
    if form == "show":
        return b"show " + dice.choice(["neighbors", "neighbors", *model.SHOWS]).encode()
    if form == "status":
        return b"configure ports %s lldp status %s" % (port, dice.choice(STATUSES))
    if form == "link":
        return dice.choice([b"up ", b"down "]) + port
    if form == "number":
        name, (most, start) = dice.choice(list(model.SETTINGS.items()))
        value = dice.choice([1, 1, 2, 3, 5, start, most, dice.randrange(1, 1 + min(most, 100))])
        return b"configure lldp %s %d" % (name.encode(), value)
    if form == "text":
        text = bytes(dice.choices(b"abc XYZ\\'#~", k=dice.choice([0, 1, 3, 9, 255, 256])))
        text = altered_octets(dice, text).replace(b"\n", b"") if dice.happens(5) else text
        return b'configure system %s "%s"' % (dice.choice([b"hostname", b"description"]), text)
    if form == "limit":
        return b"configure lldp max-neighbors %d" % dice.choice([1, 1, 2, 2, 3, 4, 5, 32, 128])
    return b"update"


def restart(dice, port):
    """Returns lines that stop a port or its link and restart it, with changes around them."""
    updates = [b"update"] * dice.randrange(7)
    if dice.happens(2):
        away, back = b"down " + port, b"up " + port
    else:
        away = b"configure ports %s lldp status %s" % (port, dice.choice([b"rx-only", b"disabled"]))
        back = b"configure ports %s lldp status %s" % (port, dice.choice([b"rx-and-tx", b"tx-only"]))
    pause = [b"tick"] * dice.randrange(4)
    return [b"tick", *updates, away, *pause[:dice.randrange(4)], back, *pause, *updates, b"tick"]


def altered_line(dice, line):
    """Returns a line with something wrong or unusual."""
    words = line.split(b" ")
    place = dice.randrange(len(words))
    change = dice.weighted({"slip": 12, "word": 5, "number": 4, "drop": 4, "add": 4, "quote": 4, "mark": 4, "space": 3,
                            "end": 3, "comment": 2, "octet": 3, "long": 1, "case": 1})
    if change == "slip":
        words[place] = slip(dice, words[place])
    elif change == "word":
        words[place] = dice.choice(ODD_WORDS)
    elif change == "number":
        words[-1] = dice.choice(NUMBERS)
    elif change == "drop":
        del words[place:]
    elif change == "add":
        words.insert(dice.randrange(len(words) + 1), dice.choice(ODD_WORDS))
    elif change == "quote":
        words[place] = b'"' + words[place] + b'"'
    elif change == "case":
        words[place] = words[place].upper()
    line = b" ".join(words)
    at = dice.randrange(len(line) + 1)
    if change == "mark":
        return line[:at] + b'"' + line[at:]
    if change == "space":
        return dice.choice([b"  ", b"\t", b" \t "]).join(words) + dice.choice([b"", b" ", b"\t"])
    if change == "end":
        return line + dice.choice([b"\r", b" \r", b"\0", b" #", b"\x0b", b" x"])
    if change == "comment":
        return dice.choice([b"#", b" # ", b"\t#", b"\r#", *MARKS]) + line
    if change == "octet":
        return altered_octets(dice, line).replace(b"\n", b"")
    if change == "long":
        filler = dice.choice([b" ", b"x", b"0", b"\t"])
        return line.ljust(dice.choice([4095, 4096, 4097, 5000, 20000]), filler)
    return line


def line_of(dice, ports):
    if dice.happens(40):
        return dice.choice([b"", b" ", b"\t \t", b"# a b", b"  #\"", b"\r", dice.octets(dice.randrange(30))])
    line = good_line(dice, ports)
    return altered_line(dice, line).replace(b"\n", b"") if dice.happens(9) else line


def near_line(dice):
    """Returns a line with one slip."""
    words = good_line(dice, [b"eth0"]).split(b" ")
    place = dice.randrange(len(words))
    words[place] = slip(dice, words[place])
    return b" ".join(words).replace(b"\n", b"")


# ------------------------------------------------------------------------------------ arguments and traces
ODD_VALUES = ["", "-", "0", "00:11", "00:11:22:33:44:5g", "1.2.3", "1.2.3.04", "1.2.3.256", "129", "+1",
              "007", "-1", "x", "Bridge", "a.b", "0123456789abcdef", "~" * 256, "caf\u00e9", "a\tb",
              "192.0.2.1 ", "4294967297", "\udcff"]


def ports_of(dice):
    """Returns the ports that a program is started with, most often one or two good ones."""
    count = dice.choice([1, 1, 1, 1, 1, 2, 2, 2, 3, 4])
    if dice.happens(150):
        count = dice.choice([0, 63, 64, 65])
    return [dice.choice(["eth%d", "p%d", "Gi0/%d", "a_b-c:%d"]) % place for place in range(count)]


def words_of(dice):
    """Returns options and ports, most often right: with wrong ones the program runs no trace."""
    ports = ports_of(dice)
    options = []
    for name, most in model.OPENING.items():
        if dice.happens(3):
            number = dice.choice([1, 2, 3, most, dice.randrange(1, most + 1)])
            options.append((model.option_word(name), str(number)))
    for name, values in {
            "--mac": ["00:00:5e:00:53:01", "FF:fe:00:Aa:09:90"],
            "--hostname": ["sw1", "", "a \\ b", "~" * 255],
            "--management": ["192.0.2.1", "0.0.0.0", "255.255.255.255"],
            "--role": ["station", "bridge", "router"]}.items():
        if dice.happens(4):
            options.append((name, dice.choice(values)))
    if dice.happens(5):
        options.append(("--receive-only",))
    if dice.happens(30):
        options.append(("--connections", str(dice.choice([1, 2, 3, 65535]))))
    elif dice.happens(30):
        options += [("--listen=" + FREE_PORT,), ("--connections", str(dice.choice([1, 2, 3])))]
    if dice.happens(12):
        options, ports = altered_words(dice, options, ports)
    dice.shuffle(options)
    joined = [["=".join(option)] if dice.happens(4) else list(option) for option in options]
    before = dice.randrange(len(joined) + 1)
    return [word for option in joined[:before] for word in option] + ports + [
        word for option in joined[before:] for word in option]


def altered_words(dice, options, ports):
    """Returns the options and the ports with something wrong or unusual."""
    change = dice.choice(["value", "value", "twice", "port", "port", "same", "unknown", "help"])
    if change == "value":
        name = dice.choice(sorted(model.VALUED)).replace("_", "-")
        others = [option for option in options if not option[0].startswith("--" + name)]
        value = dice.choice(ODD_VALUES)
        if name == "listen" and re.fullmatch(r"\+?0*[0-9]{1,5}", value):
            return others + [("--listen=" + FREE_PORT,)], ports
        return others + [("--" + name, value)], ports
    if change == "twice" and options:
        return options + [dice.choice(options)], ports
    if change == "port":
        return options, ports + [dice.choice(ODD_VALUES)]
    if change == "same":
        return options, ports + ports[:1]
    return options + [(dice.choice(["--help", "-V", "--version", "-h", "--", "-x", "--mac"]),)], ports


@functools.cache
def examples():
    """Returns the arguments and the lines of each example of the pages and each transcript."""
    found = []
    pages = "".join(path.read_text() for path in sorted((TOP / "docs").glob("*.md")))
    command = r"\$ (?:lldpa ([^\n|]*?) *(?:2>&1)?|\(lldpa ([^\n|]*?) *\|[^\n]*\)) *<<'EOF'"
    for shown in re.finditer(rf"^{command}\n(.*?)^EOF$", pages, re.M | re.S):
        found.append((shlex.split(shown[1] or shown[2]), shown[3].encode().split(b"\n")))
    for args in sorted((TOP / "examples").glob("*.args")):
        found.append((words_and_filter(args.read_text())[0], args.with_suffix(".trace").read_bytes().split(b"\n")))
    return found


def altered_example(dice, words, lines):
    """Returns an example with some lines altered, dropped, repeated or added."""
    words, lines = list(words), list(lines)
    for _ in range(dice.randrange(1, 12)):
        place = dice.randrange(len(lines) + 1)
        change = dice.choice(["alter", "alter", "drop", "again", "new", "new"])
        if change == "new" or place == len(lines):
            lines.insert(place, line_of(dice, [b"eth0"]))
        elif change == "alter":
            lines[place] = altered_line(dice, lines[place]).replace(b"\n", b"")
        elif change == "drop":
            del lines[place]
        else:
            lines.insert(dice.randrange(len(lines) + 1), lines[place])
    return words, lines


def new_trace(dice):
    """Returns arguments and lines of all kinds, with three `show` commands at the end."""
    words = words_of(dice)
    ports = [word.encode() for word in words if re.fullmatch("[0-9A-Za-z_/:-]*[0-9]", word)]
    length = dice.choice([10, 20, 30, 40, 50, 60, 150]) if len(ports) < 9 else 10
    lines = [line_of(dice, ports) for _ in range(length)]
    for _ in range(dice.randrange(3) if ports else 0):
        place = dice.randrange(length)
        lines[place:place] = restart(dice, dice.choice(ports))
    return words, lines + [b"show neighbors", b"show statistics", b"show configuration"]


def case(seed):
    """Returns the arguments and the lines of a trace. The input is the lines, joined by LF."""
    dice = Dice(seed)
    if dice.happens(10):
        words = [*dice.choice([[], ["--receive-only"]]), "eth0"]
        lines = [near_line(dice) for _ in range(dice.choice([20, 200]))]
    elif dice.happens(8):
        words, lines = altered_example(dice, *dice.choice(examples()))
    else:
        words, lines = new_trace(dice)
    return words, lines + [b""] * dice.happens(4)


# -------------------------------------------------------------------------------------- reducing a trace
def without_runs(items, differs):
    """Removes slices of the items, long slices first, while the fault remains."""
    size = len(items)
    while size:
        at = 0
        while at < len(items):
            fewer = items[:at] + items[at + size:]
            if differs(fewer):
                items = fewer
            else:
                at += size
        size //= 2
    return items


def shorter_line(line, differs):
    """Removes words, then pairs of octets, then octets, while the fault remains."""
    line = b" ".join(without_runs(line.split(b" "), lambda words: differs(b" ".join(words))))
    for size in (2, 1):
        parts = [line[at:at + size] for at in range(0, len(line), size)]
        line = b"".join(without_runs(parts, lambda parts: differs(b"".join(parts))))
    return line


def made_small(program, words, lines):
    """Removes lines and arguments while they differ, for at most two minutes."""
    end = time.monotonic() + 120

    def differs(words, lines):
        return time.monotonic() < end and difference(program, words, lines) is not None

    before = None
    while before != (words, lines):
        before = (words, lines)
        lines = without_runs(lines, lambda fewer: differs(words, fewer))
        words = without_runs(words, lambda fewer: differs(fewer, lines))
        for place in range(len(lines)):
            front, behind = lines[:place], lines[place + 1:]
            shorter = shorter_line(lines[place], lambda line: differs(words, front + [line] + behind))
            lines = front + [shorter] + behind
    return words, lines


def as_command(program, words, lines):
    """Returns a shell command that reproduces the difference."""
    octets = b"\n".join(lines)
    text = re.sub(rb"[^ -&(-\[\]-~]", lambda octet: b"\\0%03o" % octet[0][0], octets).decode()
    text = text.replace("\\0012", "\\n")
    return f"printf '%b' '{text}' | {shlex.join([str(program), *words])}"


# -------------------------------------------------------------------------------------------------- main
def main():
    parser = argparse.ArgumentParser(description=__doc__.splitlines()[0])
    parser.add_argument("--program", type=pathlib.Path, default=TOP / "crates" / "lldpa" / "out" / "lldpa")
    parser.add_argument("--seed", type=int, default=random.randrange(10 ** 9))
    parser.add_argument("--seconds", type=float)
    parser.add_argument("--traces", type=int)
    given = parser.parse_args()
    if not given.program.is_file():
        parser.error(f"--program: there is no program {given.program}: make builds it")
    seconds = given.seconds or (30 if given.traces is None else float("inf"))
    print(f"seeds from {given.seed}", flush=True)
    begin, ran, most = time.monotonic(), 0, given.traces or sys.maxsize
    with ProcessPoolExecutor(initializer=sys.setrecursionlimit, initargs=(100000,)) as pool:
        while time.monotonic() - begin < seconds and ran < most:
            seeds = range(given.seed + ran, given.seed + min(ran + AT_ONCE, most))
            for seed, is_so in zip(seeds, pool.map(functools.partial(agrees, given.program), seeds, chunksize=5)):
                if not is_so:
                    show(given.program, seed)
                    return 1
            ran += len(seeds)
    print(f"{ran} traces agree, in {time.monotonic() - begin:.0f} seconds")
    return 0


def agrees(program, seed):
    """Returns whether program and model agree on the trace of a seed."""
    return difference(program, *case(seed)) is None


def show(program, seed):
    """Prints how program and model differ on the trace of a seed, and on a smaller trace."""
    words, lines = case(seed)
    print(f"seed {seed} differs: {difference(program, words, lines)[:1000]}", flush=True)
    words, lines = made_small(program, words, lines)
    print(f"made smaller: {difference(program, words, lines)}\n{as_command(program, words, lines)}")
    print("FAILED: the program and the model differ")


if __name__ == "__main__":
    sys.setrecursionlimit(100000)
    sys.exit(main())
