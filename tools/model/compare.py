"""Runs lldpa with arguments and a trace, over standard input or connections. Compares its answers
with model.py, and its messages about arguments with lldpa(1)."""
import contextlib
import itertools
import os
import pathlib
import re
import socket
import subprocess
import sys
import time

sys.path.append(str(pathlib.Path(__file__).resolve().parents[1] / "gate"))
import model  # noqa: E402

# replaced in arguments by the number of a free port of this host
FREE_PORT = "FREE"

SECONDS = 60

# the program's messages about wrong arguments, as in lldpa(1)
WRONG_WORDS = (
    r"error: unexpected argument '(?P<word>.+)' found",
    r"error: invalid value '(?P<value>.*)' for '(?P<option>--[a-z-]+) <.*",
    r"error: the argument '(?P<twice>--[a-z-]+)( <\w+>)?' cannot be used multiple times",
    r"error: a value is required for '(?P<option>--[a-z-]+) <.*",
    r"error: unexpected value '(?P<value>.*)' for '(?P<option>--receive-only)' found.*",
)


def free_port():
    """Returns a free port of this process's own range, from which the kernel assigns none."""
    first = 10000 + os.getpid() % 200 * 100
    for number in itertools.cycle(range(first, first + 100)):
        with socket.socket() as one, contextlib.suppress(OSError):
            one.bind(("127.0.0.1", number))
            return str(number)


def connected(number, program):
    """Returns a connection to the program, or None if it ended or did not listen in time."""
    end = time.monotonic() + SECONDS
    while time.monotonic() < end:
        try:
            return socket.create_connection(("127.0.0.1", int(number)), timeout=SECONDS)
        except ConnectionRefusedError:
            if program.poll() is not None:
                return None
            time.sleep(0.001)
    return None


def asked(client, octets):
    """Sends octets over a connection, and returns the whole answer."""
    answer = b""
    client.sendall(octets)
    client.shutdown(socket.SHUT_WR)
    while piece := client.recv(65536):
        answer += piece
    client.close()
    return answer


def cut_at_lines(octets, count):
    """Returns the octets in this many pieces. Each except the last is empty or ends with an LF."""
    lines = re.findall(rb"[^\n]*\n|[^\n]+", octets)
    size = len(lines) // count
    pieces = [b"".join(lines[at * size:(at + 1) * size]) for at in range(count - 1)]
    return pieces + [b"".join(lines[(count - 1) * size:])]


def number_of_connections(words):
    """Returns how many connections the arguments ask for. Arguments after `--` are ports."""
    try:
        given, _ = model.read_words(words)
    except model.NoRun:
        return 1
    return given.get("connections", 1)


def answer_over_connections(program, words, trace):
    """Returns the program's answers over connections, each of which sends a piece of the trace."""
    number = free_port()
    words = [word.replace(FREE_PORT, number) for word in words]
    ran = subprocess.Popen([program, *words], stdin=subprocess.DEVNULL, stdout=subprocess.PIPE, stderr=subprocess.PIPE)
    answer = b""
    try:
        for piece in cut_at_lines(trace, number_of_connections(words)):
            client = connected(number, ran)
            if client is None:
                break
            answer += asked(client, piece)
        written, told = ran.communicate(timeout=SECONDS)
    except (subprocess.TimeoutExpired, OSError):
        return None, b"", b""
    finally:
        ran.kill()
        ran.wait()
    return ran.returncode, answer + written, told


def answer_of_program(program, words, trace):
    """Returns status, output and standard error. The status is None if the program does not end."""
    if any(FREE_PORT in word for word in words):
        return answer_over_connections(program, words, trace)
    try:
        ran = subprocess.run([program, *words], input=trace, capture_output=True, timeout=SECONDS)
    except subprocess.TimeoutExpired:
        return None, b"", b""
    return ran.returncode, ran.stdout, ran.stderr


def is_told(complaint, words):
    """Returns whether a message has a form of lldpa(1) and names one of these arguments."""
    first = complaint.split("\n")[0]
    found = next(filter(None, (re.fullmatch(form, first) for form in WRONG_WORDS)), None)
    if found is None:
        return False
    named = found.groupdict()
    if "word" in named:
        return any(word.startswith(named["word"]) for word in words)
    if "twice" in named:
        return sum(word.partition("=")[0] == named["twice"] for word in words) > 1
    is_given = any(word.partition("=")[0] == named["option"] for word in words)
    return is_given and named.get("value", "") in " ".join(["", *words]).replace("=", " ")


def fault_of_refusal(status, output, complaint, words):
    """Returns what is wrong with an answer of the parser of arguments, or None."""
    if status == 0:
        is_well = output and not complaint
    else:
        is_well = is_told(complaint.decode("utf-8", "replace"), words) and not output
    return None if is_well else f"status {status} with {output[:200]!r} and {complaint[:200]!r}"


def difference(program, words, lines):
    """Returns how the answers of program and model differ, or None."""
    trace = b"\n".join(lines)
    status, output, complaint = answer_of_program(program, words, trace)
    wanted_status, wanted, wanted_complaint = model.run([word.replace(FREE_PORT, "1") for word in words], trace)
    if status != wanted_status:
        return f"status {status}, the model says {wanted_status}; standard error: {complaint[:200]!r}"
    if wanted_complaint is None:
        return fault_of_refusal(status, output, complaint, words)
    if complaint.decode("latin-1") != (wanted_complaint and wanted_complaint + "\n"):
        return f"standard error {complaint[:200]!r}, the model says {wanted_complaint!r}"
    if output == wanted.encode("latin-1"):
        return None
    got, want = output.split(b"\n"), wanted.encode("latin-1").split(b"\n")
    place = next(at for at in range(len(got) + 1) if got[at:at + 1] != want[at:at + 1])
    return f"output line {place + 1}: {got[place:place + 1]}, the model says {want[place:place + 1]}"
