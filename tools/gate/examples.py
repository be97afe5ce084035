#!/usr/bin/env python3
"""Runs the examples on the built program, and compares the output.

    pytest tools/gate/test_examples.py [-k NAME]
    python3 tools/gate/examples.py --as-root

The transcripts are in examples/; CONTRIBUTING.md describes the files. The texts of a filter have
only small letters and hyphens, and must occur in shown lines. Each transcript runs in four ways:
its first N lines, for each N; without its last LF, which changes nothing; octet by octet; and in
two pieces, cut at every place (inputs of up to 10,000 octets). A piece is written after the program
has read the one before. Each run must end with status 0 and write nothing on standard error.
receive-counters.rows has counters of eth0 that `show statistics` must show after a transcript.

Examples of the pages and the manual pages are blocks whose first line begins with `$ `. Each line
that begins so is a command. If it ends with <<'EOF' or <<EOF, its input follows, up to a line EOF.
Then its output follows, up to the next command. A status other than 0 must be shown by `echo $?`.
Standard error must be empty. A free port replaces the number after --listen, and ages of sources
may differ. A block that takes too long fails, and its processes are killed.
tools/by-hand/try-package.sh runs the blocks whose commands begin with sudo; --as-root lists these
commands. A block with commands of both kinds fails.
"""
import argparse
import array
import contextlib
import fcntl
import functools
import os
import pathlib
import re
import signal
import socket
import subprocess
import sys
import tempfile
import termios
import time

TOP = pathlib.Path(__file__).resolve().parents[2]

# the beginning of a command that needs root
AS_ROOT = "$ sudo "

# the file with the rows of counters, and the command that shows counters
ROWS = TOP / "examples" / "receive-counters.rows"
SHOW = b"show statistics\n"

# the ages of sources in an audit's last line
AGES = re.compile(r"\d+ (second|minute|hour|day)s?( to \d+ \w+)? old")

# how many seconds a run may take
SECONDS = 60

# the longest input that is cut at every place
LONGEST_CUT = 10000


def unread(pipe):
    """Returns how many octets of a pipe have not been read yet."""
    octets = array.array("i", [0])
    fcntl.ioctl(pipe, termios.FIONREAD, octets)
    return octets[0]


def feed(ran, pieces):
    """Writes each piece when the program has read the one before, then closes its input."""
    pipe = ran.stdin.fileno()
    end = time.monotonic() + SECONDS
    for piece in pieces:
        os.write(pipe, piece)
        while unread(pipe) and ran.poll() is None and time.monotonic() < end:
            os.sched_yield()
    ran.stdin.close()


def difference(written, wanted):
    """Returns a message that says where two texts first differ."""
    got, want = written.splitlines(), wanted.splitlines()
    place = next((at for at in range(len(got) + 1) if got[at:at + 1] != want[at:at + 1]), len(got))
    return f"line {place + 1} of its output is {got[place:place + 1]}, not {want[place:place + 1]}"


def words_and_filter(args):
    """Returns the arguments and the filter's texts. A malformed filter has None for its texts."""
    words = args.splitlines()
    if not words or not words[-1].startswith("|"):
        return words, []
    is_read = re.fullmatch(r"\| grep( [a-z][a-z-]*|( -e [a-z][a-z-]*)+)", words[-1])
    return words[:-1], [word for word in words[-1].split()[2:] if word != "-e"] if is_read else None


def lines_with(written, texts):
    """Returns the lines that contain one of the texts, or all lines if there are no texts."""
    lines = written.splitlines(keepends=True)
    return b"".join(line for line in lines if not texts or any(text.encode() in line for text in texts))


def fault_of_run(program, words, texts, run):
    """Runs the program on an input in pieces. Returns what is wrong with its output, or None."""
    pieces, wanted = run
    with tempfile.TemporaryFile() as out, tempfile.TemporaryFile() as said:
        ran = subprocess.Popen([program, *words], stdin=subprocess.PIPE, stdout=out, stderr=said)
        try:
            feed(ran, pieces)
            status = ran.wait(SECONDS)
        except (BrokenPipeError, subprocess.TimeoutExpired) as fault:
            return f"it did not read its input to the end: {fault}"
        finally:
            ran.kill()
            ran.wait()
        out.seek(0)
        said.seek(0)
        written, told = lines_with(out.read(), texts), said.read()
    if status != 0 or told:
        return f"it ended with status {status} and wrote {told[:300]!r} on standard error"
    return None if written == wanted else difference(written, wanted)


def steps_of(trace, shown):
    """Returns each line of an input with its output, or a message if the files do not agree."""
    lines = trace.removesuffix(b"\n").split(b"\n") if trace else []
    steps = []
    for line in shown.splitlines(keepends=True):
        if not line.startswith(b"> "):
            steps[-1][1].append(line)
            continue
        if len(steps) == len(lines):
            return f"it shows more than the {len(lines)} lines of the input"
        steps.append((lines[len(steps)], []))
        front = line[2:-1]
        if front != steps[-1][0] and not (front.endswith(b"...") and steps[-1][0].startswith(front[:-3])):
            return f"line {len(steps)} of the input is not what is shown"
    return steps if len(steps) == len(lines) else f"it shows {len(steps)} of the {len(lines)} lines of the input"


def ways(trace, steps):
    """Yields the name of each way to feed an input, and its runs: pieces and wanted output."""
    fronts, texts = [b""], [b""]
    for line, written in steps:
        fronts.append(trace[:len(fronts[-1]) + len(line) + 1])
        texts.append(texts[-1] + b"".join(written))
    wanted = texts[-1]
    yield "line by line", [([front], text) for front, text in zip(fronts, texts)]
    if trace.endswith(b"\n"):
        yield "without its last LF", [([trace[:-1]], wanted)]
    if len(trace) > 1:
        yield "octet by octet", [([trace[at:at + 1] for at in range(len(trace))], wanted)]
    if 1 < len(trace) <= LONGEST_CUT:
        yield "in two pieces", [([trace[:at], trace[at:]], wanted) for at in range(1, len(trace))]


def fault_of_filter(texts, steps):
    if texts is None:
        return "its filter is not of the form | grep TEXT or | grep -e TEXT -e TEXT"
    lines = b"".join(line for _, written in steps for line in written)
    return next((f"no shown line contains {text}" for text in texts if text.encode() not in lines), None)


def transcripts(only=()):
    """Yields each transcript, or those of these names: its name, arguments, filter, input, and its steps or a fault."""
    for args in sorted((TOP / "examples").glob("*.args")):
        if only and args.stem not in only:
            continue
        words, texts = words_and_filter(args.read_text())
        trace = args.with_suffix(".trace").read_bytes()
        steps = steps_of(trace, args.with_suffix(".expect").read_bytes())
        fault = None if isinstance(steps, str) else fault_of_filter(texts, steps)
        yield args.stem, words, texts, trace, fault or steps


def rows():
    """Yields the name and the counters of each row, and its transcript or a fault."""
    counters, *table = [line.split() for line in ROWS.read_text().splitlines()]
    shown = {one[0]: one for one in transcripts()}
    for name, *values in table:
        fault = None
        if name not in shown:
            fault = "no transcript has this name"
        elif len(values) != len(counters) - 1 or not all(re.fullmatch("[0-9]+", value) for value in values):
            fault = f"it does not have {len(counters) - 1} numbers"
        yield name, list(zip(counters[1:], values)), fault or shown[name]


def blocks():
    """Yields the name and the lines of each block of the pages and of the manual pages."""
    for path in [path for folder in (".", "docs", "audit") for path in sorted((TOP / folder).glob("*.md"))]:
        for place, block in enumerate(re.findall(r"^```\w*\n(.*?)^```$", path.read_text(), re.M | re.S), 1):
            yield f"{path.relative_to(TOP)}, block {place}", block.splitlines()
    for path in [*sorted((TOP / "man").iterdir()), *sorted((TOP / "audit").glob("*.1"))]:
        page = path.read_text().replace("\\e", "\\").replace("\\-", "-").replace("\\&", "")
        for place, block in enumerate(re.findall(r"^\.Bd -literal\n(.*?)^\.Ed$", page, re.M | re.S), 1):
            yield f"{path.relative_to(TOP)}, block {place}", block.splitlines()


def commands(lines):
    return [line for line in lines if line.startswith("$ ")]


def script_and_output(lines):
    """Returns the commands of a block with their input, and the output that they must have."""
    script, wanted, is_input = [], [], False
    for line in lines:
        if is_input:
            script.append(line)
            is_input = line != "EOF"
        elif line.startswith("$ "):
            script.append(line[2:])
            is_input = line.endswith(("<<'EOF'", "<<EOF"))
        else:
            wanted.append(line)
    return "".join(f"{line}\n" for line in script), "".join(f"{line}\n" for line in wanted)


def with_free_ports(text, script):
    """Returns the text with a free port in place of each port on which the script listens."""
    for number in sorted(set(re.findall(r"--listen[ =](\d+)", script))):
        text = re.sub(rf"\b{number}\b", free_port(number), text)
    return text


@functools.lru_cache(None)
def free_port(number):
    """Returns a free port of this host, always the same one for the same number."""
    with socket.socket() as one:
        one.bind(("127.0.0.1", 0))
        return str(one.getsockname()[1])


def ended(ran):
    """Returns what a script wrote, or a message if it took too long. Kills what still runs."""
    try:
        return ran.communicate(timeout=SECONDS)
    except subprocess.TimeoutExpired:
        return f"it took more than {SECONDS} seconds"
    finally:
        with contextlib.suppress(ProcessLookupError):
            os.killpg(ran.pid, signal.SIGKILL)
        ran.wait()


def fault_of_block(lines, folder):
    script, wanted = (with_free_ports(text, script_and_output(lines)[0]) for text in script_and_output(lines))
    ran = subprocess.Popen(["sh", "-c", f'PATH="{folder}:$PATH"\n{script}'], stdin=subprocess.DEVNULL, cwd=TOP, text=True,
                           stdout=subprocess.PIPE, stderr=subprocess.PIPE, start_new_session=True)
    found = ended(ran)
    if isinstance(found, str):
        return found
    written, told = found
    if told:
        return f"standard error {told[:300]!r}"
    written, wanted = (AGES.sub("N seconds old", text) for text in (written, wanted))
    if written != wanted:
        return difference(written, wanted)
    if ran.returncode != 0:
        return f"it ended with status {ran.returncode}, which no `$ echo $?` shows"
    return None


if __name__ == "__main__":
    parser = argparse.ArgumentParser(description=__doc__, formatter_class=argparse.RawDescriptionHelpFormatter)
    parser.add_argument("--as-root", action="store_true", required=True)
    parser.parse_args()
    shown = (command for _, lines in blocks() for command in commands(lines))
    print(*(one.removeprefix(AS_ROOT) for one in shown if one.startswith(AS_ROOT)), sep="\n")
