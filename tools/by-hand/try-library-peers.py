#!/usr/bin/env python3
"""Compares the library with lldpd's decoder and systemd's sd-lldp: their answers and their times.
The library must answer like tools/model/model.py. If the answer of a peer (one of the two others)
differs, a rule of docs/STANDARD.md must explain the difference.

    tools/by-hand/try-library-peers.py --peers FOLDER [--library FOLDER] [--frames FILE ..]
        [--count N]

--peers names the folder of the programs lldpd_decode and sd_decode, built from the sources of lldpd
and systemd. Each accepts `verdict FILE` and `bench FILE N`; FILE has a frame in hexadecimal on each
line. --library names a folder that tools/library/library.sh wrote. Without --library that script
runs. --frames adds captures (pcap) and traces to those of docs and examples. N frames (default
300,000) are compared: the captured ones, altered copies, and frames made by tools/model/fuzz.py.
"""
from __future__ import annotations

import argparse
import collections
import pathlib
import re
import subprocess
import sys
import tempfile

TOP = pathlib.Path(__file__).resolve().parents[2]
sys.path += [str(TOP / name) for name in ("tools/library", "tools/model", "tools/gate", "python")]
import fuzz  # noqa: E402
from lldpa.capture.packets import packets_of  # noqa: E402
from library_parts import Counts, Library  # noqa: E402
from library_peers import Frame, Told, compared, verdicts  # noqa: E402
from library_transcripts import row_of, written_rows  # noqa: E402

STANDARD = TOP / "docs" / "STANDARD.md"
SOURCES = TOP / "tools" / "library" / "c"


def captured_frames(paths: list[pathlib.Path]) -> list[bytes]:
    """Returns the frames of captures and of traces, without repetitions."""
    found: dict[bytes, None] = {}
    for path in paths:
        if path.suffix == ".pcap":
            with path.open("rb") as file:
                found.update(dict.fromkeys(packet.octets for packet in packets_of(file)))
            continue
        for digits in re.findall(rb"^rx \S+ ((?:[0-9a-fA-F]{2})+)$", path.read_bytes(), re.M):
            found[bytes.fromhex(digits.decode())] = None
    return list(found)


def corpus(captured: list[bytes], count: int) -> list[bytes]:
    """Returns `count` frames: the captured ones, then altered copies and random frames."""
    dice = fuzz.Dice(1)
    frames = list(captured)
    while len(frames) < count:
        octets = dice.choice(captured)
        for _ in range(dice.choice([1, 1, 1, 2, 3])):
            octets = fuzz.altered_octets(dice, octets)
        frames += [made for made in (octets, fuzz.frame(dice)) if made]
    return frames[:count]


def nanoseconds(command: list[str]) -> float:
    """Runs a command seven times. Returns the least nanoseconds per frame."""
    times = []
    for _ in range(7):
        ran = subprocess.run(command, capture_output=True, text=True, check=True)
        times.append(float(re.findall(r"ns_per_frame=([0-9.]+)", ran.stdout)[0]))
    return min(times)


def print_times(programs: dict[str, list[str]], files: dict[str, pathlib.Path]) -> None:
    for of_what, path in files.items():
        for name, command in programs.items():
            took = nanoseconds([*command, str(path), "600000"])
            print(f"{of_what}, {name}: {took:.1f} ns a frame")


def judge(peer: str, frames: list[Frame], told: list[Told], counts: Counts) -> None:
    """Compares all answers of a peer with the model's, and prints how often each result occurs."""
    assert len(told) == len(frames), f"{peer} reports other frames"
    answers: collections.Counter[str] = collections.Counter()
    for frame, theirs in zip(frames, told):
        found = compared(peer, frame, theirs)
        answers[found] += 1
        counts.judge(found[2:] if found.startswith("?") else None, f"{peer}, {frame.octets.hex()}")
    page = STANDARD.read_text()
    for found, count in answers.most_common():
        print(f"{peer}: {count} {found}")
        if found != "the same" and not found.startswith("?"):
            counts.that(f"docs/STANDARD.md says: {found}", found in page)


def judge_library(program: str, frames: list[Frame], room: pathlib.Path, counts: Counts) -> None:
    """Compares what the library and the model read in the LLDPDU of each frame that is LLDP."""
    rows = [row_of(frame.pdu) for frame in frames if frame.is_ours]
    for row, found in zip(rows, written_rows([program], rows, room)):
        counts.that(f"the library has the row {row}", row == found)


def read_arguments() -> argparse.Namespace:
    parser = argparse.ArgumentParser(description=(__doc__ or "").splitlines()[0])
    parser.add_argument("--peers", type=pathlib.Path, required=True)
    parser.add_argument("--library", type=pathlib.Path)
    parser.add_argument("--frames", type=pathlib.Path, nargs="*", default=[])
    parser.add_argument("--count", type=int, default=300000)
    return parser.parse_args()


def built(library: pathlib.Path, name: str, room: pathlib.Path) -> str:
    fault = Library(library, room).compiled(SOURCES / f"{name}.c", name)
    if fault is not None:
        sys.exit(fault)
    return str(room / name)


def main() -> int:
    words, counts = read_arguments(), Counts()
    corpora = {"frames of captures": captured_frames([*sorted((TOP / "docs").rglob("*.pcap")), *words.frames]),
               "frames of traces": captured_frames(sorted((TOP / "examples").glob("*.trace")))}
    captured = list(dict.fromkeys(frame for found in corpora.values() for frame in found))
    octets = corpus(captured, words.count)
    print(f"{len(octets)} frames, {len(captured)} of them from captures and traces")
    frames = [Frame(frame) for frame in octets]
    with tempfile.TemporaryDirectory() as name:
        room = pathlib.Path(name)
        corpora |= {"both": captured, "all frames": octets}
        files = {of_what: room / of_what.replace(" ", "-") for of_what in corpora}
        for of_what, path in files.items():
            path.write_text("".join(f"{frame.hex()}\n" for frame in corpora[of_what]))
        library = words.library or room / "lib"
        if words.library is None:
            subprocess.run([TOP / "tools/library/library.sh", library], check=True,
                           stdout=subprocess.DEVNULL)
        judge_library(built(library, "vectors", room), frames, room, counts)
        peers = {"lldpd": str(words.peers / "lldpd_decode"),
                 "sd-lldp": str(words.peers / "sd_decode")}
        for peer, program in peers.items():
            told = verdicts([program, "verdict", str(files["all frames"])])
            judge(peer, frames, told, counts)
        readings = built(library, "readings", room)
        timed = {"the library, without a walk": [readings, "examine"],
                 "the library": [readings, "bench"]}
        print_times(timed | {peer: [program, "bench"] for peer, program in peers.items()}, files)
    return counts.end()


if __name__ == "__main__":
    sys.exit(main())
