"""Checks the crate rust/lldpa with the library, for test_library.py."""
from __future__ import annotations

import os
import pathlib
import re
import shutil
import socket
import subprocess

from library_examples import follow, met
from library_parts import TOP, Counts, Library, fault_of, ran, skip
from library_transcripts import check_transcripts

CRATE = TOP / "rust" / "lldpa"
# Debian's compiler, the oldest that the crate supports.
OLDEST = {"CARGO": "/usr/bin/cargo", "RUSTC": "/usr/bin/rustc"}


def strange_archive(library: Library) -> pathlib.Path:
    """Makes an archive with unexpected answers: most calls return 77, and lldpa_version returns 1
    if LLDPA_STRANGE is set. Returns its folder."""
    header = (library.folder / "lldpa.h").read_text()
    found = re.search(r"define LLDPA_VERSION (\d+)", header)
    assert found is not None
    answers = {"lldpa_open": "0", "lldpa_version": f'getenv("LLDPA_STRANGE") ? 1 : {found[1]}', "lldpa_close": ""}
    lines = [f"{kind} {name}() {{ return {answers.get(name, '77')}; }}"
             for kind, name in re.findall(r"^(\w+) (lldpa_\w+)\(", header, re.M)]
    source, strange = library.room / "strange.c", library.room / "strange.o"
    lines += [f'const struct {{ char words[20]; uint32_t number; }} version = {{"liblldpa version", {found[1]}}};']
    source.write_text("\n".join(["#include <stdbool.h>", "#include <stdint.h>", "#include <stdlib.h>", *lines, ""]))
    ran(["cc", "-c", source, "-o", strange])
    ran(["ar", "rcs", library.room / "liblldpa.a", strange])
    return library.room


def cargo(words: list[str], folder: pathlib.Path, library: Library,
          **more: str) -> subprocess.CompletedProcess[str]:
    """Runs cargo in the crate, with the archive of a folder. A warning is an error."""
    settings = os.environ | {"LLDPA_LIB_DIR": str(folder), "RUSTFLAGS": "-D warnings", "CARGO_INCREMENTAL": "0",
                             "CARGO_PROFILE_DEV_DEBUG": "0", "CARGO_TARGET_DIR": str(library.room / "target"), **more}
    return ran([more.get("CARGO", "cargo"), words[0], "--offline", "--locked", "--quiet", *words[1:]], CRATE, settings)


def check_crate(words: list[str], folder: pathlib.Path, library: Library, counts: Counts) -> None:
    """Counts the crate's tests that cargo reports as passed, and checks cargo's status."""
    ended = cargo(words, folder, library)
    results = re.findall(r"^test result: \w+\. (\d+) passed; \d+ failed", ended.stdout, re.M)
    is_right = ended.returncode == 0 and (words[0] != "test" or sum(map(int, results)) > 0)
    counts.judge(None if is_right else f"{ended.stdout[-1500:]}{ended.stderr[-1500:]}", f"cargo {' '.join(words)}")


def check_threads(library: Library, counts: Counts) -> None:
    """Runs the test in which agents wander between threads with AddressSanitizer's malloc and free."""
    found = ran(["cc", "-print-file-name=libasan.so"]).stdout.strip()
    if not found.startswith("/"):
        skip("sanitizers", "agents that wander between threads")
        return
    runner = f"target.'cfg(unix)'.runner=['env', 'LD_PRELOAD={found}']"
    ended = cargo(["test", "--config", runner, "--test", "agents", "wander"], library.folder, library)
    is_right = ended.returncode == 0 and "1 passed" in ended.stdout
    fault = None if is_right else f"{ended.stdout[-700:]}{ended.stderr[-1500:]}"
    counts.judge(fault, "agents that wander between threads")


def check_versions(library: Library, counts: Counts) -> None:
    """Checks that the crate's build accepts an archive of its release and of later ones of 1.x, and no other."""
    script = next((library.room / "target" / "debug" / "build").glob("lldpa-*/build-script-build"))
    octets, at = (library.folder / "liblldpa.a").read_bytes(), b"liblldpa version\0\0\0\0"
    for number, fits in ((10000, True), (10042, True), (10100, True), (19900, True), (9900, False), (20000, False)):
        folder = library.room / str(number)
        folder.mkdir()
        end = octets.index(at) + len(at)
        (folder / "liblldpa.a").write_bytes(octets[:end] + number.to_bytes(4, "little") + octets[end + 4:])
        said = ran([script], env=os.environ | {"LLDPA_LIB_DIR": str(folder)}).stdout
        is_right = ("cargo:rustc-link-lib=static=lldpa" if fits else "this crate needs 1.0") in said
        counts.judge(None if is_right else said, f"the crate for Rust with an archive of version {number}")


def check_examples(library: Library, counts: Counts) -> None:
    """Runs the transcripts, and checks that the receive loop reports what happens to a neighbor."""
    built = cargo(["build", "--examples"], library.folder, library)
    counts.judge(built.stderr[-1500:] if built.returncode else None, "building rust/lldpa/examples")
    if built.returncode:
        return
    programs = library.room / "target" / "debug" / "examples"
    check_transcripts([str(programs / "transcript")], counts)
    with subprocess.Popen([programs / "receive"], stdin=subprocess.PIPE,
                          stdout=subprocess.PIPE) as heard:
        assert heard.stdin is not None
        lines = heard.stdin
        is_told = follow(heard, lambda frame: (lines.write(frame.hex().encode() + b"\n"), lines.flush()))
        heard.stdin.close()
    is_right = is_told and heard.returncode == 0
    counts.judge(None if is_right else f"status {heard.returncode}", "rust/lldpa/examples/receive.rs")
    counts.judge(fault_of_agents(str(programs / "agent")), "rust/lldpa/examples/agent.rs")


def free_ports() -> list[str]:
    """Returns two addresses on the loopback interface that nobody uses."""
    with socket.socket(type=socket.SOCK_DGRAM) as one, socket.socket(type=socket.SOCK_DGRAM) as other:
        for bound in (one, other):
            bound.bind(("127.0.0.1", 0))
        return [f"127.0.0.1:{bound.getsockname()[1]}" for bound in (one, other)]


def fault_of_agents(program: str) -> str | None:
    """Returns None if two agents that send frames to each other see one another come and leave."""
    one, other = free_ports()
    pipes = {"stdin": subprocess.PIPE, "stdout": subprocess.PIPE}
    with subprocess.Popen([program, "one", one, other], **pipes) as here, \
            subprocess.Popen([program, "other", other, one], **pipes) as there:
        assert here.stdin is not None and there.stdin is not None
        with socket.socket(type=socket.SOCK_DGRAM) as sender:
            address = one.split(":")
            fault = met(here, there, there.stdin.close, ("one", "other"),
                        lambda frame: sender.sendto(frame, (address[0], int(address[1]))))
        here.stdin.close()
    return fault or (None if here.returncode == 0 else f"status {here.returncode}")


def check_oldest(library: Library, counts: Counts) -> None:
    """Checks that the oldest compiler takes the crate, its tests and examples, if there is one."""
    if not all(map(os.path.exists, OLDEST.values())):
        skip("rustc", "the crate for Rust with Debian's compiler")
        return
    ended = cargo(["check", "--all-targets"], library.folder, library, **OLDEST)
    counts.judge(ended.stderr[-1500:] if ended.returncode else None, "the crate for Rust with the system's compiler")


def check_rust(library: Library, counts: Counts) -> None:
    """Checks the crate's tests, examples and lints, and its tests with a wrong archive."""
    if shutil.which("cargo") is None:
        skip("cargo", "the crate for Rust")
        return
    check_crate(["test"], library.folder, library, counts)
    check_threads(library, counts)
    if fault_of(["cargo", "clippy", "--version"]) is None:
        for words in (["--all-targets"], ["--no-default-features"]):
            check_crate(["clippy", *words, "--", "-D", "warnings"], library.folder, library, counts)
    else:
        skip("cargo-clippy", "warnings about the crate for Rust")
    check_crate(["test", "--test", "strange", "--", "--ignored"], strange_archive(library), library, counts)
    check_versions(library, counts)
    check_examples(library, counts)
    check_oldest(library, counts)
    missing = cargo(["check"], library.room / "none", library)
    is_said = missing.returncode != 0 and "Set LLDPA_LIB_DIR to the folder" in missing.stderr
    counts.judge(None if is_said else missing.stderr, "the crate for Rust without an archive")
    pages = cargo(["doc", "--no-deps"], library.room / "none", library)
    counts.judge(pages.stderr if pages.returncode else None, "cargo doc without an archive")
