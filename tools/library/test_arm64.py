"""Builds the program and the library for arm64, and runs them with qemu.

    pytest -n 4 tools/library/test_arm64.py

The program's output is compared with the transcripts of examples/, and with the model's output for
random traces. C programs of tools/library/c test the library. `make release-check` runs test_packages, which builds
lldpa-live and the Debian packages too. Without gcc for arm64 or qemu-user it is skipped.
"""
from __future__ import annotations

import importlib
import os
import pathlib
import re
import shlex
import shutil
import sys

import pytest

from library_parts import TOP, WARNINGS, Counts, fault_of, ran
import examples  # found by library_parts

COMPILER = "aarch64-linux-gnu-gcc"
QEMU = ["qemu-aarch64", "-L", "/usr/aarch64-linux-gnu"]
TOOLS = TOP / "tools" / "library" / "c"
MODEL = TOP / "tools" / "model"
TRACES = "200"
OBJDUMP = "aarch64-linux-gnu-objdump"
COMPILED = {"lldpa": ["lldpa", "lldpa-live"], "liblldpa1": ["liblldpa.so.1"], "liblldpa-dev": ["liblldpa.a"]}
NATIVE = importlib.import_module("test_library")


def wrapped(program: pathlib.Path) -> pathlib.Path:
    """Writes a script that runs a program with qemu, and returns its path."""
    script = program.with_name(f"{program.name}-by-qemu")
    script.write_text(f'#!/bin/sh\nexec {" ".join(QEMU)} {shlex.quote(str(program))} "$@"\n')
    script.chmod(0o755)
    return script


@pytest.fixture(scope="module")
def folder(tmp_path_factory: pytest.TempPathFactory) -> pathlib.Path:
    """Builds the program and the library for arm64."""
    for command in (COMPILER, QEMU[0]):
        if shutil.which(command) is None:
            pytest.skip(f"{command}: arm64")
    made = tmp_path_factory.mktemp("arm64") / "built"
    assert fault_of([TOP / "tools" / "release" / "build.sh", "--arch", "arm64", made]) is None
    return made


@pytest.mark.parametrize("name", ["lldpa", "lldpa-static"])
def test_program(folder: pathlib.Path, name: str) -> None:
    """Runs each transcript of examples/ in one piece, and compares random traces with the model."""
    script = wrapped(folder / name)
    for _, words, texts, trace, steps in examples.transcripts():
        wanted = b"".join(line for _, written in steps for line in written)
        assert examples.fault_of_run(script, words, texts, ([trace], wanted)) is None
    assert fault_of([sys.executable, MODEL / "fuzz.py", "--program", script, "--traces", TRACES, "--seed", "1"]) is None


@pytest.mark.parametrize("name,linked", [("vectors", "a"), ("vectors", "so.1"), ("nulls", "a"),
                                         ("ranges", "a"), ("refused", "a"), ("transcript", "a")])
def test_library(folder: pathlib.Path, tmp_path: pathlib.Path, name: str, linked: str) -> None:
    """Runs a C program with the archive, or with the shared object."""
    library, counts = folder / "lib", Counts()
    more = [*(NATIVE.WRAPPED if name == "refused" else []), NATIVE.write_rows(NATIVE.Library(library, tmp_path))]
    assert fault_of([COMPILER, "-std=c99", "-O2", *WARNINGS, *more, f"-I{library}", TOOLS / f"{name}.c",
                     library / f"liblldpa.{linked}", "-o", tmp_path / name]) is None
    NATIVE.run_program(name, [*QEMU, "-E", f"LD_LIBRARY_PATH={library}", str(tmp_path / name)], tmp_path, counts)
    assert not counts.failed


def machines(tree: pathlib.Path) -> dict[str, set[str]]:
    """Returns the compiled files and archives below a folder, each with the processors that it is for."""
    files = [path for path in tree.rglob("*") if path.is_file() and not path.is_symlink()
             and path.read_bytes().startswith((b"\x7fELF", b"!<arch>"))]
    return {path.name: set(re.findall(r"^architecture: (\w+)", ran([OBJDUMP, "-f", path]).stdout, re.M)) for path in files}


def test_packages(folder: pathlib.Path, tmp_path: pathlib.Path) -> None:
    """Builds lldpa-live and the Debian packages, and checks that their compiled files are for arm64."""
    settings = os.environ | {"LLDPA_LIB_DIR": str(folder / "lib"), "LLDPA_BUILT": str(folder)}
    for words in ([], ["--dynamic"]):
        made = ran([TOP / "tools" / "release" / "live.sh", "--arch", "arm64", *words], env=settings)
        assert ran([*QEMU, made.stdout.strip(), "--version"]).stdout.startswith("lldpa-live "), made.stderr
    made = ran([TOP / "tools" / "release" / "package.sh", tmp_path / "packages", "-a", "arm64"], env=settings)
    assert made.returncode == 0, made.stderr
    for name, compiled in COMPILED.items():
        tree = tmp_path / f"{name}.tree"
        ran(["dpkg-deb", "-x", next((tmp_path / "packages").glob(f"{name}_*_arm64.deb")), tree])
        assert machines(tree) == dict.fromkeys(compiled, {"aarch64"})
