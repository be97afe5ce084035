"""Checks the library for C, the crate rust/lldpa, and the examples of docs/LIBRARY.md and examples.

    pytest -n 3 tools/library/test_library.py

Programs of tools/library/c run with the library, most with the compiler's sanitizers. vectors.c
runs the rows of examples/vectors.rows, and reads cut and altered LLDPDUs. transcript.c runs the
transcripts of examples/ and long shows. nulls.c passes NULL for each pointer, and handles that are not
open. ranges.c tries texts that were worked out by hand, small buffers and random octets.
pause.c lets an example pause for a day. refused.c refuses memory to the library. With `-k` a part runs
alone, such as `-k check_front`.

LLDPA_LIB_DIR, by default crates/lldpa_c/out/lib, has liblldpa.a, liblldpa.so.1 and lldpa.h. Checks that need a
missing program, such as cargo, are skipped.
"""
from __future__ import annotations

import os
import pathlib
import re
import shutil
from typing import Callable

import pytest

from library_examples import check_page, check_receive, check_sd_lldp_rx, check_who
from library_front import check_front, write_rows
from library_header import check_layout, check_releases
from library_parts import TOP, WARNINGS, Counts, Library, count_of, fault_of, ran, skip
from library_rust import check_rust
from library_transcripts import check_rows, check_transcripts

FOLDER = pathlib.Path(os.environ.get("LLDPA_LIB_DIR") or TOP / "crates" / "lldpa_c" / "out" / "lib")
TOOLS = TOP / "tools" / "library" / "c"
MANUAL = TOP / "crates" / "lldpa_c" / "include" / "lldpa.3"
SANITIZERS = ["-fsanitize=address,undefined", "-fno-sanitize-recover=all"]
WRAPPED = ["-Wl,--wrap=malloc,--wrap=realloc,--wrap=free"]
VALGRIND = ["valgrind", "-q", "--error-exitcode=9", "--leak-check=full", "--show-leak-kinds=all",
            "--errors-for-leak-kinds=all"]


def check_header(library: Library, counts: Counts) -> None:
    """Checks that the header can be included alone, in C and in C++."""
    header = library.folder / "lldpa.h"
    for compiler, language, standard in (("cc", "c", "c99"), ("cc", "c", "c11"),
                                         ("c++", "c++", "c++11")):
        if shutil.which(compiler) is None:
            skip(compiler, f"the header in {standard}")
            continue
        flags = [f"-std={standard}", *WARNINGS, "-fsyntax-only", "-include", header]
        command = [compiler, "-x", language, *flags, "/dev/null"]
        counts.judge(fault_of(command), f"lldpa.h as {standard}")


def check_functions(library: Library, counts: Counts) -> None:
    """Checks that the header, the archive and the manual page have the same functions."""
    header = (library.folder / "lldpa.h").read_text()
    declared = set(re.findall(r"^\w+ (lldpa_\w+)\(", header, re.M))
    defined = ran(["nm", "--defined-only", "--extern-only", library.folder / "liblldpa.a"]).stdout
    found = set(re.findall(r"^\w+ \w (\S+)$", defined, re.M))
    is_same = found == declared and len(found) > 0
    counts.judge(None if is_same else f"{sorted(found ^ declared)}", "the functions of lldpa.h")
    named = set(re.findall(r'(lldpa_\w+) ?"?\(', MANUAL.read_text()))
    counts.judge(None if named == declared else f"{sorted(named ^ declared)}", "the functions of lldpa(3)")


def check_needs(library: Library, counts: Counts) -> None:
    """Checks that docs/LIBRARY.md names the functions that the archive needs, and no others."""
    undefined = ran(["nm", "--undefined-only", library.folder / "liblldpa.a"]).stdout
    needed = set(re.findall(r"^ +U (\w+)$", undefined, re.M))
    page = re.sub(r"\s+", " ", (TOP / "docs" / "LIBRARY.md").read_text())
    said = re.search(r"Firmware without a C library must give six functions: ([^.]*)\.", page)
    named = set(re.findall(r"`(\w+)`", said[1])) if said else set()
    counts.judge(None if named == needed and len(named) == 6 else f"{sorted(needed)}", "the functions of firmware")


def check_plug_in(library: Library, counts: Counts) -> None:
    """Checks that a shared object that contains the archive exports no function of the archive."""
    plug_in = library.room / "plug-in.so"
    (library.room / "plug-in.c").write_text("#include <lldpa.h>\nunsigned plug_in(void) { return lldpa_version(); }\n")
    fault = fault_of(["cc", "-shared", "-fPIC", f"-I{library.folder}", library.room / "plug-in.c",
                      library.folder / "liblldpa.a", "-o", plug_in])
    counts.judge(fault, "building a shared object with the archive inside")
    exported = ran(["nm", "-D", "--defined-only", plug_in]).stdout.split()[2::3]
    counts.judge(None if exported == ["plug_in"] else f"{exported}", "what a shared object exports")


def check_size(library: Library, counts: Counts) -> None:
    """Checks that a call of lldpa_examine adds less than 6 KB of the archive to a program."""
    sizes = []
    for name, call in (("without", "0"), ("with", "lldpa_examine((const uint8_t *)words, (size_t)count, &told)")):
        source = library.room / f"{name}.c"
        source.write_text("#include <lldpa.h>\nint main(int count, char **words)\n{\n    lldpa_examined told = {0};\n"
                          f"    return words != NULL && told.ttl == 0 ? {call} : count;\n}}\n")
        counts.judge(library.compiled(source, name), f"building a program {name} the reader")
        sizes.append(int(ran(["size", library.room / name]).stdout.split()[-3]))
    counts.judge(None if 0 < sizes[1] - sizes[0] < 6000 else f"{sizes} octets", "the size of the reader in a program")


def has_sanitizers(room: pathlib.Path) -> bool:
    """Returns whether the compiler has the sanitizers, and programs built with them run."""
    (room / "empty.c").write_text("int main(void) { return 0; }\n")
    built = ["cc", *SANITIZERS, room / "empty.c", "-o", room / "empty"]
    return fault_of(built) is None and fault_of([room / "empty"]) is None


def check_programs(library: Library, counts: Counts) -> None:
    """Runs the C programs, with the sanitizers if the compiler has them."""
    flags = [*SANITIZERS] if has_sanitizers(library.room) else []
    if not flags:
        skip("sanitizers", "memory and arithmetic of the C programs")
    flags.append(write_rows(library))
    for name in ("vectors", "transcript", "nulls", "ranges", "pause"):
        fault = library.compiled(TOOLS / f"{name}.c", name, *flags)
        counts.judge(fault, f"building {name}")
        if fault is None:
            run_program(name, [str(library.room / name)], library.room, counts)


def run_program(name: str, command: list[str], room: pathlib.Path, counts: Counts) -> None:
    """Runs a C program that was built, and counts its checks."""
    if name == "transcript":
        check_transcripts(command, counts)
    elif name == "vectors":
        check_rows(command, room, counts)
    else:
        count_of(command, name, counts)


def check_refused(library: Library, counts: Counts) -> None:
    """Runs refused.c without the sanitizers, which have a malloc of their own; under valgrind if
    installed."""
    wrapper = VALGRIND if shutil.which("valgrind") else []
    if not wrapper:
        skip("valgrind", "memory of refused.c")
    fault = library.compiled(TOOLS / "refused.c", "refused", *WRAPPED)
    counts.judge(fault, "building refused")
    if fault is None:
        count_of([*wrapper, str(library.room / "refused")], "refused", counts)


def check_processor(library: Library, counts: Counts) -> None:
    """Checks that the library for amd64 runs on an old processor, which qemu emulates."""
    if os.uname().machine != "x86_64" or shutil.which("qemu-x86_64") is None:
        skip("qemu-user" if os.uname().machine == "x86_64" else "x86-64", "an old processor")
        return
    counts.judge(library.compiled(TOOLS / "vectors.c", "vectors"), "building vectors")
    program = str(library.room / "vectors")
    check_rows(["qemu-x86_64", "-cpu", "core2duo", program], library.room, counts)


def check_stack(library: Library, counts: Counts) -> None:
    """Checks that no call uses more stack than the header says. Prints what each call uses."""
    # Symbols are bound at the start, so that no call uses the loader's stack.
    fault = library.compiled(TOOLS / "stack.c", "stack", "-std=gnu99", "-Wl,-z,now")
    counts.judge(fault, "building stack")
    if fault is None:
        count_of([library.room / "stack"], "stack", counts)


def check_machine(library: Library, counts: Counts) -> None:
    """Checks that no function branches before the loop that touches the pages of a large stack frame:
    the branch would spoil the loop's register."""
    code = ran(["objdump", "-d", "--no-show-raw-insn", library.folder / "liblldpa.a"]).stdout
    found = []
    for function in re.split(r"\n(?=[0-9a-f]+ <)", code):
        before, _, _ = function.rpartition("sub    $0x1000,%rsp")
        if re.search(r"\sj(?!mp)\w+\s", before):
            found.append(function.split(":")[0])
    counts.judge(f"{found} branch before they probe" if found else None, "the machine code of the archive")


def check_state(library: Library, counts: Counts) -> None:
    """Checks that the library has no thread-local storage and no memory that it writes, so that an agent
    may move to another thread (`Send` in rust/lldpa)."""
    said = ran(["readelf", "--wide", "--segments", library.folder / "liblldpa.so.1"]).stdout
    is_well = "LOAD" in said and " TLS " not in said
    counts.judge(None if is_well else said, "the segments of the shared object")
    said = ran(["readelf", "--wide", "--sections", library.folder / "liblldpa.a"]).stdout
    written = re.findall(r"\] (\S+) +\w+ +\w+ \w+ (?!0+ )\w+ \w+ +(?=\w*W)\w+ ", said)
    is_well = ".text" in said and all(name.startswith(".data.rel.ro") for name in written)
    counts.judge(None if is_well else f"{written}", "the sections of the archive that are written")


# The checks that take longest come first.
CHECKS = (check_programs, check_rust, check_front, check_refused, check_receive, check_layout, check_header,
          check_processor, check_functions, check_needs, check_releases, check_plug_in,
          check_size, check_machine, check_state, check_stack, check_page, check_who, check_sd_lldp_rx)


@pytest.mark.parametrize("check", CHECKS, ids=lambda check: check.__name__)
def test_library(check: Callable[[Library, Counts], None], tmp_path: pathlib.Path) -> None:
    counts = Counts()
    check(Library(FOLDER, tmp_path), counts)
    assert not counts.failed
