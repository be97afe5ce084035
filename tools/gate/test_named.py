"""Everything that tools/named.txt lists stands where the gate runs it: edits, transcripts, rows and tests."""
import pathlib
import re

import pytest

TOP = pathlib.Path(__file__).resolve().parents[2]
LINES = [line for line in (TOP / "tools/named.txt").read_text().splitlines() if line and not line.startswith("#")]
KINDS = "transcript|counters|vector|test|shell|script"


def has(name, pattern):
    return re.search(pattern, (TOP / name).read_text(), re.M) is not None


def stands(kind, what):
    if kind == "transcript":
        return all((TOP / f"examples/{what}.{end}").is_file() for end in ("args", "trace", "expect"))
    if kind == "counters":
        return has("examples/receive-counters.rows", rf"^{what} ")
    if kind == "vector":
        return has("examples/vectors.rows", rf"^{re.escape(what).replace(chr(92) + ' ', chr(9), 1)}\t")
    if kind == "shell":
        return what in map(str.strip, (TOP / "tools/gate/test_words.py").read_text().splitlines())
    if kind == "script":
        return has("Makefile", rf"\b{re.escape(what)}\b") and (TOP / what).is_file()
    path, _, row = what.partition(": ")
    *modules, name = path.split("::")
    file = f"crates/lldp_tests/src/{'/'.join(modules)}.rt"
    return has(file, rf"^#\[test\]\nfn {name}\(") and (not row or f'"{row}"' in (TOP / file).read_text())


@pytest.mark.parametrize("line", LINES)
def test_stands(line):
    assert LINES.count(line) == 1
    kind, _, text = line.partition(" ")
    if kind == "body":
        crate, name = text.split(":")[0].split()
        assert has(f"crates/{crate}/must-fail/{name}.edit", "^new: ")
        return
    for place in re.split(rf", (?=(?:{KINDS}) )", text.partition(" = ")[2]):
        assert stands(*place.split(" ", 1)), place
