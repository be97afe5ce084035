"""docs/CLAIMS.md lists the axioms that `rt check --list-axioms` reports of the program and of the library."""
import pathlib
import re
import subprocess

import pytest

TOP = pathlib.Path(__file__).resolve().parents[2]


@pytest.mark.parametrize("crate,words", [("lldpa", "The program's"), ("lldpa_c", "The library's")])
def test_axioms(crate, words):
    told = subprocess.run(["rt", "check", "--list-axioms"], cwd=TOP / "crates" / crate, capture_output=True, text=True)
    reached = set(re.findall(r"^ +(?:\w+::)*(\w+) +reached$", told.stdout + told.stderr, re.M))
    listed = re.search(rf"\*{words}\* \((\d+)\):(.*?)(?:\n\n|\Z)", (TOP / "docs/CLAIMS.md").read_text(), re.S)
    assert listed and set(re.findall(r"`(\w+)`", listed[2])) == reached
    assert int(listed[1]) == len(reached) > 0
