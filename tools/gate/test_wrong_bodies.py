"""Tries the wrong bodies of crates/*/wrong: the prover must refuse each.

    pytest tools/gate/test_wrong_bodies.py -n 2 --dist loadgroup [-k lldp_table]

An edit has lines `file: PATH`, `old: TEXT`, which stands once in that file, and `new: TEXT`. A line `body:
FUNCTION` names each function whose body it changes; contracts stay, so such edits of different functions
share a copy of their crate. Any other edit has lines `goal: LAW`: the prover must refuse these laws, or file of
examples. It is tried alone, or with those of its crate that have the same line `group: NAME`, none of which
changes what the others' laws rest on. That a function is called which is not proved is no refusal. Each check
begins with what `rt check` kept in the crates' folders.
"""
from __future__ import annotations

import functools
import pathlib
import re
import shutil
import subprocess
import tempfile
from typing import NamedTuple

import pytest

TOP = pathlib.Path(__file__).resolve().parents[2]
CRATES = TOP / "crates"
ROWS = (TOP / "crates.txt").read_text().splitlines(True)
USES = {row.split(":")[0].split()[0]: row.split(":")[1].split() for row in ROWS}
# what `rt check` says of a goal that does not hold, in its verdict on the function or just before that
UNPROVED = re.compile(r"`search` did not prove|it is not proved that (?!.*gave up)")
# an error in a proof; one that only names what is gone says nothing
ERROR = re.compile(r"(?m)^(?:\./)?(proofs/\S+?):\d+:\d+: error(?!.*(?:has no |is not in scope|not admitted))")


class Edit(NamedTuple):
    crate: str
    name: str
    changes: tuple[tuple[str, str, str], ...]
    bodies: frozenset[str]
    goals: frozenset[str]
    group: str = ""

    def applied(self, texts: dict[str, str]) -> dict[str, str] | None:
        """Returns the texts of changed files after this edit, or None if a text does not stand once in its file."""
        texts = dict(texts)
        for path, old, new in self.changes:
            text = texts.get(path) or (CRATES / self.crate / path).read_text()
            if text.count(old) != 1:
                return None
            texts[path] = text.replace(old, new)
        return texts


def read(file: pathlib.Path) -> Edit:
    words: dict[str, list[str]] = {"body": [], "goal": [], "group": []}
    changes, path, old = [], "", ""
    for line in file.read_text().splitlines():
        key, _, text = line.partition(": ")
        path, old = (text if key == "file" else path), (text if key == "old" else old)
        if key in words:
            words[key].append(text.strip())
        elif key.rstrip(":") == "new":
            changes.append((path.strip(), old, text))
    return Edit(file.parents[1].name, file.stem, tuple(changes), frozenset(words["body"]), frozenset(words["goal"]),
                "".join(words["group"]))


EDITS = [read(file) for file in sorted(CRATES.glob("*/wrong/*.edit"))]


def share(edit: Edit, other: Edit) -> bool:
    """Returns whether two edits of a crate may share a copy: they name one group, or change other functions."""
    if edit.bodies and other.bodies:
        return not edit.bodies & other.bodies
    return edit.group == other.group != ""


def grouped() -> list[list[Edit]]:
    """Puts each edit into the first group of its crate whose edits it may share a copy with."""
    groups: list[list[Edit]] = []
    for edit in EDITS:
        for group in groups:
            are_apart = group[0].crate == edit.crate and all(share(edit, one) for one in group)
            if are_apart and texts_of((*group, edit)) is not None:
                group.append(edit)
                break
        else:
            groups.append([edit])
    return groups


def texts_of(group: tuple[Edit, ...]) -> dict[str, str] | None:
    texts: dict[str, str] | None = {}
    for edit in group:
        texts = None if texts is None else edit.applied(texts)
    return texts


def below(crate: str) -> list[str]:
    return [found for name in USES[crate] if name in USES for found in (*below(name), name)]


@functools.lru_cache(None)
def said(group: tuple[Edit, ...]) -> dict[str, str]:
    """Checks a copy of the crate with these edits. Returns what is said of each function, with its verdict last."""
    crate, texts = group[0].crate, texts_of(group)
    assert texts is not None, "a text of this edit does not stand once in its file"
    only = sorted(set().union(*(edit.bodies | edit.goals for edit in group)))
    only = [] if any(name.startswith("proofs/") for name in only) else only
    with tempfile.TemporaryDirectory(prefix="wrong-") as room:
        top = pathlib.Path(room)
        (top / "crates.txt").write_text("".join(row for row in ROWS if row.split(":")[0].split()[0] in {crate, *below(crate)}))
        shutil.copy(TOP / "HANDLES", top)
        for name in {crate, *below(crate)}:
            for part in ("src", "specs", "proofs", "include", "front", "out/incremental" if name == crate else "out/rlib"):
                if (CRATES / name / part).is_dir():
                    shutil.copytree(CRATES / name / part, top / "crates" / name / part)
        for path, text in texts.items():
            (top / "crates" / crate / path).write_text(text)
        command = ["rt", "check", "--jobs", "1", *(word for name in only for word in ("--only", name))]
        text = subprocess.run(command, cwd=top / "crates" / crate, stdin=subprocess.DEVNULL, stdout=subprocess.PIPE,
                              stderr=subprocess.STDOUT, text=True, errors="replace", check=False).stdout
    parts = re.split(rf"(?m)^fn {crate}::(\S+): (.*)$", text)
    found = {name: f"{before}\n{verdict}" for before, name, verdict in zip(parts[::3], parts[1::3], parts[2::3])}
    return {**found, "": text}


def is_refused(name: str, told: dict[str, str], is_law: bool) -> bool:
    """Returns whether a function (or a closure in it), a law or a file of examples is refused for a goal of its own.
    The proof of a law may be in any file of proofs."""
    errors = ERROR.findall(told[""])
    if name.startswith("proofs/"):
        return name in errors
    module, _, last = name.rpartition("::")
    same = [one for one in told if one == name] or [one for one in told if one.split("::")[-2:] == name.split("::")[-2:]]
    own = [*same, *(one for one in told if one.startswith(f"{module}::fn::{last}::"))]
    folders = tuple(f"proofs/{one.replace('::', '/')}/" for one in own)
    return any(not told[one].endswith("\nproved") for one in own) and (
        any(UNPROVED.search(told[one]) for one in own) or any(is_law or file.startswith(folders) for file in errors))


GROUPS = {edit: tuple(group) for group in grouped() for edit in group}


def fault_of(edit: Edit, *groups: tuple[Edit, ...]) -> str | None:
    """Tries an edit in these groups, until one refuses it. Returns what is said of it if none does."""
    for group in groups:
        told = said(group)
        if any(is_refused(name, told, bool(edit.goals)) for name in edit.bodies | edit.goals):
            return None
    verdicts = {name: text.rsplit("\n", 1)[-1] for name, text in told.items() if name in edit.bodies | edit.goals}
    return f"no goal of its own is refused: {verdicts or told['']}"


@pytest.mark.parametrize("edit", [
    pytest.param(edit, id=f"{edit.crate}/{edit.name}", marks=pytest.mark.xdist_group(f"{group[0].crate}/{group[0].name}"))
    for edit, group in GROUPS.items()])
def test_wrong_body(edit):
    assert fault_of(edit, GROUPS[edit], (edit,)) is None


def test_a_right_body_is_reported():
    right = Edit("lldp_text", "right", (("src/numbers.rt", "u32::from(greatest) < value", "value > u32::from(greatest)"),),
                 frozenset(["numbers::number"]), frozenset())
    assert "proved" in fault_of(right, (right,))


def test_an_edit_of_a_text_that_is_gone_is_reported():
    stale = Edit("lldp_text", "stale", (("src/numbers.rt", "no such text", ""),), frozenset(["numbers::number"]), frozenset())
    with pytest.raises(AssertionError, match="does not stand once"):
        fault_of(stale, (stale,))
