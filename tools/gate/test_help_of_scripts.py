"""Each script says with --help what it does and how it is called, and does nothing else."""
import os
import pathlib
import subprocess

import pytest

TOP = pathlib.Path(__file__).resolve().parents[2]
LIVE = TOP / "rust/live/out/lldpa-live"
NEED_LIVE = ("lldpa-live", "lldpa-ctl", "lldpctl", "lldpcli")
OTHERS = [TOP / "tools/release/clang.sh"]  # is a clang


def scripts():
    for folder in (".ci", "bin", "tools", "audit/tools"):
        for path in sorted((TOP / folder).rglob("*")):
            if path.is_file() and os.access(path, os.X_OK) and path.read_bytes().startswith(b"#!") and path not in OTHERS:
                yield path


@pytest.mark.parametrize("script", scripts(), ids=lambda script: script.relative_to(TOP).as_posix())
def test_help(script, tmp_path):
    if script.name in NEED_LIVE and not LIVE.exists():
        pytest.skip("cargo: tools/release/live.sh builds it")
    ended = subprocess.run([script, "--help"], cwd=tmp_path, stdin=subprocess.DEVNULL, capture_output=True, text=True,
                           timeout=600, check=False)
    assert (ended.returncode, ended.stderr, list(tmp_path.iterdir())) == (0, "", [])
    assert script.name in ended.stdout
