"""Builds the wheel of the audit (PEP 517): that of the folder python, which the audit needs beside
it."""
import sys
from pathlib import Path

PYTHON = Path(__file__).resolve().parents[2] / "python"
if not (PYTHON / "lldpa").is_dir():
    sys.exit(f"lldpa-audit needs the package lldpa, and there is no {PYTHON}/lldpa: copy the "
             "folder python of the same release beside the folder audit")
sys.path.insert(0, str(PYTHON / "building"))

from lldpa_wheel import build_editable, build_sdist, build_wheel  # noqa: E402

__all__ = ["build_editable", "build_sdist", "build_wheel"]
